#!/bin/sh
# Counts, in the src/ folders of a checkout, the places that docs/DESIGN-PASS.md speaks of.
# Usage: tools/places.sh [CHECKOUT]; with LIST=1 it lists them too.
cd "${1:-.}" || exit 1
code=$(git ls-files 'crates/*/src/*.rt' | grep -v 'tests\.rt$' | grep -v '^crates/\(cases\|search_cases\)/')
all=$(git ls-files 'crates/*/src/*.rt')

say() {
    name=$1
    shift
    found=$("$@" 2>/dev/null)
    printf '%s: %s\n' "$name" "$(printf '%s' "$found" | grep -c .)"
    if [ -n "$LIST" ]; then printf '%s\n' "$found" | sed 's/^/    /'; fi
}

# functions with so many parameters or more, one a line
wide() {
    perl -0777 -ne 'while (/\bfn\s+(\w+)[^({]*\(([^)]*)\)/g) { my ($f, $p) = ($1, $2); my $n = () = $p =~ /\w+\s*:|\bself\b/g; print "$ARGV: $f ($n)\n" if $n >= 6 }' $code
}

# clauses that stand three times or more
clauses() {
    grep -hoE '(requires|ensures)( [a-z_]+)? \{.*\}' $code | sed -E 's/^[^{]*//' | sort | uniq -c | sort -rn | awk '$1 >= 3'
}

say '1 a number for none' grep -nE 'levels\.len\(\) \+ 1([,;]?$|\))|^ +_ => 16,' $code
say '1 numbers of kinds by hand' grep -nE 'fn (numbered|kind|number)\((self|number: u8)\)' $code
say '1 a number where nothing is answered' grep -nE '^pub fn .*\(\) -> u8$' $code
say '1 flags' grep -nE '^ +(pub )?[a-z_]+: bool,' $code
say '3 loops over numbers' grep -nE '^ *(for .* in .*\.\.|while )' $all
say '4 written by hand' grep -nE 'fn (number|numbered|equals|not_dearer|same_form|valid_line|numbered_line|refusal_line|verdict_line|total_line|level_line)\(' $code
say '4 faults as literals' grep -nE '(^|[^a-z] |\()Fault \{$' $all
say '5 clauses that stand three times or more' clauses
say '5 functions of six parameters or more' wide
say '6 arrays in types' grep -nE '^ +(pub(\(crate\))? )?[a-z_]+: \[[A-Za-z0-9]+; ?[0-9A-Z_]+\],' $code
say '6 counts beside them' grep -nE '^ +(pub(\(crate\))? )?count: usize,' $code
say '7 matches that choose a step, pointers, dyn' grep -nE 'match (self|measure|price|kind) |[^a-z_]fn\(|\bdyn ' $code
printf '8 files of answers: %s\n' "$(git ls-files 'crates/*/proofs/*' | grep -c 'Answers\.antt$')"
printf '8 lines of proofs: %s\n' "$(git ls-files 'crates/*/proofs/*' | xargs cat | wc -l)"
printf 'lines of src: %s\n' "$(cat $all | wc -l)"
