#!/bin/sh
# Lists the runs of five or more lines that stand twice in the src/ folders of a checkout, contracts left out.
# It needs the command `duplicates`, which reads files as text by their ending.
# Usage: tools/twins.sh [CHECKOUT]
cd "${1:-.}" || exit 1
copy=$(mktemp -d)
for file in $(git ls-files 'crates/*/src/*.rt'); do
    mkdir -p "$copy/$(dirname "$file")"
    sed 's/^ *\(requires\|ensures\).*//' "$file" > "$copy/${file%.rt}.rs"
done
cd "$copy" && duplicates --most 200 --min-lines 5
rm -r "$copy"
