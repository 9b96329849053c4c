#!/usr/bin/env bash
# From the text of a line to its key, the verdict on it, its report and its picture.
#
#   tools/demo.sh [TEXT]
#
# TEXT is the text of a job, samples/coast.txt if it is not given. The programs are proved and built first, where that was not done before; that takes some minutes.
# What is made lies in out/demo/ afterwards.
set -euo pipefail
text=$(realpath "${1:-"$(dirname "$0")/../samples/coast.txt"}")
cd "$(dirname "$0")/.."

for program in pack key mark report show; do
    if [ ! -x "crates/$program/out/$program" ]; then
        echo "proving and building $program"
        (cd "crates/$program" && rt run < stdin > /dev/null 2>&1) || { echo "$program was not built: run rt run in crates/$program" >&2; exit 1; }
    fi
    PATH="$PWD/crates/$program/out:$PATH"
done

name=out/demo/$(basename "$text" .txt)
mkdir -p out/demo
pack < "$text" > "$name.job"
echo "pack    $text to $name.job: $(wc -c < "$name.job") bytes, the line and its levels"
key < "$name.job" > "$name.family"
echo "key     $name.family: $(wc -c < "$name.family") bytes, those and the cheapest family"
echo "mark    $(mark < "$name.family")"
report < "$name.family" > "$name.md"
echo "report  $name.md: a row for each level; $(tail -1 "$name.md")"
show < "$name.family" > "$name.svg"
echo "show    $name.svg: open it in a browser"
