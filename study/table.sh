#!/bin/sh
# Writes the table of study/README.md from the kept traces and the texts beside them.
set -eu

study=$(cd "$(dirname "$(readlink -f "$0")")" && pwd)
echo "| program | what was recorded | accesses | targets | pages | bytes | seconds |"
echo "|---|---|---:|---:|---:|---:|---:|"
for kept in "$study"/traces/*.cut; do
    said=$("$study/../tools/trace_to_script.py" --interval 1000000 "$kept" 2>&1 > /dev/null |
        sed -nE 's/^note: ([0-9]+) access.*; ([0-9]+) targets? with ([0-9]+) page.*/\1 | \2 | \3/p')
    made=$(cat "${kept%.cut}.txt")
    echo "| $(basename "$kept" .cut) | ${made%, *} | $said | $(wc -c < "$kept") | $(expr "${made##*, }" : '\([0-9]*\)') |"
done
