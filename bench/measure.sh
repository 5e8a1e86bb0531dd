#!/usr/bin/env bash
# Times the program on a script of the toggle office, and prints lines a second and peak memory.
# usage: measure.sh [LINES]
set -eu

lines=${1:-1000000}
top=$(cd "$(dirname "$0")/.." && pwd)
room=$(mktemp -d)
trap 'rm -r "$room"' EXIT

"$top/bench/make_script.sh" "$lines" >"$room/script.txt"
"$top/xoffice" run "$top/examples/toggle/office.json" toggle </dev/null
/usr/bin/time -o "$room/measured.txt" -f '%e %M' \
    "$top/xoffice" run "$top/examples/toggle/office.json" toggle <"$room/script.txt" >"$room/answers.txt"

answered=$(wc -l <"$room/answers.txt")
read -r seconds kibibytes <"$room/measured.txt"
awk -v lines="$answered" -v seconds="$seconds" -v memory="$kibibytes" 'BEGIN {
    printf "%d lines answered in %.2f s: %d lines a second, %d KiB at the peak\n", lines, seconds, lines / seconds, memory
}'
