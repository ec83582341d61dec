#!/usr/bin/env bash
# Builds the examples in C against build/libccsuite.a, and compares what they print with what the program does: try.sh PROGRAM
set -euo pipefail
program=$(realpath "$1")
cd "$(dirname "$0")/../.."
command -v gcc > /dev/null || { echo 'examples/c: gcc is missing'; exit 0; }
work=$(mktemp -d)
trap 'rm -rf "$work"' EXIT
for name in encoder player check; do
    gcc -std=c11 -O2 -Wall -Wextra -Werror -pedantic -Ilibrary "examples/c/$name.c" build/libccsuite.a -o "$work/$name"
done

# whether an example and the program tell the same, and end with the same status, which isn't 0: refused EXAMPLE WORDS .. -- COMMAND WORDS ..
refused() {
    local ours=()
    while [ "$1" != -- ]; do ours+=("$1"); shift; done
    shift
    wanted=$("$program" "$@" < "$work/words" 2>&1 > "$work/out") && exit 1 || wanted+=" $?"
    got=$("$work/${ours[0]}" "${ours[@]:1}" < "$work/words" 2>&1 > "$work/out") && exit 1 || got+=" $?"
    [ "$wanted" = "$got" ] || { echo "${ours[*]} tells $got and not $wanted"; exit 1; }
}

# a list of 3 MiB and more: captions of four whole rows, the last one of which is hidden before it is shown
make_long_list() {
    awk 'BEGIN {
        print "ccsuite,1,29.97,1000000"
        for (cue = 0; cue < 15000; cue++) {
            show = 60 * cue + 50
            printf "pop,CC1,%d,%d,%d\n", 60 * cue, show, cue < 14999 ? show + 5 : show - 5
            for (row = 12; row <= 15; row++) printf "run,%d,0,white,%s\n", row, "THE COUNCIL VOTED LATE ON MONDAY"
        }
    }'
}

count=0
for list in examples/*.csv; do
    [ "$list" != examples/packets.csv ] || continue
    count=$((count + 1))
    "$program" build < "$list" > "$work/words"
    "$work/encoder" "$list" | cmp - "$work/words"
    "$work/player" < "$work/words" | cmp - <("$program" decode < "$work/words")
    "$work/player" conceal < "$work/words" | cmp - <("$program" conceal < "$work/words")
    "$work/check" "$list" < "$work/words" | cmp - <("$program" verify "$list" < "$work/words")
done
refused check examples/english.csv -- verify examples/english.csv
make_long_list > "$work/long.csv"
[ "$(wc -c < "$work/long.csv")" -gt $((3 << 20)) ]
refused check "$work/long.csv" -- verify "$work/long.csv"
[ "$got" = 'rule Order: cue 15000 7' ] || { echo "check tells $got of a list of 3 MiB"; exit 1; }
refused check "$work/none.csv" -- verify "$work/none.csv"
cp "$work/long.csv" "$work/words"
refused encoder "$work/long.csv" -- build
echo "examples/c: an encoder, a player and a check of words write what the program does, of $count lists, and of one of 3 MiB"
