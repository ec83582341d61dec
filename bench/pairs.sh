#!/usr/bin/env bash
# `pairs` on a list of 1,000,000 frames, through a pipe, beside `cat` of the same 10,000,000 bytes, in one run; then its
# peak memory on 1,000 and on 1,000,000 frames, and its number of write calls. Needs build/ccsuite (make).
. "$(dirname "$0")/lists.sh"
"$program" pairs < "$work/long.csv" > "$work/lines"

# times a writer and the `cat` that reads it, up to the end of both
time_pipe() {
    begin=$(date +%s%N)
    "${@:2}" | cat > /dev/null
    keep "$1" $((($(date +%s%N) - begin) / 1000))
}

wc -c < "$work/lines" | xargs printf 'bytes put                    %s\n'
for _ in {1..30}; do
    time_pipe cat cat "$work/lines"
    time_pipe pairs "$program" pairs < "$work/long.csv"
done
for name in cat pairs; do printf '%-28s %s ms\n' "$name" "$(ms "$name")"; done
row '`pairs` of one caption, a frame' "$(ns pairs 1000000)" ns "$(ns cat 1000000)" '`cat` of the bytes' 'at most 5'
for list in short long; do
    /usr/bin/time -f "peak memory, $list list       %M KB" "$program" pairs < "$work/$list.csv" 2>&1 > /dev/null
done
if command -v strace > /dev/null; then
    strace -f -c -e trace=write -o "$work/calls" "$program" pairs < "$work/long.csv" > /dev/null
    awk '$NF == "write" { print "write calls, long list       " $4 }' "$work/calls"
fi
