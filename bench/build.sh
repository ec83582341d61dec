#!/usr/bin/env bash
# `build` on a list of 1,000,000 frames, through a pipe, beside a loop that makes the same write calls with the same
# 160,000,000 bytes ready in memory, and beside `cat` of these bytes, by turns in one run: the time until the writer has
# ended, and the processor time that the writer took. The same for 100,000 frames of three services, as many as the room of a frame
# takes, which are sent bytes in nearly all of them. Then the number of write calls, and the peak memory of `pairs` and of `build`
# on 1,000 and on 1,000,000 frames. Needs build/ccsuite (make) and gcc.
. "$(dirname "$0")/lists.sh"
. "$(dirname "$0")/timing.sh"
"$program" build < "$work/long.csv" > "$work/words"

wc -c < "$work/words" | xargs printf '%-34s %s\n' 'bytes put'
for _ in 1 2 3 4 5 6 7 8 9 10; do
    time_writer cat "$work/words" cat
    time_write_loop "$work/words"
    time_writer build "$work/long.csv" "$program" build
done
say_times cat 'write loop' build 'write loop, processor' 'build, processor'
say_ratio build 'write loop'
say_ratio 'build, processor' 'write loop, processor'
row '`build` of one caption, a frame' "$(ns build 1000000)" ns "$(ns 'write loop' 1000000)" 'the same write calls in C' 'at most 1.5'

# every 60 frames a caption of twelve rows of 40 letters in a window of each service
awk 'BEGIN {
    printf "ccsuite,1,29.97,100000\nshare,1,10\nshare,2,10\nshare,3,12\n"
    row = "THE QUICK BROWN FOX JUMPS OVER A LAZY DO"
    for (k = 0; k < 1660; k++) {
        b = 60 * k
        for (service = 1; service <= 3; service++) {
            printf "win,%d,%d,%d,%d,%d,0,0,60,50,12,42,0,1,1\n", service, k % 4, b, b + 60, b + 120
            for (r = 0; r < 12; r++) printf "run,%d,0,plain,%s\n", r, row
        }
    }
}' > "$work/services.csv"
"$program" build < "$work/services.csv" > "$work/words"
for name in "${!least[@]}"; do unset "least[$name]"; done
for _ in 1 2 3 4 5 6 7 8 9 10; do
    time_write_loop "$work/words"
    time_writer 'build of services' "$work/services.csv" "$program" build
done
say_times 'write loop' 'build of services' 'write loop, processor' 'build of services, processor'
say_ratio 'build of services' 'write loop'
say_ratio 'build of services, processor' 'write loop, processor'
row '`build` of three services without a rest, a frame' "$(ns 'build of services' 100000)" ns \
    "$(ns 'write loop' 100000)" 'the same write calls in C' 'at most 2'

if command -v strace > /dev/null; then
    strace -f -c -e trace=write -o "$work/calls" "$program" build < "$work/short.csv" > /dev/null
    awk '$NF == "write" { printf "%-34s %s\n", "write calls, 1,000 frames", $4 }' "$work/calls"
fi

# at fixed addresses, since the pages that are touched differ a little with the places of the stack and the heap
for command in pairs build; do
    for list in short long; do
        setarch -R /usr/bin/time -f %M -o "$work/peak-$list" "$program" "$command" < "$work/$list.csv" > /dev/null
        printf '%-34s %s KB\n' "peak, $command, $list list" "$(cat "$work/peak-$list")"
    done
    row "peak memory of \`$command\` of 1,000,000 frames" "$(cat "$work/peak-long")" KB "$(cat "$work/peak-short")" '1,000 frames' 'at most 1'
done
