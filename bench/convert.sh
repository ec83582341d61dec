#!/usr/bin/env bash
# `convert` of 100,000 built frames with captions of line 21 and of a service, beside `decode` of them and a loop in C that makes write calls of
# its output, by turns in one run: the least of five runs each, for a frame that is read. The same of 1,000,000 frames with one caption. Then the peak memory on
# 1,000 and on 1,000,000 frames. Needs build/ccsuite (make) and gcc.
. "$(dirname "$0")/lists.sh"
. "$(dirname "$0")/timing.sh"

# every 90 frames a caption: on CC1, in a window of service 1 behind a delay of a second, on CC3
awk 'BEGIN {
    printf "ccsuite,1,29.97,100000\nshare,1,31\n"
    for (k = 0; 90 * k < 99800; k++) {
        times = sprintf("%d,%d,%d", 90 * k, 90 * k + 60, 90 * k + 150)
        text = "THE COUNCIL VOTED LATE"
        if (k % 3 == 0) printf "pop,CC1,%s\nrun,14,4,white,%s\n", times, text
        else if (k % 3 == 1) printf "win,1,%d,%s,10,0,60,50,2,32,0,1,1\nrun,0,0,plain,%s\n", k % 8, times, text
        else printf "paint,CC3,%s\nrun,15,8,yellow,%s\n", times, text
    }
}' > "$work/usual.csv"

named() { if test "$1" = usual; then echo 'a usual programme'; else echo 'one caption'; fi; }

for list in usual long; do
    "$program" build < "$work/$list.csv" > "$work/words"
    "$program" convert < "$work/words" > "$work/twice"
    frames=$(($(wc -c < "$work/words") / 160))
    test $((200 * frames)) = "$(wc -c < "$work/twice")"
    for name in "${!least[@]}"; do unset "least[$name]"; done
    for _ in 1 2 3 4 5; do
        time_write_loop "$work/twice"
        time_writer cat "$work/words" cat
        time_writer decode "$work/words" "$program" decode
        time_writer convert "$work/words" "$program" convert
    done
    for name in cat 'write loop' decode convert; do
        printf '%-34s %s ns a frame\n' "$list: $name, processor" $((least["$name, processor"] * 1000 / frames))
    done
    least['decode and write loop, processor']=$((least['decode, processor'] + least['write loop, processor']))
    say_ratio 'convert, processor' 'decode, processor'
    say_ratio 'convert, processor' 'decode and write loop, processor'
    row "\`convert\` of $(named "$list"), a frame" "$(ns 'convert, processor' "$frames")" ns "$(ns 'decode and write loop, processor' "$frames")" \
        '`decode` and the write calls in C' 'at most 1.5'
done

# at fixed addresses, since the pages that are touched differ a little with the places of the stack and the heap
declare -A peaks
for list in short long; do
    "$program" build < "$work/$list.csv" > "$work/words"
    setarch -R /usr/bin/time -f %M -o "$work/peak" "$program" convert < "$work/words" > /dev/null
    peaks[$list]=$(cat "$work/peak")
    printf '%-34s %s KB\n' "peak, convert, $list" "${peaks[$list]}"
done
row 'peak memory of `convert` of 1,000,000 frames' "${peaks[long]}" KB "${peaks[short]}" '1,000 frames' 'at most 1'
