#!/usr/bin/env bash
# `verify` and `insert` of the words that `build` makes of the list of `load 1110` (100,020 frames), with that list, beside `decode` and `show` of
# them, a loop in C that makes the same write calls, and `cat`, by turns in one run: the least of five runs each, for a frame. Then `verify` of the
# lists of 1,000 and of 10,000 captions, the time from the start to the first frame, and the peak memory. Needs build/ccsuite (make) and gcc.
. "$(dirname "$0")/lists.sh"
. "$(dirname "$0")/timing.sh"

# the list of `load` with this many captions
load_list() {
    awk -v count="$1" 'BEGIN {
        printf "ccsuite,1,29.97,%d\nshare,1,31\n", 90 * count + 120
        for (k = 0; k < count; k++) {
            b = 90 * k
            text = ""
            for (j = 0; j < 20; j++) text = text sprintf("%c", 65 + (7 * k + 5 * j) % 26)
            times = sprintf("%d,%d,%d", b, b + 60, b + 150)
            if (k % 3 == 0) printf "pop,CC1,%s\nrun,14,4,white,%s\n", times, text
            else if (k % 3 == 1) printf "win,1,%d,%s,10,0,60,50,2,32,0,1,1\nrun,0,0,plain,%s\n", k % 8, times, text
            else printf "paint,CC3,%s\nrun,15,8,yellow,%s\n", times, text
        }
    }'
}

# says what a frame takes of a name, of this many frames
say_frame() { printf '%-34s %s ns a frame\n' "$1" $((least["$1"] * 1000 / $2)); }

load_list 1110 > "$work/list.csv"
"$program" build < "$work/list.csv" > "$work/words"
test "$("$program" verify "$work/list.csv" < "$work/words")" = ok
"$program" insert "$work/list.csv" < "$work/words" | cmp - "$work/words"
frames=$(($(wc -c < "$work/words") / 160))
for _ in 1 2 3 4 5; do
    time_write_loop "$work/words"
    time_writer cat "$work/words" cat
    time_writer decode "$work/words" "$program" decode
    time_writer show "$work/words" "$program" show 99999
    time_writer verify "$work/words" "$program" verify "$work/list.csv"
    time_writer insert "$work/words" "$program" insert "$work/list.csv"
done
for name in cat 'write loop' decode show verify insert; do say_frame "$name, processor" "$frames"; done
say_ratio 'verify, processor' 'decode, processor'
least['decode and write loop, processor']=$((least['decode, processor'] + least['write loop, processor']))
say_ratio 'insert, processor' 'decode and write loop, processor'
row '`verify`, a frame' "$(ns 'verify, processor' "$frames")" ns "$(ns 'decode, processor' "$frames")" '`decode`' 'at most 1.3'
row '`insert`, a frame' "$(ns 'insert, processor' "$frames")" ns \
    "$(ns 'decode and write loop, processor' "$frames")" '`decode` and the write calls in C' 'at most 1.5'

for count in 1000 10000; do
    load_list "$count" > "$work/list.csv"
    "$program" build < "$work/list.csv" > "$work/words"
    for _ in 1 2 3; do time_writer "verify, $count captions" "$work/words" "$program" verify "$work/list.csv"; done
    say_frame "verify, $count captions, processor" $((90 * count + 120))
done

head -c 160 "$work/words" > "$work/one"
for _ in 1 2 3 4 5 6 7 8 9 10; do time_writer 'decode of one frame' "$work/one" "$program" decode; done
say_times 'decode of one frame'
row '`decode` of one frame, from its start to its end' "$(ms 'decode of one frame')" ms
declare -A peak
for command in decode "verify $work/list.csv" "insert $work/list.csv"; do
    # shellcheck disable=SC2086
    setarch -R /usr/bin/time -f %M -o "$work/took" "$program" $command < "$work/words" > /dev/null
    peak[${command%% *}]=$(cat "$work/took")
    printf '%-34s %s KB\n' "peak, ${command%% *}, 900,120 frames" "${peak[${command%% *}]}"
done
for command in verify insert; do
    row "peak memory of \`$command\` of 900,120 frames" "${peak[$command]}" KB "${peak[decode]}" '`decode`'
done
