#!/usr/bin/env bash
# `xds` of a list of 1,000,000 frames with a caption on CC1 and one on CC3 every 300 frames, and four packets between them, beside `build` of
# the same list, through a pipe, by turns in one run: the time until the writer has ended, and the processor time that the writer took. The same
# with no packets. Then `xds-show` of the words with packets beside `decode` of them, and the peak memory of `xds` with 4 and with 13,332 packets.
# Needs build/ccsuite (make) and gcc.
. "$(dirname "$0")/lists.sh"
. "$(dirname "$0")/timing.sh"
awk -v packets="$work/packets.csv" 'BEGIN {
    print "ccsuite,1,29.97,1000000"
    for (k = 0; k < 3333; k++) {
        b = 300 * k
        printf "pop,CC1,%d,%d,%d\nrun,14,0,white,THE COUNCIL VOTED LATE\n", b, b + 60, b + 150
        printf "pop,CC3,%d,%d,%d\nrun,14,0,white,TO REOPEN THE BRIDGES\n", b, b + 60, b + 150
        printf "xds,%d,1,3,EVENING NEWS\nxds,%d,1,5,HD\nxds,%d,3,1,CITY NETWORK\nxds,%d,3,2,KXYZ\n", b, b, b, b > packets
    }
}' > "$work/captions.csv"
head -n 4 "$work/packets.csv" > "$work/four.csv"
: > "$work/none.csv"
"$program" xds "$work/packets.csv" < "$work/captions.csv" > "$work/words"

for _ in 1 2 3 4 5 6 7 8 9 10; do
    time_writer build "$work/captions.csv" "$program" build
    time_writer xds "$work/captions.csv" "$program" xds "$work/packets.csv"
    time_writer 'xds of none' "$work/captions.csv" "$program" xds "$work/none.csv"
    time_writer decode "$work/words" "$program" decode
    time_writer xds-show "$work/words" "$program" xds-show
done
say_times build xds 'xds of none' 'build, processor' 'xds, processor' 'xds of none, processor'
say_ratio xds build
say_ratio 'xds, processor' 'build, processor'
say_ratio 'xds of none, processor' 'build, processor'
row '`xds` of 6,666 captions and 13,332 packets, a frame' "$(ns 'xds, processor' 1000000)" ns "$(ns 'build, processor' 1000000)" '`build` of the same list' 'at most 1.3'
row '`xds` of the same captions and no packets, a frame' "$(ns 'xds of none, processor' 1000000)" ns "$(ns 'build, processor' 1000000)" \
    '`build` of the same list' 'at most 1.3'
say_times decode xds-show 'decode, processor' 'xds-show, processor'
say_ratio 'xds-show, processor' 'decode, processor'
row '`xds-show` of its words, a frame' "$(ns 'xds-show, processor' 1000000)" ns "$(ns 'decode, processor' 1000000)" '`decode` of the same words' 'at most 1'

# at fixed addresses, since the pages that are touched differ a little with the places of the stack and the heap
declare -A peaks
for packets in four packets; do
    setarch -R /usr/bin/time -f %M -o "$work/peak" "$program" xds "$work/$packets.csv" < "$work/captions.csv" > /dev/null
    peaks[$packets]=$(cat "$work/peak")
    printf '%-34s %s KB\n' "peak, xds with $packets" "${peaks[$packets]}"
done
row 'peak memory of `xds` of 13,332 packets' "${peaks[packets]}" KB "${peaks[four]}" 'of 4' ''
