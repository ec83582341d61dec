#!/usr/bin/env bash
# `fit 45` of 20,000 pop-on captions, of which each fourth asks to be shown before its units are sent, beside `cues` of the same list and `pairs` of the
# fitted one, which plans it, by turns in one run: the least processor time of five runs each. Then a caption's share of it, in lists of 20,000 and of
# 2,000. Needs build/ccsuite (make) and gcc.
. "$(dirname "$0")/lists.sh"

# a list of this many captions of two rows, a caption every 50 frames
list() {
    echo "ccsuite,2,29.97,1000000"
    awk -v cues="$1" 'BEGIN {
        for (cue = 0; cue < cues; cue++) {
            print "pop,CC1," cue * 50 "," cue * 50 + (cue % 4 == 3 ? 8 : 35) "," cue * 50 + 45
            print "run,14,4,white,CAPTIONS OF THIS"
            print "run,15,8,yellow,PROGRAMME"
        }
    }'
}

for count in 2000 20000; do
    list "$count" > "$work/list-$count"
    "$program" fit 45 < "$work/list-$count" > "$work/fitted-$count"
    printf '%s of %s captions moved\n' "$(diff <(grep pop "$work/list-$count") <(grep pop "$work/fitted-$count") | grep -c '^>')" "$count"
done
for _ in 1 2 3 4 5; do
    for count in 2000 20000; do time_command "fit $count" "$program" fit 45 < "$work/list-$count"; done
    time_command cues "$program" cues < "$work/list-20000"
    time_command pairs "$program" pairs < "$work/fitted-20000"
done

fit=${least['fit 20000, processor']}
both=$((least['cues, processor'] + least['pairs, processor']))
row '`fit 45` of 20,000 captions, 5,000 moved' "$(part "$fit" 1000)" ms "$(part "$both" 1000)" '`cues`, and `pairs` of the fitted list' 'at most 3'
row 'the same, a caption' "$(part "$fit" 20000)" µs "$(part "${least['fit 2000, processor']}" 2000)" 'of a list of 2,000' 'at most 1.2'
