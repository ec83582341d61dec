#!/usr/bin/env bash
# What a cue list costs to read, check and plan, with 2,000 and with 20,000 pop-on cues, and with as many cues in eight windows
# of one service, each with a delay, beside csv that only goes through the records of the same bytes, by turns in one run. Proves and builds
# bench/cues in a folder of its own.
. "$(dirname "$0")/crates.sh"

# a list of this many cues, each of two rows, 50 frames apart
list() {
    echo "ccsuite,1,29.97,1000000"
    awk -v cues="$1" 'BEGIN {
        for (cue = 0; cue < cues; cue++) {
            print "pop,CC1," cue * 50 "," cue * 50 + 35 "," cue * 50 + 45
            print "run,14,4,white,CAPTIONS OF THIS"
            print "run,15,8,yellow,PROGRAMME"
        }
    }'
}
# a list of this many cues by turns in eight windows of a service, 50 frames apart, each with a delay of 16 frames
windows() {
    echo "ccsuite,1,29.97,1000000"
    echo "share,1,31"
    awk -v cues="$1" 'BEGIN {
        for (cue = 0; cue < cues; cue++) {
            show = cue * 50 + 35
            print "win,1," cue % 8 "," cue * 50 "," show "," show + 4 ",5,0,60,50,2,32,0,1,1"
            print "run,0,4,plain,CAPTIONS OF THIS"
            print "run,1,8,plain-i,PROGRAMME"
        }
    }'
}
list 2000 > "$work/lines-2000"
list 20000 > "$work/lines-20000"
windows 2000 > "$work/windows-2000"
windows 20000 > "$work/windows-20000"
first_words=(plan)
build_program cues cc_base cue_lists frame_scheduler csv < "$work/lines-2000"

# what a round of ten takes, in milliseconds, and for a byte of the list in nanoseconds
round() { part "${least["$1, processor"]}" 10000; }
byte() { ns "$1 $2, processor" $((10 * $(wc -c < "$work/$1"))); }
for list in lines-2000 windows-2000 lines-20000 windows-20000; do
    "$program" check < "$work/$list" | tail -n 1
    for what in csv check plan; do
        for _ in 1 2 3 4 5; do time_command "$list $what" "$program" "$what" < "$work/$list"; done
        printf '%-14s %-5s %s ms, %s ns a byte\n' "$list" "$what" "$(round "$list $what")" "$(byte "$list" "$what")"
    done
done
csv=$(round 'lines-20000 csv')
row '20,000 pop-on cues read and checked' "$(round 'lines-20000 check')" ms "$csv" '`csv` alone' 'at most 1,000 ms'
row 'the same and planned' "$(round 'lines-20000 plan')" ms "$csv" '`csv` alone' 'at most 1,000 ms'
row '20,000 window cues read, checked and planned, a byte' "$(byte windows-20000 plan)" ns "$(byte lines-20000 plan)" 'pop-on cues' 'at most 1.5'
