#!/usr/bin/env bash
# `export-mcc` of 100,000 frames with captions all along, pop-on captions of two rows on CC1 and a window of service 1, beside `export` of the same
# words and beside `cat` of them, and `import-mcc` of what it writes beside `decode` of these words, by turns in one run: the least of forty runs each.
# Needs build/ccsuite (make) and gcc.
. "$(dirname "$0")/lists.sh"
. "$(dirname "$0")/timing.sh"

awk 'BEGIN {
    print "ccsuite,1,29.97,100000"
    print "share,1,31"
    for (frame = 0; frame < 99800; frame += 200) {
        printf "pop,CC1,%d,%d,%d\n", frame, frame + 90, frame + 180
        print "run,14,0,white,THE COUNCIL VOTED LATE ON MONDAY"
        print "run,15,0,white,TO REOPEN THE NORTH BRIDGES."
        printf "win,1,0,%d,%d,%d,0,0,60,50,2,32,0,1,1\n", frame, frame + 60, frame + 150
        print "run,0,0,plain,ENGINEERS FOUND NO NEW CRACKS"
        print "run,1,0,plain,IN THE CABLES OF THE BRIDGES."
    }
}' > "$work/list.csv"
"$program" build < "$work/list.csv" > "$work/words"
"$program" export-mcc 30 00:00:00:00 < "$work/words" > "$work/file.mcc"
"$program" import-mcc < "$work/file.mcc" | cmp - "$work/words"
printf '%-34s %s\n' 'frames' 100000 'bytes of words' "$(wc -c < "$work/words")" 'bytes of MCC' "$(wc -c < "$work/file.mcc")"

for _ in $(seq 40); do
    time_writer cat "$work/words" cat
    time_writer export "$work/words" "$program" export 00:00:00:00
    time_writer export-mcc "$work/words" "$program" export-mcc 30 00:00:00:00
    time_writer decode "$work/words" "$program" decode
    time_writer import-mcc "$work/file.mcc" "$program" import-mcc
done
for name in cat export export-mcc decode import-mcc; do say_times "$name" "$name, processor"; done
say_ratio export-mcc export
say_ratio 'export-mcc, processor' 'export, processor'
say_ratio import-mcc decode
say_ratio 'import-mcc, processor' 'decode, processor'
row '`export-mcc`, a frame' "$(ns 'export-mcc, processor' 100000)" ns "$(ns 'export, processor' 100000)" '`export` of the same words' 'at most 2'
row '`import-mcc`, a frame' "$(ns 'import-mcc, processor' 100000)" ns "$(ns 'decode, processor' 100000)" '`decode` of the same words' 'at most 2'
