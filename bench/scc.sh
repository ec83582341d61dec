#!/usr/bin/env bash
# `import` and `export` of 1,000,000 pairs: 50,000 lines of 20 pairs, 25 frames apart. By turns in one run, the least of five runs each: `import`
# into `cat` beside a loop in C that makes the same write calls with the words ready in memory; `export` of these words beside `ffmpeg`, where it
# is installed, which reads the SCC file and writes it again; and beside `cat` of the words. Needs build/ccsuite (make) and gcc.
. "$(dirname "$0")/lists.sh"
. "$(dirname "$0")/timing.sh"

awk 'BEGIN {
    printf "Scenarist_SCC V1.0\n\n"
    for (line = 0; line < 50000; line++) {
        frame = 25 * line
        printf "%02d:%02d:%02d:%02d\t94ae 94ae 9420 9420 9470 9470", frame / 108000, frame / 1800 % 60, frame / 30 % 60, frame % 30
        for (pair = 0; pair < 12; pair++) printf " %s", pair % 2 ? "c849" : "5468"
        printf " 942f 942f\n\n"
    }
}' > "$work/file.scc"
"$program" import < "$work/file.scc" > "$work/words"
"$program" export 00:00:00:00 < "$work/words" | cmp - "$work/file.scc"
size=$(wc -c < "$work/words")
printf '%-34s %s\n' 'pairs' 1000000 'frames' $((size / 160)) 'bytes of words' "$size"

for _ in 1 2 3 4 5; do
    time_write_loop "$work/words"
    time_writer import "$work/file.scc" "$program" import
    time_writer cat "$work/words" cat
    time_writer export "$work/words" "$program" export 00:00:00:00
    if command -v ffmpeg > /dev/null; then time_writer ffmpeg /dev/null ffmpeg -v error -nostdin -i "$work/file.scc" -c copy -f scc -; fi
done
for name in 'write loop' import cat export ffmpeg; do say_times "$name" "$name, processor"; done
say_ratio import 'write loop'
say_ratio export ffmpeg
say_ratio 'export, processor' 'ffmpeg, processor'
frames=$((size / 160))
row '`import`, a frame' "$(ns import $frames)" ns "$(ns 'write loop' $frames)" 'the same write calls in C' 'at most 1.5'
row '`export`, a frame' "$(ns export $frames)" ns "$(ns ffmpeg $frames)" '`ffmpeg`' 'at most 0.25'
