#!/usr/bin/env bash
# What a frame costs the receiver of a words file, by the instructions that valgrind counts: frames whose pairs are null and that have no
# bytes of services, frames whose pairs of field 1 are pop-on captions, and the first ones again in takes that cut frames and in takes
# that don't. Proves and builds bench/receiver in a folder of its own.
. "$(dirname "$0")/crates.sh"
first_words=(null 1)
build_program receiver cc_receiver
frames=20000

# the instructions of a run of a stream with this many frames, in takes of this many bytes if they are given
count() { instructions "$program" "$@"; }
declare -A each
for stream in null pop; do
    none=$(count "$stream" 0)
    all=$(count "$stream" $frames)
    each[$stream]=$(((all - none) / frames))
    printf '%-6s %d instructions a frame\n' "$stream" "${each[$stream]}"
done
row 'a frame without captions, at the receiver' "${each[null]}" instructions
row 'a frame of pop-on captions, at the receiver' "${each[pop]}" instructions "${each[null]}" 'without captions'
for take in 32768 40000; do
    none=$(count null 0 $take)
    all=$(count null $frames $take)
    printf 'null   %d instructions a frame in takes of %d bytes\n' $(((all - none) / frames)) $take
done
