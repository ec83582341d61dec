#!/usr/bin/env bash
# What a pair costs a line 21 field: a stream of pop-on captions and one of roll-up captions, beside the bare loop that
# sums the bytes of as many pairs, in one run. Proves and builds bench/screen in a folder of its own.
. "$(dirname "$0")/crates.sh"
first_words=(sum)
build_program screen line21_codes line21_screen
pairs=20480000

time_words $pairs pair sum pop roll
row 'a pair of pop-on captions on a screen' "$(ns 'pop, processor' $pairs)" ns "$(ns 'sum, processor' $pairs)" 'the bare loop' 'at most 30 ns'
row 'a pair of roll-up captions on a screen' "$(ns 'roll, processor' $pairs)" ns "$(ns 'sum, processor' $pairs)" 'the bare loop' 'at most 30 ns'
