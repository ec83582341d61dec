#!/usr/bin/env bash
# What a byte of a DTVCC service costs when it is cut into commands: captions in windows, and a stream of commands with
# parameters, beside the bare loop that sums as many bytes, in one run. Proves and builds bench/dtvcc_codes in a folder of its
# own.
. "$(dirname "$0")/crates.sh"
first_words=(sum)
build_program dtvcc_codes cc_base dtvcc_codes
bytes=40960000

time_words $bytes byte sum cut mixed
row 'a byte of captions in windows, to commands' "$(ns 'cut, processor' $bytes)" ns "$(ns 'sum, processor' $bytes)" 'the bare loop' 'at most 12 ns'
row 'a byte of other commands' "$(ns 'mixed, processor' $bytes)" ns "$(ns 'sum, processor' $bytes)" 'the bare loop' 'at most 12 ns'
