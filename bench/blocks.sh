#!/usr/bin/env bash
# What a byte of a service costs on its way from triplets of cc_data, through the readers of channel packets and of service
# blocks, fed and stepped, beside the bare loop that sums the same bytes, in one run. Proves and builds bench/blocks in a folder
# of its own.
. "$(dirname "$0")/crates.sh"
first_words=(sum)
build_program blocks cc_base cc_data channel_packets service_blocks arrayvec
bytes=19680000

# the sums are of the same bytes
[ "$("$program" sum)" = "$("$program" feed)" ] && [ "$("$program" sum)" = "$("$program" step)" ]

time_words $bytes byte sum feed step
row 'a byte of channel packets to blocks, all at once' "$(ns 'feed, processor' $bytes)" ns "$(ns 'sum, processor' $bytes)" 'the bare loop' 'at most 12 ns'
row 'the same, triplet by triplet' "$(ns 'step, processor' $bytes)" ns "$(ns 'sum, processor' $bytes)" 'the bare loop' 'at most 12 ns'
