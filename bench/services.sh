#!/usr/bin/env bash
# What a byte of a service costs, through its commands to its windows, on a stream of captions that are loaded, shown and
# deleted, beside the bare loop that sums as many bytes, and what a frame costs in which nothing comes to 63 services, in one
# run. Proves and builds bench/services in a folder of its own.
. "$(dirname "$0")/crates.sh"
first_words=(sum)
build_program services cc_base dtvcc_screen dtvcc_services
bytes=19968000
frames=100000000

time_words $bytes byte sum load
time_words $frames frame ticks
row 'a byte of captions, to the windows of a service' "$(ns 'load, processor' $bytes)" ns "$(ns 'sum, processor' $bytes)" 'the bare loop' 'at most 20 ns'
row 'a frame in which nothing comes, for 63 services' "$(ns 'ticks, processor' $frames)" ns '' '' 'at most 5 ns'
