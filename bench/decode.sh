#!/usr/bin/env bash
# `decode` of 100,000 built frames with captions all along, beside a pass in C that only reads the same 16,000,000 bytes and
# sums them, and beside `cat` of them, by turns in one run: the least processor time of ten runs each, for a frame. First of
# captions as most programmes have them (pop-on captions of two rows on CC1, paint-on ones on CC3), then of a live programme
# (pop-on and paint-on captions on CC1, roll-up captions on CC3 without a rest), where two of five frames change a screen; and of
# the usual programme with every tenth frame lost. `conceal` and `xds-show` of the same words run beside `decode`. Then
# the peak memory of `decode` and `show` on 1,000 and on 1,000,000 frames. The same of captions of services: of one, which is sent bytes in
# five of 60 frames, and of six, which are in 30 of 60; and of 1,000,000 frames in which nothing comes. Needs build/ccsuite (make) and gcc.
source "$(dirname "$0")/lists.sh"
source bench/services_words.sh

# a list of 100,000 frames: every this many frames the captions that an awk function puts, which is given the first of them
list() {
    awk -v every="$1" "$2"'
    BEGIN { print "ccsuite,1,29.97,100000"; for (b = 0; b < 99800; b += every) captions(b) }'
}

# a pop-on caption on CC1 and a paint-on one on CC3
list 190 'function captions(b) {
    printf "pop,CC1,%d,%d,%d\n", b, b + 90, b + 180
    print "run,14,0,white,THE QUICK BROWN FOX JUMPS OVER"
    print "run,15,0,white,THE QUICK BROWN FOX JUMPS OVER"
    printf "paint,CC3,%d,%d,%d\n", b, b + 60, b + 170
    print "run,14,2,yellow,THE QUICK BROWN FOX JUMP"
    print "run,15,2,white,THE QUICK BROWN FOX JUMP"
}' > "$work/usual.csv"

# a pop-on and a paint-on caption on CC1, and every 40 frames a row of roll-up captions on CC3
list 200 'function captions(b,    r) {
    printf "pop,CC1,%d,%d,%d\n", b, b + 60, b + 110
    print "run,14,0,white,THE COUNCIL VOTED LATE ON MONDAY"
    print "run,15,0,yellow,TO REOPEN THE NORTH BRIDGES."
    printf "paint,CC1,%d,%d,%d\n", b + 114, b + 150, b + 190
    print "run,15,4,cyan-u,ENGINEERS FOUND NO CRACKS"
    for (r = b; r < b + 200; r += 40) {
        printf "roll,CC3,3,%d,%d,%s\n", r, r + 36, (r + 40 >= 99800) ? r + 60 : ""
        print "run,15,0,white,>> GOOD EVENING AND WELCOME."
    }
}' > "$work/live.csv"

gcc -O2 -o "$work/read_loop" -x c - <<'END'
// Reads standard input in pieces of 32,768 bytes, and prints the sum of its bytes.
#include <stdio.h>
#include <unistd.h>

int main(void) {
    static unsigned char bytes[32768];
    unsigned long sum = 0;
    for (ssize_t count; (count = read(0, bytes, sizeof bytes)) > 0;)
        for (ssize_t at = 0; at < count; at++) sum += bytes[at];
    printf("%lu\n", sum);
    return 0;
}
END

# rows: a command, the words that it reads, and the aim, beside the loop or beside `decode`
beside_loop() { row "\`$1\` $2, a frame" "$(ns "$1, processor" "$frames")" ns "$(ns 'read loop, processor' "$frames")" 'a loop that sums the bytes' "${3-}"; }
beside_decode() { row "\`$1\` $2, a frame" "$(ns "$1, processor" "$frames")" ns "$(ns 'decode, processor' "$frames")" '`decode` of the same words' "$3"; }
rows_of() {
    case $1 in
        usual)
            beside_loop decode 'of a usual programme' 'at most 500 ns'
            beside_loop show 'of a usual programme'
            beside_decode conceal 'of a usual programme' 'at most 1.3'
            beside_decode xds-show 'of a usual programme' 'at most 1'
            ;;
        lossy) beside_decode conceal 'of a usual programme, each tenth frame lost' 'at most 1.5' ;;
        live)
            beside_loop decode 'of a live programme'
            beside_decode conceal 'of a live programme' 'at most 1.3'
            ;;
        one) beside_loop decode 'of one service' ;;
        all)
            beside_loop decode 'of six services in half of the frames'
            beside_decode conceal 'of six services in half of the frames' 'at most 1.3'
            ;;
        none)
            beside_loop decode 'without captions' 'at most 120 ns'
            beside_decode xds-show 'without captions' 'at most 1'
            ;;
    esac
}

for programme in usual lossy live one all none; do
    frames=100000 shown=99999
    case $programme in
        usual | live) "$program" build < "$work/$programme.csv" > "$work/words" ;;
        # frames of 160 bytes, each tenth of them left out
        lossy) frames=90000 shown=89999 && "$program" build < "$work/usual.csv" | perl -ne 'BEGIN { $/ = \160 } print if $. % 10' > "$work/words" ;;
        none) frames=1000000 && "$work/services_words" $frames none > "$work/words" ;;
        *) "$work/services_words" $frames "$programme" > "$work/words" ;;
    esac
    for name in "${!least[@]}"; do unset "least[$name]"; done
    blocks=$("$program" decode < "$work/words" | grep -c '^frame ' || true)
    printf '%-32s %s\n' "$programme: bytes read" "$(wc -c < "$work/words")" "$programme: frames that change" "$blocks"
    for _ in 1 2 3 4 5 6 7 8 9 10; do
        time_command cat cat < "$work/words"
        time_command 'read loop' "$work/read_loop" < "$work/words"
        time_command decode "$program" decode < "$work/words"
        time_command conceal "$program" conceal < "$work/words"
        time_command xds-show "$program" xds-show < "$work/words"
        time_command show "$program" show "$shown" < "$work/words"
    done
    for name in cat 'read loop' decode conceal xds-show show; do
        printf '%-32s %s ns a frame\n' "$programme: $name" "$(ns "$name, processor" "$frames")"
    done
    rows_of "$programme"
done

# at fixed addresses, since the pages that are touched differ a little with the places of the stack and the heap
declare -A peak
for list in short long 1000 1000000; do
    case $list in
        short | long) "$program" build < "$work/$list.csv" > "$work/words" ;;
        *) "$work/services_words" "$list" all > "$work/words" ;;
    esac
    for command in 'decode' 'show 999'; do
        # shellcheck disable=SC2086
        setarch -R /usr/bin/time -f %M -o "$work/took" "$program" $command < "$work/words" > /dev/null
        peak[$command, $list]=$(cat "$work/took")
        printf '%-32s %s KB\n' "peak, $command, $list" "${peak[$command, $list]}"
    done
done
row_of_peaks() { row "peak memory of \`decode\` of 1,000,000 frames of $1" "${peak[decode, $2]}" KB "${peak[decode, $3]}" '1,000 frames' 'at most 1'; }
row_of_peaks 'line 21' long short
row_of_peaks 'six services' 1000000 1000
