#!/usr/bin/env bash
# `dual` of two lists of 10,000 pop-on captions, on CC1 and on CC2, beside `pairs` and `build` of the first list and `cat` of its own words, by turns in
# one run: the least of five runs each, into `cat`. Then the instructions of all but the words of its frames, for which `dual` of as many frames without a
# caption is taken off, beside `pairs`' own; and a caption's share of them, of lists of 10,000 and of 1,000. Needs build/ccsuite (make), gcc and
# valgrind.
. "$(dirname "$0")/lists.sh"
. "$(dirname "$0")/timing.sh"

# a list of this many captions, a caption every 50 frames, loaded, shown and hidden this many frames after the first of them
list() {
    awk -v count="$1" -v load="$2" -v show="$3" -v hide="$4" 'BEGIN {
        printf "ccsuite,1,29.97,%d\n", 50 * count + 100
        for (b = 0; b < 50 * count; b += 50)
            printf "pop,CC1,%d,%d,%d\nrun,15,4,white,CAPTIONS OF THIS\n", b + load, b + show, b + hide
    }'
}

# Events of each list stand between units of the other, which then resume.
for count in 1000 10000; do
    list "$count" 0 20 45 > "$work/first-$count.csv"
    list "$count" 14 40 60 > "$work/second-$count.csv"
    head -1 "$work/first-$count.csv" > "$work/none-$count.csv"
done
"$program" dual "$work/second-10000.csv" < "$work/first-10000.csv" > "$work/words"
for _ in 1 2 3 4 5; do
    time_writer cat "$work/words" cat
    time_writer pairs "$work/first-10000.csv" "$program" pairs
    time_writer build "$work/first-10000.csv" "$program" build
    time_writer dual "$work/first-10000.csv" "$program" dual "$work/second-10000.csv"
done
say_times cat pairs build dual
row '`dual` of two lists of 10,000 captions' "$(ms dual)" ms "$(ms build)" '`build` of one of them'
row 'the same, beside its own words' "$(ms dual)" ms "$(ms cat)" '`cat` of its words'
row 'the same, which writes sixteen times the bytes' "$(ms dual)" ms "$(ms pairs)" '`pairs` of one of them' 'at most 2.5'

declare -A all
for count in 1000 10000; do
    all[$count]=$(($(instructions "$program" dual "$work/second-$count.csv" < "$work/first-$count.csv") -
        $(instructions "$program" dual "$work/none-$count.csv" < "$work/none-$count.csv")))
    printf '%-34s %s\n' "instructions but for frames, $count" "${all[$count]}"
done
pairs=$(instructions "$program" pairs < "$work/first-10000.csv")
row 'the same, but for the words of its frames' "$(part "${all[10000]}" 1000000)" 'million instructions' "$(part "$pairs" 1000000)" '`pairs` of one of them' 'at most 2.5'
row 'the same, a caption' "$(part "${all[10000]}" 20000)" instructions "$(part "${all[1000]}" 2000)" 'of lists of 1,000' 'at most 1.2'
