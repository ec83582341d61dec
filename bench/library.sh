#!/usr/bin/env bash
# The library for C beside the program, in one run: nanoseconds of processor time a frame, the least of seven turns, of `build` and of a builder's
# frames, of `decode` and of a receiver's, also with all grids of each frame, of `verify` and of a verifier's, and of the same whole runs over memory.
# On 1,000,000 frames with one caption, on 100,000 with captions all along on CC1 and CC3, and on 100,000 with a window of a service all along. Needs
# build/ccsuite (make), build/libccsuite.a (make lib) and gcc.
source "$(dirname "$0")/lists.sh"

# captions all along: a pop-on caption on CC1 and a paint-on one on CC3 every 190 frames; and a window of service 1 every 120
{
    echo 'ccsuite,1,29.97,100000'
    for ((b = 0; b < 99800; b += 190)); do
        printf 'pop,CC1,%d,%d,%d\nrun,14,0,white,THE QUICK BROWN FOX JUMPS OVER\nrun,15,0,white,THE QUICK BROWN FOX JUMPS OVER\n' $b $((b + 90)) $((b + 180))
        printf 'paint,CC3,%d,%d,%d\nrun,14,2,yellow,THE QUICK BROWN FOX JUMP\nrun,15,2,white,THE QUICK BROWN FOX JUMP\n' $b $((b + 60)) $((b + 170))
    done
} > "$work/usual.csv"
{
    printf 'ccsuite,1,29.97,100000\nshare,1,31\n'
    for ((b = 0; b < 99800; b += 120)); do
        printf 'win,1,0,%d,%d,%d,0,7,70,105,2,32,0,1,1\nrun,0,0,plain,THE QUICK BROWN FOX JUMPS OVER\nrun,1,0,plain,THE LAZY DOG\n' $b $((b + 30)) $((b + 110))
    done
} > "$work/window.csv"

gcc -O2 -Ilibrary -o "$work/library" -x c - -x none build/libccsuite.a <<'END'
// Times the library on a list and the words that the program built of it: prints nanoseconds of processor time a frame, the least of seven turns.
#include <ccsuite.h>
#include <stdio.h>
#include <stdlib.h>
#include <time.h>

static double now(void) {
    struct timespec time;
    clock_gettime(CLOCK_PROCESS_CPUTIME_ID, &time);
    return time.tv_sec * 1e9 + time.tv_nsec;
}

static uint8_t *slurp(const char *name, size_t *size) {
    FILE *file = fopen(name, "rb");
    if (!file) exit(1);
    fseek(file, 0, SEEK_END);
    *size = (size_t)ftell(file);
    rewind(file);
    uint8_t *bytes = malloc(*size + 1);
    if (fread(bytes, 1, *size, file) != *size) exit(1);
    fclose(file);
    return bytes;
}

static size_t list_size, size, frames;
static uint8_t *list, *words, *out, packet[CCSUITE_PACKET_ROOM];
static ccsuite_report report;

static void whole_build(void) { if (ccsuite_build(list, list_size, out, size, &report)) exit(1); }
static void whole_decode(void) { if (ccsuite_decode(words, size, out, size, &report)) exit(1); }
static void whole_verify(void) { if (ccsuite_verify(words, size, list, list_size, out, size, &report)) exit(1); }

static ccsuite_builder builder;
static ccsuite_receiver receiver;
static ccsuite_verifier verifier;

static void next(void) {
    size_t written;
    for (frames = 0; ccsuite_builder_next(&builder, packet, sizeof packet, &written) == 0; frames++) {}
}

static void feed(void) {
    ccsuite_fed fed;
    for (size_t at = 0; at < size; at += fed.used)
        if (ccsuite_receiver_feed(&receiver, words + at, size - at, &fed)) exit(1);
}

static void play(void) {
    ccsuite_fed fed;
    size_t written;
    for (size_t at = 0; at < size; at += fed.used)
        if (ccsuite_receiver_feed(&receiver, words + at, size - at, &fed) || ccsuite_receiver_changes(&receiver, out, 65536, &written)) exit(1);
}

// what a player draws of each frame: the grids of the four channels and of each window of service 1
static ccsuite_cell cells[CCSUITE_GRID_CELLS];
static ccsuite_window_cell wide[CCSUITE_WINDOW_CELLS];

static void draw(void) {
    ccsuite_fed fed;
    for (size_t at = 0; at < size; at += fed.used) {
        if (ccsuite_receiver_feed(&receiver, words + at, size - at, &fed)) exit(1);
        for (uint32_t channel = 1; channel < 5; channel++)
            if (ccsuite_receiver_grid(&receiver, channel, cells, CCSUITE_GRID_CELLS)) exit(1);
        for (uint32_t id = 0; id < 8; id++) ccsuite_receiver_window_grid(&receiver, 1, id, wide, CCSUITE_WINDOW_CELLS);
    }
}

static void check(void) {
    ccsuite_fed fed;
    for (size_t at = 0; at < size; at += fed.used)
        if (ccsuite_verifier_feed(&verifier, words + at, size - at, &fed)) exit(1);
}

static void open_all(void) {
    if (ccsuite_builder_open(list, list_size, &builder, &report) || ccsuite_receiver_open(&receiver, false)
        || ccsuite_verifier_open(list, list_size, &verifier, &report)) exit(1);
}

static void time_it(const char *name, void (*run)(void)) {
    double least = 1e18;
    for (int turn = 0; turn < 7; turn++) {
        open_all();
        double begin = now();
        run();
        double took = now() - begin;
        if (took < least) least = took;
    }
    printf("  %-38s %7.1f\n", name, least / frames);
}

int main(int argc, char **argv) {
    if (argc != 3) return 1;
    list = slurp(argv[1], &list_size);
    words = slurp(argv[2], &size);
    out = malloc(size + 65536);
    open_all();
    next();
    time_it("ccsuite_builder_next", next);
    time_it("ccsuite_build", whole_build);
    time_it("ccsuite_receiver_feed", feed);
    time_it("the same, with ccsuite_receiver_changes", play);
    time_it("the same, with all grids of a frame", draw);
    time_it("ccsuite_decode", whole_decode);
    time_it("ccsuite_verifier_feed", check);
    time_it("ccsuite_verify", whole_verify);
    return 0;
}
END

# the least processor time of seven runs of the program, in nanoseconds a frame
TIMEFORMAT='%3U %3S'
time_program() {
    local name=$1 input=$2 frames=$3 least=
    shift 3
    for _ in 1 2 3 4 5 6 7; do
        { time "$program" "$@" < "$input" > /dev/null; } 2> "$work/took"
        read -r user system < "$work/took"
        took=$((10#${user/./} + 10#${system/./}))
        if [ -z "$least" ] || [ $took -lt $least ]; then least=$took; fi
    done
    printf '  %-38s %7s\n' "the program: $name" $((least * 1000000 / frames)).0
}

for name in long usual window; do
    list=$work/$name.csv
    frames=$(head -1 "$list" | cut -d, -f 4)
    "$program" build < "$list" > "$work/words"
    echo "$name, $frames frames: nanoseconds a frame"
    time_program build "$list" "$frames" build
    time_program decode "$work/words" "$frames" decode
    time_program verify "$work/words" "$frames" verify "$list"
    "$work/library" "$list" "$work/words"
done
