# Sourced behind lists.sh by the scripts that time writers: a loop that makes write calls, and what the names of rows.sh took. Needs gcc.

gcc -O2 -o "$work/write_loop" -x c - <<'END'
// Reads standard input whole, writes it in pieces of 160 bytes, and says how many microseconds, and how many of processor
// time, the writes took.
#include <stdio.h>
#include <stdlib.h>
#include <time.h>
#include <unistd.h>

enum { MOST = 400000000, PIECE = 160 };

static long long now(clockid_t clock) {
    struct timespec time;
    clock_gettime(clock, &time);
    return time.tv_sec * 1000000LL + time.tv_nsec / 1000;
}

int main(void) {
    char *bytes = malloc(MOST);
    size_t size = bytes == NULL ? 0 : fread(bytes, 1, MOST, stdin);
    if (size == 0 || size == MOST) return 1;
    long long begin = now(CLOCK_MONOTONIC), begin_cpu = now(CLOCK_PROCESS_CPUTIME_ID);
    for (size_t at = 0; at < size; at += PIECE)
        if (write(1, bytes + at, PIECE) != PIECE) return 1;
    fprintf(stderr, "%lld %lld\n", now(CLOCK_MONOTONIC) - begin, now(CLOCK_PROCESS_CPUTIME_ID) - begin_cpu);
    return 0;
}
END

# times the write loop on these words
time_write_loop() {
    { "$work/write_loop" < "$1" | cat > /dev/null; } 2> "$work/took"
    read -r real processor < "$work/took"
    keep 'write loop' "$real"
    keep 'write loop, processor' "$processor"
}

# times a writer of a name on an input, into `cat`: the time and the processor time
time_writer() {
    "$work/timed" "$work/took" "${@:3}" < "$2" | cat > /dev/null
    keep_took "$1"
}

# says the times of these names, where they were taken
say_times() {
    for name in "$@"; do
        if [ -n "${least["$name"]-}" ]; then printf '%-34s %s ms\n' "$name" $((least["$name"] / 1000)); fi
    done
}

# says how many times the second the first took, where both were taken
say_ratio() {
    if [ -n "${least["$2"]-}" ]; then
        hundredths=$((least["$1"] * 100 / least["$2"]))
        printf '%-34s %d.%02d\n' "$1 by $2" $((hundredths / 100)) $((hundredths % 100))
    fi
}
