# Sourced by the scripts beside it: the least times of names over runs, and the rows that a script puts into the table of README.md; until
# table.py takes them there, they stand in build/bench. Needs gcc.
mkdir -p build/bench
rows=$PWD/build/bench/${0##*/}
: > "$rows"

# puts a row: the job, how much was measured, and its unit; how much in the same run what stands beside it, and what that is; and the aim: `at
# most N` times that, or `at most N UNIT`. Where the last three aren't there, they are left out.
row() {
    printf '%s\t%s\t%s\t%s\t%s\t%s\n' "$1" "$2" "$3" "${4-}" "${5-}" "${6-}" >> "$rows"
}

# keeps the least number of microseconds of each name
declare -A least
keep() {
    if [ -z "${least[$1]-}" ] || [ "$2" -lt "${least[$1]}" ]; then least[$1]=$2; fi
}

gcc -O2 -o "$work/timed" -x c - <<'END'
// timed FILE COMMAND..: runs a command, and puts into a file how many microseconds it took, and how many of processor time.
#define _DEFAULT_SOURCE
#include <stdio.h>
#include <sys/resource.h>
#include <sys/wait.h>
#include <time.h>
#include <unistd.h>

static long long now(void) {
    struct timespec time;
    clock_gettime(CLOCK_MONOTONIC, &time);
    return time.tv_sec * 1000000LL + time.tv_nsec / 1000;
}

static long long in(struct timeval time) { return time.tv_sec * 1000000LL + time.tv_usec; }

int main(int count, char **words) {
    if (count < 3) return 1;
    long long begin = now();
    pid_t child = fork();
    if (child == 0) execvp(words[2], words + 2);
    if (child <= 0) _exit(127);
    int status;
    struct rusage usage;
    if (wait4(child, &status, 0, &usage) != child) return 1;
    FILE *file = fopen(words[1], "w");
    if (file == NULL) return 1;
    fprintf(file, "%lld %lld\n", now() - begin, in(usage.ru_utime) + in(usage.ru_stime));
    return fclose(file) == 0 && WIFEXITED(status) ? WEXITSTATUS(status) : 1;
}
END

# times a command of a name: the time and the processor time
time_command() {
    "$work/timed" "$work/took" "${@:2}" > /dev/null
    keep_took "$1"
}
keep_took() {
    local real processor
    read -r real processor < "$work/took"
    keep "$1" "$real"
    keep "$1, processor" "$processor"
}

# how many instructions a command takes outside the kernel, as valgrind counts them
instructions() { valgrind --tool=callgrind --callgrind-out-file=/dev/null "$@" 2>&1 > /dev/null | awk '/Collected/ { print $4 }'; }

# the time of a name in milliseconds, and in nanoseconds for each of this many
ms() { part "${least[$1]-}" 1000; }
ns() { part "${least[$1]:+${least[$1]}000}" "$2"; }
part() { awk -v number="$1" -v by="$2" 'BEGIN { if (number != "") print number / by }'; }
