#!/usr/bin/env bash
# Tries examples/part.sh on 50 parts of an archive, of which two have damage: try_scale.sh PROGRAM
#
# First GNU parallel runs the parts, and then Slurm, as an array of tasks on one node: munged, slurmctld and slurmd of Debian's packages, in a folder of
# their own and ended with it. Each time the two parts are found and named by their statuses, and run again when they are mended. What isn't
# installed is passed over.
set -euo pipefail
program=$(realpath "$1")
examples=$(realpath "$(dirname "$0")/../examples")
folder=$(mktemp -d)
daemons=()

end() {
    [ ${#daemons[@]} = 0 ] || kill "${daemons[@]}" 2> "$folder/end.log" || true
    wait || true
    rm -rf "$folder"
}
trap end EXIT

fail() {
    echo "$1"
    exit 1
}

has() {
    local missing=()
    for name in "${@:2}"; do command -v "$name" > /dev/null || missing+=("$name"); done
    [ ${#missing[@]} = 0 ] || { echo "$1 wasn't tried: there is no ${missing[*]}"; return 1; }
}

chmod 755 "$folder"
cd "$folder"
mkdir bin
ln -s "$program" bin/ccsuite
export PATH=$folder/bin:$PATH
ccsuite build < "$examples/programme.csv" > good.words
ccsuite decode < good.words > good.txt

# 50 parts: in frame 400 of part 17 the count of a section is another one, and part 33 ends within a word.
make_parts() {
    rm -rf words
    mkdir words
    for part in $(seq -w 50); do cp good.words "words/$part.words"; done
    printf '\x02\xf5' | dd of=words/17.words bs=1 seek=64028 conv=notrunc status=none
    head -c 100001 good.words > words/33.words
    ls words/*.words > list
}

# The numbers of the parts whose status isn't 0, in one line.
failed() {
    grep -hv '^0 ' words/*.status | sed 's/.*words.\(..\)\.words.*/\1/' | paste -s -d , || true
}

check_parts() {
    [ "$(grep -hv '^0 ' words/*.status)" = '6 words/17.words malformed at byte 64028: Count
6 words/33.words malformed at byte 100001: Truncated' ] || fail "$1: the statuses are $(cat words/*.status)"
    [ "$(cat words/*.status | wc -l)" = 50 ] || fail "$1: there aren't 50 statuses"
}

# Behind the second run, of the mended parts alone.
check_mended() {
    [ "$(cat words/*.status | grep -c '^0 ')" = 50 ] || fail "$1: the statuses are $(cat words/*.status)"
    for text in words/*.txt; do cmp "$text" good.txt; done
    echo "$1: of 50 parts two are found and named by their statuses, and run again when they are mended"
}

try_parallel() {
    make_parts
    parallel --joblog joblog "$examples/part.sh" list ::: $(seq 50) && fail 'GNU parallel: no part failed'
    check_parts 'GNU parallel'
    [ "$(awk 'NR > 1 && $7 != 0 { print $NF, $7 }' joblog | sort | paste -s -d ,)" = '17 6,33 6' ] || fail "GNU parallel: its log is $(cat joblog)"
    cp good.words words/17.words
    cp good.words words/33.words
    parallel --resume-failed --joblog joblog "$examples/part.sh" list ::: $(seq 50)
    check_mended 'GNU parallel'
}

start_slurm() {
    mkdir slurm slurm/state slurm/spool
    local port=$((20000 + $$ % 10000))
    cat > slurm/slurm.conf << END
ClusterName=one
SlurmctldHost=localhost
SlurmUser=$(id -un)
SlurmdUser=$(id -un)
AuthType=auth/munge
AuthInfo=socket=$folder/slurm/munge.socket
SlurmctldPort=$port
SlurmdPort=$((port + 1))
StateSaveLocation=$folder/slurm/state
SlurmdSpoolDir=$folder/slurm/spool
SlurmctldPidFile=$folder/slurm/slurmctld.pid
SlurmdPidFile=$folder/slurm/slurmd.pid
ProctrackType=proctrack/linuxproc
TaskPlugin=task/none
SelectType=select/cons_tres
SelectTypeParameters=CR_CPU_Memory
JobCompType=jobcomp/filetxt
JobCompLoc=$folder/slurm/completed
MpiDefault=none
NodeName=localhost CPUs=$(nproc) RealMemory=$(($(awk '/^MemTotal/ { print $2 }' /proc/meminfo) / 1024)) State=UNKNOWN
PartitionName=all Nodes=ALL Default=YES State=UP
END
    export SLURM_CONF=$folder/slurm/slurm.conf
    mungekey -c -k slurm/key
    munged --foreground --socket="$folder/slurm/munge.socket" --key-file="$folder/slurm/key" --pid-file="$folder/slurm/munged.pid" \
        --log-file="$folder/slurm/munged.log" --seed-file="$folder/slurm/seed" > slurm/munged.out 2>&1 &
    daemons+=($!)
    until [ -S slurm/munge.socket ]; do sleep 0.1; done
    slurmctld -D > slurm/slurmctld.log 2>&1 &
    daemons+=($!)
    slurmd -D -N localhost > slurm/slurmd.log 2>&1 &
    daemons+=($!)
    for _ in $(seq 60); do
        [ "$(sinfo -h -o %t 2> slurm/sinfo.log)" = idle ] && return
        sleep 0.5
    done
    fail "Slurm: the node isn't idle: $(tail -3 slurm/*.log)"
}

try_slurm() {
    make_parts
    start_slurm
    sbatch --quiet --wait --array=1-50 --output=/dev/null "$examples/part.sh" list && fail 'Slurm: no part failed'
    check_parts Slurm
    [ "$(grep -c JobState=COMPLETED slurm/completed) $(grep -c JobState=FAILED slurm/completed)" = '48 2' ] || fail "Slurm: it tells $(cat slurm/completed)"
    local again
    again=$(failed)
    [ "$again" = 17,33 ] || fail "Slurm: the parts to run again are $again"
    cp good.words words/17.words
    cp good.words words/33.words
    sbatch --quiet --wait --array="$again" --output=/dev/null "$examples/part.sh" list
    check_mended Slurm
}

if has 'GNU parallel' parallel; then try_parallel; fi
if has Slurm munged mungekey slurmctld slurmd sbatch sinfo; then try_slurm; fi
