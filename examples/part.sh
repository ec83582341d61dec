#!/bin/bash
#SBATCH --job-name=captions --cpus-per-task=1 --mem=64M --time=00:10:00
# Decodes one words file of an archive, and keeps how the run ended: part.sh LIST [NUMBER]
#
# LIST has a words file a line; NUMBER is the line, and without it the task's number in a Slurm array. The text stands beside NAME.words as NAME.txt
# when the run has ended well, and NAME.status has the status, the words file and what was told in standard error.
words=$(sed -n "${2:-$SLURM_ARRAY_TASK_ID}p" "$1")
name=${words%.words}
told=$(ccsuite decode < "$words" 2>&1 > "$name.part")
status=$?
[ $status != 0 ] || mv "$name.part" "$name.txt"
echo "$status $words${told:+ $told}" > "$name.status"
exit $status
