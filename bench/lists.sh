# The set-up of the scripts that measure the program: `program`, a folder `work` that goes with the script, in it `long.csv` and `short.csv`, one
# caption on 1,000,000 and on 1,000 frames, and what rows.sh has. Sourced from the scripts beside it.
set -eu
cd "$(dirname "${BASH_SOURCE[0]}")/.."
program=$PWD/build/ccsuite
work=$(mktemp -d)
trap 'rm -rf "$work"' EXIT
. bench/rows.sh
printf 'ccsuite,1,29.97,1000000\npop,CC1,0,7,20\nrun,15,0,white,HI\n' > "$work/long.csv"
printf 'ccsuite,1,29.97,1000\npop,CC1,0,7,20\nrun,15,0,white,HI\n' > "$work/short.csv"
