# Sourced by the scripts that prove and build a program of their own: a folder `work` that goes with the script, and what rows.sh has.
set -eu
cd "$(dirname "${BASH_SOURCE[0]}")/.."
work=$(mktemp -d)
trap 'rm -rf "$work"' EXIT
. bench/rows.sh

# copies a crate, and before it those below it, with their lines of crates.txt
take_crate() {
    if [ ! -d "crates/$1" ] || [ -d "$work/crates/$1" ]; then return; fi
    for below in $(sed -n "s/^$1://p" crates.txt); do take_crate "$below"; done
    tar -C crates --exclude=incremental -cf - "$1" | tar -C "$work/crates" -xf -
    grep "^$1:" crates.txt >> "$work/crates.txt"
}

# proves and builds the program of bench/NAME/main.txt, which stands on these crates and libraries, and runs it once, with the words of `first_words`;
# one that was built from sources as they are is taken as it is
build_program() {
    local name=$1_bench
    program=$PWD/build/$name
    if [ -e "$program" ] && [ -z "$(find crates.txt "bench/$1" crates/*/src -newer "$program" -print -quit)" ]; then return; fi
    mkdir -p "$work/crates/$name/src"
    for below in "${@:2}"; do take_crate "$below"; done
    cp "bench/$1/main.txt" "$work/crates/$name/src/main.rt"
    echo "$name: ${*:2}" >> "$work/crates.txt"
    (cd "$work/crates/$name" && rt run -- "${first_words[@]}" > /dev/null)
    cp "$work/crates/$name/out/$name" "$program"
}

# times the program with these words, five times each, and says what it takes for each of this many of a name
time_words() {
    local count=$1 each=$2
    for word in "${@:3}"; do
        for _ in 1 2 3 4 5; do time_command "$word" "$program" "$word"; done
        printf '%-6s %s ns a %s\n' "$word" "$(ns "$word, processor" "$count")" "$each"
    done
}
