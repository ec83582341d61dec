#!/usr/bin/env bash
# Tries the edits in edits/CRATE of the crates that are named, or of all: each is put beside those in crates/CRATE/must-fail, `rt must-fail` tries both,
# and they are taken out again, however it ends. It fails unless the prover refuses each.
cd "$(dirname "$0")/.." || exit 1

put=()
folder=
running=

take_out() {
    if [ -n "$running" ]; then
        kill "$running" 2> /dev/null
        wait "$running"
    fi
    [ ${#put[@]} -eq 0 ] || rm -f "${put[@]}"
    [ -z "$folder" ] || rmdir --ignore-fail-on-non-empty "$folder"
    put=()
    folder=
    running=
}

trap take_out EXIT
trap 'exit 130' INT
trap 'exit 143' TERM
trap 'exit 129' HUP

put_in() {
    local edit to
    folder=crates/$1/must-fail
    mkdir -p "$folder" || return 1
    for edit in "edits/$1"/*.edit; do
        to=$folder/${edit##*/}
        if [ -e "$to" ]; then
            echo "$to is there beside $edit: if a try that was killed left it, remove it; else give one of them another name" >&2
            return 1
        fi
        put+=("$to")
        cp "$edit" "$to" || return 1
    done
}

# rt runs beside this script, which a signal then ends at once.
try_crate() {
    local status
    put_in "$1" || return 1
    rt must-fail "$1" &
    running=$!
    wait "$running"
    status=$?
    running=
    return $status
}

[ $# -gt 0 ] || set -- $(cd edits && printf '%s\n' */ | tr -d /)
failed=()
for crate; do
    echo "== $crate"
    if [ ! -d "edits/$crate" ] || [ ! -d "crates/$crate" ]; then
        echo "there is no edits/$crate, or no crates/$crate" >&2
        failed+=("$crate")
        continue
    fi
    try_crate "$crate" || failed+=("$crate")
    take_out
done
if [ ${#failed[@]} -gt 0 ]; then
    echo "not all edits were refused of: ${failed[*]}" >&2
    exit 1
fi
