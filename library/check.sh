#!/usr/bin/env bash
# Tries the library for C: check.sh PROGRAM
#
# Its whole runs and its handles, these in pieces of 1, 7 and 160 bytes and all at once, against PROGRAM, byte for byte, over ten lists and words of
# each kind; the fields of its structs, closed handles, threads and refused memory (library/check/cases.c); with each of gcc, clang and g++ that is
# there, against the archive and the shared library, with sanitizers, and with valgrind where that is there; its module for Python, by the module's
# tests; and an installation, by pkg-config and from Python.
set -euo pipefail
program=$(realpath "$1")
cd "$(dirname "$0")/.."
work=$(mktemp -d)
trap 'rm -rf "$work"' EXIT
strict='-O1 -g -Wall -Wextra -Werror -Ilibrary'

fail() {
    echo "$1"
    exit 1
}

# compiles a test of library/check: with a compiler, for a program of this name, with these words
compile() {
    local compiler=$1 name=$2
    shift 2
    local kind='-std=c11 -D_GNU_SOURCE -pedantic'
    case $compiler in *++) kind='-std=c++17 -D_GNU_SOURCE -Wno-missing-field-initializers -x c++' ;; esac
    # shellcheck disable=SC2086
    "$compiler" $strict $kind "library/check/${name%%-*}.c" -x none -o "$work/$name" "$@" -pthread
}

# the words that are tried: what the accepted lists author, words with damage, words that lack frames, and bytes that are none
make_words() {
    for list in "$work"/lists/*.csv; do
        words=$work/words/$(basename "$list" .csv).words
        "$program" build < "$list" > "$words" 2> /dev/null || rm "$words"
    done
    cp examples/damaged.words "$work/words"
    "$program" dual examples/spanish.csv < examples/english.csv > "$work/words/dual.words"
    "$program" import < examples/city.scc > "$work/words/city.words"
    # every 7th frame is lost, and a byte of line 21 of the 30th has bad parity
    split -b 160 --filter='n=${FILE##*.}; [ $((10#$n % 7)) = 3 ] || cat' -a 4 -d "$work/words/hello.words" x. > "$work/words/lossy.words"
    head -c 1601 "$work/words/hello.words" > "$work/words/short.words"
    head -c 3000 /dev/urandom > "$work/words/none.words"
    : > "$work/words/empty.words"
}

# whether two commands write the same to output and error, and end with the same status: same NAME INPUT PROGRAM WORDS .. -- LIBRARY WORDS ..
same() {
    local name=$1 input=$2 ours=() theirs=()
    shift 2
    while [ "$1" != -- ]; do theirs+=("$1"); shift; done
    shift
    ours=("$@")
    "${theirs[@]}" < "$input" > "$work/wanted" 2> "$work/wanted.err" && wanted=0 || wanted=$?
    "${ours[@]}" < "$input" > "$work/got" 2> "$work/got.err" && got=0 || got=$?
    [ "$wanted" = "$got" ] || fail "$name: ${ours[*]} < $input ends with $got and not $wanted: $(head -c 300 "$work/got.err")"
    cmp -s "$work/wanted" "$work/got" || fail "$name: ${ours[*]} < $input writes other bytes"
    [ -n "${quiet:-}" ] || cmp -s "$work/wanted.err" "$work/got.err" || fail "$name: ${ours[*]} < $input tells $(cat "$work/got.err")"
    count=$((count + 1))
}

# the whole runs of a library's test program, on all lists, words and files
compare_runs() {
    local run=$1
    for list in "$work"/lists/*; do
        for command in pairs build cues; do same "$1" "$list" "$program" $command -- "$run" $command; done
        same "$1" "$list" "$program" dual "$list" -- "$run" dual "$list"
        same "$1" "$list" "$program" dual examples/spanish.csv -- "$run" dual examples/spanish.csv
        for packets in examples/packets.csv "$list"; do same "$1" "$list" "$program" xds "$packets" -- "$run" xds "$packets"; done
    done
    for words in "$work"/words/*; do
        for command in decode conceal xds-show convert; do same "$1" "$words" "$program" $command -- "$run" $command; done
        for frame in 0 7 100 99999; do same "$1" "$words" "$program" show $frame -- "$run" show $frame; done
        for time in '01:00:00:00' '00:59:59;29' '23:59:59:20'; do same "$1" "$words" "$program" export $time -- "$run" export $time; done
        for rate in 25 30 30DF 60DF; do
            mark=:
            [ $rate = 25 ] || [ $rate = 30 ] || mark=';'
            same "$1" "$words" "$program" export-mcc $rate "01:00:00${mark}10" -- "$run" export-mcc $rate "01:00:00${mark}10"
            "$program" export-mcc $rate "01:00:00${mark}10" < "$words" > "$work/exported.mcc" 2> /dev/null || true
            same "$1" "$work/exported.mcc" "$program" import-mcc -- "$run" import-mcc
        done
        for list in "$work"/lists/{hello,windows,english,refused}.csv; do
            for command in verify insert; do same "$1" "$words" "$program" $command "$list" -- "$run" $command "$list"; done
        done
    done
    for file in examples/*.scc examples/hello.csv; do same "$1" "$file" "$program" import -- "$run" import; done
    for captions in 1 40; do same "$1" /dev/null "$program" load $captions -- "$run" load $captions; done
}

# the handles, in pieces
compare_streams() {
    local stream=$1
    for list in "$work"/lists/*; do same "$1" "$list" "$program" build -- "$stream" builder 0; done
    for words in "$work"/words/*; do
        for piece in 1 7 160 0; do
            quiet=1 same "$1" "$words" "$program" decode -- "$stream" receiver $piece
            quiet=1 same "$1" "$words" "$program" conceal -- "$stream" conceal $piece
            for list in "$work"/lists/{hello,english,refused}.csv; do same "$1" "$words" "$program" verify "$list" -- "$stream" verifier $piece "$list"; done
        done
    done
}

mkdir "$work/lists" "$work/words"
cp examples/*.csv "$work/lists"
make_words
printf 'ccsuite,1,29.97,30\npop,CC1,0,6,20\nrun,15,0,white,HI\n' > "$work/lists/no_room.csv"
printf 'ccsuite,1,29.97,30\npop,CC9,0,7,20\n' > "$work/lists/refused.csv"
printf 'ccsuite,1,29.97,30\npop,CC1,9,7,20\nrun,15,0,white,HI\n' > "$work/lists/rule.csv"
: > "$work/lists/empty.csv"

for compiler in gcc clang g++; do
    command -v $compiler > /dev/null || { echo "$compiler isn't there"; continue; }
    count=0
    for name in run stream cases; do compile $compiler $name build/libccsuite.a; done
    compare_runs "$work/run"
    compare_streams "$work/stream"
    "$work/cases" examples/windows.csv || fail "cases, by $compiler"
    echo "$compiler: $count runs write the same as the program; each field, closed handles and threads are as the header says"
done

count=0
for name in run stream cases; do compile gcc $name-shared -Lbuild -lccsuite "-Wl,-rpath,$PWD/build"; done
compare_runs "$work/run-shared"
compare_streams "$work/stream-shared"
"$work/cases-shared" examples/windows.csv
echo "the shared library: $count runs write the same"

for compiler in gcc clang; do
    command -v $compiler > /dev/null || continue
    count=0
    for name in run stream cases; do compile $compiler $name-clean -fsanitize=address,undefined build/libccsuite.a 2> "$work/err" || continue 2; done
    compare_streams "$work/stream-clean"
    "$work/cases-clean" examples/windows.csv
    for list in "$work"/lists/*; do same clean "$list" "$program" build -- "$work/run-clean" build; done
    for words in "$work"/words/*; do same clean "$words" "$program" decode -- "$work/run-clean" decode; done
    echo "$compiler with sanitizers: $count runs"
done

compile gcc cases-refusals -DREFUSALS -Wl,--wrap=malloc,--wrap=realloc build/libccsuite.a
"$work/cases-refusals" examples/windows.csv
if command -v valgrind > /dev/null; then
    valgrind --quiet --leak-check=full --error-exitcode=9 "$work/cases-refusals" examples/windows.csv > /dev/null || fail 'valgrind found something'
    echo 'valgrind: nothing leaked, and nothing else'
fi

# What it needs and what it gives.
undefined=$(nm -u build/libccsuite.a | awk 'NF == 2 { print $2 }' | sort -u | grep -vxE 'rattle_alloc|rattle_realloc|rattle_dealloc' | tr '\n' ' ')
[ "$undefined" = 'free malloc memcpy memmove memset realloc ' ] || fail "the archive needs $undefined"
nm -D --defined-only build/libccsuite.so | awk '{ print $3 }' | sort > "$work/given"
nm -g --defined-only build/libccsuite.a | awk 'NF == 3 && $3 ~ /^ccsuite_[a-z_]+$/ { print $3 }' | sort > "$work/archived"
gcc -fpreprocessed -dD -E -P library/ccsuite.h | grep -oE 'ccsuite_[a-z_]+\(' | tr -d '(' | sort -u > "$work/told"
for names in given archived told; do
    diff library/calls "$work/$names" || fail "the names $names aren't those of library/calls"
done
echo "$(wc -l < library/calls) calls; the archive needs: $undefined"

# The version is one: of the package, the header and the library.
version=$(sed -n '1s/.*(\(.*\)).*/\1/p' package/changes)
grep -qx "#define CCSUITE_VERSION \"$version\"" library/ccsuite.h || fail "the header isn't of version $version"
numbers=$(printf 'CCSUITE_VERSION_MAJOR.CCSUITE_VERSION_MINOR.CCSUITE_VERSION_PATCH' | gcc -E -P -include library/ccsuite.h - | tail -1 | tr -d ' ')
[ "$numbers" = "$version" ] || [ "$numbers" = "$version.0" ] || fail "the header's numbers are $numbers, and the version is $version"

objdump -p build/libccsuite.so | grep -q 'SONAME *libccsuite\.so\.0$' || fail 'the shared library has another soname'

# From Python.
export PYTHONDONTWRITEBYTECODE=1
python=$(command -v /usr/bin/python3 || command -v python3 || true)
modules=/usr/lib/python3/dist-packages
if [ -n "$python" ]; then
    (cd examples/python && CCSUITE_LIBRARY=../../build/libccsuite.so "$python" -m unittest) 2> "$work/err" || fail "$(cat "$work/err")"
    echo "from Python: $(grep '^Ran' "$work/err")"
fi

# An installation.
make --no-print-directory -o build/libccsuite.a -o build/libccsuite.so install PREFIX=/usr DESTDIR="$work/root" PROGRAM="$program" PYTHON="$python" \
    pythondir="$modules" > /dev/null
if command -v pkg-config > /dev/null; then
    words=$(PKG_CONFIG_PATH="$work/root/usr/lib/pkgconfig" PKG_CONFIG_SYSROOT_DIR="$work/root" pkg-config --cflags --libs ccsuite)
    # shellcheck disable=SC2086
    gcc examples/c/encoder.c -o "$work/encoder" -I"$work/root/usr/include" -L"$work/root/usr/lib" $words
    LD_LIBRARY_PATH="$work/root/usr/lib" "$work/encoder" examples/hello.csv | cmp - "$work/words/hello.words"
    echo 'installed, and found by pkg-config'
fi
if [ -n "$python" ]; then
    grep -q '"/usr/lib/libccsuite.so.0"' "$work/root$modules/ccsuite.py" || fail 'the module asks for another library'
    CCSUITE_LIBRARY=$work/root/usr/lib/libccsuite.so.0 PYTHONPATH=$work/root$modules "$python" -c '
import sys, ccsuite
sys.stdout.buffer.write(ccsuite.build(open("examples/hello.csv").read()))' | cmp - "$work/words/hello.words"
    echo 'installed, and found by Python'
fi
make --no-print-directory uninstall PREFIX=/usr DESTDIR="$work/root" PYTHON="$python" pythondir="$modules" > /dev/null
[ -z "$(find "$work/root" -type f)" ] || fail "files are left: $(find "$work/root" -type f)"
