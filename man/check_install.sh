#!/usr/bin/env bash
# Tries `make install` and `make uninstall` in a folder of its own: check_install.sh PROGRAM
#
# Every file is where Debian has its kind, and no other file is there; the programs run; the man pages are well formed; each file that an installed
# document names is there; each shell that is there completes the commands. bindir and the like are followed. And nothing is left.
program=$(realpath "$1")
cd "$(dirname "$0")/.." || exit 1
version=$(sed -n '1s/.*(\(.*\)).*/\1/p' package/changes)
folder=$(mktemp -d)
trap 'rm -rf "$folder"' EXIT

fail() {
    echo "$1"
    exit 1
}

# Runs make with the program that is tried, for PREFIX $2, behind the folder of its own.
run_make() {
    local target=$1 prefix=$2
    shift 2
    make --no-print-directory "$target" PREFIX="$prefix" DESTDIR="$folder" PROGRAM="$program" LIBRARY= "$@" > "$folder.log" 2>&1 || fail "$(cat "$folder.log")"
    rm -f "$folder.log"
}

# The files that stand under a prefix with zsh's folder $1, each with its mode.
wanted() {
    echo "755 bin/ccsuite"
    for script in cdp subtitles video; do
        echo "777 bin/ccsuite-$script"
        echo "755 share/ccsuite/$script.py"
        echo "644 share/man/man1/ccsuite-$script.1"
    done
    for name in ccsuite ccsuite-subtitles; do
        echo "644 share/bash-completion/completions/$name"
        echo "644 share/fish/vendor_completions.d/$name.fish"
        echo "644 share/zsh/$1/_$name"
    done
    echo "644 share/ccsuite/passage.py"
    echo "644 share/ccsuite/viewer.html"
    echo "644 share/ccsuite/viewer.png"
    echo "644 share/doc/ccsuite/copyright"
    for document in COOKBOOK GLOSSARY MANUAL PROVED README SCALE; do echo "644 share/doc/ccsuite/$document.md"; done
    for example in examples/*.*; do echo "644 share/doc/ccsuite/$example"; done
    echo "644 share/man/man1/ccsuite.1"
}

check() {
    local prefix=$1 root=$folder$1
    run_make install "$prefix"
    diff <(wanted "$2" | sort -k 2) <(cd "$root" && find . ! -type d -printf '%m %P\n' | sort -k 2) || fail "PREFIX=$prefix: other files"
    check_names "$prefix"
    [ "$("$root/bin/ccsuite" pairs < "$root/share/doc/ccsuite/examples/hello.csv" | head -1)" = '9420 8080' ] || fail 'the program does not run'
    printf '\x96\x69\x05ab' | "$root/bin/ccsuite-cdp" to-words | "$root/bin/ccsuite-cdp" from-words | grep -q ab || fail 'ccsuite-cdp does not run'
    PATH=$root/bin:$PATH ccsuite-subtitles "$root/share/doc/ccsuite/examples/film.srt" 2> /dev/null | "$root/bin/ccsuite" build > /dev/null ||
        fail 'ccsuite-subtitles does not run'
    for page in "$root"/share/man/man1/*; do
        tr '\n' ' ' < "$page" | grep -q "version $version, " || fail "$page tells another version"
        if command -v mandoc > /dev/null; then
            mandoc -T lint -W warning "$page" || fail "$page has faults"
        else
            echo "mandoc isn't installed: $page wasn't tried"
        fi
    done
    completions/try.sh "$root" || fail "PREFIX=$prefix: a shell completes otherwise"
    run_make uninstall "$prefix"
    [ -z "$(find "$folder" ! -type d)" ] || fail "PREFIX=$prefix: make uninstall leaves $(find "$folder" ! -type d)"
    echo "PREFIX=$prefix: installed, tried and taken away"
}

# Each file that a document names is installed, at the place that it names, but for the library's header, which is put with the library. What is of the
# source alone is called so.
check_names() {
    local documents=$folder$1/share/doc/ccsuite name
    for name in $(grep -ohE "$1/(include|share)/[A-Za-z_./]*[a-z]" "$documents"/*.md | sort -u); do
        [ -e "$folder$name" ] || [ "$name" = "$1/include/ccsuite.h" ] || fail "the documents name $name"
    done
    ! grep -nE '`(make|docs/|bench/|viewer/|library/)[^`]*`' "$documents"/*.md | grep -vE '` *of the source' || fail 'the documents name what is not installed'
}

# The folders that the GNU standards name, each where it is told.
check_folders() {
    local folders=(bindir=/b libdir=/l includedir=/i datadir=/d mandir=/m docdir=/e)
    run_make install /usr "${folders[@]}"
    for file in b/ccsuite b/ccsuite-video d/ccsuite/video.py m/man1/ccsuite.1 e/MANUAL.md e/examples/hello.csv usr/share/bash-completion/completions/ccsuite; do
        [ -e "$folder/$file" ] || fail "$file is not there"
    done
    grep -q '/d/ccsuite/viewer.html' "$folder/e/MANUAL.md" && grep -q '/e/COOKBOOK.md' "$folder/e/MANUAL.md" || fail 'the manual names other files'
    run_make uninstall /usr "${folders[@]}"
    [ -z "$(find "$folder" ! -type d)" ] || fail "make uninstall leaves $(find "$folder" ! -type d)"
    echo 'each folder by itself: installed and taken away'
}

grep -qx "#define CCSUITE_VERSION \"$version\"" library/ccsuite.h || fail 'the header tells another version'
check /usr/local site-functions
check /usr vendor-completions
check_folders
