#!/usr/bin/env bash
# Tries the Debian packages: [CHROOT=FOLDER] try.sh PROGRAM PACKAGE [LIBRARY ..]
#
# PACKAGE is that of the program, beside which those of the library stand, if it is given. lintian, if it is installed, finds no error. dpkg
# installs the packages into a folder of its own whose database has what they depend on alone: the files are those that `make install` puts, the
# programs run, and dpkg takes everything away again. CHROOT is a clean Debian with python3, as debootstrap makes it, in which the same is tried.
set -euo pipefail
program=$(realpath "$1")
package=$(realpath "$2")
shift 2
library=$*
chroot=${CHROOT:+$(realpath "$CHROOT")}
cd "$(dirname "$0")/.."
folder=$(mktemp -d)
trap 'rm -rf "$folder"' EXIT
version=$(sed -n '1s/.*(\(.*\)).*/\1/p' package/changes)
as_root=()
[ "$(id -u)" = 0 ] || as_root=(fakeroot)
names=(ccsuite)
[ -z "$library" ] || names=(libccsuite0 libccsuite-dev python3-ccsuite ccsuite)
packages=()
for name in "${names[@]}"; do packages+=("${package%/*}/${name}_${package##*ccsuite_}"); done

fail() {
    echo "$1"
    exit 1
}

# The files that make install puts, and those that packages add: man pages are packed.
wanted() {
    local libraries=/usr/lib/$(gcc -print-multiarch)
    make --no-print-directory install PREFIX=/usr libdir="$libraries" DESTDIR="$folder/plain" PROGRAM="$program" LIBRARY="$library" \
        PYTHON=/usr/bin/python3 pythondir=/usr/lib/python3/dist-packages > /dev/null
    (cd "$folder/plain" && find . ! -type d -printf '/%P\n' | sed -e 's:\.1$:.1.gz:; s:doc/ccsuite/examples/c/:doc/libccsuite-dev/examples/:' \
        -e 's:doc/ccsuite/examples/gstreamer/:doc/libccsuite-dev/examples/gstreamer/:' \
        -e 's:doc/ccsuite/examples/python/:doc/python3-ccsuite/examples/:')
    for name in "${names[@]}"; do printf "/usr/share/doc/$name/%s\n" changelog.gz copyright; done
}

# The files of the packages under a root, by what comes after `--root=` or a chroot's dpkg.
listed() {
    local root=$1
    shift
    for name in "${names[@]}"; do "$@" -L "$name"; done | while read -r it; do [ -d "$root$it" ] && [ ! -L "$root$it" ] || echo "$it"; done | sort
}

# Where the program is under a root, it runs, and its man page tells the version.
try_files() {
    [ "$("$@" ccsuite pairs < examples/hello.csv | head -1)" = '9420 8080' ] || fail 'the program does not run'
    printf '\x96\x69\x05ab' | "$@" ccsuite-cdp to-words | "$@" ccsuite-cdp from-words | grep -q ab || fail 'ccsuite-cdp does not run'
    "$@" ccsuite-subtitles - < examples/film.srt 2> /dev/null | "$@" ccsuite build > /dev/null || fail 'ccsuite-subtitles does not run'
    for page in ccsuite ccsuite-cdp ccsuite-subtitles ccsuite-video; do
        "$@" cat "/usr/share/man/man1/$page.1.gz" | gunzip | tr '\n' ' ' | grep -q "version $version, " || fail "the man page of $page tells another version"
    done
}

# A command in the folder, whose programs and files are below it.
below() {
    local name=$1 word=${2:-}
    [ "$name" = cat ] && word=$folder/root$word
    PATH=$folder/root/usr/bin:$PATH "$name" "$word"
}

try_folder() {
    local root=$folder/root
    mkdir -p "$root/var/lib/dpkg/info" "$root/var/lib/dpkg/updates"
    for name in libc6 python3; do
        dpkg-query -s "$name" | sed '/^Depends:/d; /^Pre-Depends:/d' >> "$root/var/lib/dpkg/status"
        echo >> "$root/var/lib/dpkg/status"
        touch "$root/var/lib/dpkg/info/$(dpkg-query -f '${binary:Package}' -W "$name").list"
    done
    "${as_root[@]}" dpkg --root="$root" --force-not-root --force-script-chrootless --log=/dev/null -i "${packages[@]}" > /dev/null
    diff <(wanted | sort -u) <(listed "$root" dpkg --root="$root") || fail 'other files'
    try_files below
    "${as_root[@]}" dpkg --root="$root" --force-not-root --log=/dev/null -P "${names[@]}" > /dev/null
    [ -z "$(find "$root" -path "$root/var" -prune -o ! -type d -print)" ] || fail "files are left: $(find "$root" ! -type d)"
    echo "${names[*]} $version: $(wanted | sort -u | wc -l) files installed in a folder, tried and taken away"
}

files_of() {
    find "$chroot" -xdev \( -path "$chroot/proc" -o -path "$chroot/sys" -o -path "$chroot/var/lib/dpkg" -o -path "$chroot/var/log" \) -prune -o -print | sort
}

try_chroot() {
    files_of > "$folder/before"
    mkdir "$chroot/packages"
    cp "${packages[@]}" "$chroot/packages"
    chroot "$chroot" sh -c 'dpkg -i /packages/*.deb' > /dev/null
    diff <(wanted | sort -u) <(listed "$chroot" chroot "$chroot" dpkg) || fail 'other files'
    try_files chroot "$chroot"
    [ -z "$library" ] || chroot "$chroot" ldconfig -p | grep -q 'libccsuite\.so\.0' || fail 'ldconfig does not find the library'
    [ -z "$library" ] || chroot "$chroot" python3 -Bc 'import ccsuite; print(ccsuite.load(1))' | grep -qx 'cues 1' || fail 'the module does not run'
    chroot "$chroot" dpkg -P "${names[@]}" > /dev/null
    rm -r "$chroot/packages"
    files_of | diff "$folder/before" - || fail 'files are left in the chroot'
    echo "${names[*]} $version: installed in the chroot, tried and taken away"
}

if command -v lintian > /dev/null; then
    lintian --allow-root --fail-on error "${packages[@]}" || fail 'lintian finds errors'
else
    echo "lintian isn't installed: the packages weren't judged"
fi
try_folder
[ -z "$chroot" ] || try_chroot
