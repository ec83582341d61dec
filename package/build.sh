#!/usr/bin/env bash
# Builds the Debian packages of what `make install` puts: build.sh PROGRAM PACKAGE [LIBRARY ..]
#
# PACKAGE is that of the program; with the files of the library there are those of libccsuite0, the shared library, of libccsuite-dev and of
# python3-ccsuite beside it, with the same version. The version is that of the first line of package/changes. Program and library are stripped of their symbols, and need the
# C library alone, as new as their symbols say; man pages are packed, as Debian wants it.
set -euo pipefail
program=$(realpath "$1")
package=$(realpath "$2")
shift 2
library=$*
cd "$(dirname "$0")/.."
folder=$(mktemp -d)
trap 'rm -rf "$folder"' EXIT
umask 022

architecture=$(dpkg --print-architecture)
version=$(sed -n '1s/.*(\(.*\)).*/\1/p' package/changes)
shared=usr/lib/$(dpkg-architecture -q DEB_HOST_MULTIARCH 2> /dev/null || gcc -print-multiarch)
# The times of the files are that of the version, so that the same files make the same packages.
SOURCE_DATE_EPOCH=$(date -d "$(sed -n 's/^ -- .*>  //p' package/changes | head -1)" +%s)
export SOURCE_DATE_EPOCH

# The C library that a program or a shared library needs.
libc_of() {
    local needed
    needed=$(objdump -p "$1" | awk '$1 == "NEEDED" { print $2 }')
    [ -z "$needed" ] || [ "$needed" = libc.so.6 ] || { echo "$1 needs other libraries than the C library: $needed" >&2; exit 1; }
    objdump -T "$1" | grep -o 'GLIBC_[0-9.]*' | sort -V | tail -1 | sed 's/GLIBC_\(.*\)/libc6 (>= \1)/'
}

# Moves files of what is installed into the folder of a package: move NAME FILE ..
move() {
    local name=$1
    shift
    for file in "$@"; do
        mkdir -p "$folder/$name/$(dirname "$file")"
        mv "$folder/all/$file" "$folder/$name/$file"
    done
}

# Makes a package of its folder; the fields that it has besides the common ones, and its description, come from standard input.
pack() {
    local name=$1 root=$folder/$1
    mkdir -p "$root/DEBIAN" "$root/usr/share/doc/$name"
    gzip -9nc package/changes > "$root/usr/share/doc/$name/changelog.gz"
    cp package/copyright "$root/usr/share/doc/$name"
    (cd "$root" && find usr -type f -print0 | sort -z | xargs -0 md5sum) > "$root/DEBIAN/md5sums"
    {
        printf '%s\n' "Package: $name" "Source: ccsuite" "Version: $version" "Architecture: $architecture"
        echo "Maintainer: $(sed -n 's/^ -- \(.*>\)  .*/\1/p' package/changes | head -1)"
        echo "Installed-Size: $(du -k -s --apparent-size "$root/usr" | cut -f 1)"
        echo 'Priority: optional'
        cat
    } | if [ "$name" = ccsuite ]; then grep -v '^Source:'; else cat; fi > "$root/DEBIAN/control"
    find "$root" -exec touch -h -d "@$SOURCE_DATE_EPOCH" {} +
    dpkg-deb --root-owner-group --build "$root" "$(dirname "$package")/${name}_${version}_$architecture.deb" > /dev/null
    echo "${name}_${version}_$architecture.deb: $(stat -c %s "$(dirname "$package")/${name}_${version}_$architecture.deb") bytes"
}

pack_library() {
    strip --strip-unneeded --remove-section=.comment --remove-section=.note "$folder/all/$shared/libccsuite.so.0.$version"
    strip --strip-debug --enable-deterministic-archives "$folder/all/$shared/libccsuite.a"
    move libccsuite0 "$shared/libccsuite.so.0" "$shared/libccsuite.so.0.$version"
    move libccsuite-dev "$shared"/{libccsuite.so,libccsuite.a,pkgconfig/ccsuite.pc} usr/include/ccsuite.h
    move python3-ccsuite usr/lib/python3/dist-packages/ccsuite.py
    mkdir -p "$folder/libccsuite-dev/usr/share/doc/libccsuite-dev/examples" "$folder/python3-ccsuite/usr/share/doc/python3-ccsuite/examples"
    mv "$folder"/all/usr/share/doc/ccsuite/examples/c/* "$folder"/all/usr/share/doc/ccsuite/examples/gstreamer \
        "$folder/libccsuite-dev/usr/share/doc/libccsuite-dev/examples"
    mv "$folder"/all/usr/share/doc/ccsuite/examples/python/* "$folder/python3-ccsuite/usr/share/doc/python3-ccsuite/examples"
    rm -r "$folder/all/usr/lib" "$folder/all/usr/include" "$folder"/all/usr/share/doc/ccsuite/examples/{c,python}
    mkdir "$folder/libccsuite0/DEBIAN"
    echo "libccsuite 0 libccsuite0 (>= $version)" > "$folder/libccsuite0/DEBIAN/shlibs"
    echo 'activate-noawait ldconfig' > "$folder/libccsuite0/DEBIAN/triggers"
    pack libccsuite0 << EOF
Multi-Arch: same
Depends: $(libc_of "$folder/libccsuite0/$shared/libccsuite.so.0.$version")
Section: libs
Description: broadcast captions as a library
 libccsuite has the commands of ccsuite as calls over memory, and builders,
 receivers and verifiers of caption words that live on from call to call.
EOF
    pack libccsuite-dev << EOF
Multi-Arch: same
Depends: libccsuite0 (= $version)
Suggests: ccsuite
Section: libdevel
Description: broadcast captions as a library, to build programs with
 The header of libccsuite, the library as an archive, and examples in C: an
 encoder's loop, a player's, a check of words, and two elements for GStreamer.
EOF
    pack python3-ccsuite << EOF
Depends: libccsuite0 (= $version), python3 (>= 3.10)
Section: python
Description: broadcast captions in Python
 The module ccsuite, by ctypes over libccsuite: the commands of ccsuite as
 functions over bytes, and builders, receivers and verifiers of caption words.
EOF
}

make --no-print-directory install PREFIX=/usr libdir="/$shared" DESTDIR="$folder/all" PROGRAM="$program" LIBRARY="$library" \
    PYTHON=/usr/bin/python3 pythondir=/usr/lib/python3/dist-packages > /dev/null
find "$folder/all" -name '*.1' -exec gzip -9n {} +
[ -z "$library" ] || pack_library
mv "$folder/all" "$folder/ccsuite"
strip --remove-section=.comment --remove-section=.note "$folder/ccsuite/usr/bin/ccsuite"
pack ccsuite << EOF
Depends: $(libc_of "$folder/ccsuite/usr/bin/ccsuite"), python3
Recommends: ffmpeg, python3-gst-1.0, gstreamer1.0-plugins-base, gstreamer1.0-plugins-good, gstreamer1.0-plugins-bad
Section: video
Description: author broadcast captions, and show what a viewer sees of them
 ccsuite reads a cue list, captions for given frames of a programme, and writes
 what American television carries: line 21 (CTA-608-E) and DTVCC (CTA-708-E),
 in ancillary words or as byte pairs. And it reads such words of any producer,
 to the screens that a viewer sees, verifies them against a list, puts captions
 into words that are there, and reads and writes SCC and MCC files. Each of its
 functions is proved to meet its contract. ccsuite-video puts words into video
 files, and takes them out; ccsuite-subtitles makes a cue list of SRT or WebVTT.
EOF
