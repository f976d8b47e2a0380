#!/bin/sh
# Installs what is built, or removes it again; proves and builds nothing anew: install.sh install|uninstall [library]
#
# `make install` calls it, and `make install-library` with the word library, which leaves out the programs. PREFIX is an
# absolute path; DESTDIR is put in front of it. LIB may name the library's archive, PROGRAMS the folder of the programs,
# and TARGET what they are for, such as x86_64-linux. AS_BUILT=1 installs what was built before a source changed.
# Nothing is written outside DESTDIR and PREFIX, so the tree may be one that can't be written. No installed file has
# PREFIX in it, so all of it may be moved.
set -eu
# (what is installed is for all users, whatever the umask)
umask 022
here=$(cd "$(dirname "$0")" && pwd)
top=$(cd "$here/../.." && pwd)
pages=$top/tools/pages
what=$1
only=${2:-}
to=${DESTDIR:-}$PREFIX
version=$(sed -n 's/^#define DMA330_VERSION_[MP][A-Z]* //p' "$top/include/dma330.h" | paste -s -d .)
major=${version%%.*}
share=share/dma330
# (the folder of the crate in Rust that has the archive, by the names that cargo has for processor and system)
target=${TARGET:-$(uname -m)-linux}
programs="dmasim dma330"
[ "$only" != library ] || programs=

say() {
    echo "make $what: $*" >&2
}

stop() {
    say "$@"
    exit 1
}

# is_current CRATE FILE: whether a crate's file is built; stops if sources have changed since, unless AS_BUILT is 1
is_current() {
    [ -f "$2" ] || return 1
    [ "${AS_BUILT:-}" = 1 ] || "$top/prove" --is-built "$1" >/dev/null 2>&1 ||
        stop "sources have changed since $1 was built: ./prove $1 proves and builds it anew, and" \
            "make $what AS_BUILT=1 installs it as it is"
}

# put MODE FILE NAME: installs a file under a name below the prefix
put() {
    mkdir -p "$to/$(dirname "$3")"
    install -m "$1" "$2" "$to/$3"
}

# put_into FOLDER FILE..: installs files in a folder below the prefix
put_into() {
    folder=$to/$1
    shift
    mkdir -p "$folder"
    install -m 644 "$@" "$folder"
}

# put_tree FOLDER: installs the files below a folder at the place that they have here, without tests, which need other
# files, and without what tools leave there
put_tree() {
    (cd "$top" && find "$1" \( -name tests -o -name target -o -name '.?*' -o -name __pycache__ \) -prune -o \
        -type f ! -name Cargo.lock -print) >"$room/tree"
    while read -r it; do
        if [ -x "$top/$it" ]; then mode=755; else mode=644; fi
        put $mode "$top/$it" "$share/$it"
    done <"$room/tree"
}

# link_to FILE NAME: installs a link
link_to() {
    mkdir -p "$to/$(dirname "$2")"
    ln -sfn "$1" "$to/$2"
}

# fill_in FILE NAME: installs a file in which the version is filled in
fill_in() {
    sed "s|@VERSION@|$version|; s|@MAJOR@|$major|" "$here/$1" >"$room/filled"
    put 644 "$room/filled" "$2"
}

# find_archive: sets `archive` to the library with the kit's heap, merged if the tree has only the library alone
find_archive() {
    archive=${LIB:-}
    [ -z "$archive" ] || return 0
    proved=$top/crates/dma_ffi/out/libdma_ffi.a
    archive=$top/out/libdma330.a
    if is_current dma_ffi "$proved"; then
        kit=$(rt doc 2>/dev/null) && kit=${kit%/START-HERE.md} || kit=
        [ -n "$kit" ] || [ -f "$archive" ] ||
            stop "the command rt of the Rattle kit is missing, whose heap the library needs: README.md, \"Set up\"," \
                "has where it comes from"
        [ -n "$kit" ] || return 0
        archive=$room/libdma330.a
        printf 'CREATE %s\nADDLIB %s\nADDLIB %s\nSAVE\nEND\n' "$archive" "$proved" "$kit/c/liblibc_c.a" | ${AR:-ar} -M
    elif [ ! -f "$archive" ]; then
        stop "the library isn't built: ./prove dma_ffi proves and builds it, in some 20 minutes from nothing"
    fi
}

# put_page NAME SECTION 'DOCUMENT ..' ABOUT: installs documents as one manual page
put_page() {
    (cd "$top/docs" && awk -v name="$1" -v section="$2" -v about="$4" -v version="$version" -f "$pages/roff.awk" \
        -f "$pages/document.awk" $(printf '%s.md ' $3)) >"$room/page"
    put 644 "$room/page" "share/man/man$2/$1.$2"
}

install_library() {
    put_into include "$top"/include/*.h
    put 644 "$archive" lib/libdma330.a
    # (without a build id, which is a digest of the linker's version too)
    if ${CC:-cc} -shared -s -o "$room/shared" -Wl,--whole-archive "$archive" -Wl,--no-whole-archive -Wl,-z,defs \
        -Wl,--version-script="$here/dma330.map" -Wl,-soname,"libdma330.so.$major" -Wl,--build-id=none \
        -Wl,-z,relro,-z,now; then
        put 755 "$room/shared" "lib/libdma330.so.$version"
        link_to "libdma330.so.$version" "lib/libdma330.so.$major"
        link_to "libdma330.so.$major" lib/libdma330.so
    else
        say "the shared library can't be linked, and is left out"
    fi
    fill_in dma330.pc.in lib/pkgconfig/dma330.pc
    fill_in dma330-config.cmake.in lib/cmake/dma330/dma330-config.cmake
    fill_in dma330-config-version.cmake.in lib/cmake/dma330/dma330-config-version.cmake
    mkdir "$room/calls"
    awk -v version="$version" -v folder="$room/calls" -f "$pages/roff.awk" -f "$pages/page.awk" \
        "$top/include/dma330.h" >"$room/dma330.3"
    put_into share/man/man3 "$room/dma330.3" "$room"/calls/*
    put_page dma330 7 'DEVICES CONTROLLERS EXPLANATIONS' 'how to use a software DMA controller in an emulator'
}

# install_share: installs documents, examples, and what has the library's calls in other languages, in folders named as
# in this tree. In the place of include and out there are links: the crate in Rust has the archive in its own folder, as
# a package of it has.
install_share() {
    put_into $share "$top/README.md" "$top/CHANGES.md" "$top/CONTRIBUTING.md" "$top/SECURITY.md"
    put_into $share/docs "$top"/docs/*.*
    for it in examples harness qemu bindings/rust bindings/python bindings/systemc; do
        [ ! -d "$top/$it" ] || put_tree "$it"
    done
    link_to ../../include $share/include
    link_to ../../lib $share/lib
    link_to ../../../../lib/libdma330.a "$share/bindings/rust/lib/$target/libdma330.a"
}

# program PROGRAM: prints the path of a program
program() {
    echo "${PROGRAMS:-$top/crates/$1/out}/$1"
}

# find_programs: sets `found` to the programs that PROGRAMS has, or that are built; dmasim must be
find_programs() {
    found=
    for it in $programs; do
        if [ -n "${PROGRAMS:-}" ] && [ -f "$(program "$it")" ] || is_current "$it" "$(program "$it")"; then
            found="$found $it"
        elif [ "$it" = dmasim ]; then
            stop "dmasim isn't built: ./prove dmasim dma_ffi proves and builds all, in 20 to 30 minutes from nothing; it" \
                "needs the command rt of the Rattle kit (README.md, \"Set up\")"
        elif [ -d "$top/crates/$it" ]; then
            say "$it isn't built, and is left out: ./prove $it proves and builds it"
        fi
    done
}

install_programs() {
    for it in $found; do
        put 755 "$(program "$it")" "bin/$it"
        case $it in
            dmasim)
                put 644 "$top/docs/man/dmasim.1" share/man/man1/dmasim.1
                put_page dmasim 5 SCRIPTS 'scripts of dmasim, and what they print'
                put_page dma330 5 PROGRAMS 'channel programs: their texts, bytes and instructions'
                ;;
            dma330) put_page dma330 1 DMA330 'a workbench for channel programs of the DMA-330' ;;
        esac
    done
}

uninstall() {
    for it in $programs; do
        rm -f "$to/bin/$it" "$to/share/man/man1/$it.1" "$to/share/man/man5/$it.5"
    done
    for it in "$top"/include/*.h; do
        rm -f "$to/include/$(basename "$it")"
    done
    rm -f "$to/lib/libdma330.a" "$to/lib/libdma330.so" "$to/lib/libdma330.so.$major" \
        "$to/lib/libdma330.so.$major".* "$to/lib/pkgconfig/dma330.pc" \
        "$to/share/man/man3/dma330.3" "$to"/share/man/man3/dma330_*.3 "$to/share/man/man7/dma330.7"
    rm -rf "$to/lib/cmake/dma330" "$to/${share:?}"
}

case $what in
    install)
        room=$(mktemp -d)
        trap 'rm -rf "$room"' EXIT
        trap 'exit 130' INT TERM
        find_programs
        find_archive
        install_library
        install_share
        install_programs
        echo "make install: installed in $to"
        ;;
    uninstall)
        uninstall
        ;;
esac
