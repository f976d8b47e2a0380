#!/bin/sh
# Builds the arm emulator of Debian's QEMU twice: ./build.sh [--qemu 7.2|10.0] [FOLDER]
#
# FOLDER, mostly an empty one, is the current folder if none is given; its path has no spaces or colons. It gets the
# source package, and two programs with the Zynq and Exynos4 machines: qemu-stock has QEMU's own PL330, qemu-dma330 has
# dma330.c in its place. Without --qemu, QEMU is 7.2 if apt has its source package, else 10.0. LIB may name the
# library's archive, else it is ../out/libdma330.a, or ../lib/libdma330.a in a release; JOBS may say how many compilers
# run at once. A later run builds qemu-dma330 anew and keeps the rest. Nothing outside FOLDER changes.
set -eu
here=$(cd "$(dirname "$0")" && pwd)
# shellcheck source=common.sh
. "$here/common.sh"

usage="usage: build.sh [--qemu 7.2|10.0] [FOLDER]"
series=
if [ "${1:-}" = --qemu ]; then
    series=${2:-none}
    shift
    [ $# -eq 0 ] || shift
fi
case $series in
    '' | 7.2 | 10.0) ;;
    *) fail "$usage" ;;
esac
case ${1:-} in
    -*) fail "$usage" ;;
esac
[ $# -le 1 ] || fail "$usage"

built=$here/../out/libdma330.a
[ -f "$built" ] || [ ! -f "$here/../lib/libdma330.a" ] || built=$here/../lib/libdma330.a
lib=$(realpath -m "${LIB:-$built}")
jobs=${JOBS:-$(nproc)}
mkdir -p "${1:-.}"
cd "${1:-.}"
[ -f "$lib" ] || fail "$lib is missing: \`make library\` builds it, or LIB names it"

# ---- which QEMU ----

# hint: prints how apt gets source packages
hint() {
    sources=/etc/apt/sources.list.d/debian.sources
    echo "apt has no source package of QEMU ${series:-7.2 or 10.0}. A mirror of Debian has 7.2 in bookworm, and 10.0 in"
    echo "trixie and bookworm-backports. A copy of apt's sources, in which Suites may be changed, adds the packages:"
    if [ -f "$sources" ]; then
        echo "    sed 's/^Types:.*/Types: deb-src/' $sources >${sources%/*}/debian-src.sources"
    else
        echo "    sed -n 's/^deb /deb-src /p' /etc/apt/sources.list >${sources%/*}/debian-src.list"
    fi
    echo "    apt-get update"
}

if [ -d source ]; then
    found=$(cut -d . -f 1,2 source/VERSION)
    [ "${series:-$found}" = "$found" ] || fail "$PWD has QEMU $found already: take another folder for $series"
    series=$found
else
    versions=$(apt-cache showsrc qemu 2>/dev/null | sed -n 's/^Version: //p' | sort -V)
    for it in ${series:-7.2 10.0}; do
        version=$(printf '%s\n' "$versions" | grep "^1:${it}[.+]" | tail -n 1) || true
        [ -z "$version" ] || break
    done
    [ -n "$version" ] || fail "$(hint)"
    series=$it
fi
need "$series"
if ! [ -d source ]; then
    rm -rf part
    mkdir part
    (cd part && apt-get source "qemu=$version")
    mv part/qemu-[0-9]*/ source
    rm -r part
fi

# ---- the two programs ----

# Both are built from the same tree; the files that differ are kept as they came.
dma=source/hw/dma
for it in meson.build trace-events; do
    [ -f "$dma/$it.stock" ] || cp "$dma/$it" "$dma/$it.stock"
done

# build PROGRAM: builds the emulator from the tree as it is
build() {
    rm -f build/qemu-system-arm
    ninja -C build -j "$jobs" qemu-system-arm
    cp build/qemu-system-arm "$1"
}

if ! [ -f qemu-stock ]; then
    for it in ARM_V7M EXYNOS4 SPLIT_IRQ UNIMP ZYNQ; do
        echo "CONFIG_$it=y"
    done >source/configs/devices/arm-softmmu/dma330.mak
    for it in meson.build trace-events; do
        cp "$dma/$it.stock" "$dma/$it"
    done
    mkdir -p build
    # (Debian's meson belongs to Debian's python, and another python may be first in PATH)
    (cd build && PATH=/usr/bin:$PATH ../source/configure --target-list=arm-softmmu --without-default-features \
        --without-default-devices --with-devices-arm=dma330 --enable-system --enable-tcg --enable-fdt=system \
        --disable-debug-info --disable-install-blobs)
    build qemu-stock
fi

cp "$here/dma330.c" "$here/../include/dma330.h" "$dma/"
cp "$lib" "$dma/libdma330.a"
device="[files('dma330.c'), declare_dependency(link_args: meson.current_source_dir() / 'libdma330.a')]"
sed "s|files('pl330.c')|$device|" "$dma/meson.build.stock" >"$dma/meson.build"
grep -v '^\(# \)\?pl330[_.]' "$dma/trace-events.stock" | cat - "$here/trace-events" >"$dma/trace-events"
build qemu-dma330
echo "built $PWD/qemu-stock and $PWD/qemu-dma330 from QEMU $(cat source/VERSION)"
