# shellcheck shell=sh
# What the scripts of this folder share; they read it by `.`.

# fail LINE..: prints the lines and ends
fail() {
    printf '%s\n' "$@" >&2
    exit 1
}

# missing PACKAGE..: prints those packages that aren't installed, each after a space
missing() {
    for it in "$@"; do
        dpkg-query -W -f '${Status}' "$it" 2>/dev/null | grep -q ' installed$' || printf ' %s' "$it"
    done
}

# need SERIES: ends unless all packages are installed with which the scripts build QEMU of this series, Linux and guests
need() {
    packages=$(missing dpkg-dev gcc ninja-build meson pkg-config python3 libglib2.0-dev libpixman-1-dev libfdt-dev \
        linux-source-6.1 gcc-arm-linux-gnueabihf libc6-dev-armhf-cross make bc bison flex xz-utils)
    [ "$1" != 10.0 ] || packages=$packages$(missing python3-venv)
    set -- "$1" ${packages:+"packages are missing: apt-get install --no-install-recommends$packages"}
    found=$(meson --version 2>/dev/null) || true
    if [ "$1" = 10.0 ] && [ "$(printf '1.5\n%s\n' "$found" | sort -V | head -n 1)" != 1.5 ]; then
        set -- "$@" "QEMU 10.0 needs meson 1.5 or later. Debian 12 has it, if its backports are in apt's lists:" \
            "    apt-get install -t bookworm-backports meson"
    fi
    shift
    [ $# -eq 0 ] || fail "$@"
}

# enter FOLDER: changes to a folder of build.sh, and ends unless it has the two emulators and the packages are installed
enter() {
    cd "$1" || exit
    for it in qemu-stock qemu-dma330; do
        [ -x "$it" ] || fail "$PWD has no $it: build.sh builds it"
    done
    need "$(cut -d . -f 1,2 source/VERSION)"
}

# build_bare PROGRAM START SOURCE FLAG..: builds a program without an operating system, for RAM from address START on
build_bare() {
    program=$1 at=$2 source=$3
    shift 3
    arm-linux-gnueabihf-gcc -marm -mcpu=cortex-a9 -mfpu=vfpv3-d16 -O1 -ffreestanding -fno-pic -no-pie -static \
        -nostdlib -nostartfiles -Wall -Wextra -Werror -Wno-array-bounds -Wl,-T,"${here:?}/guests/guest.lds" \
        -Wl,--defsym,start="$at" -Wl,--build-id=none -Wl,--no-warn-rwx-segments "$@" -o "$program" "$source" -lgcc
}
