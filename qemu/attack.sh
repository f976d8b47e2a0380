#!/bin/sh
# Runs guests that attack the PL330 on the two emulators that build.sh has built: ./attack.sh [--seeds N] [FOLDER]
#
# FOLDER is that of build.sh, the current one if none is given; its path has no spaces or colons. The guests are in
# guests/; the random one runs with the seeds 1 to N, 4 if none is given, on qemu-stock only with seed 1. A run fails if
# QEMU crashes, takes a minute of processor time or ten minutes, if a check of the guest fails, or if the guest finds
# that DMA reaches a register. Prints a line for each run, and at the end how many of those on qemu-dma330 passed and
# failed. The status is 0 if none failed. Runs on qemu-stock are only reported, and end after a minute. The consoles are
# in FOLDER/attack/.
set -eu
here=$(cd "$(dirname "$0")" && pwd)
# shellcheck source=common.sh
. "$here/common.sh"

usage="usage: attack.sh [--seeds N] [FOLDER]"
seeds=4
if [ "${1:-}" = --seeds ]; then
    seeds=${2:-none}
    shift
    [ $# -eq 0 ] || shift
fi
case $seeds in
    '' | *[!0-9]*) fail "$usage" ;;
esac
case ${1:-} in
    -*) fail "$usage" ;;
esac
[ $# -le 1 ] || fail "$usage"
enter "${1:-.}"
mkdir -p attack

# guest NAME SOURCE FLAG..: builds attack/NAME.elf, for the machine that run gives a guest of this name
guest() {
    name=$1 source=$here/guests/$2
    shift 2
    case $name in
        exynos*) build_bare "attack/$name.elf" 0x40100000 "$source" -DEXYNOS=1 "$@" ;;
        *) build_bare "attack/$name.elf" 0x00100000 "$source" -DEXYNOS=0 "$@" ;;
    esac
}

# verdict STATUS CONSOLE: prints why a run failed; prints nothing if it passed
verdict() {
    case $1 in
        0) ;;
        124 | 137) echo "QEMU runs for too long" && return ;;
        *) echo "QEMU ends with status $1" && return ;;
    esac
    grep -q '^guest: ends with ' "$2" || { echo "the guest ends early" && return; }
    sed -n 's/^guest: wrong: //p; s/^guest: \(DMA reaches\)/\1/p' "$2" | sort | uniq -c |
        awk '{n = $1; $1 = ""; printf("%s%s%s", sep, substr($0, 2), n == 1 ? "" : " (" n " times)"); sep = "; "}'
}

# run EMULATOR GUEST OPTION..: runs a guest, and prints and counts the result
run() {
    emulator=$1 name=$2 console=attack/$1-$2.log status=0 most=600
    shift 2
    [ "$emulator" = qemu-dma330 ] || most=60
    rm -f "$console"
    case $name in
        exynos*) set -- -M smdkc210 -smp 2 "$@" ;;
        *) set -- -M xilinx-zynq-a9 -m 256M "$@" ;;
    esac
    # (-serial null is the second port)
    prlimit --cpu=60 timeout -k 5 $most "./$emulator" -display none -no-reboot -monitor none -serial "file:$console" \
        -serial null -kernel "attack/$name.elf" "$@" </dev/null >"$console.qemu" 2>&1 ||
        status=$?
    why=$(touch "$console" && tr -d '\r' <"$console" >"$console.text" && mv "$console.text" "$console" &&
        verdict "$status" "$console")
    said=$(sed -n 's/^guest: \([0-9].* in .*\|stopped .*\|.*longest.*\)/\1/p' "$console" | paste -s -d '|' |
        sed 's/|/; /g')
    if [ "$emulator" = qemu-dma330 ]; then
        if [ -z "$why" ]; then passed=$((passed + 1)); else failed=$((failed + 1)); fi
    fi
    echo "$emulator $name: ${why:-passed}${said:+ ($said)}"
}

guest stores stores.c
guest latency latency.c
guest fixed latency.c -DFIXED=1
guest exynos latency.c
guest exynos-fixed latency.c -DFIXED=1
guest clock clock.c -DSTEP_NS=100
guest real-clock clock.c -DSTEP_NS=1000 -DEXACT=0
guest fuzz-1 fuzz.c -DSEED=1
n=0
fuzz=
while [ "$n" -lt "$seeds" ]; do
    n=$((n + 1))
    guest "fuzz-$n" fuzz.c -DSEED="$n"
    fuzz="$fuzz fuzz-$n"
done

passed=0
failed=0
for it in stores latency exynos fuzz-1; do
    run qemu-stock "$it"
done
for it in stores latency fixed exynos exynos-fixed $fuzz; do
    run qemu-dma330 "$it"
done
run qemu-dma330 clock -icount shift=0,sleep=off -global pl330.step-ns=100
run qemu-dma330 real-clock -global pl330.step-ns=1000
echo "$passed passed, $failed failed"
[ "$failed" -eq 0 ]
