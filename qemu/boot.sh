#!/bin/sh
# Boots Linux in the two emulators that build.sh has built, and compares their PL330:
#
#     ./boot.sh [--migrate N] [--firmware] [--exynos] [--replay] [FOLDER]
#
# FOLDER is that of build.sh, the current one if none is given; its path has no spaces or colons. Linux is Debian's
# linux-source-6.1 with its driver pl330 and its test dmatest; it is built once. The tests copy 1,600 times at random on
# eight channels, and 64 times 1 MiB on one. With --migrate, a third machine is moved to a new process N times while
# qemu-dma330 makes 4,000 N copies. With --firmware, guests/firmware.c runs before Linux, and leaves event 0 of the
# controller set. Then Linux copies 8 times on one channel, so that it clears the event, and 400 times on eight. With
# --exynos, the machine smdkc210, with two processors, makes 2,400 copies on 24 channels, and programs use two SPI buses
# whose requests the device doesn't serve. With --replay, a run with -icount is recorded and replayed: the consoles must
# be the same. A machine is ended if its console is silent for a minute of its processor time, or for ten minutes, and
# counts as a failure. The consoles are in FOLDER/*.log. The status is 0 only if nothing failed on qemu-dma330; failures
# of qemu-stock are only reported.
set -eu
here=$(cd "$(dirname "$0")" && pwd)
# shellcheck source=common.sh
. "$here/common.sh"

usage="usage: boot.sh [--migrate N] [--firmware] [--exynos] [--replay] [FOLDER]"
migrations=0
firmware=
exynos=
replay=
while [ $# -gt 0 ]; do
    case $1 in
        --migrate)
            migrations=${2:-none}
            [ $# -eq 1 ] || shift
            ;;
        --firmware) firmware=1 ;;
        --exynos) exynos=1 ;;
        --replay) replay=1 ;;
        *) break ;;
    esac
    shift
done
case $migrations in
    *[!0-9]*) fail "$usage" ;;
esac
case ${1:-} in
    -*) fail "$usage" ;;
esac
[ $# -le 1 ] || fail "$usage"
enter "${1:-.}"

# ---- Linux, and its root with one program ----

# One Linux for both machines. Without SMP it would tick by the global timer of QEMU's Cortex-A9, which loses a tick,
# and so hangs, if QEMU is late.
options="MMU ARCH_MULTI_V7 ARCH_ZYNQ AEABI VFP PRINTK TTY SERIAL_XILINX_PS_UART SERIAL_XILINX_PS_UART_CONSOLE
    BLK_DEV_INITRD BINFMT_ELF SYSFS MULTIUSER POSIX_TIMERS HIGH_RES_TIMERS COMPAT_32BIT_TIME
    DMADEVICES PL330_DMA DMATEST SMP
    ARCH_EXYNOS ARCH_EXYNOS4 CPU_EXYNOS4210 SERIAL_SAMSUNG SERIAL_SAMSUNG_CONSOLE CLKSRC_EXYNOS_MCT SUSPEND
    CADENCE_TTC_TIMER ARM_GLOBAL_TIMER POWER_RESET POWER_RESET_SYSCON REGULATOR REGULATOR_FIXED_VOLTAGE PM HOTPLUG_CPU
    PM_GENERIC_DOMAINS SPI SPI_S3C64XX SPI_SPIDEV"
if ! [ -f zImage ]; then
    [ -d linux-source-6.1 ] || {
        rm -rf part
        mkdir part
        tar -C part -xf /usr/src/linux-source-6.1.tar.xz
        mv part/linux-source-6.1 .
    }
    for it in $options; do
        echo "CONFIG_$it=y"
    done >linux.config
    make="make -C linux-source-6.1 O=$PWD/linux ARCH=arm CROSS_COMPILE=arm-linux-gnueabihf-"
    $make KCONFIG_ALLCONFIG="$PWD/linux.config" allnoconfig
    grep -vxFf linux/.config linux.config && fail "linux-source-6.1 doesn't have these options"
    $make -j"${JOBS:-$(nproc)}" zImage zynq-zc702.dtb
    # (with -icount QEMU's model of the timer cdns,ttc may set itself to the present time for ever)
    dtc="linux/scripts/dtc/dtc -q"
    $dtc -I dtb -O dts linux/arch/arm/boot/dts/zynq-zc702.dtb |
        sed 's/compatible = "cdns,ttc";/& status = "disabled";/' | $dtc -I dts -O dtb -o zynq-zc702.dtb -
    (cd linux-source-6.1 && arm-linux-gnueabihf-gcc -E -nostdinc -undef -D__DTS__ -x assembler-with-cpp \
        -I arch/arm/boot/dts -I include "$here/exynos.dts") | $dtc -I dts -O dtb -o exynos.dtb -
    cp linux/usr/gen_init_cpio linux/arch/arm/boot/zImage .
fi
arm-linux-gnueabihf-gcc -static -O2 -Wall -o init "$here/init.c"
./gen_init_cpio - >root.cpio <<END
dir /dev 755 0 0
nod /dev/console 600 0 0 c 5 1
nod /dev/kmsg 600 0 0 c 1 11
nod /dev/spi0 600 0 0 c 153 0
nod /dev/spi2 600 0 0 c 153 1
dir /sys 755 0 0
file /init init 755 0 0
END

# ---- the machines ----

# count NAME: counts a failure, unless the machine is one of qemu-stock
count() {
    case $1 in
        *stock) ;;
        *) failed=$((failed + 1)) ;;
    esac
}

# start EMULATOR NAME TESTS OPTION..: starts a machine, on the board in $board, with the kernel in $kernel; its console
# is in NAME.log, its monitor reads from descriptor 3
start() {
    emulator=$1 name=$2 tests=$3
    shift 3
    case $board in
        zynq) set -- -M xilinx-zynq-a9 -m 256M -dtb zynq-zc702.dtb -serial null "$@" ;;
        exynos) set -- -M smdkc210 -smp 2 -dtb exynos.dtb "$@" ;;
    esac
    case $board in
        zynq) tty=ttyPS0 ;;
        exynos) tty="ttySAC0,115200n8 off=1" ;; # QEMU's machine has no reset by Linux
    esac
    rm -f monitor
    mkfifo monitor
    "./$emulator" -display none -no-reboot -monitor stdio \
        -chardev "file,id=console,path=$name.log,append=on" "$@" -serial chardev:console \
        -kernel "$kernel" -initrd root.cpio -append "console=$tty $tests" <monitor >>monitor.log 2>&1 &
    pid=$!
    exec 3>monitor
    size=0
    since=$(date +%s)
    from=0
}

# runs: waits a moment, and succeeds if the machine still runs; ends it if its console is silent for too long
runs() {
    sleep 0.2
    kill -0 "$pid" 2>/dev/null || return 1
    # shellcheck disable=SC2046 # the 14th and 15th word are the processor time of the process
    set -- $(cat "/proc/$pid/stat" 2>/dev/null)
    [ $# -ge 15 ] || return 1
    was=$size now=$(date +%s) spent=$(((${14} + ${15}) / ticks))
    size=$(stat -c %s "$name.log" 2>/dev/null || echo 0)
    [ "$size" -eq "$was" ] || since=$now from=$spent
    [ $((now - since)) -ge 600 ] || [ $((spent - from)) -ge 60 ] || return 0
    echo "$name: no output for $((now - since)) s, of which it ran for $((spent - from)) s: the machine hangs"
    count "$name"
    kill -s KILL "$pid"
    return 1
}

# finish: waits for the machine to end
finish() {
    while runs; do
        :
    done
    wait "$pid" || true
    pid=
}

# boot EMULATOR NAME TESTS OPTION..: starts a machine, waits for its end, and writes NAME.summaries
boot() {
    rm -f "$2.log"
    start "$@"
    finish
    summaries "$name" >"$name.summaries"
}

# move NAME TESTS: moves the machine to a new process and counts that; ends the new one if the guest has ended before
move() {
    old=$pid
    rm -f state
    mkfifo state
    exec 4>&3
    start qemu-dma330 "$1" "$2" -incoming "exec:cat state"
    # (so that all that is left is sent once the processor stands: QEMU 7.2 may lose what it writes before)
    printf 'migrate_set_parameter downtime-limit 60000\nmigrate "exec:cat >state"\ninfo migrate\nquit\n' >&4 || true
    exec 4>&-
    wait "$old" || true
    old=
    if [ "$(grep -c 'Migration status: completed' monitor.log)" -gt "$moved" ]; then
        moved=$((moved + 1))
    else
        kill "$pid"
        finish
    fi
}

# summaries NAME: prints the test, channel, tests, failures and KB/s of each of dmatest's summaries
summaries() {
    tr -d '\r' <"$1.log" | sed 's/^\[ *[0-9.]*\] //' | awk '
        /^init: .* begins/ {test = $2}
        /^dmatest: .* summary/ {sub(/-.*/, "", $2); print test "-" $2, $4, $6, $(NF - 2)}' | sort
}

# compare NAME NAME: prints the summaries of two machines side by side
compare() {
    echo "dmatest's tests, failures and KB/s: $1, $2"
    join "$1.summaries" "$2.summaries" |
        awk '{printf "%-18s %6d %3d %7d %9d %3d %7d\n", $1, $2, $3, $4, $5, $6, $7}'
}

# check NAME COPIES: counts a failure unless as many copies passed, and none failed
check() {
    summaries "$1" | awk -v name="$1" -v wanted="$2" '
        {tests += $2; failures += $3}
        END {printf "%s: %d of %d copies, %d failures", name, tests, wanted, failures; exit tests != wanted || failures}
        ' || count "$1"
    tr -d '\r' <"$1.log" | awk '/^init: .* took/ {printf ", %s took %s s", $2, $4} END {print ""}'
}

pid=
old=
ticks=$(getconf CLK_TCK)
trap '' PIPE
trap 'exit 1' INT TERM
trap 'for it in $pid $old; do kill "$it"; done' EXIT
rm -f monitor.log
failed=0
board=zynq
kernel=zImage
for it in qemu-stock qemu-dma330; do
    boot "$it" "$it" "random=200 long=64"
done
compare qemu-stock qemu-dma330
check qemu-stock 1664
check qemu-dma330 1664

if [ "$migrations" -gt 0 ]; then
    tests="random=$((500 * migrations))"
    moved=0
    rm -f migrated.log
    start qemu-dma330 migrated "$tests"
    while runs && ! grep -qs '^init: random begins' migrated.log; do
        :
    done
    while [ "$moved" -lt "$migrations" ] && runs; do
        move migrated "$tests"
    done
    [ -z "$pid" ] || finish
    check migrated $((4000 * migrations))
    echo "migrated: $moved of $migrations migrations"
    [ "$moved" -eq "$migrations" ] || failed=$((failed + 1))
fi

if [ -n "$firmware" ]; then
    build_bare firmware.elf 0x00010000 "$here/guests/firmware.c" # where QEMU loads a kernel
    arm-linux-gnueabihf-objcopy -O binary firmware.elf firmware
    kernel=firmware
    tests="first=8 random=50"
    boot qemu-stock firmware-stock "$tests"
    # (a copy takes longer than Linux's work for it, so that all channels run at once; with -icount on any computer)
    boot qemu-dma330 firmware-dma330 "$tests" -icount shift=4 -global pl330.step-ns=10000
    kernel=zImage
    compare firmware-stock firmware-dma330
    for it in firmware-stock firmware-dma330; do
        check "$it" 408
        tr -d '\r' <"$it.log" | grep -qx 'firmware: leaves event 0 set' || {
            echo "$it: the firmware doesn't leave event 0 set"
            count "$it"
        }
    done
fi

if [ -n "$exynos" ]; then
    board=exynos
    for it in stock dma330; do
        boot "qemu-$it" "exynos-$it" "random=100"
    done
    compare exynos-stock exynos-dma330
    for it in exynos-stock exynos-dma330; do
        # with QEMU's own, the serial port takes two channels for itself
        channels=24
        [ "$it" = exynos-dma330 ] || channels=$(grep -c '^dmatest: Added 1 threads' "$it.log") || true
        check "$it" $((100 * channels))
        tr -d '\r' <"$it.log" >"$it.text"
        grep -qx 'init: 2 processors' "$it.text" || {
            echo "$it: Linux doesn't use two processors"
            count "$it"
        }
        echo "$it: $(sed -n 's/^init: \(spi.\) /\1 /p' "$it.text" | paste -s -d '|' | sed 's:|:, :')"
    done
    # Linux grants the requests 7 and 6 of spi0, since there are eight channels, and reports success though it has
    # started none; it refuses 9 and 8 of spi2
    for it in 'init: spi0 moves 1024 bytes' 'Invalid peripheral(7)' '13940000.spi: Failed to get RX DMA channel'; do
        grep -qF "$it" exynos-dma330.text || {
            echo "exynos-dma330: Linux doesn't print '$it'"
            count exynos-dma330
        }
    done
fi

if [ -n "$replay" ]; then
    board=zynq
    for it in record replay; do
        boot qemu-dma330 "$it" "random=50 long=16" -icount "shift=4,rr=$it,rrfile=replay.bin" -global pl330.step-ns=20
        check "$it" 416
    done
    if cmp record.log replay.log; then
        echo "replay: the consoles are the same"
    else
        failed=$((failed + 1))
    fi
fi
[ "$failed" -eq 0 ]
