#!/bin/sh
# wrong_drivers.sh LIBRARY FOLDER: plants the mistakes of wrong_drivers.txt and planted_drivers.txt in drivers, one at a
# time, and checks that the kit says of each what the lists have. Builds in FOLDER with CC and FLAGS. The last line
# counts.
set -u
lib=$1
out=$2
passed=0
failed=0
mkdir -p "$out"

for it in harness/*.c; do
    $CC $FLAGS -c -o "$out/$(basename "$it" .c).o" "$it" || exit 1
done

# plant EDIT STATUS [WORDS]: succeeds if the kit has this status with the mistake in one of 20 seeds, or status 0 in all
# of them, and says these words in the line that begins with WRONG or with the program's name
plant() {
    status=none
    sed "$1" "$driver" >"$out/wrong.c" && ! cmp -s "$out/wrong.c" "$driver" || return 1
    $CC $FLAGS -w -O0 -o "$out/wrong" "$out/wrong.c" "$out"/harness*.o "$lib" || return 1
    seed=0
    status=0
    while [ "$status" -eq 0 ] && [ "$seed" -lt 20 ]; do
        seed=$((seed + 1))
        "$out/wrong" --seed "$seed" >"$out/printed" 2>&1
        status=$?
    done
    grep -e '^WRONG: ' -e "^$out/wrong: " "$out/printed"
    [ "$status" -eq "$2" ] && { [ $# -eq 2 ] || grep -e '^WRONG: ' -e "^$out/wrong: " "$out/printed" | grep -qF "$3"; }
}

# tried EDIT STATUS [WORDS]: counts whether it is so
tried() {
    echo "$name"
    if plant "$@"; then
        passed=$((passed + 1))
    else
        failed=$((failed + 1))
        echo "FAILED: $name: status $status, expected $2: ${3-nothing}"
    fi
}

# printed WORDS: counts whether the last program has printed these words
printed() {
    if grep -qF -- "$1" "$out/printed"; then
        passed=$((passed + 1))
    else
        failed=$((failed + 1))
        echo "FAILED: $name: doesn't print: $1"
    fi
}

for list in tests/c/wrong_drivers.txt tests/c/planted_drivers.txt; do
    while IFS= read -r line; do
        case "$line" in
            "driver: "*) driver=${line#driver: } ;;
            "wrong: "*) name=${line#wrong: } ;;
            "edit: "*) edit=${line#edit: } ;;
            "says: "*) tried "$edit" 1 "${line#says: }" ;;
            "refuses: "*) tried "$edit" 2 "${line#refuses: }" ;;
            "prints: "*) printed "${line#prints: }" ;;
            passes) tried "$edit" 0 ;;
        esac
    done <"$list"
done

echo "$passed passed, $failed failed"
[ "$failed" -eq 0 ]
