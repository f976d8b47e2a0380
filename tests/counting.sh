# Counts checks, for the tests in sh, which read this file. `log` names the file that gets the output of a check.
passed=0
failed=0

# add NAME PASSED FAILED [FILE]: adds counts to the totals and prints them, and if a check failed the end of the output,
# which is in `log` or in another file
add() {
    passed=$((passed + $2))
    failed=$((failed + $3))
    echo "$1: $2 passed, $3 failed"
    [ "$3" -eq 0 ] || tail -n 60 "${4:-$log}" | sed 's/^/    /'
}

# try NAME COMMAND..: counts one check, which passes if the command succeeds
try() {
    name=$1
    shift
    if "$@" >"$log" 2>&1; then
        add "$name" 1 0
    else
        add "$name" 0 1
    fi
}

# add_last NAME [FILE]: adds the counts in the last line of the output. Adds one failure if that has none.
add_last() {
    set -- "$1" "${2:-$log}"
    set -- "$@" $(tail -n 1 "$2" | sed -n 's/^\([0-9][0-9]*\) passed, \([0-9][0-9]*\) failed$/\1 \2/p')
    [ "${3:-0}${4:-0}" -gt 0 ] || set -- "$1" "$2" 0 1
    add "$1" "$3" "$4" "$2"
}

# finish: prints the totals as the last line, and ends the test
finish() {
    echo "$passed passed, $failed failed"
    [ "$failed" -eq 0 ]
    exit
}
