# Compares what a version had with what there is now. It reads the names that the archive exports, those that the shared
# library exports, the list of today's headers, and that of the version. Each line of the latter is a check, and so is
# each name of its calls in the two libraries.

FNR == 1 {
    file++
}

function check(holds, what) {
    if (holds)
        passed++
    else {
        failed++
        print what
    }
}

file == 1 {in_archive[$1]; next}
file == 2 {in_shared[$1]; next}
file == 3 {today[$0]; next}
/^#/ {next}

{
    check($0 in today, "changed: " $0)
    if (/^call /) {
        name = $2
        sub(/:$/, "", name)
        check(name in in_archive, "the archive doesn't export " name)
        check(name in in_shared, "the shared library doesn't export " name)
    }
}

END {
    print passed + 0 " passed, " failed + 0 " failed"
}
