# The part of test_library that compares the library with what its releases had. tests/c/abi has a list for each of
# them, which tests/c/abi/list has made: what programs rely on in the headers. A program for one of them works with all
# later versions of the same MAJOR, so each line of a list is still there. The list of this version itself, if there is
# one, has all.

abi=$full/abi

# abi_kept VERSION: counts what a version had and this one has
abi_kept() {
    awk -f tests/c/abi/compare.awk "$abi/archive" "$abi/shared" "$abi/today.txt" "tests/c/abi/$1.txt"
}

# abi_lists: makes the list of today's headers and those of the names that archive and shared library export; succeeds
# if it is the list of this version, or this version has none
abi_lists() {
    make --no-print-directory install-library LIB="$LIB" DESTDIR= PREFIX="$abi" &&
        nm -g --defined-only "$LIB" | awk 'NF == 3 {print $3}' >"$abi/archive" &&
        nm -D --defined-only "$abi/lib/libdma330.so" | awk '{print $3}' >"$abi/shared" &&
        tests/c/abi/list include >"$abi/today.txt" || return 1
    version=$(awk '/^#define DMA330_VERSION_(MAJOR|MINOR|PATCH) / {v = v dot $3; dot = "."} END {print v}' include/dma330.h)
    [ ! -f "tests/c/abi/$version.txt" ] || grep -v '^#' "tests/c/abi/$version.txt" | diff - "$abi/today.txt"
}

if has make && has nm; then
    mkdir -p "$abi"
    try "lists of what headers and libraries have" abi_lists
    for it in tests/c/abi/*.txt; do
        it=$(basename "$it" .txt)
        count "what $it had" "$last_line" abi_kept "$it"
    done
else
    echo "there is no make or no nm: the comparisons with other versions are left out"
fi
