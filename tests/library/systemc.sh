# The part of test_library that tests the module for SystemC.

# has_systemc: succeeds if the compiler finds SystemC
has_systemc() {
    echo '#include <tlm>' | $CXX -x c++ -std=c++17 -E - >/dev/null 2>&1 &&
        [ -e "$($CXX -print-file-name=libsystemc.so)" ]
}

# systemc_program FILE FLAG..: builds a program of bindings/systemc/ without a warning, and counts what it expects
systemc_program() {
    file=bindings/systemc/$1
    shift
    make_it $file $CXX "$@" $warnings -o "$out/with_systemc" $file "$LIB" -lsystemc &&
        count $file "$last_line" "$out/with_systemc"
}

# with_systemc: tests the module, with sanitizers if the compiler has them
with_systemc() {
    if ! has_systemc; then
        echo "there is no SystemC (libsystemc-dev): the tests of bindings/systemc/dma330_tlm.h are left out"
        return
    fi
    warnings="-pedantic -Wall -Wextra -Werror -Iinclude -Ibindings/systemc"
    try "bindings/systemc/dma330_tlm.h in C++11" $CXX -x c++ -std=c++11 $warnings -fsyntax-only \
        bindings/systemc/dma330_tlm.h
    systemc_program platform.cpp -std=c++17 -O0
    # (those that are left out take half of the compiler's time)
    checks="-fsanitize=address,undefined -fno-sanitize=null,vptr,alignment,object-size -fno-sanitize-recover=all"
    if [ "${SANITIZERS:-}" = no ]; then
        checks=
    elif ! { $CXX $checks -o "$out/probe" -x c++ "$probe" && "$out/probe"; } >/dev/null 2>&1; then
        checks=
        echo "$CXX has no address and undefined-behaviour sanitizers: bindings/systemc/tests under them are left out"
    fi
    systemc_program tests/tests.cpp -std=c++17 -O0 $checks
}
