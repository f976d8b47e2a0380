# The part of test_library that tests the module for Python (bindings/python/), over a shared library made of this
# archive.

# is_for_python FILE: succeeds if a library is for the processor of python3
is_for_python() {
    python3 -c '
import os, sys
processors = {open(it, "rb").read(20)[18:] for it in (sys.argv[1], os.path.realpath(sys.executable))}
sys.exit(len(processors) > 1)' "$1"
}

# in_python: runs the tests of the module with this shared library, and prints what they leave out
in_python() {
    make_it "the shared library for Python" shared_library "$out/libdma330.so.1" || return 0
    if ! is_for_python "$out/libdma330.so.1"; then
        echo "python3 is for another processor than the library: the tests of the module for Python are left out"
        return
    fi
    count "Python" "$last_line" env "DMA330_SO=$full/libdma330.so.1" PYTHONDONTWRITEBYTECODE=1 \
        python3 bindings/python/tests
    grep ' left out$' "$log"
}

if ! has python3; then
    echo "there is no python3: the tests of the module for Python are left out"
elif ! has "$CC"; then
    echo "there is no C compiler $CC, which links the shared library: the tests of the module for Python are left out"
else
    in_python
fi
