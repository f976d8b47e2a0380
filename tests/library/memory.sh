# The part of test_library that measures memory: the stack that each call takes, with the archive and with a shared
# library, and what the history of a controller takes. For the stack the functions of the C library are bound at their
# first calls, which takes the most: the dynamic linker then runs below the call that calls them.

stack=$full/stack

# stack_with NAME FLAG..: counts the calls that take no more stack than stack.c allows, in a program with these flags
stack_with() {
    name=$1
    shift
    make_it "$name" $CC $c_flags -o "$stack/stack" tests/c/stack.c "$@" -Wl,-z,lazy &&
        count "$name" "$last_line" env -u LD_BIND_NOW "$stack/stack"
}

mkdir -p "$stack"
stack_with "stack of the calls" "$LIB"
make_it "the shared library with lazy binding" shared_library "$stack/libdma330.so.1" -Wl,-z,lazy &&
    stack_with "stack of the calls of the shared library" "$stack/libdma330.so.1" "-Wl,-rpath,$stack"
make_it "history.c" $CC $c_flags -o "$stack/history" tests/c/history.c -Wl,--wrap=malloc,--wrap=realloc,--wrap=free \
    "$LIB" && count "history.c" "$last_line" "$stack/history"
