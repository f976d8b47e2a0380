# The part of test_library that tests what `make install` installs.

prefix=$full/prefix

# install_in WORD..: calls `make install` with this archive
install_in() {
    make --no-print-directory install-library LIB="$LIB" "$@"
}

# flags PREFIX: prints the flags in the dma330.pc that is installed there, with pkg-config if there is one
flags() {
    pcfiledir=$1/lib/pkgconfig
    if has pkg-config; then
        PKG_CONFIG_PATH=$pcfiledir pkg-config --cflags --libs dma330
    else
        # dma330.pc writes a variable as a shell does
        (eval "$(sed -n '/^[a-z]*=/p; s/^\(Cflags\|Libs\): \(.*\)/echo \2/p' "$pcfiledir/dma330.pc")")
    fi
}

# installed: succeeds if the README's program builds and runs with the installed files
installed() {
    install_in DESTDIR= PREFIX="$prefix" && readme $(flags "$prefix")
}

# shared: succeeds if it does with the shared library, which exports the names that the header declares, and no others
shared() {
    readme "-I$prefix/include" "-L$prefix/lib" -ldma330 "-Wl,-rpath,$prefix/lib" &&
        nm -D --undefined-only "$out/readme" | grep -q ' dma330_device_step$' || return 1
    nm -D --defined-only "$prefix/lib/libdma330.so.1" | awk '{print $3}' | sort | diff - "$out/declared"
}

# with_cmake: succeeds if CMake finds both libraries, and the README's program runs with each
with_cmake() {
    mkdir -p "$out/cmake"
    cat >"$out/cmake/CMakeLists.txt" <<'END'
cmake_minimum_required(VERSION 3.13)
project(readme C)
find_package(dma330 1.0 REQUIRED)
foreach(it dma330 shared)
  add_executable(with_${it} ../readme.c)
  target_link_libraries(with_${it} dma330::${it})
endforeach()
END
    readme_program
    cmake -S "$out/cmake" -B "$out/cmake/build" -DCMAKE_PREFIX_PATH="$prefix" && cmake --build "$out/cmake/build" &&
        "$out/cmake/build/with_dma330" && "$out/cmake/build/with_shared"
}

# calls_on PAGE..: prints the calls that manual pages declare
calls_on() {
    sed -n 's/^\.B "[a-z0-9_]* \(dma330_[a-z_]*\)(.*/\1/p' "$@" | sort
}

# pages: succeeds if groff formats the manual pages without a warning, dma330(3) has each call, and each has its own
pages() {
    calls=$prefix/share/man/man3
    [ -z "$(groff -man -ww -z -Tascii "$prefix"/share/man/man*/* 2>&1)" ] &&
        calls_on "$calls/dma330.3" | diff - "$out/declared" &&
        calls_on "$calls"/dma330_*.3 | diff - "$out/declared" &&
        (cd "$calls" && ls dma330_*.3) | sed 's/\.3$//' | sort | diff - "$out/declared"
}

# uninstalled: succeeds if `make uninstall` leaves no file
uninstalled() {
    make --no-print-directory uninstall-library DESTDIR= PREFIX="$prefix" && [ -z "$(find "$prefix" ! -type d)" ]
}

# staged: succeeds if DESTDIR is put in front of the paths of the installed files, all users can read them whatever the
# umask, no path of it or of the prefix is in a file, and the README's program builds and runs with the files where they
# are
staged() {
    at=$full/staged
    (umask 077 && install_in PREFIX=/opt/dma330 DESTDIR="$at") && [ -z "$(find "$at" ! -type l ! -perm -044)" ] &&
        [ -z "$(find "$at" -type d ! -perm -011)" ] && diff -r include "$at/opt/dma330/include" &&
        cmp "$LIB" "$at/opt/dma330/lib/libdma330.a" && ! grep -r -e "$out" -e /opt/dma330 "$at" &&
        readme $(flags "$at/opt/dma330")
}

# installs: tests what is installed, as far as there are the commands for it
installs() {
    try "make install" installed
    has nm && try "the shared library" shared
    if has cmake; then
        try "the files for CMake" with_cmake
    else
        echo "there is no cmake: the test of the files for CMake is left out"
    fi
    has groff && try "the manual pages" pages
    try "make uninstall" uninstalled
    try "make install with DESTDIR" staged
}
