#!/bin/sh
# Builds the pages of the API, without a warning: of the Rust crates by rustdoc, of dma330.h by doxygen. `make doc`
# calls it with the cargo to use (CARGO). If a command is missing, its pages are left out, and a line says so. The last
# line is 'N passed, M failed'.
set -u
cd "$(dirname "$0")/../.." || exit 2
mkdir -p out/doc
rust=$PWD/out/doc/rust
passed=0
failed=0

# build PAGE COMMAND..: runs a command that builds a page below out/, and prints where the page is or what went wrong
build() {
    page=$1
    shift
    if "$@" >out/doc/log 2>&1 && [ -f "out/$page" ]; then
        passed=$((passed + 1))
        echo "out/$page"
    else
        failed=$((failed + 1))
        cat out/doc/log
    fi
}

# rustdoc FOLDER: builds the pages of a crate alone, which links no library
rustdoc() {
    (cd "$1" && DOCS_RS=1 RUSTDOCFLAGS='-D warnings' ${CARGO:-cargo} doc --offline --no-deps --target-dir "$rust")
}

# header: builds the pages of dma330.h
header() {
    rm -rf out/doc/c
    (cd tools/pages && doxygen Doxyfile)
}

if ! command -v "${CARGO:-cargo}" >/dev/null 2>&1; then
    echo "there is no cargo: the pages of the Rust crates are left out"
else
    build doc/rust/doc/dma330/index.html rustdoc bindings/rust
    if ls -d /usr/share/cargo/registry/vm-memory-0.10.* >/dev/null 2>&1; then
        build doc/rust/doc/dma330_vm_memory/index.html rustdoc bindings/rust/vm-memory
    else
        echo "there is no librust-vm-memory-dev 0.10: the page of bindings/rust/vm-memory is left out"
    fi
fi
if command -v doxygen >/dev/null 2>&1; then
    build doc/c/index.html header
else
    echo "there is no doxygen: the page of dma330.h is left out"
fi
echo "$passed passed, $failed failed"
[ "$failed" -eq 0 ]
