# Builds and tests the library for C and other languages, installs it and the programs, makes releases, and builds the
# pages of the API:
#
#     make library                builds out/libdma330.a, the library and the kit's heap over malloc, if a source has
#                                 changed
#     make check                  does the same, then builds and runs all tests of the library. The last line counts
#                                 them (but `make -C` adds a line unless it has --no-print-directory).
#     make install PREFIX=..      installs the programs, the library for C as archive and as shared library, its header,
#                                 files for pkg-config and CMake, manual pages, and in share/dma330 documents, examples,
#                                 harness, and what is for other languages and QEMU. It proves and builds nothing.
#     make uninstall PREFIX=..    removes them
#     make install-library        does as install, make uninstall-library as uninstall, without the programs
#     make doc                    builds the pages of the Rust crates and of the header, in out/doc
#     make dist TARGET=..         makes a release for x86_64-linux or aarch64-linux of what is proved, in release/out
#     make bench                  builds out/bench, which bench/measure times
#     make clean                  removes out/, which has what these build
#
# PREFIX is /usr/local if it isn't given, and begins where make was called if it is relative. DESTDIR is put before it.
# The library needs a C compiler and rt, its tests in Rust need cargo. `make LIB=..` takes an archive that is already
# built; a relative LIB begins in this folder. Without rt, an existing out/libdma330.a is used as it is.

CARGO ?= cargo
PREFIX = /usr/local
KIT := $(patsubst %/START-HERE.md,%,$(shell rt doc 2>/dev/null))
PROVED = crates/dma_ffi/out/libdma_ffi.a
LIB = out/libdma330.a
# (an archive that make was told of)
GIVEN = $(if $(filter file,$(origin LIB)),,$(abspath $(LIB)))
# (make -C changes the folder, and not the variable PWD)
ROOT = $(if $(filter /%,$(PREFIX)),$(PREFIX),$(PWD)/$(PREFIX))

help:
	@sed -n '/^$$/q; s/^# \{0,1\}//p' Makefile

check:
	@$(MAKE) --no-print-directory library || { echo '0 passed, 1 failed'; exit 1; }
	@CC='$(CC)' CXX='$(CXX)' CARGO='$(CARGO)' LIB='$(abspath $(LIB))' tests/test_library

library: $(LIB)
	@:

ifeq ($(origin LIB), file)
ifneq ($(KIT),)
$(PROVED): FORCE
	@./prove --is-built dma_ffi >/dev/null || ./prove dma_ffi

# Merged each time, and replaced only if the result differs: what links it then stays as it is. (Its name has the number
# of a process, since two makes may run at once.)
$(LIB): $(PROVED) FORCE
	@mkdir -p out
	@new=$@.$$$$; \
		printf "CREATE $$new\nADDLIB $<\nADDLIB $(KIT)/c/liblibc_c.a\nSAVE\nEND\n" | $(AR) -M && \
		if cmp -s $$new $@; then rm $$new; else mv $$new $@; fi
else
$(LIB):
	@echo '$@ and the command rt, which builds it, are missing: see "Set up" in README.md' >&2; exit 1
endif
endif

install uninstall install-library uninstall-library:
	$(if $(strip $(PREFIX)),,$(error PREFIX is empty: give a folder, or leave it out for /usr/local))
	@PREFIX='$(ROOT)' DESTDIR='$(DESTDIR)' LIB='$(GIVEN)' CC='$(CC)' AR='$(AR)' AS_BUILT='$(AS_BUILT)' \
		release/install/install.sh $(subst -, ,$@)

doc:
	@CARGO='$(CARGO)' tools/pages/build.sh

dist:
	@release/dist $(TARGET)

bench: out/bench

out/bench: bench/bench.c include/dma330.h $(LIB)
	@mkdir -p out
	$(CC) -std=c99 -O2 -Wall -Wextra -Iinclude -o $@ bench/bench.c $(LIB)

clean:
	rm -rf out

.PHONY: help check library install uninstall install-library uninstall-library doc dist bench clean FORCE
