# make        proves the library and writes build/liblanyardrove.a, for C and C++ on x86-64 Linux (some minutes on a fresh machine),
#             and build/lanyardrove, the command line tool
# make install PREFIX=/usr/local DESTDIR=   and make uninstall: library, header, tool, manual page
# make test   compiles each of tests/c against the archive, as C11 and as C++17, and runs them
# make compare   tests the second program, reference/, and runs 200,000 seeded cases through it and the archive
# make soak   the same with SOAK_CASES cases from SOAK_SEED on
# make registers   compares the registers after 246 lists, as the second program prints them, with crates/rdp_registers/stdout
# make clean  removes build/
# bench/bench.mk, fuzz/fuzz.mk and cli/cli.mk have further targets
CC = gcc
CXX = g++
WARNINGS = -Wall -Wextra -Werror

SOURCES = crates.txt $(shell find crates -name out -prune -o '(' -name '*.rt' -o -name '*.antt' ')' -print)
ARCHIVE = build/liblanyardrove.a
TESTS = boundary stack first_call

all: cli-libraries $(ARCHIVE) cli

# In a crate's folder rt proves the crate and the libraries that it rests on, over what it kept of them in out/, and makes out/libNAME.a.
$(ARCHIVE): $(SOURCES)
	@command -v rt > /dev/null || { echo 'The library is proved and built by the Rattle toolchain, whose command rt is not at hand' >&2; exit 1; }
	cd crates/lanyardrove && rt lib
	mkdir -p build
	cp crates/lanyardrove/out/liblanyardrove.a $@

# Names are looked up at their first call, as test_first_call.c measures it.
build/test_%_c: tests/c/test_%.c tests/c/own_stack.h include/lanyardrove.h $(ARCHIVE)
	$(CC) -std=c11 -pedantic $(WARNINGS) -O2 -Iinclude $< $(ARCHIVE) -Wl,-z,lazy -o $@

build/test_%_cpp: tests/c/test_%.c tests/c/own_stack.h include/lanyardrove.h $(ARCHIVE)
	$(CXX) -x c++ -std=c++17 $(WARNINGS) -O2 -Iinclude $< -x none $(ARCHIVE) -Wl,-z,lazy -o $@

TEST_PROGRAMS = $(foreach name,$(TESTS),build/test_$(name)_c build/test_$(name)_cpp)

test: $(TEST_PROGRAMS)
	set -e; for program in $(TEST_PROGRAMS); do $$program; done

COMPARE = LANYARDROVE_LIB=$(abspath build) cargo run --quiet --manifest-path reference/Cargo.toml --release --features compare --bin compare --
SOAK_SEED ?= 2
SOAK_CASES ?= 20000000

reference-test:
	cargo test --quiet --manifest-path reference/Cargo.toml

compare: $(ARCHIVE) reference-test
	$(COMPARE) 1 200000

soak: $(ARCHIVE)
	$(COMPARE) $(SOAK_SEED) $(SOAK_CASES)

registers:
	cargo run --quiet --manifest-path reference/Cargo.toml --bin registers | cmp - crates/rdp_registers/stdout

clean:
	rm -rf build

.PHONY: all test reference-test compare soak registers clean

include bench/bench.mk
include fuzz/fuzz.mk
include cli/cli.mk
