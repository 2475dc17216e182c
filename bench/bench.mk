# The benchmark, to be included by the Makefile, which says how the archive is built.
LANYARDROVE_ARCHIVE ?= build/liblanyardrove.a
BENCH_ARCHIVE = build/librdp_bench.a
BENCH_ENVIRONMENT = LANYARDROVE_LIB=$(abspath $(dir $(LANYARDROVE_ARCHIVE))) LANYARDROVE_BENCH_LIB=$(abspath $(dir $(BENCH_ARCHIVE)))

.PHONY: bench bench-test

# The registers after a list as one number, which cross no function of the library: proved too, and linked into the benchmark alone.
$(BENCH_ARCHIVE): $(SOURCES)
	cd crates/rdp_bench && rt lib
	mkdir -p build
	cp crates/rdp_bench/out/librdp_bench.a $@

# Measures the library beside the independent Rust version and the plain C version, all built for release, and prints a table (about five seconds).
# ROWS=translate measures only the rows whose names hold it.
# Both archives rest on the same crates: under make -j the second rt waits in these for the first.
bench: $(LANYARDROVE_ARCHIVE) $(BENCH_ARCHIVE)
	$(BENCH_ENVIRONMENT) cargo run --quiet -j1 --manifest-path reference/Cargo.toml --release --features bench --bin bench -- $(ROWS)

# Compares the plain C version with the independent version on random cases, and the registers of all three.
bench-test: $(BENCH_ARCHIVE)
	$(BENCH_ENVIRONMENT) cargo test --quiet -j1 --manifest-path reference/Cargo.toml --features registers --test plain --test plain_registers
