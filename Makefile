# Commands that are no tests; the tests are .ci/run.

.PHONY: bench bench-page

# Times the reader and the compiler beside the Rust, and the image checker; draws docs/bench.png and writes docs/BENCH.md.
# Wants x86-64, the Rust's sources (RUST_SRC, see tests/rust/README.md), cargo, and Debian's python3 and gnuplot-nox.
bench:
	mkdir -p target/bench
	for what in trees compile images; do tests/rust/bench $$what >target/bench/$$what.txt || rm target/bench/$$what.txt; done
	tools/bench_page target/bench

# The page and the plot anew from the last run.
bench-page:
	tools/bench_page target/bench
