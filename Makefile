# make example: builds ringlist and lists the rings of cubane.
# make test: the layout, the layers, the style, docs/SPEC.md and the edits; the verdict of the prover over every crate; then the C and Rust
# tests. Its last line is the verdict's.
# make tests: the same without the verdict.
# make bench: ring listings through the host entry against listers in Rust; what it costs to go on from a mark; then reading a full bond sheet and molfiles.

.PHONY: example test tests checks verdict programs libraries bench
.NOTPARALLEL:

example:
	cd crates/ringlist && rt run <../../examples/cubane.sheet

# The verdict leaves the programs as it proved and built them; the static libraries are built here, as the tests link them.
test: checks verdict libraries
	tests/run_tests.sh
	@grep "^[0-9]* passed, [0-9]* failed" target/verdict

tests: checks programs libraries
	tests/run_tests.sh

checks:
	@tests/tools.sh
	rt version
	python3 -B tests/layout.py
	python3 -B tests/layout_test.py
	python3 -B tests/style.py
	python3 -B tests/spec.py
	python3 -B tests/spec_test.py
	python3 -B tests/edits.py

verdict:
	tests/verdict.sh

programs:
	cd crates/ringlist && rt run </dev/null >/dev/null
	cd crates/molrings && rt run </dev/null >/dev/null

libraries:
	cd crates/flat && rt lib
	cd crates/host && rt lib

bench: libraries
	@tests/tools.sh
	cd tests/rust && CARGO_TARGET_DIR=../../target/tests/cargo cargo run --release --offline --quiet --bin bench_host
	cd tests/rust && CARGO_TARGET_DIR=../../target/tests/cargo cargo run --release --offline --quiet --bin bench_sheet
	cd tests/rust && CARGO_TARGET_DIR=../../target/tests/cargo cargo run --release --offline --quiet --bin bench_molfile
