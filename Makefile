# `make read` reads scripts: the examples, or `make read SCRIPTS=FILES`. `make archives` writes the static libraries that a host in C links.
# `make bench` prints the tables of docs/SPEED.md; `make speed` puts them there.
.PHONY: read archives bench speed

SCRIPTS ?= examples/*.gr

# Cargo shows nothing of a build script while it runs, and the first one proves for minutes. So the toolchain proves before it, with a line for
# each function. Status 1 says that a script has mistakes, as one of the examples has on purpose: make is not to call that a failure.
read:
	cd crates/reader_c && rt check
	cd crates/pair && rt check
	@echo "Cargo makes the archives, unless they are kept: about a minute without a line."
	cargo build --release --offline -p kettleplume
	@cargo run --quiet --release --offline -p kettleplume -- read $(SCRIPTS) || [ $$? -eq 1 ]

archives:
	cd crates/reader_c && rt lib
	cd crates/pair && rt lib
	mkdir -p target/staticlib
	cp crates/reader_c/out/libreader_c.a target/staticlib/libreader.a
	cp crates/pair/out/libpair.a target/staticlib/libpair.a

bench:
	cargo run --release --offline -p bench

speed:
	cargo run --release --offline -p bench -- --into docs/SPEED.md
