SHELL := /bin/bash
.SHELLFLAGS := -euo pipefail -c
.DEFAULT_GOAL := help
.PHONY: help run lib test quick trials bench

help:
	@echo 'make run     the programs on the sample register (sample/): its union written, its answers drawn, and why one of them is there'
	@echo 'make lib     target/lib: libtakwishan.a, takwishan.h, takwishan.pc, for C and Rust'
	@echo 'make test    the gate: every proof, every must-fail edit, every test (what passed before on this machine is proved no second time)'
	@echo 'make quick   what changed since the last landing (origin/main, or BASE=..) and the crates above it'
	@echo 'make trials  the library against a second implementation (SEED=5 CASES=200000)'
	@echo 'make bench   how fast sheets are read, unions checked and written, and answers drawn (docs/BENCHMARKS.md)'
	@echo
	@echo 'All but help prove first what is not proved yet, which takes long the first time.'

# the programs read their files from the folder that they are run in; why 22 is on the list, and which rules put it there, is said by an
# example of the wrapper, over the library
run:
	@tools/program write_union takwishan
	@tools/lib > /dev/null
	@cd sample && ../target/bin/write_union | cmp - union.bin && echo 'the union that is written is union.bin'
	@cd sample && ../target/bin/takwishan
	@cargo run --quiet --offline --manifest-path rust/Cargo.toml --example why -- sample 22 1=cabinet 2=pump 3=paddle 4=crank 5=drive

lib:
	@tools/lib

test:
	@tools/gate

quick:
	@tools/quick

# a seed, and how many cases
SEED ?= 20070713
CASES ?= 24000
trials:
	@tools/lib
	@cargo run --release --quiet --offline --manifest-path tests/trials/Cargo.toml -- $(SEED) $(CASES)

bench:
	@tools/lib
	@tools/prove bench_lib
	@cargo run --release --quiet --offline --manifest-path bench/Cargo.toml
	@cargo run --release --quiet --offline --manifest-path bench/drawing/Cargo.toml
