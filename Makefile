# `make help` lists what can be made.

# A recipe stops at the first command that fails, also where its output goes on into another.
SHELL := bash
.SHELLFLAGS := -eu -o pipefail -c

# How many arguments of each range `make differential` compares, how many histories of the builder,
# how many builders of any state, how many sets of UMI strings are drawn (as many again for other
# rates), and how many column files.
ARGUMENTS ?= 10000000
HISTORIES ?= 1000000
BUILDERS ?= 20000
SETS ?= 20000
FILES ?= 20000

# For how many minutes `make soak` goes on, and the seed of its first round.
MINUTES ?= 60
SEED ?= 1

# The file that `make run`, `make sums` and `make try` read. A recipe takes it from its environment, so that its
# name may have a space or a quote in it.
SAMPLE ?= samples/scope.col
export SAMPLE

# Where `make vectors` writes the stored list of the Rust's answers.
VECTORS ?= crates/replay/stdin

# Further words for `make bench`, as --markdown.
BENCH ?=

# The library that is compared is the one that `rt` has just written.
unexport EXPORTS_FOLDER

.DEFAULT_GOAL := help
.PHONY: help run sums try test check library install differential soak vectors bench fmt clean need-rt

help: ## list the targets
	@sed -n 's/^\([a-z]*\):[^#]*## \(.*\)/\1\t\2/p' $(MAKEFILE_LIST) | expand -t 14

# The prover fills and frees gigabytes: with large pages a check takes 5 to 10 percent less time.
test: export GLIBC_TUNABLES ?= glibc.malloc.hugetlb=1
test: need-rt ## everything: layout, all proofs from nothing, comparison beside the Rust (COMPARISON=required)
	@tests/everything

run: need-rt ## prove and build the listing program, and list a file (SAMPLE=samples/library.col, a larger one)
	@tests/run-program listing "$$SAMPLE"

sums: need-rt ## prove and build the program error_sums, and print the error sums of a file (SAMPLE=FILE)
	@tests/run-program error_sums "$$SAMPLE"

try: need-rt ## list a file in seconds, with nothing proved (SAMPLE=FILE)
	@tests/try-listing "$$SAMPLE"

check: need-rt ## prove what changed, and run the programs
	rt all test

library: need-rt ## prove the crates and write target/dist: libconsensus for C, Rust and Python, with its header
	cd crates/exports && rt lib
	@packaging/make-dist

# Where `make install` puts the library.
PREFIX ?= /usr/local

install: library ## the library below a folder (PREFIX=/usr/local)
	@packaging/make-dist $(PREFIX)

differential: library ## compare with the Rust, bit for bit, if its source is there (COMPARISON=required)
	@differential/everything --arguments $(ARGUMENTS) --histories $(HISTORIES) \
		--builders $(BUILDERS) --sets $(SETS) --files $(FILES)

soak: library ## compare drawn inputs for a given time (MINUTES=60 SEED=1)
	@differential/run soak --minutes $(MINUTES) --seed $(SEED)

vectors: library ## write the stored list of the Rust's answers anew (VECTORS=FILE)
	differential/run vectors $(VECTORS)

bench: library ## times, the Rust's beside ours (BENCH=--markdown)
	@differential/run bench $(BENCH)

fmt: need-rt ## lay out the Rattle, and the Rust if cargo is there
	for root in crates/*/src/lib.rt crates/*/src/main.rt; do (cd "$${root%/src/*}" && rt fmt); done
	cd differential && if cargo fmt --version >/dev/null 2>&1; \
		then cargo fmt && rustfmt --edition 2024 oracle/accessors/*.rs; fi

clean: ## remove what was built
	rm -rf target crates/*/out

need-rt:
	@command -v rt >/dev/null || { echo 'make: there is no rt on the PATH: it is the Rattle' \
		'toolchain, which proves and builds all of this (see README.md)' >&2; exit 1; }
