# What people use the repository for; `make` lists it. Each target proves and builds what it needs, and prints each crate as it is proved.
SHELL := /bin/bash
.SHELLFLAGS := -euo pipefail -c
.ONESHELL:
.SILENT:

DUMP ?= dumps/interrupted.dump
SECONDS ?= 600
archive := target/staticlib/libscale.a
sources := crates.txt $(shell find crates -name out -prune -o -type f -print)
cflags := -std=c99 -O2 -Wall -Wextra -Iinclude

.PHONY: help example show archive digest test bench-digest bench-exchange bench-image fuzz

help:
	cat <<'END'
	make example             a firmware update in C, with power failures, linked with the archive
	make show [DUMP=file]    what a power-up makes of a dump of 3072 bytes (dumps/README.md)
	make archive             $(archive), to link with include/scale.h
	make digest FILE=file    the SHA-256 of a file, by the archive
	make test                the gate: every proof, every program that must be refused, the tests outside the prover
	make bench-digest        speed beside C (also bench-exchange, with stack and code size, and bench-image)
	make fuzz [SECONDS=600]  libFuzzer over the C boundary
	All but help need rt, the Rattle toolchain. The first of them proves what it needs: minutes, and seconds after that.
	END

example: $(archive)
	gcc $(cflags) -o target/exchange examples/exchange.c $(archive)
	target/exchange

show:
	tools/show "$(DUMP)"
	echo "  (what was done, progress marks found, operations carried out, then boot and its offset or refused and its number;"
	echo "  dumps/README.md reads three dumps word by word)"

archive: $(archive)

$(archive): $(sources)
	tools/prove archive scale

digest: $(archive)
	test -n "$(FILE)" || { echo "make digest FILE=file"; exit 1; }
	gcc $(cflags) -o target/digest examples/digest.c $(archive)
	target/digest "$(FILE)"

test:
	.ci/run

bench-digest bench-exchange bench-image: bench-%: $(archive)
	bench/$*/run

fuzz: $(archive)
	fuzz/run $(SECONDS)
