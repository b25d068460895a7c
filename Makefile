.PHONY: help run controller run-controller bench test install clean

help:
	@echo 'make run             the slave at work: a controller with it inside, and a tool at its line'
	@echo 'make controller      an archive for a controller: CPU=cortex-m4 (or -m0, -m0+, -m3, -m7, -m33; riscv32) OPT=-Os UNALIGNED=yes'
	@echo 'make run-controller  the same work by a Cortex-M4, in an emulator'
	@echo 'make bench           times beside a plain slave in Rust, many guns, replay, sizes, stack; instructions and cycles on a Cortex-M4'
	@echo 'make test            the gate: layout, proofs, must-fail edits, programs, host tests'
	@echo 'make install         header, archive and a pkg-config file: PREFIX=/usr/local; with CPU= for a controller, beside others'
	@echo 'make clean           removes all that was built, the proofs too'

# In all of these what is unchanged is not proved again, and proofs in work are named on standard error.
run:
	@tools/setup run >&2
	@tools/run

# CPU, TARGET, FLAGS, OPT and UNALIGNED go on as they are given: tools/processor.sh says what they mean.
controller:
	@tools/setup controller >&2
	@tools/controller

run-controller:
	@tools/setup run-controller >&2
	@tools/run-controller

bench:
	@tools/setup bench >&2
	@tools/bench

test:
	@.ci/run

install:
	@tools/setup $(if $(CPU)$(TARGET),controller,install) >&2
	@tools/install

clean:
	rm -rf build target crates/*/out compare/*/target compare/*/Cargo.lock
	find . -name __pycache__ -type d -prune -exec rm -rf {} +
