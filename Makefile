# make: prove and build everything, judge the sample logins, and show the sample session. make test: the gate.
.PHONY: all test lib fmt sizes wrong soak mutants peers bench

all:
	rt all check
	ship/programs
	bin/judges < samples/four.logins
	samples/show samples/session.calls

test:
	.ci/run

# the C library for x86-64 and for 64-bit Arm, its header and jhartupal.pc: target/lib/MACHINE/
lib:
	ship/library

fmt:
	for crate in crates/*/; do (cd $$crate && rt fmt) || exit; done

# what each crate holds, and its lines
sizes:
	tests/sizes

# every wrong answer of docs/PROMISES.md, each of which the prover must refuse for a fact
wrong:
	tests/wrong

# random histories against the independent model, shared by recorder and the C archive: make soak N=2000000 SEED=7
N ?= 1000000
SEED ?= 1
soak:
	ship/programs recorder
	tests/histories $(N) $(SEED) --progress

# one-place mutants of the model, each to be told apart by the histories
mutants:
	tests/mutants

# real software before the drive: Linux in QEMU, tshark, sg3-utils; it installs Debian packages, and is no part of the gate
peers:
	ship/programs recorder vectors
	tests/peers/run

# every kind of call timed beside the model and memcpy, in one table: bench/README.md
bench:
	bench/run
