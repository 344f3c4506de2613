# The commands of README.md.
.PHONY: run test quick lib install test-c planted-faults bench

STEPS = examples/reports/sample.steps
PREFIX = /usr/local

# proves the report program and what it stands on, and runs it on a sample
run:
	@tools/run-program gantry_report < $(STEPS)

test:
	@tools/test

# the same for whoever is at work: only what changed is proved, no wrong program is tried
quick:
	@tools/test --quick

# target/archive: libwiregantry.a for this machine, wiregantry.h, wiregantry.pc
lib:
	@tools/build-archive

install: lib
	@tools/install $(DESTDIR)$(PREFIX)

# the tests from C alone, on the archive of this machine
test-c: lib
	@tools/test-c

planted-faults:
	@tests/planted-faults

bench: lib
	@bench/run
