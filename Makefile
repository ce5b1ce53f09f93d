# pahole, proved. `make pahole` builds the proved program, `make install` installs it, `make demo`
# encodes a file with it, `make test` is the gate and the repository's own checks, `make pages` lists
# all definitions and edits. What takes long is run by hand: `make measure`, `make turns` and `make
# drawn` (docs/BENCHMARKS.md), `make agree`, `make ways` and `make kernels` (docs/COMPAT.md), `make
# damage`, `make plants`, `make edits`, `make unseen` and `make memory` (docs/CONTRIBUTING.md).
PROGRAM = crates/pahole/out/pahole

SHELL = bash

.PHONY: pahole install demo test pages measure turns drawn damage agree ways kernels plants unseen \
  edits memory

pahole:
	@. checks/lib/toolchain.sh
	@python3 -B tools/prove.py
	@echo "the proved program is $(PROGRAM)"

# the program and its manual page; DESTDIR=folder puts them below it
PREFIX = /usr/local
install: pahole
	install -D $(PROGRAM) $(DESTDIR)$(PREFIX)/bin/pahole
	install -D -m 644 docs/man/pahole.1 $(DESTDIR)$(PREFIX)/share/man/man1/pahole.1

demo: pahole
	bash tools/demo.sh $(PROGRAM)

test:
	bash .ci/run

# every definition on the way from `run` to bytes, and every edit, in the folder made
pages:
	mkdir -p made
	python3 -B checks/lib/definitions.py made/DEFINITIONS.md
	python3 -B checks/lib/bugs.py made/EDITS.md

# PAHOLE=path measures another program, RUNS=n times each row so often, VMLINUX=path names a kernel,
# MODULES=folder its modules, NEWEST=path a newer pahole of dwarves, and REAL=folder other programs
# (PROGRAMS=postgres tools/real-programs.sh builds the one that docs/BENCHMARKS.md has). MORE=1 has
# more rows, and runs the check of growth over files five times as large
measure:
	bash tools/measure.sh $(VMLINUX)

# the program and Debian's tool pahole in turn, on VMLINUX, TURNS=n times
turns:
	bash tools/turns.sh $(VMLINUX) $(TURNS)

# looks for files over which the work grows faster than their bytes: COUNT=n families of files (by
# default 100) that the dice of SEED=n draw
drawn:
	python3 -B tools/drawn.py $(PROGRAM) $(or $(COUNT),100) $(SEED)

# damages files so often as RUNS=n says, by the dice of SEED=n, in JOBS=n processes
damage:
	RUNS=$(RUNS) SEED=$(SEED) JOBS=$(JOBS) bash checks/damage.sh

# whether Debian's tool pahole, or one whose path is PEER, writes the same types for FILES='a b',
# compared by what they are; FUNCS=1 looks at functions, too
agree:
	python3 -B tools/agree.py $(PROGRAM) $(if $(FUNCS),--funcs) $(FILES)

# the same of five real programs, by gcc and clang, with DWARF 4 and 5, and of their objects: builds
# them in the folder REAL where they aren't there
ways:
	bash tools/ways.sh $(REAL)

# the same of Debian's kernels of other machines, or of MACHINES='a b': puts them into the folder
# KERNELS where they aren't there
kernels:
	bash tools/kernels.sh $(KERNELS) $(MACHINES)

# CRATES='a b' plants in these alone
plants:
	bash tools/plants.sh $(CRATES)

# EDITS='a b' tries these alone
unseen:
	bash tools/unseen.sh $(EDITS)

# tries the edits that must fail and are no part of the gate (crates/NAME/more-edits); CRATES='a b'
# those of these alone
edits:
	bash tools/edits.sh $(CRATES)

# refuses the built program each request for memory in turn, on CASES='a b' of crates/run_cases/data
# or on those that tools/memory.sh names; STEP=n tries every nth alone, MOST=n at most n of each
# case
memory:
	bash tools/memory.sh $(CASES)
