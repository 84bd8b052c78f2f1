# Builds, shows and checks mkcheck. Only what POSIX defines is used here, so
# that any make reads this file, and mkcheck itself too.

.POSIX:

PREFIX = /usr/local
CRATE =
FUZZ =
CHECKED =

.PHONY: all build demo proved check cases program edits growths recorder importer
.PHONY: audit report installed importcheck realcheck manuals pages fuzz bench install deb dist clean

all: build

# The program, optimized and not proved, in two to four minutes. A bin/mkcheck that
# is newer than all sources stays as it is, also a proved one.
build:
	@python3 tools/quick.py bin/mkcheck
	@python3 tools/zipapps.py bin

# Proves the program, links it, and runs it once. rt looks by itself at what changed
# since the last build, so this is always run and names no source.
proved:
	cd crates/mkcheck && rt run -- --version
	mkdir -p bin
	cp -f crates/mkcheck/out/mkcheck bin/mkcheck
	@python3 tools/zipapps.py bin

# Shows the program on the examples. The lines with cmp compare its answers with the
# stored ones, those with `if` its status with that of a no, which is 1. The second
# check is of a copy of the makefile from which one header is left out. To the makefile
# of figlet `repair` says which lines it lacks; with these the answer is yes.
demo: build
	@bin/mkcheck --version
	cd examples/wordcount && cat makefile
	cd examples/wordcount && ../../bin/mkcheck graph
	cd examples/wordcount && ../../bin/mkcheck graph reader.o table.o
	@cd examples/wordcount && ../../bin/mkcheck graph | cmp - graph.txt
	cd examples/wordcount && ../../bin/mkcheck check -b footprint.json
	@cd examples/wordcount && ../../bin/mkcheck check -b footprint.json | cmp - check.txt
	cd examples/wordcount && sed '/^main.o/s/ table.h//' makefile > forgotten.mk
	cd examples/wordcount && if ../../bin/mkcheck check -f forgotten.mk -b footprint.json; then false; else test $$? -eq 1; fi
	@cd examples/lua && ../../bin/mkcheck check -b footprint.json all | sed -n 1p | cmp - check.txt
	cd examples/lua && cat check.txt
	@cd examples/figlet && ../../bin/mkcheck check -b footprint.json | cmp - check.txt
	cd examples/figlet && if ../../bin/mkcheck check -b footprint.json; then false; else test $$? -eq 1; fi
	cd examples/figlet && ../../bin/mkcheck repair -b footprint.json
	@cd examples/figlet && ../../bin/mkcheck repair -b footprint.json | cat Makefile - > mended.mk
	cd examples/figlet && ../../bin/mkcheck check -f mended.mk -b footprint.json | sed -n 1p
	@cd examples/figlet && ../../bin/mkcheck check -f mended.mk -b footprint.json | grep -q '^yes '
	@cd examples/awk && ../../bin/mkcheck check -b footprint.json | cmp - check.txt
	cd examples/awk && if ../../bin/mkcheck check -b footprint.json; then false; else test $$? -eq 1; fi
	@echo 'Shown with the program that `bin/mkcheck --version` names. `make proved` proves it.'

# The gate proves and runs everything from nothing, so it needs no build. Its
# last line, `N passed, M failed`, is to stay the last one that is printed.
check:
	@rt ci

# Asks the program what the cases ask, in seconds, and runs it over real files: both compare
# its streams and its status.
cases: build
	@pytest-3 -q tests/cases
program: build
	@pytest-3 -q -n 4 tests/cases tests/program

# Tries the wrong edits that the gate leaves out, those of all crates or of one:
# the prover has to refuse each.
edits:
	@python3 tests/edits/run.py $(CRATE)

# Refuses each allocation of the program in turn, over worked examples.
growths: build
	@python3 tests/growths/sweep.py

# Tests the recorder on small projects, by strace and a compiler where these are there.
recorder: build
	@pytest-3 -q tests/recorder/test_places.py
	@pytest-3 -q -n 4 tests/recorder --ignore tests/recorder/test_places.py

# Tests the importer on small builds, by GNU make, ninja, cmake and strace where these are there.
importer: build
	@pytest-3 -q -n 4 tests/importer

# Tests the audit on small projects, by GNU make, ninja, strace and a compiler where these are there.
audit: build
	@pytest-3 -q -n 4 tests/audit

# Tests the report, by Graphviz, Chromium, strace and git where these are there.
report: build
	@pytest-3 -q -n 4 tests/report

# Tests what is installed and packed, by bash, zsh, fish and dpkg-deb where these are there.
installed: build
	@pytest-3 -q tests/installed

# Records the examples anew, where strace and their compilers are there.
realcheck: build
	@MKCHECK=bin/mkcheck PYTHONPATH=tests python3 -m recorder.real

# Imports real source packages of Debian, which it fetches, and compares with stored
# counts. CHECKED has names of projects and options, such as --samples 20.
importcheck: build
	@MKCHECK=bin/mkcheck python3 tests/importcheck/run.py $(CHECKED)

# Tries the makefiles and the sessions that the pages show.
pages: build
	@pytest-3 -q -n 4 tests/pages

# Asks mkcheck and a second program, which was written from the documents, the same
# random questions: new ones each time, of a seed that it prints. FUZZ has options
# of tests/second/compare.py, such as --seed 7 --jobs 4.
fuzz: build
	@python3 tests/second/compare.py bin/mkcheck $(FUZZ)

# Reads the manual pages by a linter, where one is there.
manuals:
	@if command -v mandoc; then mandoc -T lint -W warning man/*.1; \
	elif command -v groff; then ! groff -mandoc -Tascii -ww man/*.1 2>&1 >/dev/null | grep .; \
	else echo 'manuals: no mandoc and no groff, so nothing was read'; fi

bench: proved
	@python3 bench/run.py
	@python3 bench/texts.py
	@python3 bench/reading.py
	@python3 bench/footprint.py
	@python3 bench/rows.py
	@python3 bench/verdicts.py
	@python3 bench/certificates.py
	@python3 bench/judging.py
	@python3 bench/evidence.py
	@python3 bench/repairs.py
	@python3 bench/since.py
	@python3 bench/sentences.py
	@python3 bench/plans.py
	@python3 bench/hostile.py
	@python3 bench/recording.py

# Installs the proved program, where it was built and is up to date, else the quick one.
install: build
	@python3 tools/package.py install $(DESTDIR)$(PREFIX)

# Writes a Debian package of the proved program and of all that is installed.
deb: proved
	@python3 tools/package.py deb bin

# The same as an archive, which runs on any Linux of the processor.
dist: proved
	@python3 tools/package.py dist bin

clean:
	rm -rf bin bench/data bench/__pycache__ crates/*/out
	find tools tests -name __pycache__ -prune -exec rm -rf {} +
	cd examples/wordcount && rm -f wordcount *.o counted.txt forgotten.mk
	rm -f examples/figlet/mended.mk
