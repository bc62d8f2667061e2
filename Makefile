# For users
#
#   make demo       Prints the texts of examples/texts with the command, compiled but not proved. Takes two minutes.
#                   make demo TEXT=FILE OPTIONS="--width 60 --basedir" prints your own text.
#   make quick      Compiles a command without proving it, bin/fribidi-unproved, in about a minute (PROGRAM=fribidi).
#   make program    Proves and builds the commands, bin/hordguli and bin/fribidi.
#   make c          Proves and builds the C library, bin/libhordguli.a and bin/libhordguli.so.1 (CC, CXX, CFLAGS, LDFLAGS).
#   make fribidi    Proves and builds FriBidi's interface, bin/libhordguli_fribidi.so, for LD_PRELOAD.
#   make python     Builds the Python wheel, hordguli-VERSION-py3-none-manylinux2014_x86_64.whl, from what make c has built (DIST=dist).
#   make ucd        Collects the seven table files of Unicode 15.0 in ucd/, if they are not there: from Debian's package unicode-data,
#                   which apt downloads if this system has another version, or from a folder with UNICODE=FOLDER.
#   make ucd-17     Collects those of Unicode 17.0 in ucd-17.0/, in the same way.
#   make image      Compiles the table files of both versions to ucd/tables.image and ucd-17.0/tables.image, with a program that it
#                   proves and builds. make c runs it too.
#   make install    Installs what make, make c, make fribidi, make ucd and make ucd-17 have built (PREFIX=/usr/local, LIBDIR, DESTDIR,
#                   COMMAND=fribidi, the name of bin/fribidi there, ZSHDIR).
#   make uninstall  Removes what make install has installed, with the same PREFIX, LIBDIR, DESTDIR and ZSHDIR.
#
#   make ARCH=arm64 program c fribidi
#                   Proves as above, and builds for ARM64 in bin/arm64/, with Debian's gcc-aarch64-linux-gnu. With ARCH=arm64, the targets
#                   python, install, deb, dist and test-packages use what is there.
#
# For contributors
#
#   make            Proves and builds the commands and the programs that make check runs.
#   make check      Runs the tests that need no new proof, in about a minute. Run it before each commit.
#   make test       Runs CI: every proof, the must-fail edits and all tests. tests/README.md lists them.
#   make attack     Runs the mutation tests, after make, make c and make fribidi. CRATES="lines session" runs only those of these crates.
#   make ucd-tests  Collects Unicode's test files of both versions in ucd-tests/, as make ucd does.
#   make conformance  Runs Unicode's conformance tests on the proved library.
#   make fribidi-compare  Compares FriBidi's interface with FriBidi on a million random lists.
#   make callers    Runs pyfribidi, Pango, a VTE terminal and libass with FriBidi's interface (installs Debian packages).
#   make deb        Builds the Debian packages of packaging/debian from what make install needs, and runs lintian (DIST=dist).
#   make dist       Builds hordguli-VERSION-linux-x86_64.tar.gz and the Python wheel from the same files (DIST=dist).
#   make test-packages  Tests the packages in new Debian 12 and 13 systems (debootstrap, as root): four minutes.
#   make test-reproducible  Compiles and builds all packages in two folders, and compares them byte by byte.
#   make test-arm64 Tests bin/arm64 with qemu-user, and compares its output with that of bin: 20 processor minutes.
#   make test-threads  Runs the C library's test of threads under ThreadSanitizer and helgrind, after make c: a minute.
#   make test-draw  Tests examples/draw.c with HarfBuzz, cairo and Noto fonts (installs Debian packages): 20 seconds.
#   make test-widget  Tests examples/widget.py with GTK 4 under Xvfb, after make c (installs Debian packages): a minute.
#   make test-guide Tests the programs of docs/guide.md, and the pictures there, after make c (installs Debian packages): 20 seconds.
#   make test-recipes  Tests the recipes of docs/guide.md with Debian's programs under tmux, after make program (installs packages): 30 seconds.
#   make test-pango Compares measured sessions with Pango, in C and in Python, after make c (installs Debian packages): two minutes.
#   make test-programs  Tests three C programs that are written from the manual, against a simple model, less and ICU, after make c
#                   (installs Debian packages): a minute.
#   make test-joining  Compares the joining of Arabic letters with FriBidi, ICU, arabic-reshaper and HarfBuzz, after make (installs
#                   Debian packages): a minute.
#   make test-python  Tests the Python package, compares it with python-bidi and pyfribidi, and runs its mutants, after make c.
#   make test-rust  Tests the Rust crates, also with Rust 1.63 (Debian 12), and runs their mutants, after make c.
#   make test-hosts Runs examples/many on three hosts on the loopback address, and kills one during a run.
#   make release    Checks the version, runs CI and make attack, builds and tests all packages, writes them to dist/, and tags the commit.
#   make bench      Runs all benchmarks of bench/, which compare with Debian's fribidi, with ICU and with Rust crates.

UNICODE =
PROGRAM = fribidi
JOBS := $(shell nproc)
TABLES = DerivedBidiClass BidiBrackets BidiMirroring LineBreak DerivedGeneralCategory EastAsianWidth emoji-data
OPTIONS = --width 44 --basedir

.PHONY: all program cross-compiler quick ucd ucd-17 ucd-tests image demo check tmux parallel linters test attack bench-program conformance-program conformance bench c fribidi fribidi-compare \
	callers install uninstall python deb dist test-packages test-reproducible test-arm64 test-threads test-draw test-widget test-guide test-recipes test-pango test-programs test-joining test-python test-rust test-hosts release

.DEFAULT_GOAL = all
DIST = dist
ARCH = amd64
for_arm64 = $(if $(filter arm64,$(ARCH)),$(1))
$(if $(filter amd64 arm64,$(ARCH)),,$(error ARCH=$(ARCH) is neither amd64 nor arm64))

# Two of these targets never run at the same time, also with --jobs, since each proves the crates that it needs.
ifneq ($(word 2,$(filter all program c fribidi image bench-program conformance-program,$(MAKECMDGOALS))),)
.NOTPARALLEL:
endif

all: programs = fribidi hordguli conformance oom_driver no_allocation table_tools
program: programs = fribidi hordguli
bench-program: programs = fribidi hordguli bench
conformance-program: programs = conformance

# Fails before anything is proved if the compiler for ARM64 is missing.
program c fribidi: $(call for_arm64,cross-compiler)
cross-compiler:
	@bash -c '. tools/arch.sh && need_tools "$${CC%% *}"' make

# Proves the crates that have changed, and proves independent ones in parallel. Runs the programs, which are kept in out/.
all program bench-program conformance-program:
	$(MAKE) --no-print-directory --jobs=$(JOBS) $(programs:%=run-%)
	mkdir -p bin
	for name in $(filter fribidi hordguli bench conformance,$(programs)); do cp crates/$$name/out/$$name bin/$$name; done
	$(if $(filter hordguli,$(programs)),$(call for_arm64,tools/compile_arm64 fribidi && tools/compile_arm64 hordguli && tools/build_command))

lib-bidi lib-breaks lib-joining lib-reorder lib-scripts: lib-ucd
lib-lines: lib-device lib-bidi lib-breaks lib-reorder lib-stream
lib-session: lib-lines lib-store
lib-stream: lib-device
# These wait for ucd, so that reorder, which lines needs, does not wait for them.
lib-script_commands lib-sequences: lib-ucd
lib-command_line lib-text_run: lib-lines
lib-terminal: lib-lines lib-sequences
lib-terminal_options: lib-command_line lib-terminal
lib-program_input: lib-command_line lib-text_run
lib-tool: lib-session lib-command_line lib-script_commands lib-text_run
lib-oom_calls lib-hordguli_c: lib-session
lib-hordguli_c: lib-text_run lib-scripts
lib-oom_calls: lib-test_tables
lib-hordguli_fribidi: lib-bidi lib-joining lib-reorder
run-table_tools: lib-joining lib-tables
run-fribidi run-oom_driver: lib-tool
run-fribidi: lib-tables lib-program_input
run-hordguli: lib-terminal_options lib-tables lib-program_input
run-oom_driver run-no_allocation: lib-oom_calls
lib-tables: lib-ucd
run-bench: lib-session lib-tables
run-conformance: lib-lines lib-tables
# Waits for session: until then all processors are busy, but while tool is proved some are idle.
run-conformance: $(if $(filter run-fribidi,$(MAKECMDGOALS)),lib-session)

run-fribidi run-hordguli: words = -- --help
run-bench: words = -- edits tree 1 1
run-table_tools: words = -- image data /dev/null
run-no_allocation: words = -- 1

lib-%:
	tools/prove $* lib

run-%:
	tools/prove $* run $(words)

ucd:
	@tools/collect_ucd 15.0.0 '$(UNICODE)'

ucd-17:
	@tools/collect_ucd 17.0.0 '$(UNICODE)'

ucd-tests:
	@tools/collect_ucd --tests 15.0.0 '$(UNICODE)'
	@tools/collect_ucd --tests 17.0.0 '$(UNICODE)'

# Runs the command in a new folder with copies of the table files. With --cases FOLDER, runs it once for each text in FOLDER, with
# the arguments in the text's .args file.
try = cd crates/fribidi && rt try $(foreach table,$(TABLES),--data ucd/$(table).txt=$(CURDIR)/ucd/$(table).txt)

quick: ucd
	tools/build_unproved $(PROGRAM)

demo: ucd
	@echo "Compiled, not proved: make program proves and builds bin/fribidi, make test proves and tests everything."
ifdef TEXT
	@$(try) --data text=$(abspath $(TEXT)) -- --ucd ucd $(OPTIONS) text
else
	@tail -n +1 examples/texts/*.txt
	@$(try) --data sample.txt=$(CURDIR)/examples/texts/sample.txt --cases $(CURDIR)/examples/texts -- --ucd ucd
endif

check: ucd tmux parallel linters
	tools/check

# tests/examples/run drives the editors under tmux.
tmux:
	@command -v tmux > /dev/null || { apt-get update -q && apt-get install -qy tmux; }

# examples/many needs GNU parallel.
parallel:
	@command -v parallel > /dev/null || { apt-get update -q && apt-get install -qy parallel; }

# tools/lint runs these.
linters:
	@for tool in shellcheck flake8 cppcheck rustfmt sim_text; do command -v $$tool > /dev/null || missing=yes; done; \
	[ -z "$$missing" ] || { apt-get update -q && apt-get install -qy shellcheck flake8 cppcheck rustfmt similarity-tester; }

test:
	@tools/ci

image: ucd ucd-17
	$(MAKE) --no-print-directory --jobs=$(JOBS) run-table_tools
	tools/build_image

c: ucd ucd-17
	$(MAKE) --no-print-directory --jobs=$(JOBS) run-table_tools lib-hordguli_c
	tools/build_image
	$(call for_arm64,tools/compile_arm64 hordguli_c)
	tools/build_c

fribidi: ucd
	$(MAKE) --no-print-directory --jobs=$(JOBS) lib-hordguli_fribidi run-table_tools
	$(call for_arm64,tools/compile_arm64 hordguli_fribidi)
	tools/build_fribidi

fribidi-compare: fribidi
	tests/fribidi/run compare 1000000

callers: fribidi
	tests/fribidi/callers

# The environment passes these variables, so that paths may have spaces.
install uninstall: export PREFIX := $(PREFIX)
install uninstall: export LIBDIR := $(LIBDIR)
install uninstall: export DESTDIR := $(DESTDIR)
install uninstall: export COMMAND := $(COMMAND)
install uninstall: export ZSHDIR := $(ZSHDIR)
install uninstall:
	@tools/install $@

python: ucd ucd-17
	@tools/build_wheel "$$DIST"

python deb dist: export DIST := $(DIST)
deb dist:
	@tools/build_packages $@ "$$DIST"

test-packages: deb dist
	@tests/packages/run "$$DIST"

test-packages: export DIST := $(DIST)

test-reproducible:
	@tests/packages/reproducible

test-arm64: ucd ucd-17 ucd-tests
	tests/arm64/run

test-threads: c ucd
	tests/c/thread_checks

test-draw: program c ucd
	@tests/examples/draw

test-widget:
	@tests/examples/widget

test-guide:
	@tests/examples/guide

test-recipes: ucd tmux
	@tests/recipes/run

test-pango:
	tests/c/pango
	tests/python/pango

test-programs:
	@tests/programs/run

test-joining: ucd-tests
	@tests/joining/run

test-python: ucd
	tests/python/run --all

test-rust: ucd
	tests/rust/run --all

test-hosts: parallel ucd
	@tests/examples/many_hosts

release:
	@tools/release

attack:
	tests/mutants/run $(CRATES)
	$(if $(CRATES),,tests/mutants_by_test/run)

conformance: conformance-program ucd ucd-17 ucd-tests
	tests/conformance/run

bench: bench-program c fribidi ucd parallel
	bench/compare
	bench/startup
	bench/edits
	bench/levels
	bench/marks
	bench/fill
	bench/store
	bench/stream
	bench/script
	bench/c
	bench/strings
	bench/typing
	bench/memory
	bench/python
	bench/rust
	bench/many
	bench/callers
	bench/hostile
	bench/versions
	bench/terminal
