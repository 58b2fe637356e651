# make, make build: proves the four programs and the library for C, and builds them into bin/
# make run: the four programs on a small sample, out of bin/, or from source by `rt try` where bin/ is not up to date
# make tftp-show, tftp-play, tftp or tftpd: proves and builds that program alone, which takes less than all four
# make libtftp: proves and builds the library for C alone: bin/libtftp.a, and with a C compiler bin/libtftp.so.1
# make test: the gate, every proof from nothing, and then what is tried of the programs that it built; with REQUIRE_ALL=1
#   nothing may be skipped. The last line is `N passed, N failed`
# make quick CRATE=NAME: what a change of one crate is tried by in minutes; make quick: one of tools and documents
# make manifest: writes tools/manifest.txt, what the gate consists of by name: crates, checks and their rows, wrong bodies, and
#   each public clause and definition with its hash; and tools/wrong_bodies.txt, a line for each wrong body. The gate fails where it is not
#   as committed
# make docs: writes docs/STATEMENT.md, the pictures and the completions from the sources and the programs of bin/
# make wrong-bodies CRATES="NAME ..": tries the wrong bodies that not each gate tries, of all crates without words; with STALE=1
#   only such as changed since they were last refused, or whose crate did
# make ARCH=arm64 programs libtftp deb: the same for ARM64, proved with that target, into bin/arm64/, linked by CC
#   (aarch64-linux-gnu-gcc); with STATIC=1 the programs have the C library in themselves, in bin/arm64-static/
# make bare: bin/libtftp-bare.a, the library for machines without an operating system; also with ARCH=arm64
# make assembly: the programs and the library as assembly, in an archive that a C compiler builds; it is a part of make dist
# make install, make uninstall: programs, library, manuals, completions, units and documents at DESTDIR and PREFIX; they
#   copy what is in bin/, and build nothing. PROGRAM_PREFIX= is put before the names of the programs and their manuals
# make dist: an archive of what is installed, with a script that installs it on hosts without the kit
# make deb: a package for Debian
# make behaviours: each wrong behaviour of tftp and tftpd that a test has to notice, five of which the gate tries
# make soak SECONDS=3600 SEED=2: trials of bin/tftp and bin/tftpd against a model, a bad network and a bad host, and of
#   bin/tftp-show beside two other readers
# make coverage: which functions of the programs no test runs
# make mutated-inputs COUNT=100000 SEED=2: mutated lines, captures, scripts and command lines for the programs of bin/, as many of each
# make bench: the benchmarks of bench/, which are no tests
# make bench-udp: tftpd and tftp beside the other servers and clients that are installed

# as --version prints it, which tests/documents looks at
VERSION := 0.1.0
PREFIX := /usr/local
DESTDIR :=
PROGRAM_PREFIX :=
MANDIR := $(PREFIX)/share/man
UNITDIR := $(PREFIX)/lib/systemd/system
LIBDIR := $(PREFIX)/lib

# the processor: amd64 or arm64; whether programs have the C library in themselves; and where what is built so is
ARCH := amd64
STATIC :=
BIN := $(if $(filter amd64,$(ARCH)$(STATIC)),bin,bin/$(ARCH)$(if $(STATIC),-static))
PROGRAMS := $(addprefix $(BIN)/,tftp-show tftp-play tftp tftpd)
LIBRARY := $(BIN)/libtftp.a
BARE := $(BIN)/libtftp-bare.a
SOURCES := $(shell find crates -path '*/out' -prune -o \( -name '*.rt' -o -name '*.antt' \) -print) crates.txt

.PHONY: build programs libtftp bare assembly run sample manifest tftp-show tftp-play tftp tftpd test quick docs \
	wrong-bodies install uninstall dist deb soak behaviours coverage mutated-inputs bench bench-udp clean
# one after another: each crate is proved by as many processors as there are
.NOTPARALLEL:

# what proves needs the toolchain, and says so in a line where it is not there
NEEDS_RT = @command -v rt > /dev/null || { echo "make: the Rattle toolchain (rt) is not on the PATH; it is not public, see README.md" >&2; exit 2; }

build: $(PROGRAMS) $(LIBRARY)
programs: $(PROGRAMS)
libtftp: $(LIBRARY)

ifeq ($(ARCH)$(STATIC),amd64)
# one run builds all four
$(PROGRAMS) &: $(SOURCES) tools/build.py
	$(NEEDS_RT)
	@tools/build.py tftp_show_main tftp_play_main tftp_main tftpd_main
	@mkdir -p bin
	@cp crates/tftp_show_main/out/tftp_show_main bin/tftp-show
	@cp crates/tftp_play_main/out/tftp_play_main bin/tftp-play
	@cp crates/tftp_main/out/tftp_main bin/tftp
	@cp crates/tftpd_main/out/tftpd_main bin/tftpd

$(LIBRARY): $(SOURCES) tools/build.py tools/library.sh ports/heap.c ports/malloc.c
	$(NEEDS_RT)
	@tools/build.py tftp_c
	@tools/library.sh bin
else
PORTED := tools/modules.py tools/library.sh ports/os.c ports/heap.c ports/malloc.c
export STATIC

$(PROGRAMS) &: $(SOURCES) $(PORTED)
	$(NEEDS_RT)
	@tools/modules.py $(ARCH) link programs $(BIN)

$(LIBRARY): $(SOURCES) $(PORTED)
	$(NEEDS_RT)
	@tools/modules.py $(ARCH) link libtftp $(BIN)
endif

tftp-show tftp-play tftp tftpd:
	$(NEEDS_RT)
	@tools/build.py $(subst -,_,$@)_main
	@mkdir -p bin
	@cp crates/$(subst -,_,$@)_main/out/$(subst -,_,$@)_main bin/$@

run:
	@if $(MAKE) -q --no-print-directory programs; then exec $(MAKE) --no-print-directory sample; else exec tools/try.sh; fi

sample:
	bin/tftp-show < examples/packets.hex; test $$? -le 1 # 1: some lines of the sample are faults
	bin/tftp-play examples/lossy.script
	examples/loopback.sh bin/tftpd bin/tftp

$(BARE): $(SOURCES) tools/modules.py ports/heap.c
	$(NEEDS_RT)
	@tools/modules.py $(ARCH) link bare $(BIN)

bare: $(BARE)

mutated-inputs: $(PROGRAMS)
	MUTATED_INPUTS=$(COUNT) MUTATED_SEED=$(SEED) pytest-3 -q -n 4 tests/mutated

test:
	$(NEEDS_RT)
	@tools/gate.py

quick:
	@tools/quick.py $(CRATE)

manifest:
	@tools/wrong_bodies.py --lines
	@tools/manifest.py --write

docs:
	docs/made/made.py

wrong-bodies:
	@tools/wrong_bodies.py $(if $(STALE),--stale) $(CRATES)

install uninstall:
	@BIN='$(BIN)' tools/install.sh $@ 'DESTDIR=$(DESTDIR)' 'PREFIX=$(PREFIX)' 'PROGRAM_PREFIX=$(PROGRAM_PREFIX)' \
		'MANDIR=$(MANDIR)' 'UNITDIR=$(UNITDIR)' 'LIBDIR=$(LIBDIR)'

dist: $(PROGRAMS) $(LIBRARY) assembly
	@tools/archive.sh dist '$(VERSION)'

# what is kept of the same text is not proved again
assembly:
	$(NEEDS_RT)
	@for arch in amd64 arm64; do tools/modules.py $$arch || exit; done
	@tools/archive.sh assembly '$(VERSION)'

deb: $(PROGRAMS) $(LIBRARY)
	@BIN='$(BIN)' debian/pack.sh '$(VERSION)' '$(ARCH)'

SECONDS := 60
COUNT := 1000
SEED := 1

soak: bin/tftp bin/tftpd bin/tftp-show
	SOAK_SECONDS=$(SECONDS) SOAK_SEED=$(SEED) pytest-3 -v -n 6 tests/soak

behaviours: bin/tftp bin/tftpd
	TRY_ALL=1 pytest-3 -q -n 3 tests/behaviours

coverage: $(PROGRAMS)
	tools/by_hand/coverage.py

bench: $(PROGRAMS)
	bench/show/run.sh bin/tftp-show
	@cd crates/tests_memory && rt run -- 512 0 1 > /dev/null
	bench/ends/run.py crates/tests_memory/out/tests_memory
	python3 bench/play/plays.py bin/tftp-play

bench-udp: bin/tftpd bin/tftp $(LIBRARY)
	python3 bench/udp/run.py bin/tftpd bin/tftp
	python3 bench/udp/allocations.py bin/tftpd bin/tftp
	python3 bench/udp/beside.py bin/tftpd
	python3 bench/udp/calls.py bin/tftpd
	bench/udp/together.py bin/tftpd
	bench/c/run.py bin/tftpd

clean:
	rm -rf bin out crates/*/out
