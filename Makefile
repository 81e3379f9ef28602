# `make help` says what there is. Each target but those that install and uninstall needs the Rattle kit, whose command is rt.
PROGRAM = build/twkb_tool
SCANNER = build/twkb_bench
MODULE = build/web/twkb_web.wasm
PAGE = build/dozhemik.html
LIBRARY = build/bindings/libtwkb.so
# The layer that `make try` checks.
FILE = examples/coast_lines_sized.twkb
# The libraries that the program uses, each after those that it uses itself.
LIBRARIES = refusing twkb_num twkb_head twkb_body twkb_layer
PREFIX = /usr/local
# How long `make fuzz` looks. It takes a seed of the clock where none is given by SEED=..
SECONDS = 600
INTO = $(DESTDIR)$(PREFIX)
MANUALS = share/man/man1
BASH = share/bash-completion/completions
ZSH = share/zsh/site-functions

.PHONY: help setup kit libraries calls library build install uninstall install-library uninstall-library dist
.PHONY: try demo test test-program test-languages test-packages bindings web page
.PHONY: bench callers picture trusted refusals fuzz apart twins stack clean

help:
	@echo 'make setup      install what builds and tests need beside the Rattle kit (by apt-get)'
	@echo 'make try        check an example, or FILE=.., with a program that is not proved (a minute or two the first time)'
	@echo 'make build      prove and build the program: $(PROGRAM) (13 minutes on four processors the first time)'
	@echo 'make install    install the program, its manual page and completions below $(PREFIX), or PREFIX=..'
	@echo 'make uninstall  remove them'
	@echo 'make demo       build, and check, list and scan layers written by PostGIS'
	@echo 'make test       run the merge gate: every proof, and every test (27 minutes on four processors)'
	@echo 'make library    prove and build the library for C, Rust and Python: build/bindings (3 minutes after make build)'
	@echo 'make install-library    install the library, its header and its pkg-config file below $(PREFIX), or PREFIX=..'
	@echo 'make uninstall-library  remove them'
	@echo 'make bindings   build the library, and test calls from C, Rust and Python'
	@echo 'make web        build the module for web pages, and compare it with the library (needs wasm-opt and node)'
	@echo 'make page       build the page that checks a layer in a browser: $(PAGE) (3 minutes after make build)'
	@echo 'make dist       pack what `make build library page` built: build/dozhemik-VERSION-x86_64-linux.tar.gz'
	@echo 'make bench      build, and compare with other programs in Rust on 40 MB (needs rustc; valgrind counts instructions)'
	@echo 'make callers    build, and compare calls from C, Rust and Python with the program on 40 MB'
	@echo 'make picture    build, and draw how many bytes of a layer scans read: docs/hops.svg'
	@echo 'make trusted    print how many lines of definitions have to be believed, crate by crate'
	@echo 'make refusals   build, and refuse each memory request of the program in turn (needs gcc)'
	@echo 'make fuzz       build, and compare with a plain reader on random layers: SECONDS=.. SEED=.. (needs gcc)'
	@echo 'make apart      check that the prover rejects the wrong bodies that the gate leaves out'
	@echo 'make twins      check that the prover accepts the twins of the wrong bodies'
	@echo 'make stack      build, and measure how much stack the deepest collections take (with gdb, of each step too)'
	@echo 'make clean      remove what was built'

setup:
	@tools/setup.sh

kit:
	@$(if $(shell command -v rt),:,$(error The Rattle kit is missing: its command rt is not in PATH))

# Each library is proved before those on it, and beside those that it has nothing to do with.
libraries: kit
	@echo 'Proving $(words $(LIBRARIES)) libraries takes some 10 minutes on four processors the first time, and seconds later on.'
	@echo 'The program, where it is wanted, takes some 3 minutes more. A line a minute says how far it is.'
	@python3 tools/prove.py $(LIBRARIES)

# A program is built where it is proved, and not else.
build: libraries
	@sources=$$(tools/sources.sh) && python3 tools/prove.py twkb_tool && echo "$$sources" > build/proved
	cp crates/twkb_tool/out/twkb_tool $(PROGRAM)
	@mv build/proved $(PROGRAM).sources

# Runs the program before any proof. Make's status is 2 if any command fails, and it says that one has. With -q a line that begins
# with + and ends with status 1, as for a refused layer, gives make this status, and nothing is said.
ifeq ($(MAKECMDGOALS) $(findstring n,$(firstword -$(MAKEFLAGS))),try )
MAKEFLAGS += -q
ALWAYS = +
endif
try:
	$(ALWAYS)@tools/try.py "$(FILE)"

# Installing needs no kit where the program and the library are built already.
$(PROGRAM):
	@$(MAKE) --no-print-directory build

$(LIBRARY):
	@$(MAKE) --no-print-directory library

install: | $(PROGRAM)
	@tools/installable.sh build $(PROGRAM)
	install -d "$(INTO)/bin" "$(INTO)/$(MANUALS)" "$(INTO)/$(BASH)" "$(INTO)/$(ZSH)"
	install -m 755 $(PROGRAM) "$(INTO)/bin/twkb_tool"
	install -m 644 docs/twkb_tool.1 "$(INTO)/$(MANUALS)/twkb_tool.1"
	install -m 644 completions/twkb_tool.bash "$(INTO)/$(BASH)/twkb_tool"
	install -m 644 completions/_twkb_tool "$(INTO)/$(ZSH)/_twkb_tool"

uninstall:
	rm -f "$(INTO)/bin/twkb_tool" "$(INTO)/$(MANUALS)/twkb_tool.1"
	rm -f "$(INTO)/$(BASH)/twkb_tool" "$(INTO)/$(ZSH)/_twkb_tool"

install-library: | $(LIBRARY)
	@tools/installable.sh library $(LIBRARY) $$(bindings/build.sh --sources)
	install -d "$(INTO)/include" "$(INTO)/lib/pkgconfig"
	install -m 644 bindings/c/twkb.h "$(INTO)/include/twkb.h"
	install -m 644 build/bindings/libtwkb.a "$(INTO)/lib/libtwkb.a"
	install -m 644 $(LIBRARY) "$(INTO)/lib/libtwkb.so.0"
	ln -sf libtwkb.so.0 "$(INTO)/lib/libtwkb.so"
	install -m 644 bindings/c/twkb.pc "$(INTO)/lib/pkgconfig/twkb.pc"

uninstall-library:
	rm -f "$(INTO)/include/twkb.h" "$(INTO)/lib/pkgconfig/twkb.pc"
	rm -f "$(INTO)/lib/libtwkb.a" "$(INTO)/lib/libtwkb.so" "$(INTO)/lib/libtwkb.so.0"

# Packs what is built, and builds nothing.
dist: kit
	tools/dist.sh

demo: build
	@examples/demo.sh $(PROGRAM)

# The tests run the program that rt ci builds, and use its libraries, so that all is proved once. Its last line comes last.
test: SHELL = bash
test: kit
	python3 tests/trusted.py --strict
	python3 tests/sources_cases.py
	python3 tests/agreement_cases.py
	python3 tests/borders.py
	python3 tests/bodies.py apply
	@mkdir -p build
# rt ci would put back the libraries of earlier commands, which may be of older sources: so they go before.
	rm -rf crates/*/out/rlib
	@tools/sources.sh > build/proved
	set -o pipefail; rt ci | tee build/ci.log
	cp crates/twkb_tool/out/twkb_tool $(PROGRAM)
	@mv build/proved $(PROGRAM).sources
	@$(MAKE) --no-print-directory --jobs=2 --output-sync=target test-program test-languages
	@$(MAKE) --no-print-directory test-packages
	@tail -n 1 build/ci.log

# These need what `make test` has built by then: test-packages the library and the module for web pages too, which the two before it
# build. A make that one of these tests calls has jobs of its own, so the flags of this make are kept from it.
ALONE = env -u MAKEFLAGS python3
test-program:
	$(ALONE) tests/run.py $(PROGRAM)
	$(ALONE) tests/refuse_allocations.py $(PROGRAM)
	$(ALONE) tests/install.py
	$(ALONE) tests/scripts.py $(PROGRAM)
	$(ALONE) tests/publish.py $(PROGRAM)
	$(ALONE) tests/setup.py
	$(ALONE) tests/first_answer.py
	$(ALONE) tests/page.py $(PROGRAM)

test-languages:
	$(ALONE) tests/bindings.py $(PROGRAM)
	$(ALONE) tests/cuts.py
	$(ALONE) tests/versions.py

test-packages:
	$(ALONE) tests/shown.py $(PROGRAM)
	$(ALONE) tests/web.py
	$(ALONE) tests/release.py $(PROGRAM)

# What other languages call needs one library more.
calls: libraries
	@python3 tools/prove.py twkb_call

library: calls
	bindings/build.sh

bindings: build calls
	python3 tests/bindings.py $(PROGRAM)

web: calls
	python3 tests/web.py

page: calls
	bindings/web/build.sh
	python3 bindings/web/make_page.py $(MODULE) $(PAGE)

bench: build
	cd crates/twkb_bench && rt run -- /dev/null 0 > /dev/null
	cp crates/twkb_bench/out/twkb_bench $(SCANNER)
	python3 bench/run.py $(PROGRAM) $(SCANNER) $(RUNS)

callers: build library
	python3 bench/callers.py $(PROGRAM) $(RUNS)

picture: build
	python3 bench/hops.py $(PROGRAM)

trusted:
	@python3 tests/trusted.py

# Refuses each call of the program for memory in turn, also while it reads its words. Part of test-program at the gate.
refusals: build
	python3 tests/refuse_allocations.py $(PROGRAM)

# The program, and the C library under the sanitizers, on layers made at random, for as long as is wanted: not at the gate.
fuzz: build library
	python3 tests/fuzz.py $(PROGRAM) $(SECONDS) $(SEED)

# Both take some checks of each crate, so the gate leaves them out.
apart: kit
	python3 tests/bodies.py apart

twins: kit
	python3 tests/bodies.py twins

# What it prints is of this machine, so the gate leaves it out.
stack: build
	python3 tests/stack.py $(PROGRAM)

clean:
	rm -rf build crates/*/out
