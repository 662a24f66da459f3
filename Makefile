# make lib                  the C library and its header, in out/
# make demo                 writes four modules, plays them, translates one and plays its stream, and compares; all in out/
# make judge FILE=song.mod  judges a file
# make test                 everything: the proofs, the programs, the host's tests (.ci/run)
# make host-test            the host's tests alone: c-test, robust, install-test and cargo's
# make bench                the benchmarks, with other players where they are installed; make bench-players installs them first
# make compare COUNT=1000000 [SEED=0]   the proved library against the second implementation, on so many generated inputs
# make install [PREFIX=/usr/local] [DESTDIR=]   command, library, header, manual page and completion, as make built them
# make uninstall [PREFIX=..] [DESTDIR=]         takes the same files away
CARGO := cargo
CC ?= cc
CXX ?= c++
COUNT ?= 1000000
SEED ?= 0
PREFIX ?= /usr/local
# Recipes take names from the environment, where spaces, quotes and & do no harm.
export FILE PREFIX DESTDIR

C_WARNINGS := -Wall -Wextra -Werror -pedantic
BUILT := host/target/release
PLAY := $(BUILT)/lampthistle

# One archive for C, C++ and every cargo profile.
export LAMPTHISTLE_LIB_DIR := $(CURDIR)/out

all: lib
	$(CARGO) build --release --locked --quiet

lib: out/liblampthistle.a out/lampthistle.h

judge: lib
	@$(CARGO) run --release --locked --quiet -p lampthistle -- judge -- "$${FILE:?usage: make judge FILE=song.mod}"

demo: all
	$(BUILT)/demo out/demo.mod out/waves.mod out/eight.mod out/tuned.mod
	$(PLAY) info out/demo.mod
	$(PLAY) play out/demo.mod --once --out out/demo.wav
	$(PLAY) translate out/demo.mod --once --out out/demo.stream
	$(PLAY) board out/demo.stream out/demo.mod --out out/demo-board.wav
	$(PLAY) compare out/demo.mod --once
	cmp out/demo.wav out/demo-board.wav
	$(PLAY) play out/waves.mod --once --out out/waves.wav
	$(PLAY) compare out/waves.mod --once
	$(PLAY) play out/eight.mod --once --out out/eight.wav
	$(PLAY) compare out/eight.mod --once
	$(PLAY) play out/tuned.mod --once --out out/tuned.wav
	$(PLAY) compare out/tuned.mod --once

bench: all
	$(BUILT)/bench
	scripts/players out

bench-players: all
	scripts/players --install out

compare: lib
	$(CARGO) run --release --locked --quiet -p trials --bin compare -- $(COUNT) $(SEED)

test:
	.ci/run

# What the gate runs after the proofs.
host-test: c-test robust install-test
	$(CARGO) test --locked --quiet

# The archive and the header as C and C++ users get them, and the examples.
c-test: demo
	for part in judge channels play waves finetune floats burst quiet stream arrival boards; do \
	    $(CC) -std=c99 $(C_WARNINGS) -Iout host/c/$$part.c out/liblampthistle.a -o out/$${part}_c && out/$${part}_c || exit 1; \
	    $(CXX) -std=c++11 $(C_WARNINGS) -x c++ -Iout host/c/$$part.c -x none out/liblampthistle.a -o out/$${part}_cc \
	        && out/$${part}_cc || exit 1; \
	done
	$(CC) -std=c99 $(C_WARNINGS) -pthread -Iout host/c/stack.c out/liblampthistle.a -o out/stack
	out/stack out/demo.mod
	out/stack out/eight.mod
	out/stack out/tuned.mod
	for part in panel board serial; do \
	    $(CC) -std=c99 $(C_WARNINGS) -Iout examples/$$part.c out/liblampthistle.a -o out/$$part || exit 1; \
	    $(CXX) -std=c++11 $(C_WARNINGS) -x c++ -Iout examples/$$part.c -x none out/liblampthistle.a -o out/$${part}_cc || exit 1; \
	done
	$(CC) -std=c99 $(C_WARNINGS) -DFIRST_CLOCK=4294967200u -Iout examples/panel.c out/liblampthistle.a -o out/panel_wrap
	$(CC) -std=c99 $(C_WARNINGS) host/c/line.c -o out/line
	scripts/examples out $(PLAY)
	! $(CC) -std=c99 -U__x86_64__ -Iout -fsyntax-only host/c/judge.c 2>out/said
	grep -q 'the library is built for x86-64 Linux alone' out/said
	$(MAKE) --question lib
	cp out/demo.mod 'out/the demo.mod'
	$(MAKE) judge FILE='out/the demo.mod'

# The calls under a memory checker, on damaged inputs.
robust: all
	$(CC) -std=c99 -g $(C_WARNINGS) -Iout host/c/robust.c out/liblampthistle.a -o out/robust
	rm -rf out/damaged && $(BUILT)/damaged out/damaged
	scripts/memcheck out/robust out/damaged

# Installing into a folder of its own, using what is there, and taking it away.
install-test: all
	scripts/installed 'out/installed & there'
	scripts/unlinked out/unlinked

# What make built is installed as it is: nothing is proved or built again, so that another user can do it, without the kit.
install:
	@scripts/install $(PLAY)

uninstall:
	@scripts/install --remove

# The folders stand among the sources, so that a file taken away counts as a change; each crate's out/ is rt's own. What rt says is shown where
# it fails: rt lib then leaves the archive that it made before. The archive is for every x86-64 processor, as the header says; rt lib by itself
# makes one for x86-64-v2.
out/liblampthistle.a: crates.txt $(shell find crates -regex 'crates/[^/]*/out' -prune -o -print)
	@mkdir -p out
	@echo 'proving the library: some minutes from nothing (out/proofs.log)'
	@(cd crates/capi && rt lib --cpu=x86-64) >out/proofs.log 2>&1 || { cat out/proofs.log; exit 1; }
	cp crates/capi/out/libcapi.a $@

out/lampthistle.h: include/lampthistle.h
	@mkdir -p out
	cp $< $@

clean:
	rm -rf out host/target crates/*/out

.PHONY: all lib judge demo bench bench-players compare test host-test c-test robust install-test install uninstall clean
