# make                        prove every crate, build the programs, the C library and the examples
# make run TICKET=FILE        run one ticket
# make explain TICKET=FILE    what it is answered, in words: the run round by round, what each process heard and why it stands where it
#                             does, or why the ticket is refused. PROCESS=P and ROUND=R: of that process, and of that round, alone
# make picture TICKET=FILE    the same as a picture, in target/pictures/ or PICTURE=FILE
# make quote TICKET=FILE COSTS=FILE
#                             what each process quotes for a tender: COSTS has the direct cost of each tender line, in pence, on a line by itself
# make test                   everything: proofs, must-fail edits, programs, and the evidence beyond the proofs; what each part took. What the gate
#                             passed before on this machine, of the same files, it does not prove again.
#                             (The wrong programs beside the gate are not tried here.)
# make vectors                compute the definitions on every vector of tests/vectors/
# make vectors-part           the same on a part that has every kind of vector
# make library-test           the compiled library on every vector of tests/vectors/
# make host-test              simulate and examples/host on every ticket of tests/vectors/, the host also by seeds and with two tickets mixed, examples/frames on those of Papers 2 and 4, examples/report on those of Paper 6, examples/reasons on those of Paper 7, examples/quote on those of Paper 9, and what cannot be read or written
# make interface-test         the header's prototypes against the library's, its promises against tests/contracts.txt, docs/FORMATS.md against the header
# make show-test              explain and picture on every ticket of tests/vectors/, the settling round and the reasons as the library answers them
# make second-test            the second implementation's own tests
# make wrong-worlds           wrong rules of the protocol, and a counterexample to each claim that fails under them
# make unused                 list definitions, lemmas and imports that nothing uses, promises that no must-fail edit serves, and where
#                             docs/CLAIMS.md differs from the crates
# make wrong-programs         the wrong programs beside the gate: of the crates that changed since theirs were refused, CRATES='a b', or ALL=1
# make costs                  instructions of every exported call on stored tickets: it fails where one rose by more than 2 %; STORE=1 stores the counts.
#                             It needs valgrind
# make compare                the proved library against the second implementation: SEED=1 COUNT=1000000
# make bench                  speed of the proved library beside the second implementation, which goes message by message
# make fuzz                   a coverage-guided fuzzer over the C interface: SECONDS=60. It needs clang with its fuzzer
# make pictures               the runs of examples/*.ticket as pictures in docs/pictures/
# make install PREFIX=..      the C header, library and pkg-config file; simulate, reasons, explain-run, draw-run and the man page
# make help                   this list

PREFIX ?= /usr/local
SEED ?= 1
COUNT ?= 1000000
SECONDS ?= 60

CC ?= cc
CFLAGS_STRICT = -std=c11 -O2 -g -Wall -Wextra -Wpedantic -Wconversion -Werror -Iinclude
LIBRARY = crates/agreement/out/libagreement.a
SOURCES = crates.txt $(shell find crates \( -name out -o -name must-fail -o -name wrong-programs \) -prune -o \( -name '*.rt' -o -name '*.antt' \) -print)
SANITIZERS = -fsanitize=address,undefined -fno-sanitize-recover=all
SECOND = cd second && CARGO_TARGET_DIR=../target/second AGREEMENT_LIB_DIR="$(CURDIR)/$(dir $(LIBRARY))" cargo
VERSION = $(shell sed -n 's/^.define UC_VERSION "\(.*\)"/\1/p' include/agreement.h)

COVERAGE_FLAGS = -Cpasses=sancov-module -Cllvm-args=-sanitizer-coverage-level=3 -Cllvm-args=-sanitizer-coverage-inline-8bit-counters \
  -Cllvm-args=-sanitizer-coverage-pc-table -Cllvm-args=-sanitizer-coverage-trace-compares

.PHONY: all help prove ticket-named simulate-built show-built run explain picture quote test built vectors vectors-part unused second-test wrong-worlds wrong-programs \
  library-test host-test interface-test show-test compare compare-short costs bench fuzz pictures install

EXAMPLES = host frames report reasons quote

all: prove target/bin/simulate $(LIBRARY) $(EXAMPLES:%=target/bin/%)

help:
	@sed -n '/^#/!q; s/^# //p' Makefile

prove:
	rt all check

# What is written of building goes to standard error, so that standard output has the answer alone. File names go by the environment, so that
# any name will do.
ticket-named:
	@test -n "$$TICKET" || { echo 'make: which ticket? TICKET=FILE' >&2; exit 2; }
	@test -r "$$TICKET" || { echo "make: $$TICKET: no file that can be read" >&2; exit 2; }

simulate-built: ticket-named
	@$(MAKE) -s target/bin/simulate >&2

run: simulate-built
	@said=$$(target/bin/simulate < "$$TICKET") && test -n "$$said" && printf '%s\n' "$$said"

# What explaining and drawing ask: the program for the answer, and an example, with the library, for the reasons.
show-built: simulate-built
	@$(MAKE) -s target/bin/reasons >&2

explain: show-built
	@tools/explain-run $(if $(PROCESS),--process $(PROCESS)) $(if $(ROUND),--round $(ROUND)) -- "$$TICKET"

picture: show-built
	@mkdir -p target/pictures
	@picture=$${PICTURE:-target/pictures/$$(basename -- "$$TICKET" .ticket).svg} && tools/draw-run -- "$$TICKET" "$$picture" && echo "$$picture"

quote: ticket-named
	@test -n "$$COSTS" || { echo 'make: which direct costs? COSTS=FILE' >&2; exit 2; }
	@$(MAKE) -s target/bin/quote >&2
	@target/bin/quote "$$TICKET" "$$COSTS"

# rt leaves what it makes in a crate's out/, the gate a program too. To build a program it also runs it, here on nothing.
crates/simulate/out/simulate: $(SOURCES)
	cd crates/simulate && rt run < /dev/null > /dev/null
	@touch $@

target/bin/simulate: crates/simulate/out/simulate
	mkdir -p target/bin
	cp $< $@

test:
	@tools/in-memory tests/test

# What several parts of the test need.
built: $(LIBRARY) target/bin/simulate target/bin/calls target/bin/reasons
	$(SECOND) build --quiet --release -p against

vectors:
	tools/in-memory tests/try-vectors

vectors-part:
	tools/in-memory tests/try-vectors --part

$(LIBRARY): $(SOURCES)
	cd crates/agreement && rt lib
	@touch $@

target/bin/%: examples/%.c include/agreement.h $(LIBRARY)
	mkdir -p target/bin
	$(CC) $(CFLAGS_STRICT) $< $(LIBRARY) -o $@

target/bin/%-sanitized: examples/%.c include/agreement.h $(LIBRARY)
	mkdir -p target/bin
	$(CC) $(CFLAGS_STRICT) $(SANITIZERS) $< $(LIBRARY) -o $@

target/bin/calls: tests/calls.c include/agreement.h $(LIBRARY)
	mkdir -p target/bin
	$(CC) $(CFLAGS_STRICT) $(SANITIZERS) tests/calls.c $(LIBRARY) -o $@

host-test: target/bin/simulate $(EXAMPLES:%=target/bin/%) $(EXAMPLES:%=target/bin/%-sanitized)
	tests/host-test $(EXAMPLES:%=target/bin/%-sanitized) target/bin/simulate

library-test: target/bin/calls
	tests/library-test target/bin/calls

interface-test: $(LIBRARY)
	tests/interface-test $(LIBRARY)

show-test: target/bin/simulate target/bin/reasons target/bin/calls
	tests/show-test target/bin/simulate target/bin/calls

unused:
	tools/unused
	tools/promises
	tools/believed

wrong-programs:
	tools/in-memory tools/wrong-programs $(if $(ALL),--all) $(CRATES)

costs: $(LIBRARY)
	@command -v valgrind > /dev/null || { echo 'make costs: it needs valgrind, which is not here' >&2; exit 2; }
	mkdir -p target/bin
	$(CC) $(CFLAGS_STRICT) tests/costs.c $(LIBRARY) -o target/bin/costs
	tests/costs-test $(if $(STORE),--store) target/bin/costs

second-test:
	$(SECOND) test --quiet

wrong-worlds:
	@$(SECOND) run --quiet --bin wrong-worlds

compare: $(LIBRARY)
	$(SECOND) run --quiet --release -p against --bin compare -- --seed $(SEED) --count $(COUNT)

# The comparison's own tests show first that it sees mistakes.
compare-short: $(LIBRARY)
	$(SECOND) test --quiet -p against --lib
	$(SECOND) run --quiet --release -p against --bin compare -- --short

bench: $(LIBRARY)
	$(SECOND) run --quiet --release -p against --bin bench

# The second implementation is instrumented for the fuzzer's coverage, in a folder of its own.
fuzz: $(LIBRARY)
	@command -v clang > /dev/null || { echo 'make fuzz: it needs clang with its fuzzer, which is not here' >&2; exit 2; }
	mkdir -p target/fuzz
	second/fuzz/seed-corpus target/fuzz/corpus
	cd second && RUSTFLAGS='$(COVERAGE_FLAGS)' CARGO_TARGET_DIR=../target/fuzz/second cargo build --quiet --release -p oracle
	clang -g -O1 -std=c11 -fsanitize=fuzzer,address,undefined second/fuzz/fuzz.c $(LIBRARY) target/fuzz/second/release/liboracle.a -o target/fuzz/fuzz
	target/fuzz/fuzz -max_len=4200 -max_total_time=$(SECONDS) target/fuzz/corpus

pictures: target/bin/simulate target/bin/reasons
	mkdir -p docs/pictures
	for t in examples/*.ticket; do tools/draw-run "$$t" "docs/pictures/$$(basename "$$t" .ticket).svg" || exit; done

target/man/simulate.1: docs/simulate.1.in include/agreement.h tools/man-page tools/runs.py
	mkdir -p target/man
	tools/man-page > $@

# The tools find the header and the programs by their place beside them (tools/runs.py).
PLACE = $(DESTDIR)$(PREFIX)
install: $(LIBRARY) target/bin/simulate target/bin/reasons target/man/simulate.1
	install -d "$(PLACE)/bin" "$(PLACE)/include" "$(PLACE)/lib/pkgconfig" "$(PLACE)/share/man/man1" "$(PLACE)/share/agreement"
	install -m 755 target/bin/simulate target/bin/reasons "$(PLACE)/bin/"
	install -m 644 include/agreement.h "$(PLACE)/include/"
	install -m 644 $(LIBRARY) "$(PLACE)/lib/"
	sed 's|@PREFIX@|$(PREFIX)|; s|@VERSION@|$(VERSION)|' include/agreement.pc.in > "$(PLACE)/lib/pkgconfig/agreement.pc"
	install -m 644 target/man/simulate.1 "$(PLACE)/share/man/man1/"
	install -m 644 docs/FORMATS.md tools/runs.py "$(PLACE)/share/agreement/"
	install -m 755 tools/explain-run tools/draw-run "$(PLACE)/share/agreement/"
	ln -sf ../share/agreement/explain-run ../share/agreement/draw-run "$(PLACE)/bin/"
