# make test      the gate: every proof, wrong program and program, the layout of the files, then recordings and the library from outside
# make edits     the wrong programs that the gate leaves out; CRATES="process rules" or SINCE=HEAD~3 (the crates changed since then) for some
# make harmless  harmless changes at the places of the wrong programs, each of which has to be proved; CRATES and SINCE as for `make edits`
# make model     the library against the model; CALLS=2000000 SEED=7 for a longer run
# make model-teeth  wrong libraries against the model: the comparison of the gate has to see each of them
# make library   the library alone: proves it and writes target/staticlib/libpalustrode.a
# make install   header, library and the file for pkg-config under PREFIX=/usr/local, with DESTDIR before it; `make uninstall` takes them away
# make perf      instructions a call, stack and code size of the library, beside the model
# make fuzz      a coverage-guided fuzzer on library and model; SECONDS=600 for a longer run
# make core      a vent loop under the library on a simulated PDP-11 (`pdp11`, of the package simh): each call and trap, and each text line of a
#                debugger, checked and told
# make run       plays the recording examples/handover.txt: each call, and below it what came of it

SECONDS = 60

.PHONY: test edits harmless run model model-teeth perf fuzz core library install uninstall

test:
	@sh checks/gate

edits:
	@SINCE="$(SINCE)" sh checks/edits $(CRATES)

harmless:
	@SINCE="$(SINCE)" sh checks/harmless $(CRATES)

CALLS = 200000
SEED = 1

model:
	@sh checks/library $(CALLS) $(SEED)

model-teeth:
	@sh checks/teeth $(CALLS) $(SEED)

library:
	@sh checks/archive

PREFIX = /usr/local
INCLUDE = $(DESTDIR)$(PREFIX)/include
LIB = $(DESTDIR)$(PREFIX)/lib
ARCHIVE = target/staticlib/libpalustrode.a
SOURCES := crates.txt $(shell find crates -type f ! -name '*.edit' ! -path '*/out/*')

$(ARCHIVE): $(SOURCES)
	@echo "make install: $@ is not built yet, or older than its sources; 'make library' builds it now, which takes minutes"
	@$(MAKE) --no-print-directory library

install: $(ARCHIVE)
	@install -d "$(INCLUDE)" "$(LIB)/pkgconfig"
	@install -m 644 include/palustrode.h "$(INCLUDE)/palustrode.h"
	@install -m 644 $(ARCHIVE) "$(LIB)/libpalustrode.a"
	@sh checks/pc "$(PREFIX)" >"$(LIB)/pkgconfig/palustrode.pc"
	@chmod 644 "$(LIB)/pkgconfig/palustrode.pc"
	@echo "make install: version $$(cat VERSION) is under $(DESTDIR)$(PREFIX)"

uninstall:
	@rm -f "$(INCLUDE)/palustrode.h" "$(LIB)/libpalustrode.a" "$(LIB)/pkgconfig/palustrode.pc"
	@echo "make uninstall: header, library and palustrode.pc are gone from $(DESTDIR)$(PREFIX)"

perf: library
	@sh perf/run

fuzz: library
	@sh fuzz/run $(SECONDS)

core:
	@sh core/run

run: target/bin/replay
	@sh examples/play examples/handover.txt

target/bin/%: $(SOURCES)
	@sh checks/build $* >&2
	@touch $@
