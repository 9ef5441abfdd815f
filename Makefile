# make fast                   builds the program in minutes without proving anything, build/fast/c104: it checks itself at
#                             each step, and is some three times slower than the proved one
# make                        proves and builds the program, build/c104, crates side by side, in one to two hours on four
#                             processors; once stopped, it goes on from what it had proved
# make run                    builds it and runs the first example
# make install                copies the program, its manual page, and the tools that ask it below PREFIX, which is /usr/local
#                             unless said, and below DESTDIR before it; what is built already isn't built again
# make dist                   packs the proved program, its tools and pages for machines without the toolchain, into
#                             build/c104-VERSION.tar.gz
# make page DESC=FILE SCRIPT=FILE
#                             writes a page that plays a run, build/run.html, for any browser: of the ring that locks up where
#                             none is named; by the fast program where build/c104 is missing or older than its sources
# make check                  proves what has changed, over kept work, and runs the cases over the program, or those of
#                             some kinds, as kinds=runs
# make pages                  writes what the crates say of themselves into build/pages: each contract, each definition that
#                             one rests on, what a refused call leaves, and the lemmas that other crates use
# make slow                   lists the functions that took long in the last checks
# make edits CRATE=c104_link  tries the edits of one crate that the prover must refuse
# make test                   runs every proof, test, edit and case, from nothing but edits that were refused before on
#                             this machine; its last line is "N passed, M failed"
# make storms                 runs a thousand storms over random networks, and compares each with a plain run; no part
#                             of the test, which runs twenty of them
# make fuzz MINUTES=60        fuzzes the program by AFL++ for a time, with the cases as seeds; no part of the test
# make bench                  counts the program's instructions and holds them to README, times it over grids of switches
#                             and over a long script, and its check over large descriptions; no part of the test

program := build/c104
fast := build/fast/c104
example := examples/first-network.txt
sources := $(shell find crates crates.txt -path '*/out' -prune -o -type f -print)

PREFIX ?= /usr/local
installed := $(DESTDIR)$(PREFIX)

.PHONY: all fast run install dist page pages check slow edits test storms fuzz bench

all: $(program)

$(program): $(sources)
	@tests/build_program $@

fast: $(fast)

$(fast): $(sources)
	@tests/build_fast $@

run: $(program)
	$(program) < $(example)

install:
	@[ -f $(program) ] || $(MAKE) --no-print-directory all
	@$(MAKE) --no-print-directory --question all \
	    || echo 'sources are newer than $(program), which is installed as it stands'
	install -d '$(installed)/bin' '$(installed)/share/man/man1' '$(installed)/share/c104/python/c104'
	install -m 755 $(program) '$(installed)/bin/c104'
	install -m 755 $(wildcard bin/c104-*) '$(installed)/bin'
	install -m 644 $(wildcard python/c104/*.*) '$(installed)/share/c104/python/c104'
	install -m 644 docs/c104.1 '$(installed)/share/man/man1/c104.1'

dist:
	@$(MAKE) --no-print-directory --question all \
	    || { echo '$(program) is missing or older than its sources, so it is not packed: run make first'; exit 1; }
	@tests/write_dist $(program) build

page: DESC = examples/ring.txt
page: SCRIPT = $(if $(filter examples/ring.txt,$(DESC)),examples/ring-packets.txt)
page: PAGE = build/run.html
page:
	@[ -n "$$C104" ] || $(MAKE) --no-print-directory --question all || $(MAKE) --silent fast
	@mkdir -p '$(dir $(PAGE))'
	@bin/c104-page '$(DESC)' $(if $(SCRIPT),'$(SCRIPT)') -o '$(PAGE)'
	@echo 'open $(PAGE) in a browser'

check:
	@mkdir -p build
	@touch build/check-begun
	@echo 'rt all check: what it prints goes to build/check-log'
	@rt all check > build/check-log 2>&1 || { grep -E '^(== |[^ ]+: (failed|not run)|.*error)' build/check-log; exit 1; }
	@tail -n 1 build/check-log
	@tests/slow_functions --since build/check-begun
	@$(MAKE) --no-print-directory all
	@tests/run_cases $(program) $(kinds)

pages:
	@tests/write_pages

slow:
	@tests/slow_functions

edits:
	@[ -n "$(CRATE)" ] || { echo 'which crate? for example: make edits CRATE=c104_link'; exit 2; }
	@mkdir -p build
	@cd crates/$(CRATE) && rt lib > ../../build/edits-log 2>&1 || { tail -n 30 ../../build/edits-log; exit 1; }
	@tests/refused_edits --only --kept "$(CURDIR)/build/edits" $(CRATE)

test:
	@tests/all

storms: $(program)
	@tests/storms $(program)

fuzz: MINUTES = 60
fuzz: $(program)
	@tests/fuzz $(program) $(MINUTES)

bench: $(program)
	@tests/bench_instructions $(program)
	@tests/bench_networks $(program)
	@tests/bench_checks $(program)
