# Each target has a line '#: TARGET  what it does (how long it takes)', which `make` prints. Each looks
# for the tools that it needs before it does anything (tools/needs), and writes a file of the repository
# whole or not at all (tools/whole).
.PHONY: help lib install uninstall run programs test bench contracts picture examples expected fmt clean

help:
	@echo 'Fullerecru $(VERSION). Times are those of four cores; what did not change is not proved again.'
	@echo
	@sed -n 's/^#: /    make /p' Makefile

VERSION := $(shell tools/version)
SO_VERSION := $(shell tools/version --so)
ARCHIVE = target/staticlib/libfullerecru.a
LIB = target/lib
SHARED = libfullerecru.so.$(VERSION)
SONAME = libfullerecru.so.$(SO_VERSION)
LINKS = $(LIB)/$(SONAME) $(LIB)/libfullerecru.so

#: lib        the static and the shared library, in target/lib (7 min; 1 s where nothing changed)
lib:
	@tools/needs 'make lib' bash rt cc ld
	@tools/archive fullerecru
	@$(MAKE) -s --no-print-directory $(LIB)/$(SHARED) $(LINKS) $(LIB)/libfullerecru.a

$(LIB)/$(SHARED): $(ARCHIVE) include/fullerecru.h
	@mkdir -p $(LIB)
	@tools/whole $@ cc -shared -Wl,-soname,$(SONAME) -Wl,--whole-archive $(ARCHIVE) -Wl,--no-whole-archive \
	    -Wl,-z,defs -o {}
	@echo '$@: linked'

# Copies, since rt ci refuses a link anywhere in the checkout.
$(LINKS): $(LIB)/$(SHARED)
	@tools/whole $@ cat $<
	@chmod 755 $@

$(LIB)/libfullerecru.a: $(ARCHIVE)
	@tools/whole $@ cat $<

# What a user sets goes to the scripts by the environment, where spaces and quotes do no harm.
PREFIX ?= /usr/local
DESTDIR ?=
TAPE = examples/tapes/mould-row.tape
PICTURED = examples/tapes/mould-row.tape
TITLE = Two rows over a mould: 325 blocks, most of them chords of 0.25 to 0.33 mm
export PREFIX DESTDIR TAPE PICTURED TITLE

# The library is made where it is not that of the sources; where it is, none of the tools that make it
# need be there.

#: install    header, libraries and fullerecru.pc below PREFIX=/usr/local, in DESTDIR= (1 s behind make lib)
install:
	@tools/needs 'make install' bash
	@tools/archive --check fullerecru && $(MAKE) -q --no-print-directory $(LIB)/$(SHARED) || $(MAKE) --no-print-directory lib
	@tools/install

#: uninstall  removes what make install put there (1 s)
uninstall:
	@tools/needs 'make uninstall' bash
	@tools/install --remove

#: run        lists the tape TAPE=examples/tapes/mould-row.tape (4 min the first time, then 1 s)
run:
	@tools/needs 'make run' bash rt
	@tools/list "$$TAPE"

# The programs for users; the others of crates/ are for tests.
PROGRAMS = planlist ngctape planreplay planreport planorders

#: programs   planlist, ngctape, planreplay, planreport and planorders, in target/bin (10 min; 1 s where nothing changed)
programs:
	@tools/needs 'make programs' bash rt
	@tools/program $(PROGRAMS)

#: test       every check: it EMPTIES target/ once rt ci is done (20 min; 4 min where all is kept); ends in 'N passed, M failed'
test:
	@tools/needs 'make test' bash
	@tests/run

#: bench      time and instructions of the proved code beside the independent implementation (2 min behind make lib)
bench:
	@tools/needs 'make bench' bash rt cargo rustc cc ld
	@$(MAKE) --no-print-directory lib
	@tools/archive arith_c
	@tools/program planlist ngctape planorders
	@tests/bench/run

#: contracts  docs/CONTRACTS.txt, every public function with its contract, written again (1 s)
contracts:
	@tools/needs 'make contracts' bash
	@tools/whole docs/CONTRACTS.txt tools/contracts

#: picture    docs/plan.svg, the plan of the tape PICTURED= under TITLE=, drawn again (2 s behind make lib)
picture:
	@tools/needs 'make picture' bash rt cc ld python3
	@$(MAKE) --no-print-directory lib
	@tools/whole docs/plan.svg tools/fullerecru plot "$$PICTURED" --title "$$TITLE" -o {}

# a program of the independent implementation
REFERENCE = env CARGO_TARGET_DIR=$(CURDIR)/target/reference cargo run --quiet --release --offline \
    --manifest-path $(CURDIR)/tests/reference/Cargo.toml --bin

# Cases of the program calls_run, the orders for planorders and the tapes for planreport, and what
# these, planlist and planreplay must write.
REPORTED = crates/planreport

#: expected   the stored cases and answers of the programs, made again by the independent implementation (10 s)
expected:
	@tools/needs 'make expected' bash cargo rustc
	tools/whole crates/calls_run/stdin $(REFERENCE) calls_expect -- cases
	tools/whole crates/calls_run/stdout $(REFERENCE) calls_expect -- answers < crates/calls_run/stdin
	tools/whole crates/planlist/stdout $(REFERENCE) planlist_ref < crates/planlist/stdin
	tools/whole crates/planreplay/stdout $(REFERENCE) planreplay_ref < crates/planreplay/stdin
	tools/whole crates/planorders/stdin $(REFERENCE) maketape -- order-cases
	tools/whole crates/planorders/stdout $(REFERENCE) planorders_ref < crates/planorders/stdin
	@mkdir -p $(REPORTED)/data
	for name in right-angle what-held to-and-fro; do \
	    tools/whole $(REPORTED)/data/$$name.tape $(REFERENCE) maketape -- $$name || exit 1; done
	tools/whole $(REPORTED)/data/cut.tape head -c 23 $(REPORTED)/data/right-angle.tape
	tools/whole $(REPORTED)/args printf '%s.tape\n' right-angle what-held cut to-and-fro
	cd $(REPORTED)/data && ../../../tools/whole ../stdout $(REFERENCE) planreport_ref -- $$(cat ../args)

TAPES = $(addprefix examples/tapes/,right-angle.tape mould-row.tape square-pocket.tape \
    to-and-fro.tape what-held.tape)
TRACES = examples/traces/shop-traffic.trace
STEPS = examples/steps/soft-motors.steps
TEXTS = examples/text/pocket-with-boss.ngc
ORDERS = examples/orders/cam-host.orders

#: examples   the example tapes, traces, torque steps, texts and orders, made again (10 s)
examples: $(TAPES) $(TRACES) $(STEPS) $(TEXTS) $(ORDERS)

.PHONY: $(TAPES) $(TRACES) $(STEPS) $(TEXTS) $(ORDERS) example-tools
$(TAPES) $(TRACES) $(STEPS) $(TEXTS) $(ORDERS): example-tools
	@mkdir -p $(@D)
	tools/whole $@ $(REFERENCE) maketape -- $(basename $(@F))

example-tools:
	@tools/needs 'make examples' bash cargo rustc

#: fmt        lays the sources out (15 s)
fmt:
	@tools/needs 'make fmt' rt
	@for crate in $$(tools/uses); do (cd crates/$$crate && rt fmt) || exit 1; done

#: clean      removes target/ (1 s)
clean:
	rm -rf target
