# What people look for. `rt`, of Rattle's kit, has to be on the path; crates.txt says which crate stands on which.
#
#   make              the programs, proved: crates/NAME/out/NAME of kleisli, klcat, kljson, kltable and klwhy; -jN proves N
#                     crates at once
#   make try          the first example, by a program of which nothing is proved, within three minutes; PROGRAM=.. for
#                     another without a catalogue
#   make run          the first example, by the proved program; PROGRAM=.. CATALOGUE=.. for another
#   make test         what the gate does: every proof, every test, and the repository's own checks
#   make wrong        tries the wrong bodies that contracts have to refuse; CRATES=.. for some crates
#   make install      the programs and the man page under PREFIX, /usr/local where none is given; DESTDIR=.. puts a folder
#                     before it
#   make clean        removes what was built

.DEFAULT_GOAL := programs
MAKEFLAGS += --no-builtin-rules

PREFIX ?= /usr/local
PROGRAM ?= examples/first.cpl
CATALOGUE ?=
CRATES ?=

PROGRAMS := kleisli klcat kljson kltable klwhy
BUILT := crates/kleisli/out/kleisli

# What each program is run with once it is built.
first_of_kleisli := check ../../examples/first.cpl
first_of_klcat := ../../examples/biology/genes.csv
first_of_kljson := to ../../examples/biology/papers.json
first_of_kltable := ../../examples/biology/genes.csv
first_of_klwhy := ../../examples/first.cpl

# The libraries of each program, and of all, each behind those that it stands on.
$(foreach it,$(PROGRAMS),$(eval below_$(it) := $(shell .ci/order $(it))))
LIBRARIES := $(below_kleisli)
$(foreach it,$(PROGRAMS),$(eval LIBRARIES += $(filter-out $(LIBRARIES),$(below_$(it)))))
LAST := $(words $(LIBRARIES) $(PROGRAMS))

# What a crate is made of: folders too, since a file that is gone changes its folder.
files = $(shell find crates/$(1)/src crates/$(1)/specs crates/$(1)/proofs 2> /dev/null)
$(foreach it,$(LIBRARIES) $(PROGRAMS),$(eval files_of_$(it) := $(call files,$(it))))
below = $(filter $(LIBRARIES),$(shell sed -n 's/^$(1)[^:]*://p' crates.txt))

.PHONY: programs $(PROGRAMS) libraries try run test wrong install clean

programs: $(PROGRAMS)

# A program that is newer than all that it is made of is done, whoever built it: the gate leaves one too.
# $(1): the program, $(2): its number
define program
$(1): crates/$(1)/out/$(1)

crates/$(1)/out/$(1): crates.txt $(foreach it,$(below_$(1)) $(1),$(files_of_$(it)))
	@$$(MAKE) --no-print-directory $(below_$(1):%=crates/%/out/made)
	@.ci/build $(2) $(LAST) $(1) rt run -- $(first_of_$(1))
endef

place := $(words $(LIBRARIES))
$(foreach it,$(PROGRAMS),$(eval place := $(shell expr $(place) + 1))$(eval $(call program,$(it),$(place))))

# Libraries are built from the bottom up, which spares the pass over all sources with which a first build of the program
# begins otherwise.
libraries: $(LIBRARIES:%=crates/%/out/made)

# $(1): the crate, $(2): its number
define library
crates/$(1)/out/made: crates.txt $(files_of_$(1)) $(patsubst %,crates/%/out/made,$(call below,$(1)))
	@.ci/build $(2) $(LAST) $(1) rt lib
	@touch $$@
endef

place := 0
$(foreach it,$(LIBRARIES),$(eval place := $(shell expr $(place) + 1))$(eval $(call library,$(it),$(place))))

try:
	@cd crates/kleisli && rt try --data program.cpl=../../$(PROGRAM) -- run program.cpl

run: kleisli
	@$(BUILT) run $(PROGRAM) $(CATALOGUE)

test:
	@.ci/run

wrong:
	@.ci/wrong $(CRATES)

install: programs
	for it in $(PROGRAMS); do install -D crates/$$it/out/$$it $(DESTDIR)$(PREFIX)/bin/$$it || exit 1; done
	install -D -m 644 docs/kleisli.1 $(DESTDIR)$(PREFIX)/share/man/man1/kleisli.1

clean:
	rm -rf crates/*/out
