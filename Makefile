# `make help` says what there is. What is proved is shown as it goes; all that rt says of a crate is in target/NAME.log.
SAMPLE = brazing-furnace
SEED = 1
COUNT = 20000
PREFIX = /usr/local
DESTDIR =

PROGRAMS = guardrun guardwrite guardtext guardcheck guardtrace
LIBRARIES = fretmere fretmere_trace
VERSION = $(shell sed -n 's/.*FRETMERE_VERSION "\(.*\)"/\1/p' include/fretmere.h)
UNDER = $(DESTDIR)$(PREFIX)

help:
	@echo 'make sample SAMPLE=NAME     run a sample policy (samples/README.md); here $(SAMPLE)'
	@echo 'make programs               prove and build $(PROGRAMS)'
	@echo 'make library                prove the libraries for C; archives, headers and pkg-config files of $(LIBRARIES) go to dist/'
	@echo 'make install PREFIX=DIR     the command fretmere, programs, library and documents; here $(PREFIX)'
	@echo 'make test                   all tests but the proofs from nothing and the must-fail edits, which .ci/run has'
	@echo 'make trials SEED=N COUNT=N  compare the guard with the second one on drawn calls'
	@echo 'make bench                  count what calls cost'
	@echo 'make evidence               what the last passed .ci/run showed'
	@echo 'make clean                  remove all that was built'

sample:
	@tools/prove guardrun
	@tests/under-kit target/bin/guardrun <samples/$(SAMPLE).input

programs:
	@tools/prove $(PROGRAMS)

# The archives are those that rt made, byte for byte; VERSION beside them says which they are.
library:
	@tools/prove $(LIBRARIES)
	@mkdir -p dist/include dist/lib/pkgconfig
	@cp $(LIBRARIES:%=include/%.h) dist/include
	@cp $(LIBRARIES:%=target/staticlib/lib%.a) dist/lib
	@for name in $(LIBRARIES); do sed 's|@PREFIX@|$${pcfiledir}/../..|; s|@VERSION@|$(VERSION)|' include/$$name.pc.in >dist/lib/pkgconfig/$$name.pc; done
	@{ echo 'fretmere $(VERSION)'; echo "commit $$(git describe --always --dirty --abbrev=40 --exclude "*")"; echo "kit $$(rt version)"; (cd dist && sha256sum $(LIBRARIES:%=lib/lib%.a)); } >dist/VERSION
	@cat dist/VERSION

install: programs library place

# What is built, put into place. The command is a folder of its own, with a link in bin/: it finds its modules and the programs from where
# it lies.
place:
	@mkdir -p $(UNDER)/bin $(UNDER)/libexec/fretmere $(UNDER)/share/fretmere/desk $(UNDER)/share/doc/fretmere/examples $(UNDER)/include $(UNDER)/lib/pkgconfig
	@cp $(addprefix target/bin/,$(PROGRAMS)) tests/under-kit $(UNDER)/libexec/fretmere
	@cp tools/fretmere $(UNDER)/share/fretmere
	@cp tools/desk/*.py $(UNDER)/share/fretmere/desk
	@ln -sf ../share/fretmere/fretmere $(UNDER)/bin/fretmere
	@cp $(LIBRARIES:%=dist/include/%.h) $(UNDER)/include
	@cp $(LIBRARIES:%=dist/lib/lib%.a) $(UNDER)/lib
	@for name in $(LIBRARIES); do sed 's|@PREFIX@|$(PREFIX)|; s|@VERSION@|$(VERSION)|' include/$$name.pc.in >$(UNDER)/lib/pkgconfig/$$name.pc; done
	@cp README.md dist/VERSION docs/TEXT.md docs/FORMAT.md docs/POLICIES.md $(UNDER)/share/doc/fretmere
	@cp examples/scan-loop.c examples/reached.c $(UNDER)/share/doc/fretmere/examples
	@echo 'installed in $(UNDER): bin/fretmere; lib/lib*.a and include/*.h of $(LIBRARIES); share/doc/fretmere'

test: programs
	@python3 tests/stored.py check tests/under-kit target/bin/guardrun
	@python3 tests/texts.py check tests/under-kit target/bin/guardwrite
	@$(MAKE) -s -C second CC=gcc run trace
	@python3 tests/tallies.py check tests/under-kit target/bin/guardtrace
	@python3 tests/tallies.py long second/trace tests/under-kit target/bin/guardtrace
	@python3 tests/texts.py back second/run tests/under-kit target/bin/guardtext
	@python3 tests/fretmere.py
	@python3 tests/shown.py check
	@tests/library

trials:
	@tools/prove trials
	@tests/trials $(COUNT) $(SEED)

bench:
	bench/run

evidence:
	@tools/evidence

clean:
	rm -rf target dist crates/*/out
	@$(MAKE) -s -C second clean

.PHONY: help sample programs library install place test trials bench evidence clean
