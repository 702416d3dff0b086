# Builds, tests and installs the programs and the C library. `rt`, the command of the Rattle toolchain, proves each program and library before
# it builds it. Results are kept: a crate that has not changed is not proved again.
#
#   make programs                                   tlbridge and tlexplain
#   make library C=8 M=4                            out/libtlbridge_8_4.a, for a client's link of 8 bytes and a manager's of 4
#   make test                                       tests the programs, the libraries that are built, the scripts and the documents;
#                                                   a program that is not built is built first. Two minutes
#   make test-long                                  the tests that `make test` leaves out, some of which take minutes each
#   make install PREFIX=.. [DESTDIR=..] [PAIRS=..]  the files that need no proof, then the library, then the programs, each once it is ready
#   make install-files PREFIX=.. [DESTDIR=..]       only the files that need no proof and no `rt`: SystemVerilog, Python, the unverified model,
#                                                   headers, examples, documents, man pages, completion for bash
#   make dist [PAIRS=..]                            the installed tree as an archive in out/, to be unpacked anywhere
#
# PAIRS are the pairs of widths of the installed library, for example PAIRS="8:4 4:8". The default is 8:4. PROGRAMS=no leaves out the
# programs, whose proofs take longest.

override PREFIX := $(or $(PREFIX),/usr/local)
PAIRS ?= 8:4
PROGRAMS ?= yes
CFLAGS ?= -O2
WARNINGS := -Wall -Wextra -Wshadow -Wconversion
# The version of the project, and that of the library's interface, which is in its SONAME.
VERSION := $(shell sed -n 1p VERSION)
INTERFACE := $(shell sed -n 's/^.define TL_VERSION \([0-9]*\)$$/\1/p' include/tlbridge.h)

underscored := $(subst :,_,$(PAIRS))
pair_archives := $(underscored:%=out/libtlbridge_%.a)
archives := $(pair_archives) out/libtlbridge_trace.a
proved := crates.txt tools/make-library $(shell find $(wildcard crates/*/src crates/*/specs crates/*/proofs) -type f)
root := $(DESTDIR)$(PREFIX)
share := $(root)/share/tlbridge
again = $(MAKE) --no-print-directory

.PHONY: help programs library test test-long install install-files install-pairs install-library install-tlbridge install-tlexplain dist FORCE
.DELETE_ON_ERROR:

help:
	@sed -n '1,/^$$/s/^# \{0,1\}//p' Makefile

program_of = ./$(1) --version || { command -v rt > /dev/null || \
	echo "make: rt, the command of the Rattle toolchain, is not in PATH. README.md names the kit that has it." >&2; exit 1; }

programs:
	$(call program_of,tlbridge)
	$(call program_of,tlexplain)

library:
	@[ -n "$(C)" ] && [ -n "$(M)" ] || { echo "make: give both widths in bytes, for example make library C=8 M=4" >&2; exit 1; }
	+@$(again) out/libtlbridge_$(C)_$(M).a

# BUILDS=both: each program has to be there in both builds, as `rt ci` leaves them, and the tests marked `gate` run, too.
test:
	@tools/run-tests $(if $(filter both,$(BUILDS)),--both-builds -m "not long",-m "not long and not gate")

test-long:
	@tools/run-tests $(if $(filter both,$(BUILDS)),--both-builds) -m "long or gate"

out/libtlbridge_%.a: $(proved)
	tools/make-library $(subst _, ,$*)

# One library has all pairs, the answer to a trace, the scoreboard, and the functions that the SystemVerilog package imports. The list of pairs
# is written again if it has changed.
out/pairs: FORCE
	@mkdir -p out
	@echo "$(underscored)" | cmp -s - $@ || echo "$(underscored)" > $@

out/tlbridge_%.o: sv/tlbridge_%.c sv/tlbridge_calls.h sv/tlbridge_board.h include/tlbridge.h include/tlbridge_scoreboard.h packaging/dpi/svdpi.h out/pairs
	$(CC) -std=c11 $(WARNINGS) $(CFLAGS) -fPIC -Iinclude -Ipackaging/dpi $(underscored:%=-DTLBRIDGE_%) -c $< -o $@

glue := out/tlbridge_scoreboard.o out/tlbridge_board_lines.o out/tlbridge_board_link.o out/tlbridge_dpi.o
out/libtlbridge.a: $(archives) $(glue)
	rm -rf out/objects $@ && mkdir out/objects
	cd out/objects && for archive in $(archives); do $(AR) x "$(CURDIR)/$$archive"; done
	$(AR) rcs $@ out/objects/*.o $(glue)

out/libtlbridge.so: out/libtlbridge.a
	$(CC) -shared -o $@ -Wl,-soname,libtlbridge.so.$(INTERFACE) out/objects/*.o $(glue)

# The steps run one after another, so that each part is installed before the next proof begins.
install:
	+@$(again) install-files
	+@$(again) install-pairs
	+@$(again) install-library
ifeq ($(PROGRAMS),yes)
	+@$(again) install-tlbridge
	+@$(again) install-tlexplain
endif

fill = sed -e 's|@VERSION@|$(VERSION)|' -e 's|@INTERFACE@|$(INTERFACE)|' -e 's|@PAIRS@|$(PAIRS)|' -e 's|@MACROS@|$(underscored:%=-DTLBRIDGE_%)|' -e 's|^\(\.TH .*"tlbridge\)"|\1 $(VERSION)"|'
# (tlbridge-verify and tlbridge-prove write folders whose names end with .out)
scripts := $(filter-out %.out,$(wildcard tlbridge-* tlexplain-*))
commands := tlbridge tlexplain tlbridge-compare $(filter-out tlbridge-compare,$(scripts))

# share/tlbridge has the folders of this repository, so that the links of its pages lead to the same places.
install-files:
	install -d $(root)/include $(root)/bin $(share)/sv $(share)/python
	install -m 644 include/tlbridge.h include/tlbridge_scoreboard.h $(root)/include
	install -m 644 sv/*.sv sv/tlbridge_dpi.c sv/tlbridge_calls.h $(share)/sv
	install -m 755 sv/prove $(share)/sv
	install -m 755 sv/compare $(root)/bin/tlbridge-compare
	install -m 755 $(scripts) $(root)/bin
	install -m 644 python/pyproject.toml python/hatch_build.py $(share)/python
	rm -rf $(share)/python/tlbridge && cp -R python/tlbridge $(share)/python
	find $(share)/python -name __pycache__ -prune -exec rm -rf {} +
	install -d $(root)/share/man/man1 $(root)/share/bash-completion/completions
	for page in packaging/*.1; do $(fill) "$$page" > $(root)/share/man/man1/"$${page##*/}" || exit 1; done
	for name in $(commands); do \
		install -m 644 packaging/completion.bash $(root)/share/bash-completion/completions/$$name || exit 1; done
	for folder in examples docs $(wildcard rtl); do \
		rm -rf $(share)/$$folder && cp -R $$folder $(share)/$$folder || exit 1; done
	install -m 644 README.md VERSION $(wildcard CHANGELOG.md) $(share)
	ln -sfn ../../include $(share)/include
	chmod -R u+rwX,go+rX-w $(share) $(root)/share/man/man1/tlbridge*.1 $(root)/share/man/man1/tlexplain.1
	tools/cut-links $(share)
	install -d $(root)/share/doc && rm -rf $(root)/share/doc/tlbridge && ln -s ../tlbridge $(root)/share/doc/tlbridge

# The archives of single pairs, which are ready first.
install-pairs: $(underscored:%=install-pair-%)
install-pair-%: out/libtlbridge_%.a
	install -d $(root)/lib
	install -m 644 $< $(root)/lib

install-library: out/libtlbridge.a out/libtlbridge.so
	install -d $(root)/lib/pkgconfig $(root)/lib/cmake/tlbridge
	install -m 644 out/libtlbridge.a $(root)/lib
	install -m 755 out/libtlbridge.so $(root)/lib/libtlbridge.so.$(INTERFACE)
	ln -sf libtlbridge.so.$(INTERFACE) $(root)/lib/libtlbridge.so
	$(fill) packaging/tlbridge.pc > $(root)/lib/pkgconfig/tlbridge.pc
	$(fill) packaging/tlbridgeConfig.cmake > $(root)/lib/cmake/tlbridge/tlbridgeConfig.cmake
	$(fill) packaging/tlbridgeConfigVersion.cmake > $(root)/lib/cmake/tlbridge/tlbridgeConfigVersion.cmake
	chmod 644 $(root)/lib/pkgconfig/tlbridge.pc $(root)/lib/cmake/tlbridge/*

install-tlbridge install-tlexplain: install-%:
	$(call program_of,$*)
	install -d $(root)/bin
	install -m 755 crates/$*/out/$* $(root)/bin

packed := out/tlbridge-$(VERSION)-$(shell uname -s -m | tr 'A-Z ' 'a-z-').tar.gz
dist:
	rm -rf out/dist
	+@$(again) install DESTDIR=$(CURDIR)/out/dist PREFIX=/tlbridge-$(VERSION)
	tar -C out/dist -czf $(packed) tlbridge-$(VERSION)
	@echo $(packed)
