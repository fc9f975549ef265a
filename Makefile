# make                        proves and builds the library and the programs, unless they are newer than their sources
# make install                installs them below PREFIX; DESTDIR stands before every path
# make uninstall              removes what install put there
PREFIX = /usr/local
DESTDIR =

ARCHIVE = target/staticlib/libnumgalis.a
PROGRAMS = shell lister page
BUILT = $(foreach p,$(PROGRAMS),crates/$p/out/$p)
SOURCES := crates.txt $(shell find crates -path 'crates/*/out' -prune -o \( -name '*.rt' -o -name '*.antt' \) -print)
VERSION := $(shell sed -n 's/^\#define NUMGALIS_VERSION "\(.*\)"$$/\1/p' include/numgalis.h)

ROOT = $(DESTDIR)$(PREFIX)
INSTALLED = lib/libnumgalis.a lib/pkgconfig/numgalis.pc include/numgalis.h share/man/man3/numgalis.3 \
	libexec/numgalis/with-status $(PROGRAMS:%=libexec/numgalis/%) \
	$(PROGRAMS:%=bin/numgalis-%) $(PROGRAMS:%=share/man/man1/numgalis-%.1)

# An installed command has the launcher's exit status, and a name that does not clash; its page says so.
LAUNCHER = s|"\$$bin/with-status"|"$$bin/../libexec/numgalis/with-status"|; s|crates/[a-z]*/out/|libexec/numgalis/|g
NAMES = shell|lister|page
PAGE = s/^\.TH (SHELL|LISTER|PAGE) /.TH NUMGALIS-\1 /; s/^($(NAMES)) \\-/numgalis-\1 \\-/; \
	s/^\.B ($(NAMES))$$/.B numgalis-\1/; s/^\.BR ($(NAMES)) \(1\)/.BR numgalis-\1 (1)/; \
	s/\| shell card/| numgalis-shell card/; s!^\.I bin/($(NAMES))$$!.I numgalis-\1!; \
	s/^0, also where something failed.* The launcher$$/The program that it runs has none of its own. The launcher/

all: $(ARCHIVE) $(BUILT)

$(ARCHIVE): $(SOURCES)
	bin/build library
	touch $@

$(BUILT): $(SOURCES)
	bin/build $(notdir $@)
	touch $@

install: all
	install -d $(sort $(dir $(INSTALLED:%="$(ROOT)"/%)))
	install -m 644 $(ARCHIVE) "$(ROOT)/lib/libnumgalis.a"
	install -m 644 include/numgalis.h "$(ROOT)/include/numgalis.h"
	install -m 644 docs/man/numgalis.3 "$(ROOT)/share/man/man3/numgalis.3"
	sed 's|@PREFIX@|$(PREFIX)|; s|@VERSION@|$(VERSION)|' numgalis.pc.in >"$(ROOT)/lib/pkgconfig/numgalis.pc"
	install -m 755 bin/with-status "$(ROOT)/libexec/numgalis/with-status"
	set -e; for p in $(PROGRAMS); do \
		install -m 755 crates/$$p/out/$$p "$(ROOT)/libexec/numgalis/$$p"; \
		sed '$(LAUNCHER)' bin/$$p >"$(ROOT)/bin/numgalis-$$p"; \
		sed -E '$(PAGE)' docs/man/$$p.1 >"$(ROOT)/share/man/man1/numgalis-$$p.1"; \
	done
	cd "$(ROOT)" && chmod 755 $(PROGRAMS:%=bin/numgalis-%) && \
		chmod 644 lib/pkgconfig/numgalis.pc $(PROGRAMS:%=share/man/man1/numgalis-%.1)

uninstall:
	rm -f $(INSTALLED:%="$(ROOT)"/%)
	[ ! -d "$(ROOT)/libexec/numgalis" ] || rmdir "$(ROOT)/libexec/numgalis"

.PHONY: all install uninstall
.NOTPARALLEL:
