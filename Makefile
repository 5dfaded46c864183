# The library for programs in C and C++, under the name pqmeter (libpq is PostgreSQL's).
#
#   make              proves the code and makes the static library, by rt, where the code is newer than the library
#   make programs     the same for the programs, into target/bin
#   make install      also copies library, header and pages below PREFIX, and tells pkg-config of them; DESTDIR stands before it all, for a package
#   make uninstall    removes them
#
# A program is then built with: cc meter.c $(pkg-config --cflags --libs pqmeter)
PREFIX ?= /usr/local
LIBDIR ?= $(PREFIX)/lib
INCLUDEDIR ?= $(PREFIX)/include
DOCDIR ?= $(PREFIX)/share/doc/pqmeter
DESTDIR ?=

LIBRARY := target/staticlib/libhost.a
PROGRAMS := $(addprefix target/bin/,event_log event_log_three call_lists call_lists_three)
CODE := crates.txt $(shell find crates -name out -prune -o \( -name '*.rt' -o -name '*.antt' \) -print)
PAGES := RULES.md INTEGRATION.md
VERSION := $(shell awk '$$2 ~ /^PQ_VERSION_(MAJOR|MINOR|PATCH)$$/ { version = version dot $$3; dot = "." } END { print version }' include/pq.h)

define PKG_CONFIG_FILE
prefix=$(PREFIX)
libdir=$(patsubst $(PREFIX)/%,$${prefix}/%,$(LIBDIR))
includedir=$(patsubst $(PREFIX)/%,$${prefix}/%,$(INCLUDEDIR))

Name: pqmeter
Description: Measuring part of a supply-voltage logger: dips, swells, interruptions, rapid voltage changes
Version: $(VERSION)
Cflags: -I$${includedir}/pqmeter
Libs: -L$${libdir} -lpqmeter
endef
export PKG_CONFIG_FILE

all: $(LIBRARY)

# For every x86-64 processor: the compiler's own choice is a later one.
$(LIBRARY): $(CODE)
	cd crates/host && rt lib --cpu=x86-64
	install -D -m 644 crates/host/out/libhost.a $@

# rt builds a program and runs it: here on nothing.
$(PROGRAMS): target/bin/%: $(CODE)
	cd crates/$* && rt run </dev/null >/dev/null
	install -D crates/$*/out/$* $@

programs: $(PROGRAMS)

install: $(LIBRARY)
	install -d "$(DESTDIR)$(LIBDIR)/pkgconfig" "$(DESTDIR)$(INCLUDEDIR)/pqmeter" "$(DESTDIR)$(DOCDIR)"
	install -m 644 $(LIBRARY) "$(DESTDIR)$(LIBDIR)/libpqmeter.a"
	install -m 644 include/pq.h "$(DESTDIR)$(INCLUDEDIR)/pqmeter/pq.h"
	install -m 644 $(PAGES:%=docs/%) "$(DESTDIR)$(DOCDIR)"
	printf '%s\n' "$$PKG_CONFIG_FILE" >"$(DESTDIR)$(LIBDIR)/pkgconfig/pqmeter.pc"
	chmod 644 "$(DESTDIR)$(LIBDIR)/pkgconfig/pqmeter.pc"

uninstall:
	rm -f "$(DESTDIR)$(LIBDIR)/libpqmeter.a" "$(DESTDIR)$(INCLUDEDIR)/pqmeter/pq.h" "$(DESTDIR)$(LIBDIR)/pkgconfig/pqmeter.pc"
	rm -f $(PAGES:%="$(DESTDIR)$(DOCDIR)/%")
	for folder in "$(DESTDIR)$(INCLUDEDIR)/pqmeter" "$(DESTDIR)$(DOCDIR)"; do if [ -d "$$folder" ]; then rmdir "$$folder"; fi; done

.PHONY: all programs install uninstall
