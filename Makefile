# make           the library, static and shared, and the programs, in build/
# make build/libcodec.a build/libcalendar.a     each half of the library alone
# make check     proves everything that is not proved yet and runs every test
# make install   into PREFIX, below DESTDIR where that is given
# make clean     removes build/
#
# The first `make` proves what it builds, which takes minutes; each part is named on standard error when it is proved. It
# needs the Rattle kit (`rt` on the path), a C compiler and Python 3.

VERSION := $(shell cat VERSION)
MAJOR := $(firstword $(subst ., ,$(VERSION)))

PREFIX ?= /usr/local
BINDIR ?= $(PREFIX)/bin
LIBDIR ?= $(PREFIX)/lib
INCLUDEDIR ?= $(PREFIX)/include
MANDIR ?= $(PREFIX)/share/man
PYTHONDIR ?= $(PREFIX)/lib/$(shell python3 -c "import sys; print('python%d.%d' % sys.version_info[:2])")/site-packages

CFLAGS ?= -O2
C = $(CC) -std=c99 -Wall -Wextra $(CFLAGS) -Iinclude
INSTALL ?= install

HEADERS = include/anafzir.h include/anafzir_calendar.h
RATTLE := crates.txt $(shell find crates -name out -prune -o -name '*.rt' -print -o -name '*.antt' -print)
OBJECTS = build/codec.o build/calendar.o build/message.o
SONAME = libanafzir.so.$(MAJOR)
SHARED = libanafzir.so.$(VERSION)

.PHONY: all check install clean
.SILENT:
.DELETE_ON_ERROR:
# The objects of the archives stay.
.SECONDARY:
# rt keeps its files in one folder.
.NOTPARALLEL:

all: build/libanafzir.a build/$(SHARED) build/anafzir build/anafzir-convert

# What rt prints goes to standard error, where it is seen at once. A library's functions for C are those of the static library
# NAME_c over it.
build/codec.o build/calendar.o: build/%.o: $(RATTLE) | build
	echo "make: proving and building the archive of $*" >&2
	cd crates/$*_c && rt lib >&2
	ar p crates/$*_c/out/lib$*_c.a $*_c.o > $@

build/libcodec.a build/libcalendar.a: build/lib%.a: build/%.o
	rm -f $@
	ar rcsD $@ $<

# rt builds a program to run it: here on no lines.
crates/convert/out/convert: $(RATTLE)
	echo "make: proving and building the line program" >&2
	cd crates/convert && rt run < /dev/null >&2
	touch $@

build:
	mkdir -p $@

build/message.o: c/message.c include/anafzir.h | build
	$(C) -fPIC -c $< -o $@

build/libanafzir.a: $(OBJECTS)
	rm -f $@
	ar rcsD $@ $(OBJECTS)

build/$(SHARED): $(OBJECTS) c/libanafzir.map
	$(CC) -shared $(LDFLAGS) -Wl,-soname,$(SONAME),--version-script=c/libanafzir.map,-z,defs,-z,relro,-z,now $(OBJECTS) -o $@
	ln -sf $(SHARED) build/$(SONAME)
	ln -sf $(SONAME) build/libanafzir.so

build/anafzir: c/anafzir.c include/anafzir.h build/libanafzir.a
	$(C) $(LDFLAGS) $< build/libanafzir.a -o $@

build/anafzir-convert: crates/convert/out/convert | build
	cp $< $@

check:
	env -u MAKEFLAGS -u MAKELEVEL -u MFLAGS bash tests/all

install: all
	$(INSTALL) -d $(addprefix $(DESTDIR),$(BINDIR) $(LIBDIR)/pkgconfig $(INCLUDEDIR) $(MANDIR)/man1 $(PYTHONDIR)/anafzir)
	$(INSTALL) build/anafzir build/anafzir-convert $(DESTDIR)$(BINDIR)
	$(INSTALL) -m 644 build/libanafzir.a build/$(SHARED) $(DESTDIR)$(LIBDIR)
	ln -sf $(SHARED) $(DESTDIR)$(LIBDIR)/$(SONAME)
	ln -sf $(SONAME) $(DESTDIR)$(LIBDIR)/libanafzir.so
	$(INSTALL) -m 644 $(HEADERS) $(DESTDIR)$(INCLUDEDIR)
	sed -e 's|@PREFIX@|$(PREFIX)|' -e 's|@LIBDIR@|$(LIBDIR)|' -e 's|@INCLUDEDIR@|$(INCLUDEDIR)|' -e 's|@VERSION@|$(VERSION)|' \
	    c/anafzir.pc.in > build/anafzir.pc
	$(INSTALL) -m 644 build/anafzir.pc $(DESTDIR)$(LIBDIR)/pkgconfig
	$(INSTALL) -m 644 man/anafzir.1 man/anafzir-convert.1 $(DESTDIR)$(MANDIR)/man1
	$(INSTALL) -m 644 python/anafzir/__init__.py python/anafzir/py.typed $(DESTDIR)$(PYTHONDIR)/anafzir

clean:
	rm -rf build
