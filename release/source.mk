# The library for C and the examples in C, from what the proved crates were compiled to: a C compiler is all that it takes.
#
#   make                      the library, static and shared, and the examples, into build/
#   make check                decodes a page
#   make install PREFIX=DIR   headers, libraries, hayro_ccitt.pc and a manual page; DESTDIR is respected

VERSION := $(shell sed -n 's/^\#define HAYRO_CCITT_VERSION_TEXT "\(.*\)"/\1/p' c/hayro_ccitt.h)
INTERFACE := $(shell echo $(VERSION) | cut -d. -f1,2)
CC ?= cc
AR ?= ar
INSTALL ?= install
CFLAGS ?= -O2

# proved.s is machine code.
ifneq ($(MAKECMDGOALS),clean)
ifneq ($(shell $(CC) $(CFLAGS) -dM -E -x c /dev/null | grep -c -w -e __x86_64__ -e __LP64__ -e __linux__),3)
$(error x86-64 Linux only: $(CC) compiles for another target)
endif
endif

PREFIX ?= /usr/local
LIBDIR ?= $(PREFIX)/lib
INCLUDEDIR ?= $(PREFIX)/include
MANDIR ?= $(PREFIX)/share/man
CMAKEDIR ?= $(LIBDIR)/cmake/hayro_ccitt

# The loader refuses the shared library in one line on a processor below the level x86-64-v2, where the linker can say so.
LEVEL := $(shell $(CC) -shared -nostdlib -Wl,-z,x86-64-v2 -Wl,--fatal-warnings -o /dev/null -x c /dev/null 2>/dev/null && echo -Wl,-z,x86-64-v2)
SHARED = libhayro_ccitt.so.$(VERSION)
SONAME = libhayro_ccitt.so.$(INTERFACE)
HEADERS = c/hayro_ccitt.h c/fax_encode.h c/hayro_ccitt_heap.h
OBJECTS = build/proved.o build/calls.o build/heap.o
EXAMPLES = $(patsubst examples/%.c,build/%,$(wildcard examples/*.c))

all: build/libhayro_ccitt.a build/libhayro_ccitt.so build/hayro_ccitt.pc $(EXAMPLES)
build:
	mkdir -p $@
build/proved.o: proved.s | build
	$(CC) -c -o $@ $<
build/%.o: c/%.c $(HEADERS) | build
	$(CC) $(CFLAGS) -fPIC -c -o $@ $<
build/libhayro_ccitt.a: $(OBJECTS)
	rm -f $@
	$(AR) crs $@ $^
build/libhayro_ccitt.so: $(OBJECTS) c/exports
	$(CC) $(CFLAGS) $(LDFLAGS) -shared $(LEVEL) -Wl,-soname,$(SONAME) -Wl,--version-script=c/exports -o $@ $(OBJECTS)
build/hayro_ccitt.pc: c/hayro_ccitt.pc.in c/hayro_ccitt.h | build
	sed -e 's|@PREFIX@|$(PREFIX)|' -e 's|@LIBDIR@|$(LIBDIR)|' -e 's|@INCLUDEDIR@|$(INCLUDEDIR)|' -e 's|@VERSION@|$(VERSION)|' $< > $@
build/%: examples/%.c $(HEADERS) build/libhayro_ccitt.a
	$(CC) $(CFLAGS) -std=c99 -Ic $(LDFLAGS) -o $@ $< build/libhayro_ccitt.a

check: all
	build/strip_to_pbm g4 1240 1754 b < corpus/strips/page/gs-g4 | tail -c +14 | cmp - corpus/pictures/page
	@echo "a page: as it should be"

install: all
	$(INSTALL) -d $(DESTDIR)$(LIBDIR)/pkgconfig $(DESTDIR)$(INCLUDEDIR) $(DESTDIR)$(MANDIR)/man3 $(DESTDIR)$(CMAKEDIR)
	rm -f build/hayro_ccitt.pc
	$(MAKE) --no-print-directory build/hayro_ccitt.pc
	$(INSTALL) -m 644 $(HEADERS) $(DESTDIR)$(INCLUDEDIR)
	$(INSTALL) -m 644 build/libhayro_ccitt.a $(DESTDIR)$(LIBDIR)
	$(INSTALL) -m 755 build/libhayro_ccitt.so $(DESTDIR)$(LIBDIR)/$(SHARED)
	ln -sf $(SHARED) $(DESTDIR)$(LIBDIR)/$(SONAME)
	ln -sf $(SONAME) $(DESTDIR)$(LIBDIR)/libhayro_ccitt.so
	$(INSTALL) -m 644 build/hayro_ccitt.pc $(DESTDIR)$(LIBDIR)/pkgconfig
	for it in config config-version; do sed -e "s|@HEADERS@|$$(realpath -ms --relative-to=$(CMAKEDIR) $(INCLUDEDIR))|" \
		-e 's|@INTERFACE@|$(INTERFACE)|' -e 's|@VERSION@|$(VERSION)|' c/hayro_ccitt-$$it.cmake.in | \
		$(INSTALL) -m 644 /dev/stdin $(DESTDIR)$(CMAKEDIR)/hayro_ccitt-$$it.cmake || exit 1; done
	$(INSTALL) -m 644 man/hayro_ccitt.3 $(DESTDIR)$(MANDIR)/man3

clean:
	rm -rf build
.PHONY: all check install clean
