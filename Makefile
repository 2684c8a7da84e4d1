# The library for C and the programs, built into build/ and installed.
#
#   make first                decodes a row by the sources, before any proof: r 3 5, and ok 2
#   make test                 all proofs, tests and checks
#   make tools                installs the Debian packages without which some checks are left out
#   make                      the library, static and shared, and the programs
#   make check                runs what was built on the first program of hayro_ccitt.h and on a picture
#   make install PREFIX=DIR   headers, libraries, hayro_ccitt.pc, manual pages and programs; DESTDIR is respected
#   make uninstall PREFIX=DIR
#   make erased               the Cargo package hayro-ccitt, in build/hayro-ccitt: the proved sources without contracts
#   make javascript           the package for JavaScript, in build/javascript, by Debian's rustc-web, rust-web-src and lld
#   make web                  the page that opens fax files in a browser, build/fax.html, of that package
#   make dist                 the packages of a release, in build/dist
#   make TARGET=aarch64-unknown-linux-gnu
#                             the same for ARM64, into build/aarch64-unknown-linux-gnu, by a cross compiler (Debian's
#                             gcc-aarch64-linux-gnu). Rust compiles faxrows, faxpack and faxconv, of the proved sources, with its std
#                             for the target. `library`, `install`, `install-library` and `dist` take TARGET too
#   make clean                removes build/; the results of proofs in crates/*/out stay
#
# `rt`, of the Rattle kit, proves and compiles the crates first. JOBS=1 runs it with one job at a time.

VERSION := $(shell sed -n 's/^\#define HAYRO_CCITT_VERSION_TEXT "\(.*\)"/\1/p' c/hayro_ccitt.h)
INTERFACE := $(shell echo $(VERSION) | cut -d. -f1,2)

# The kit's name of another machine that the library is for, and what the names of its compilers begin with.
TARGET ?=
CROSS = $(if $(TARGET),$(subst -unknown-,-,$(TARGET))-)
ifneq ($(TARGET),)
CC = $(CROSS)gcc
AR = $(CROSS)ar
OBJCOPY = $(CROSS)objcopy
endif
CC ?= cc
AR ?= ar
OBJCOPY ?= objcopy
INSTALL ?= install
CFLAGS ?= -O2
WARNINGS = -Wall -Wextra
JOBS ?=
RT = rt
RT_JOBS = $(if $(JOBS),--jobs $(JOBS))

PREFIX ?= /usr/local
BINDIR ?= $(PREFIX)/bin
LIBDIR ?= $(PREFIX)/lib
INCLUDEDIR ?= $(PREFIX)/include
MANDIR ?= $(PREFIX)/share/man
CMAKEDIR ?= $(LIBDIR)/cmake/hayro_ccitt

BUILD = build$(TARGET:%=/%)
PROVED = crates/hayro_ccitt_c/out/libhayro_ccitt_c$(TARGET:%=-%).a
# The Cargo package `hayro-ccitt`: the proved sources with their contracts erased.
ERASED = $(BUILD)/hayro-ccitt
# The kit links programs for this machine alone. For another one Rust compiles them, of the same sources.
FAXROWS = $(if $(TARGET),$(BUILD)/cargo/$(TARGET)/programs,crates/faxrows/out)/faxrows
FAXPACK = $(if $(TARGET),$(BUILD)/cargo/$(TARGET)/programs,crates/faxpack/out)/faxpack
FAXCONV = $(if $(TARGET),$(BUILD)/cargo/$(TARGET)/programs,crates/faxconv/out)/faxconv
CARGO_LINKER = CARGO_TARGET_$(shell echo '$(TARGET)' | tr 'a-z-' 'A-Z_')_LINKER
HEADERS = c/hayro_ccitt.h c/fax_encode.h c/hayro_ccitt_heap.h
CALLS = hayro_ccitt_measure hayro_ccitt_decode_packed hayro_ccitt_decode_changes \
	hayro_ccitt_open hayro_ccitt_next_changes hayro_ccitt_next_packed hayro_ccitt_close \
	hayro_ccitt_feed_open hayro_ccitt_feed hayro_ccitt_feed_finish hayro_ccitt_feed_next_changes hayro_ccitt_feed_next_packed \
	hayro_ccitt_feed_rows_changes hayro_ccitt_feed_rows_packed hayro_ccitt_feed_unused hayro_ccitt_feed_close hayro_ccitt_check fax_encode_bitmap \
	fax_encode_open fax_encode_row_packed fax_encode_row_changes fax_encode_finish fax_encode_close
EXAMPLES = strip_to_pbm pbm_to_strip rows_to_pbm rows_to_strip inline_image_filter
COMPLETIONS ?= $(PREFIX)/share/bash-completion/completions

# The loader refuses the shared library in one line on a processor below the level x86-64-v2.
LEVEL = $(if $(TARGET),,-Wl,-z,x86-64-v2)
SHARED = libhayro_ccitt.so.$(VERSION)
SONAME = libhayro_ccitt.so.$(INTERFACE)
OBJECTS = $(BUILD)/proved.o $(BUILD)/calls.o $(BUILD)/heap.o

.PHONY: all library programs first test tools check install install-library uninstall clean dist erased javascript web prove-library prove-programs prove-test_streams prove-test_files prove-test_outputs

# Ends with a line that names the programs that are missing.
missing = $(strip $(foreach program,$(1),$(if $(shell command -v $(program)),,$(program))))
need = $(if $(call missing,$(1)),$(error missing: $(call missing,$(1)); $(or $(2),README.md says where each is from$(if $(filter rt,$(call missing,$(1))),; `make erased` needs no rt))))
OF_RUST = Debian 13 has them in cargo and rustfmt; Debian 12, whose cargo is too old, in cargo-web and rustfmt-web
# the Debian packages of the tools without which some checks are left out
TESTED_WITH = cargo chromium cmake gcc-aarch64-linux-gnu gcc-i686-linux-gnu gcc-s390x-linux-gnu ghostscript img2pdf \
	libc6-dev-arm64-cross libc6-dev-i386-cross libc6-dev-s390x-cross libjbig2dec0-dev libjs-pdf libmupdf-dev \
	libtiff-dev libtiff-tools lintian lld man-db mandoc mgetty-fax mupdf-tools mypy netpbm nodejs pkg-config \
	poppler-utils python3-distributed python3-numpy python3-pikepdf python3-pil python3-pip python3-pycryptodome python3-pypdf python3-pytest \
	qemu-user qpdf rust-web-src rustc-web valgrind
# those that are missing; Debian's cargo is too old, and its cargo-web isn't
LACKING = $$(for it in $(TESTED_WITH); do \
	dpkg -s $$it >/dev/null 2>&1 || command -v $$it >/dev/null || echo $$it; done | sed 's/^cargo$$/cargo-web/')

all: library programs
library: $(BUILD)/libhayro_ccitt.a $(BUILD)/libhayro_ccitt.so $(BUILD)/hayro_ccitt.pc
programs: prove-programs $(BUILD)/faxrows $(BUILD)/faxpack $(BUILD)/faxconv $(BUILD)/fax2pbm $(EXAMPLES:%=$(BUILD)/%)

# rt itself rebuilds what has changed, and what depends on it. It makes the library for every machine under one name: that for this
# machine is put back.
MADE = crates/hayro_ccitt_c/out/libhayro_ccitt_c.a
prove-library:
	@$(call need,$(firstword $(RT)) $(firstword $(CC)) $(OBJCOPY))
ifeq ($(TARGET),)
	cd crates/hayro_ccitt_c && $(RT) lib $(RT_JOBS)
else
	if test -f $(MADE); then mv $(MADE) $(MADE).kept; fi
	cd crates/hayro_ccitt_c && $(RT) lib $(RT_JOBS) --target $(TARGET)
	if test -f $(MADE); then mv $(MADE) $(PROVED); fi
	if test -f $(MADE).kept; then mv $(MADE).kept $(MADE); fi
endif
ifeq ($(TARGET),)
prove-programs:
	cd crates/faxrows && printf '\061\300' | $(RT) run $(RT_JOBS) -- g4 8 1 - > /dev/null
	cd crates/faxpack && printf 'P4\n8 1\n\030' | $(RT) run $(RT_JOBS) -- g4 - > /dev/null
	cd crates/faxconv && $(RT) run $(RT_JOBS) -- --version > /dev/null
else
prove-programs:
	@$(call need,python3 cargo rustfmt,$(OF_RUST))
	python3 release/erased/erase.py $(ERASED)
	cd $(ERASED)/programs && RUSTFLAGS=--remap-path-prefix=$(abspath $(ERASED))= $(CARGO_LINKER)=$(CC) \
		cargo build -q --profile programs --offline --target $(TARGET) --target-dir $(abspath $(BUILD))/cargo
endif

prove-test_streams prove-test_files prove-test_outputs: prove-%:
	cd crates/$* && $(RT) run $(RT_JOBS) < stdin > /dev/null

$(PROVED): prove-library ;
$(FAXROWS) $(FAXPACK) $(FAXCONV): prove-programs ;

$(BUILD):
	mkdir -p $@

# Each function begins at 64 bytes, so that its time doesn't depend on what is linked before it.
$(BUILD)/libhayro_ccitt_c.a: $(PROVED) | $(BUILD)
	$(OBJCOPY) -D --set-section-alignment '.text.*=64' $< $@
$(BUILD)/proved.o: $(BUILD)/libhayro_ccitt_c.a
	$(AR) p $< hayro_ccitt_c.o > $@.part
	$(OBJCOPY) $(foreach call,$(CALLS),--redefine-sym $(call)=proved_$(call)) $@.part
	mv $@.part $@
$(BUILD)/%.o: c/%.c $(HEADERS) | $(BUILD)
	$(CC) $(CFLAGS) $(WARNINGS) -fPIC -c -o $@ $<
$(BUILD)/libhayro_ccitt.a: $(OBJECTS)
	rm -f $@
	$(AR) crs $@ $^
# These are copies, since `rt ci` refuses links in the repository.
$(BUILD)/libhayro_ccitt.so: $(OBJECTS) c/exports
	$(CC) $(CFLAGS) $(LDFLAGS) -shared $(LEVEL) -Wl,-soname,$(SONAME) -Wl,--version-script=c/exports -o $(BUILD)/$(SHARED) $(OBJECTS)
	cp $(BUILD)/$(SHARED) $(BUILD)/$(SONAME)
	cp $(BUILD)/$(SHARED) $@
$(BUILD)/hayro_ccitt.pc: c/hayro_ccitt.pc.in c/hayro_ccitt.h Makefile | $(BUILD)
	sed -e 's|@PREFIX@|$(PREFIX)|' -e 's|@LIBDIR@|$(LIBDIR)|' -e 's|@INCLUDEDIR@|$(INCLUDEDIR)|' -e 's|@VERSION@|$(VERSION)|' $< > $@

$(BUILD)/faxrows: $(FAXROWS) | $(BUILD)
	cp $< $@
$(BUILD)/faxpack: $(FAXPACK) | $(BUILD)
	cp $< $@
$(BUILD)/faxconv: $(FAXCONV) | $(BUILD)
	cp $< $@
$(BUILD)/fax2pbm: $(BUILD)/faxconv
	cp $< $@
$(BUILD)/%: examples/%.c $(HEADERS) $(BUILD)/libhayro_ccitt.a
	$(CC) $(CFLAGS) $(WARNINGS) -std=c99 -Ic $(LDFLAGS) -o $@ $< $(BUILD)/libhayro_ccitt.a

# What `rt` says comes out only if it fails.
first:
	@$(call need,rt)
	@mkdir -p $(BUILD)
	@cd crates/faxrows && printf '\061\300' | rt try -- g4 8 1 - 2>$(abspath $(BUILD))/first.log || \
		{ cat $(abspath $(BUILD))/first.log; exit 1; }

test:
	@$(call need,rt git python3 $(firstword $(CC)) $(OBJCOPY))
	@lacking=$(LACKING); test -z "$$lacking" || echo "some checks will be left out, unless: apt-get install" $$lacking
	bash test.sh

# Installs the packages that are missing. What can't be installed is named, and is no error.
tools:
	@bash checks/gate/install.sh $(LACKING)

check: all
	sed -n 's/^ \*   //p' c/hayro_ccitt.h | sed '/^cc first/d' > $(BUILD)/first.c
	$(CC) $(CFLAGS) $(WARNINGS) -Ic -o $(BUILD)/first $(BUILD)/first.c $(BUILD)/libhayro_ccitt.a
	test "$$($(BUILD)/first)" = 18
	$(BUILD)/strip_to_pbm g4 1240 1754 b < corpus/strips/page/gs-g4 | tail -c +14 | cmp - corpus/pictures/page
	$(BUILD)/faxpack -o g4 1240 1754 b < corpus/pictures/page | $(BUILD)/faxrows -o g4 1240 1754 b | cmp - corpus/pictures/page
	@echo "the first program and a picture: as they should be"

install: $(if $(wildcard $(BUILD)/faxrows),,all) install-library
	$(INSTALL) -d $(DESTDIR)$(BINDIR) $(DESTDIR)$(MANDIR)/man1 $(DESTDIR)$(COMPLETIONS)
	$(INSTALL) -m 755 $(BUILD)/faxrows $(BUILD)/faxpack $(BUILD)/faxconv $(DESTDIR)$(BINDIR)
	ln -sf faxconv $(DESTDIR)$(BINDIR)/fax2pbm
	$(INSTALL) -m 644 completions/faxconv.bash $(DESTDIR)$(COMPLETIONS)/faxconv
	$(INSTALL) -m 644 man/faxrows.1 man/faxpack.1 man/faxconv.1 man/fax2pbm.1 $(DESTDIR)$(MANDIR)/man1
install-library: $(if $(wildcard $(BUILD)/libhayro_ccitt.so),,library)
	$(INSTALL) -d $(DESTDIR)$(LIBDIR)/pkgconfig $(DESTDIR)$(CMAKEDIR) $(DESTDIR)$(INCLUDEDIR) $(DESTDIR)$(MANDIR)/man3
	rm -f $(BUILD)/hayro_ccitt.pc
	$(MAKE) --no-print-directory $(BUILD)/hayro_ccitt.pc
	$(INSTALL) -m 644 $(HEADERS) $(DESTDIR)$(INCLUDEDIR)
	$(INSTALL) -m 644 $(BUILD)/libhayro_ccitt.a $(DESTDIR)$(LIBDIR)
	$(INSTALL) -m 755 $(BUILD)/$(SHARED) $(DESTDIR)$(LIBDIR)
	ln -sf $(SHARED) $(DESTDIR)$(LIBDIR)/$(SONAME)
	ln -sf $(SONAME) $(DESTDIR)$(LIBDIR)/libhayro_ccitt.so
	$(INSTALL) -m 644 $(BUILD)/hayro_ccitt.pc $(DESTDIR)$(LIBDIR)/pkgconfig
	for it in config config-version; do sed -e "s|@HEADERS@|$$(realpath -ms --relative-to=$(CMAKEDIR) $(INCLUDEDIR))|" \
		-e 's|@INTERFACE@|$(INTERFACE)|' -e 's|@VERSION@|$(VERSION)|' c/hayro_ccitt-$$it.cmake.in | \
		$(INSTALL) -m 644 /dev/stdin $(DESTDIR)$(CMAKEDIR)/hayro_ccitt-$$it.cmake || exit 1; done
	$(INSTALL) -m 644 man/hayro_ccitt.3 $(DESTDIR)$(MANDIR)/man3

uninstall:
	cd $(DESTDIR)$(INCLUDEDIR) && rm -f $(notdir $(HEADERS))
	cd $(DESTDIR)$(LIBDIR) && rm -f libhayro_ccitt.a $(SHARED) $(SONAME) libhayro_ccitt.so pkgconfig/hayro_ccitt.pc
	rm -rf $(DESTDIR)$(CMAKEDIR)
	cd $(DESTDIR)$(BINDIR) && rm -f faxrows faxpack faxconv fax2pbm
	cd $(DESTDIR)$(COMPLETIONS) && rm -f faxconv
	cd $(DESTDIR)$(MANDIR) && rm -f man1/faxrows.1 man1/faxpack.1 man1/faxconv.1 man1/fax2pbm.1 man3/hayro_ccitt.3

clean:
	rm -rf $(BUILD)

# The packages of a release, of what `make` built: see release/release.py.
dist:
	python3 release/release.py $(BUILD) $(VERSION) $(TARGET)

# The Cargo package, and the library for C and the programs in its folders.
erased:
	@$(call need,python3 cargo rustfmt,$(OF_RUST))
	python3 release/erased/erase.py $(ERASED)
	cd $(ERASED) && cargo build -q --release --offline --all-features
	cd $(ERASED)/c && cargo build -q --release --offline
	cd $(ERASED)/programs && cargo build -q --profile programs --offline
	@echo "in $(ERASED): the package, the library for C in c/target/release, and the programs in target/programs"

# The package for JavaScript: the library for C of the Cargo package, and what reads files, as modules of WebAssembly, and what calls them.
javascript:
	@$(call need,python3 cargo rustfmt,$(OF_RUST))
	python3 release/erased/erase.py $(ERASED)
	python3 release/javascript.py $(ERASED) $(BUILD)/javascript

# The page that opens fax files, of that package: one file, which loads nothing else.
web: javascript
	python3 release/web.py $(BUILD)/javascript $(BUILD)/fax.html
