# The programs and the C library, in a clone of the repository or in an unpacked package. `make` says what there is.
#
# What is made is in PREFIX=/usr/local, by BINDIR=PREFIX/bin, LIBDIR=PREFIX/lib, INCLUDEDIR, MANDIR=PREFIX/share/man and
# DESTDIR=. TOOL is rpkivalid or rpkicert, PROGRAM where it was built. ARCHIVES and PROGRAMS are folders of archives and
# programs that were made, for `make dist`.
#
# In a clone bindings/archive makes the archive, which needs the toolchain; a package has it, in lib/TARGET, and needs a
# C compiler alone. TARGET is what CC compiles for, x86_64 or aarch64; or it is x86_64-v2, for newer processors. For a
# target that is not this machine's, RUN is what runs its programs, as `qemu-aarch64 -L /usr/aarch64-linux-gnu`.

CC ?= cc
TARGET ?= $(firstword $(subst -, ,$(shell $(CC) -dumpmachine 2> /dev/null)))
PREFIX ?= /usr/local
INCLUDEDIR ?= $(PREFIX)/include
LIBDIR ?= $(PREFIX)/lib
MANDIR ?= $(PREFIX)/share/man
BINDIR ?= $(PREFIX)/bin
TOOL ?= rpkivalid
CRATE ?= rpki_fields
RUN ?=

VERSION := $(shell sed -n 's/^.define RPKI_VERSION_[A-Z]* \([0-9]*\)$$/\1/p' include/rpki.h | paste -s -d .)
MAJOR := $(firstword $(subst ., ,$(VERSION)))
# The number that the shared library's name and its names' version have: below 1.0 each minor number is another.
SONUMBER := $(if $(filter 0,$(MAJOR)),0.$(word 2,$(subst ., ,$(VERSION))),$(MAJOR))
ifneq ($(wildcard bindings/archive),)
LIB ?= bindings/out$(if $(filter-out x86_64,$(TARGET)),/$(TARGET))
BUILD ?= $(LIB)/build
PROGRAM ?= $(firstword $(wildcard crates/$(TOOL)/out/$(TOOL) out/$(TOOL)) crates/$(TOOL)/out/$(TOOL))
TOOL_PAGE := crates/$(TOOL)/$(TOOL).1
else
LIB ?= lib/$(TARGET)
BUILD ?= build
PROGRAM ?= bin/x86_64/$(TOOL)
TOOL_PAGE := man/$(TOOL).1
endif
EXAMPLE := examples/repository
ARCHIVE := $(LIB)/librpki.a
SHARED := $(LIB)/librpki.so.$(VERSION)
INSTALLED := $(DESTDIR)$(LIBDIR)
PAGES := $(if $(wildcard bindings/page),$(BUILD)/man,man)
PAGE := $(PAGES)/rpki.3
COMPILE := $(CC) -std=c99 -Wall -Wextra -O1 -Iinclude
WRAPS := -Wl,--wrap=malloc,--wrap=realloc,--wrap=free

.PHONY: help all archive library check check-programs check-library install uninstall install-program \
    uninstall-program program libraries dist deb clean
.DELETE_ON_ERROR:

ifneq ($(wildcard bindings/archive),)
define HELP
In this clone, with the kit (README.md says what it is):
  make program TOOL=rpkivalid       builds rpkivalid or rpkicert without proof, as out/TOOL: two minutes
  make archive                      proves the C library, and makes its archive, the shared library and pages: an hour
  make check                        the same, and then runs the worked rows in C
  make libraries CRATE=rpki_fields  proves what is below a crate, a line each, so that `rt check` in it is quick
  make dist                         the package of programs and C library, in bindings/out/dist, of what ./check proved
                                    of this commit and left; else it proves all, in two hours
  make deb                          the Debian package of the programs of `make dist`
  ./check --install                 the gate: all is proved and tested, an hour on four cores; --quick five minutes
Then, as root:
  make install-program TOOL=rpkivalid    a program and its page [PROGRAM=FILE]
  make install                           header, archive, shared library, rpki.pc, pages of the calls
Both by PREFIX=/usr/local, BINDIR, LIBDIR, MANDIR, DESTDIR; `make uninstall-program`, `make uninstall` remove these.
endef
else
define HELP
In this package:
  make check            compares all files with SHA256SUMS, runs the programs on examples/repository, and, with a C
                        compiler, the worked rows of the C library: some seconds
  make install-program TOOL=rpkivalid   (as root) a program, rpkivalid or rpkicert, and its page
  make install          (as root, with a C compiler) header, archive, shared library, rpki.pc, pages of the calls
  make all              the shared library of another TARGET
Installed are all by PREFIX=/usr/local, BINDIR, LIBDIR, MANDIR, DESTDIR; `make uninstall-program`, `make uninstall`
remove these. Nothing has to be installed: bin/x86_64/rpkivalid runs where it is.
endef
endif
export HELP

help:
	@printf '%s\n' "$$HELP"

all: $(ARCHIVE) $(SHARED) $(PAGE)

archive library: all

ifneq ($(wildcard bindings/archive),)
$(ARCHIVE): bindings/archive bindings/heap.c $(shell find crates -name out -prune -o -name '*.rt' -print)
	@echo 'proves the C library and all below it, where no earlier run has: up to an hour'
	bindings/archive $(if $(filter %-v2,$(TARGET)),--cpu x86-64-v2,--target $(TARGET)) --out $(LIB)
endif

ifneq ($(wildcard bindings/page),)
$(PAGE): include/rpki.h bindings/page
	bindings/page $(PAGES)
endif

# Its names are those that the header declares, and no others.
$(SHARED): $(ARCHIVE) include/rpki.h
	mkdir -p $(BUILD)
	{ echo 'RPKI_$(SONUMBER) { global:'; sed -nE 's/^[a-z0-9_]+ (rpki_[a-z0-9_]+)\(.*/    \1;/p' include/rpki.h; echo 'local: *; };'; } \
	    > $(BUILD)/rpki.map
	$(CC) -shared -Wl,-soname,librpki.so.$(SONUMBER) -Wl,--version-script=$(BUILD)/rpki.map -Wl,-z,relro,-z,now,-z,defs \
	    $(LDFLAGS) -o $@ -Wl,--whole-archive $(ARCHIVE) -Wl,--no-whole-archive

# From a package, its files are compared with SHA256SUMS first; without a C compiler its programs alone are run.
ifneq ($(wildcard SHA256SUMS),)
check: check-programs $(if $(TARGET),check-library)
	@$(if $(TARGET),:,:; echo 'not run: the worked rows of the C library, for want of a C compiler ($(CC))')

check-programs:
	sha256sum --check --quiet SHA256SUMS
	mkdir -p $(BUILD)
ifeq ($(wildcard bin)$(shell uname -m),binx86_64)
	bin/x86_64/rpkivalid --tal $(EXAMPLE)/example.tal --cache $(EXAMPLE) --at 2026-11-27T12:00:00Z > $(BUILD)/shown
	diff $(EXAMPLE)/expected.csv $(BUILD)/shown
	bin/x86_64/rpkicert $(EXAMPLE)/rpki.example/repo/ca/one.roa > $(BUILD)/told
	sed -n 's/^VRPs: //p' $(BUILD)/told > $(BUILD)/shown
	echo 'Prefix 203.0.113.64/26, ASID 0, MaxLen 26' | diff - $(BUILD)/shown && echo 'the programs: 2 passed, 0 failed'
else
	@:; echo 'not run: the programs, which are for x86-64'
endif

check-library: | check-programs
else
check: check-library
endif

check-library: all
	mkdir -p $(BUILD)
	$(COMPILE) examples/certificate/show.c $(ARCHIVE) -o $(BUILD)/show
	$(RUN) $(BUILD)/show examples/certificate.der > $(BUILD)/shown
	diff examples/certificate/expected.txt $(BUILD)/shown
	ln -sf $(abspath $(SHARED)) $(BUILD)/librpki.so.$(SONUMBER)
	$(COMPILE) examples/certificate/show.c $(SHARED) -o $(BUILD)/show_shared
	LD_LIBRARY_PATH=$(BUILD) $(RUN) $(BUILD)/show_shared examples/certificate.der > $(BUILD)/shown
	diff examples/certificate/expected.txt $(BUILD)/shown
	$(COMPILE) tests/linked/*.c $(ARCHIVE) $(WRAPS) -o $(BUILD)/calls
	$(RUN) $(BUILD)/calls bindings/rust/tests/rows.txt

install: all
	install -d $(DESTDIR)$(INCLUDEDIR) $(INSTALLED)/pkgconfig $(DESTDIR)$(MANDIR)/man3
	install -m 644 $(PAGES)/*.3 $(DESTDIR)$(MANDIR)/man3
	install -m 644 include/rpki.h $(DESTDIR)$(INCLUDEDIR)/rpki.h
	install -m 644 $(ARCHIVE) $(INSTALLED)/librpki.a
	install -m 755 $(SHARED) $(INSTALLED)/librpki.so.$(VERSION)
	ln -sf librpki.so.$(VERSION) $(INSTALLED)/librpki.so.$(SONUMBER)
	ln -sf librpki.so.$(SONUMBER) $(INSTALLED)/librpki.so
	sed -e 's|@PREFIX@|$(PREFIX)|' -e 's|@INCLUDEDIR@|$(INCLUDEDIR)|' -e 's|@LIBDIR@|$(LIBDIR)|' \
	    -e 's|@VERSION@|$(VERSION)|' bindings/rpki.pc.in > $(INSTALLED)/pkgconfig/rpki.pc

uninstall:
	rm -f $(DESTDIR)$(INCLUDEDIR)/rpki.h $(INSTALLED)/pkgconfig/rpki.pc $(INSTALLED)/librpki.a
	rm -f $(INSTALLED)/librpki.so $(INSTALLED)/librpki.so.$(SONUMBER) $(INSTALLED)/librpki.so.$(VERSION)
	rm -f $(DESTDIR)$(MANDIR)/man3/rpki.3 $(DESTDIR)$(MANDIR)/man3/rpki_*.3

ifneq ($(wildcard bindings/archive),)
program:
	tests/gate/unproved.py $(TOOL) out/$(TOOL)
	@echo 'out/$(TOOL) is built WITHOUT PROOF: `rt run` in crates/$(TOOL) proves it and builds crates/$(TOOL)/out/$(TOOL)'

libraries:
	tests/gate/libraries.py $(CRATE)

dist:
	bindings/package $(if $(ARCHIVES),--archives $(ARCHIVES)) $(if $(PROGRAMS),--programs $(PROGRAMS))

deb:
	bindings/deb/make bindings/out/dist/rpki-$(VERSION).tar.gz
endif

install-program:
	@[ -f $(PROGRAM) ] || { echo 'there is no $(PROGRAM): build it first, by `make program TOOL=$(TOOL)` without proof' \
	    'in two minutes, or by `rt run` in crates/$(TOOL), which proves it; or name it by PROGRAM=FILE' >&2; exit 1; }
	install -d $(DESTDIR)$(BINDIR) $(DESTDIR)$(MANDIR)/man1
	install -m 755 $(PROGRAM) $(DESTDIR)$(BINDIR)/$(TOOL)
	install -m 644 $(TOOL_PAGE) $(DESTDIR)$(MANDIR)/man1/$(TOOL).1
	@[ $(PROGRAM) != out/$(TOOL) ] || echo '$(PROGRAM), which is installed, was built without proof'

uninstall-program:
	rm -f $(DESTDIR)$(BINDIR)/$(TOOL) $(DESTDIR)$(MANDIR)/man1/$(TOOL).1

clean:
	rm -rf $(BUILD)
