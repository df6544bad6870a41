# The C library as a package, for x86-64.
#
#   make             libglmm.a, libglmm.so and glmm.pc below target/package/
#   make install     these, include/glmm.h, NOTICE and the programs (fitjob, fitmany), below PREFIX (/usr/local), and that below DESTDIR (nothing)
#   make uninstall   removes what install wrote, with the same PREFIX and DESTDIR
#   make check       installs into a temporary folder, and compiles and runs the examples against it (tools/test_install)
#
# The archives that it is made of are those of release/ where they are of these sources, else those that `rt lib` left in their crates' out/ (tools/library.py):
# where release/ is whole, the Rattle toolchain is not wanted. Wanted are GNU make, gcc, binutils and Python 3; elsewhere than on x86-64 the cross tools of gcc.

PREFIX ?= /usr/local
BINDIR ?= $(PREFIX)/bin
LIBDIR ?= $(PREFIX)/lib
INCLUDEDIR ?= $(PREFIX)/include
DOCDIR ?= $(PREFIX)/share/doc/glmm
DESTDIR ?=

# The first number is the shared library's: it goes up where a function, a struct or a constant of the header is no longer what it was; the second where some are
# added.
VERSION = 2.0

CROSS := $(if $(filter x86_64,$(shell uname -m)),,x86_64-linux-gnu-)
CC = $(CROSS)gcc
AR = $(CROSS)ar
NM = $(CROSS)nm
OBJCOPY = $(CROSS)objcopy
INSTALL = install
PYTHON = python3

MADE = target/package
MAJOR = $(firstword $(subst ., ,$(VERSION)))
SONAME = libglmm.so.$(MAJOR)
SHARED = libglmm.so.$(VERSION)
FIND = $(PYTHON) tools/library.py find
PROGRAMS = $(patsubst crates/%/src/main.rt,%,$(filter-out crates/cases_%,$(wildcard crates/*/src/main.rt)))
# a file is only replaced where it is another one, so that nothing is linked anew without need
REPLACE = if cmp -s $@.new $@; then rm $@.new; else mv $@.new $@; fi

define PC
prefix=$(PREFIX)
libdir=$(patsubst $(PREFIX)/%,$${prefix}/%,$(LIBDIR))
includedir=$(patsubst $(PREFIX)/%,$${prefix}/%,$(INCLUDEDIR))

Name: glmm
Description: Fits of generalised linear mixed models at a given theta, proved equal to a written rule
Version: $(VERSION)
Libs: -L$${libdir} -lglmm
Cflags: -I$${includedir}
endef
export PC

all: $(MADE)/libglmm.a $(MADE)/$(SHARED) $(MADE)/glmm.pc

$(MADE):
	@mkdir -p $@

$(MADE)/glmm_c.o: always | $(MADE)
	@archive=$$($(FIND) libglmm_c.a) && $(AR) p "$$archive" glmm_c.o > $@.new && $(REPLACE)

# What the other archive has too is made local here: in the package each function stands once.
$(MADE)/blocks_c.o: $(MADE)/glmm_c.o always
	@archive=$$($(FIND) libblocks_c.a) && $(AR) p "$$archive" blocks_c.o > $@.new
	@$(NM) -g --defined-only $(MADE)/glmm_c.o | sed 's/.* //' > $(MADE)/again
	@$(OBJCOPY) --localize-symbols=$(MADE)/again $@.new && $(REPLACE)

$(MADE)/libglmm.a: $(MADE)/glmm_c.o $(MADE)/blocks_c.o
	rm -f $@
	$(AR) rcsD $@ $^

# Of the shared library the functions of the header can be seen, and nothing else.
$(MADE)/glmm.map: include/glmm.h | $(MADE)
	@{ echo 'GLMM_$(MAJOR) { global:'; sed -n 's/^[a-z].* \(glmm_[a-z0-9_]*\)(.*/    \1;/p' $<; echo '  local: *; };'; } > $@

$(MADE)/$(SHARED): $(MADE)/glmm_c.o $(MADE)/blocks_c.o $(MADE)/glmm.map
	$(CC) -shared -o $@ $(MADE)/glmm_c.o $(MADE)/blocks_c.o \
	    -Wl,-soname,$(SONAME),--version-script=$(MADE)/glmm.map,--gc-sections,--as-needed,-z,relro,-z,now,-z,defs

$(MADE)/glmm.pc: always | $(MADE)
	@printf '%s\n' "$$PC" > $@.new && $(REPLACE)

install: all
	@for name in $(PROGRAMS); do $(FIND) $$name > $(MADE)/$$name.place || exit 1; done
	$(INSTALL) -d "$(DESTDIR)$(INCLUDEDIR)" "$(DESTDIR)$(LIBDIR)/pkgconfig" "$(DESTDIR)$(BINDIR)" "$(DESTDIR)$(DOCDIR)"
	$(INSTALL) -m 644 include/glmm.h "$(DESTDIR)$(INCLUDEDIR)/glmm.h"
	$(INSTALL) -m 644 $(MADE)/libglmm.a "$(DESTDIR)$(LIBDIR)/libglmm.a"
	$(INSTALL) -m 755 $(MADE)/$(SHARED) "$(DESTDIR)$(LIBDIR)/$(SHARED)"
	ln -sf $(SHARED) "$(DESTDIR)$(LIBDIR)/$(SONAME)"
	ln -sf $(SONAME) "$(DESTDIR)$(LIBDIR)/libglmm.so"
	$(INSTALL) -m 644 $(MADE)/glmm.pc "$(DESTDIR)$(LIBDIR)/pkgconfig/glmm.pc"
	$(INSTALL) -m 644 NOTICE "$(DESTDIR)$(DOCDIR)/NOTICE"
	for name in $(PROGRAMS); do $(INSTALL) -m 755 "$$(cat $(MADE)/$$name.place)" "$(DESTDIR)$(BINDIR)/$$name" || exit 1; done

uninstall:
	for name in $(PROGRAMS); do rm -f "$(DESTDIR)$(BINDIR)/$$name"; done
	rm -f "$(DESTDIR)$(INCLUDEDIR)/glmm.h" "$(DESTDIR)$(DOCDIR)/NOTICE" "$(DESTDIR)$(LIBDIR)/pkgconfig/glmm.pc"
	rm -f "$(DESTDIR)$(LIBDIR)/libglmm.a" "$(DESTDIR)$(LIBDIR)/libglmm.so" "$(DESTDIR)$(LIBDIR)/$(SONAME)" "$(DESTDIR)$(LIBDIR)/$(SHARED)"
	-rmdir "$(DESTDIR)$(DOCDIR)" 2> /dev/null || true

check:
	$(PYTHON) tools/test_install

.PHONY: all install uninstall check always
.DELETE_ON_ERROR:
