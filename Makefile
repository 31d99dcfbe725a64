# The C library: static and shared, made from what `tools/build viewer` proves and compiles.
#
#   make                                   target/lib: libhomie5.a, libhomie5.so, homie5.pc, the documents to install
#   make check                             tests of the C interface: programs, an installation, documents, comparison with reference/
#   make install [PREFIX=..] [DESTDIR=..]  header, libraries, pkg-config file, rules; PREFIX is /usr/local where none is given
#   make bench                             speed of every call beside straightforward code
#   make clean                             removes what `make`, `make check` and `make bench` made, what HOMIE5_LIB_DIR names apart; proofs stay
#
# Where HOMIE5_LIB_DIR names a folder, libviewer.a is taken from there and no prover runs.

PREFIX ?= /usr/local
INCLUDEDIR ?= $(PREFIX)/include
LIBDIR ?= $(PREFIX)/lib
PKGCONFIGDIR ?= $(LIBDIR)/pkgconfig
DOCDIR ?= $(PREFIX)/share/doc/homie5
INSTALL ?= install

VERSION := $(shell sed -n 's/^.define HOMIE5_VERSION "\(.*\)"$$/\1/p' include/homie5.h)
# before 1.0.0 a new minor version may break programs, so it is part of the name that they load
SONAME := libhomie5.so.$(basename $(VERSION))
SHARED := libhomie5.so.$(VERSION)

MADE := target/lib
PROVED := $(if $(HOMIE5_LIB_DIR),$(HOMIE5_LIB_DIR),target/staticlib)
SOURCES := $(shell find crates \( -name must-fail -o -name out \) -prune -o -type f -print)
LIBRARIES := $(MADE)/libhomie5.a $(MADE)/$(SHARED) $(MADE)/$(SONAME) $(MADE)/libhomie5.so
DOCUMENTS := $(MADE)/RULES.md $(MADE)/SOUNDNESS.md

# lists of calls, and calls in each, that `make check` compares
SEEDS ?= 8
LENGTH ?= 400

all: $(LIBRARIES) $(DOCUMENTS) $(MADE)/homie5.pc

ifeq ($(HOMIE5_LIB_DIR),)
$(PROVED)/libviewer.a: $(SOURCES)
	tools/build viewer
endif

$(MADE)/libhomie5.a: $(PROVED)/libviewer.a
	mkdir -p $(MADE)
	cp $< $@

# the archive is position independent: it is linked as it is
$(MADE)/$(SHARED): $(MADE)/libhomie5.a
	$(CC) $(LDFLAGS) -shared -Wl,-soname,$(SONAME) -Wl,-z,defs -Wl,--whole-archive $< -Wl,--no-whole-archive -o $@

$(MADE)/$(SONAME): $(MADE)/$(SHARED)
	ln -sf $(SHARED) $@

$(MADE)/libhomie5.so: $(MADE)/$(SONAME)
	ln -sf $(SONAME) $@

# installed, a document is away from the source: a link into it becomes the text of the link and the path there
$(MADE)/%.md: docs/%.md
	mkdir -p $(MADE)
	sed -e 's|\[\([^]]*\)\](\.\./\1)|`\1`|g' -e 's|\[\([^]]*\)\](\.\./\([^)]*\))|\1 (`\2`)|g' $< > $@

# names the folders, which may differ from run to run
$(MADE)/homie5.pc: FORCE
	mkdir -p $(MADE)
	printf '%s\n' 'prefix=$(PREFIX)' 'includedir=$(INCLUDEDIR)' 'libdir=$(LIBDIR)' '' 'Name: homie5' \
	  'Description: Homie 5 traces and the device table, proved' 'Version: $(VERSION)' \
	  'Cflags: -I$${includedir}' 'Libs: -L$${libdir} -lhomie5' > $@

check: all
	HOMIE5_LIB_DIR='$(abspath $(PROVED))' tests/c/run
	HOMIE5_LIB_DIR='$(abspath $(PROVED))' tests/install
	HOMIE5_LIB_DIR='$(abspath $(PROVED))' tests/docs
	HOMIE5_LIB_DIR='$(abspath $(PROVED))' tests/interface/run $(SEEDS) $(LENGTH)

install: all
	$(INSTALL) -d '$(DESTDIR)$(INCLUDEDIR)' '$(DESTDIR)$(LIBDIR)' '$(DESTDIR)$(PKGCONFIGDIR)' '$(DESTDIR)$(DOCDIR)'
	$(INSTALL) -m 644 include/homie5.h '$(DESTDIR)$(INCLUDEDIR)'
	$(INSTALL) -m 644 $(MADE)/libhomie5.a '$(DESTDIR)$(LIBDIR)'
	$(INSTALL) -m 755 $(MADE)/$(SHARED) '$(DESTDIR)$(LIBDIR)'
	ln -sf $(SHARED) '$(DESTDIR)$(LIBDIR)/$(SONAME)'
	ln -sf $(SONAME) '$(DESTDIR)$(LIBDIR)/libhomie5.so'
	$(INSTALL) -m 644 $(MADE)/homie5.pc '$(DESTDIR)$(PKGCONFIGDIR)'
	$(INSTALL) -m 644 $(DOCUMENTS) '$(DESTDIR)$(DOCDIR)'

bench: $(PROVED)/libviewer.a
	HOMIE5_LIB_DIR='$(abspath $(PROVED))' bench/run

clean:
	rm -rf $(MADE) target/c target/install target/interface target/bench $(if $(HOMIE5_LIB_DIR),,$(PROVED))

FORCE:

.PHONY: all check install bench clean FORCE
.DELETE_ON_ERROR:
