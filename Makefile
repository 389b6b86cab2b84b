# The C library: libjilgomt.a and libjilgomt.so.0 of the crate jilgomt, and where they are installed (docs/CALLING.md).
#   make                    proves the crate over the libraries below it, which are proved first where they aren't yet: 45 minutes
#   make UNPROVED=1         compiles the same sources with nothing proved: two and a half minutes
#   make [UNPROVED=1] install [PREFIX=/usr/local] [DESTDIR=]
BUILD ?= build
PREFIX ?= /usr/local
LIBDIR ?= $(PREFIX)/lib
INCLUDEDIR ?= $(PREFIX)/include
CC ?= cc
BACKEND ?= llvm
VERSION = 0.1.0
HOW = $(if $(UNPROVED),--unproved,--backend $(BACKEND))
SOURCES = $(wildcard crates/*/src/*.rt crates/*/src/*/*.rt) scripts/archive.py

all: $(BUILD)/libjilgomt.a $(BUILD)/libjilgomt.so.0 $(BUILD)/jilgomt.pc

# How the archive was built: where that is to change, it is built anew.
$(BUILD)/how: FORCE
	@mkdir -p $(BUILD)
	@echo '$(HOW)' | cmp -s - $@ || echo '$(HOW)' > $@

$(BUILD)/libjilgomt.a: $(SOURCES) $(BUILD)/how
	python3 scripts/archive.py $(HOW) $@

$(BUILD)/libjilgomt.so.0: $(BUILD)/libjilgomt.a bindings/exports.map
	$(CC) -shared -o $@ -Wl,-soname,libjilgomt.so.0 -Wl,--whole-archive $< -Wl,--no-whole-archive \
	    -Wl,--version-script,bindings/exports.map -Wl,-z,defs -Wl,-z,relro -Wl,-z,now -Wl,--gc-sections
	ln -sf libjilgomt.so.0 $(BUILD)/libjilgomt.so

$(BUILD)/jilgomt.pc: FORCE
	@mkdir -p $(BUILD)
	printf '%s\n' 'prefix=$(PREFIX)' 'libdir=$(LIBDIR)' 'includedir=$(INCLUDEDIR)' '' 'Name: jilgomt' \
	    "Description: ASN.1's octet encoding rules, basic and canonical (ITU-T X.696), proved" \
	    'Version: $(VERSION)' 'Libs: -L$${libdir} -ljilgomt' 'Cflags: -I$${includedir}' > $@

install: all
	install -d $(DESTDIR)$(LIBDIR)/pkgconfig $(DESTDIR)$(INCLUDEDIR)
	install -m644 include/jilgomt.h include/jilgomt.hpp $(DESTDIR)$(INCLUDEDIR)/
	install -m644 $(BUILD)/libjilgomt.a $(DESTDIR)$(LIBDIR)/
	install -m755 $(BUILD)/libjilgomt.so.0 $(DESTDIR)$(LIBDIR)/
	ln -sf libjilgomt.so.0 $(DESTDIR)$(LIBDIR)/libjilgomt.so
	install -m644 $(BUILD)/jilgomt.pc $(DESTDIR)$(LIBDIR)/pkgconfig/

clean:
	rm -rf $(BUILD)

.DELETE_ON_ERROR:
FORCE:

.PHONY: all install clean FORCE
