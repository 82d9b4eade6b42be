# Installs the library for programs in C, with a C compiler and make alone:
#
#     make install PREFIX=/usr/local DESTDIR=
#
# The headers, the archive libbook.a, book.pc for pkg-config, and the shared object libbook.so.MAJOR, which is linked
# here, as Linux has it; `make install-archive` does without it. The archive is the one in BOOK_DIR; else that of the
# package that this file came with (lib/), or the one that was built here.
PREFIX = /usr/local
DESTDIR =
OUT = target/install

ARCHIVES = lib/libbook.a target/lib/$(shell uname -m)-unknown-linux-gnu/libbook.a
BOOK_DIR ?= $(patsubst %/,%,$(dir $(firstword $(wildcard $(ARCHIVES)) lib/)))
ARCHIVE = $(BOOK_DIR)/libbook.a
HEADERS = include/book.h include/book_row.h

number = $(shell sed -n 's/^.define BOOK_VERSION_$(1) \([0-9]*\).*/\1/p' include/book.h)
MAJOR := $(call number,MAJOR)
VERSION := $(MAJOR).$(call number,MINOR).$(call number,PATCH)
SHARED = libbook.so.$(MAJOR)

all: shared $(OUT)/book.pc

shared: $(OUT)/$(SHARED)

# It exports the functions that book.h declares, and nothing else. Linked anew each time, as BOOK_DIR may have changed.
$(OUT)/$(SHARED): $(ARCHIVE) include/book.h again
	@mkdir -p $(OUT)
	(echo '{ global:'; sed -n 's/^int32_t \([a-z_]*\)(.*/\1;/p' include/book.h; echo 'local: *; };') >$(OUT)/book.map
	$(CC) -shared -Wl,-soname,$(SHARED) -Wl,--version-script=$(OUT)/book.map -Wl,-z,defs \
		-Wl,--whole-archive $(ARCHIVE) -Wl,--no-whole-archive -o $@
	ln -sf $(SHARED) $(OUT)/libbook.so

$(OUT)/book.pc: include/book.h again
	@mkdir -p $(OUT)
	printf '%s\n' 'prefix=$(PREFIX)' 'includedir=$${prefix}/include' 'libdir=$${prefix}/lib' '' 'Name: book' \
		'Description: a brokerage book that is proved, TPC-E transactions on rows of 64 bytes' \
		'Version: $(VERSION)' 'Cflags: -I$${includedir}' 'Libs: -L$${libdir} -lbook' >$@

install: install-archive shared
	cp $(OUT)/$(SHARED) $(DESTDIR)$(PREFIX)/lib/
	ln -sf $(SHARED) $(DESTDIR)$(PREFIX)/lib/libbook.so

install-archive: $(ARCHIVE) $(OUT)/book.pc
	mkdir -p $(DESTDIR)$(PREFIX)/include $(DESTDIR)$(PREFIX)/lib/pkgconfig
	cp $(HEADERS) $(DESTDIR)$(PREFIX)/include/
	cp $(ARCHIVE) $(DESTDIR)$(PREFIX)/lib/
	cp $(OUT)/book.pc $(DESTDIR)$(PREFIX)/lib/pkgconfig/

uninstall:
	cd $(DESTDIR)$(PREFIX)/include && rm -f $(notdir $(HEADERS))
	cd $(DESTDIR)$(PREFIX)/lib && rm -f libbook.a libbook.so $(SHARED) pkgconfig/book.pc

version:
	@echo $(VERSION)

$(ARCHIVE):
	@echo "There is no $@. Name the folder of another libbook.a by BOOK_DIR, or build it: see README.md." >&2
	@exit 1

.PHONY: all shared install install-archive uninstall version again
