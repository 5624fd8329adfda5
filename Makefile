# make: the host tool, over the proved library. make demo: an update with power cuts, shown.
# make test: the tool and the library against examples and the reference.
# make install: tool, library, header, man page and pkg-config file, below PREFIX (and DESTDIR).
# make peers: the same images through Debian's tools. make bench: speed, as ratios: whole, in pieces, compared, joined,
# and the checksum alone; make size: how many bytes the library takes, also built for size.
ifeq ($(origin CC),default)
CC = gcc
endif
CFLAGS ?= -O2
PYTHON ?= python3
RT ?= rt
PREFIX ?= /usr/local
BINDIR ?= $(PREFIX)/bin
LIBDIR ?= $(PREFIX)/lib
INCLUDEDIR ?= $(PREFIX)/include
MANDIR ?= $(PREFIX)/share/man

STRICT = -std=c11 -D_GNU_SOURCE -Wall -Wextra -Wconversion
CHECKED = -fsanitize=address,undefined -fno-sanitize-recover=all -fno-omit-frame-pointer -g

VERSION := $(shell sed -n 's/^\#define TARPAULARK_VERSION "\(.*\)"$$/\1/p' include/tarpaulark.h)
SOURCES := $(wildcard host/*.c)
HEADERS := $(wildcard host/*.h) include/tarpaulark.h

# The crates that the library is made of, EXPORTS with those below it: crates.txt has them lowest first.
LIBRARY = build/libtarpaulark.a
EXPORTS = tarpaulark_c
CRATES := $(shell tac crates.txt | awk -F: 'BEGIN { needed["$(EXPORTS)"] = 1 } { split($$1, name, " ") } \
	needed[name[1]] { print "crates/" name[1]; n = split($$2, on, " "); for (i = 1; i <= n; i++) needed[on[i]] = 1 }')
PROVED := crates.txt $(shell find $(CRATES) -name out -prune -o \( -name '*.rt' -o -name '*.antt' \) -print)
# The prover works in the folder of a crate.
RT_THERE = $(if $(findstring /,$(RT)),$(abspath $(RT)),$(RT))

.PHONY: all demo test peers bench size install clean
.DELETE_ON_ERROR:
all: build/tarpaulark

# One line for each crate; all that the prover prints is in build/prove.log.
$(LIBRARY): $(PROVED)
	@command -v $(RT) >/dev/null || { \
		echo 'make: no $(RT) on the path. It is the prover of the Rattle kit, without which the library cannot be'; \
		echo 'make: built: put the bin folder of the kit on the path, or name the program: make RT=FOLDER/rt'; \
		exit 1; } >&2
	@mkdir -p build
	@echo 'proving the library: long the first time, then only what has changed (all output: build/prove.log)'
	@{ (cd crates/$(EXPORTS) && $(RT_THERE) lib) 2>&1; echo $$? >build/prove.status; } \
		| tee build/prove.log | sed -u -n 's/^rt: chose --jobs [0-9]* for /  /p'; \
	status=$$(cat build/prove.status); rm -f build/prove.status; \
	if [ "$$status" != 0 ]; then \
		tail -n 20 build/prove.log; echo 'make: not proved; build/prove.log has all of it'; exit "$$status"; fi >&2
	@cp crates/$(EXPORTS)/out/lib$(EXPORTS).a $@

build/tarpaulark: $(SOURCES) $(HEADERS) $(LIBRARY)
	mkdir -p build
	$(CC) $(STRICT) $(CFLAGS) -Iinclude -o $@ $(SOURCES) $(LIBRARY)

# The same tool with the sanitizers, where the compiler has them.
build/tarpaulark-checked: $(SOURCES) $(HEADERS) $(LIBRARY)
	@mkdir -p build
	@if echo 'int main(void) { return 0; }' | $(CC) $(CHECKED) -x c -o $@ - 2>/dev/null && ./$@; then \
		set -x; $(CC) $(STRICT) $(CFLAGS) $(CHECKED) -Iinclude -o $@ $(SOURCES) $(LIBRARY); \
	else rm -f $@; echo 'left out: $(CC) has no address and undefined-behaviour sanitizers'; fi

build/libtarpaulark.so: $(LIBRARY)
	mkdir -p build
	$(CC) -shared -o $@ -Wl,--whole-archive $(LIBRARY) -Wl,--no-whole-archive

build/stack build/unread: build/%: tests/%.c include/tarpaulark.h $(LIBRARY)
	mkdir -p build
	$(CC) $(STRICT) $(CFLAGS) -Iinclude -o $@ $< $(LIBRARY)

# The update of the README: stored with power cut and a torn block, then started over.
demo: build/tarpaulark
	$(PYTHON) host/demo.py build/tarpaulark

# The tool on examples, bad usage and faults; that the library holds one table of the checksum and no other; the stack
# that each exported function takes; that no data are read where no checksum is stated; each function against the
# reference, for a minute; every sequence of slot operations for 1 to 3 slots, and random ones, against request 14.
test: build/tarpaulark build/tarpaulark-checked build/libtarpaulark.so build/stack build/unread
	$(PYTHON) tests/host.py build/tarpaulark build/tarpaulark-checked
	bash tests/install.sh
	$(PYTHON) tests/tables.py --planted '$(CC)'
	$(PYTHON) tests/tables.py $(LIBRARY)
	build/stack
	build/unread
	$(PYTHON) tests/differential.py build/libtarpaulark.so
	$(PYTHON) tests/gives_up.py build/libtarpaulark.so

# Images and boot images that Debian's tools make or read, where they are installed.
peers: build/tarpaulark
	bash tests/peers.sh

# Tables of ratios: to a plain copy, to zlib's checksum and to Debian's tools; of the passes to the whole form; of
# comparing to memcmp; of joining to a plain copy and to zlib's checksum; of the checksum alone to zlib's.
bench: $(LIBRARY)
	bash bench/run

size: $(LIBRARY)
	RT='$(RT)' CC='$(CC)' $(PYTHON) bench/size.py

FILLED = sed -e 's|@VERSION@|$(VERSION)|' -e 's|@LIBDIR@|$(LIBDIR)|' -e 's|@INCLUDEDIR@|$(INCLUDEDIR)|'
install: build/tarpaulark
	install -d '$(DESTDIR)$(BINDIR)' '$(DESTDIR)$(LIBDIR)/pkgconfig' '$(DESTDIR)$(INCLUDEDIR)' '$(DESTDIR)$(MANDIR)/man1'
	install -m 755 build/tarpaulark '$(DESTDIR)$(BINDIR)/tarpaulark'
	install -m 644 $(LIBRARY) '$(DESTDIR)$(LIBDIR)/libtarpaulark.a'
	install -m 644 include/tarpaulark.h '$(DESTDIR)$(INCLUDEDIR)/tarpaulark.h'
	$(FILLED) host/tarpaulark.pc.in >'$(DESTDIR)$(LIBDIR)/pkgconfig/tarpaulark.pc'
	$(FILLED) host/tarpaulark.1 >'$(DESTDIR)$(MANDIR)/man1/tarpaulark.1'
	chmod 644 '$(DESTDIR)$(LIBDIR)/pkgconfig/tarpaulark.pc' '$(DESTDIR)$(MANDIR)/man1/tarpaulark.1'

clean:
	rm -rf build
