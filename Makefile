# make run         the listing program, proved and built, on the sample of examples/listing
# make test        the gate: everything proved, every must-fail edit refused, every other test
# make library     the library for C and C++, target/lib/libburst.a and libburst.so; include/burst.h declares it
# make staticlib   libburst.a alone
# make tool        the tool burst, target/tool/burst
# make install     library, header, tool and manual pages, below PREFIX (/usr/local), that below DESTDIR if it is set
# make uninstall   removes what make install installed, with the same PREFIX and DESTDIR
# make plot        docs/fades.svg, what a decoder makes of fades of each length, drawn from runs of the tool
# make bench       what calls take, against an implementation written for speed, and batches against single calls; not a
#                  part of the gate
# make clean       removes target/ and each crate's out/, which hold all that is built
# make help        this text
.DELETE_ON_ERROR:
.PHONY: run test library staticlib tool tool-sanitized install uninstall plot bench clean help

VERSION := $(shell sed -n 's/^\#define BURST_VERSION "\(.*\)"/\1/p' include/burst.h)
SONAME := libburst.so.$(firstword $(subst ., ,$(VERSION)))
SHARED := libburst.so.$(VERSION)

CC := gcc
CFLAGS ?= -O2
WERROR ?= -Werror
STRICT := -std=c11 -D_GNU_SOURCE -Wall -Wextra -Wpedantic -Wshadow -Wconversion -Wstrict-prototypes \
    -Wmissing-prototypes $(WERROR) -Iinclude
SANITIZED := -g -O1 -fsanitize=address,undefined -fno-sanitize-recover=all

PREFIX ?= /usr/local
prefix := $(abspath $(PREFIX))
bin := $(DESTDIR)$(prefix)/bin
lib := $(DESTDIR)$(prefix)/lib
header := $(DESTDIR)$(prefix)/include
man := $(DESTDIR)$(prefix)/share/man

RT := $(shell command -v rt)
need_rt = @[ -n "$(RT)" ] || { echo 'rt, the Rattle toolchain, is not on the PATH; README.md says more' >&2; exit 1; }

run: target/bin/listing
	@target/bin/listing < examples/listing/levels

test:
	$(need_rt)
	@printf 'toolchain: %s\n' "$$(rt version)"
	@tests/tally tests/rattle tests/layout tests/statements $(wildcard tests/*_test)

# Every crate is proved in one step, so that targets made side by side (make -j) do not each prove what they share. What
# is proved is kept in the crate's out/, so what did not change is not proved again.
target/proved: crates.txt $(shell find crates -mindepth 2 -name out -prune -o -print) $(RT)
	$(need_rt)
	@tools/prove . all check
	@mkdir -p $(@D)
	@touch $@

target/bin/listing: target/proved
	@tools/prove crates/listing run < /dev/null
	@mkdir -p $(@D)
	@cp crates/listing/out/listing $@

target/staticlib/libexport.a: target/proved
	@tools/prove crates/export lib
	@mkdir -p $(@D)
	@cp crates/export/out/libexport.a $@

# The proved object, and beside it the words for numbers. The shared library is made of the same two.
library: staticlib target/lib/$(SHARED)
staticlib: target/lib/libburst.a

target/lib/libburst.a: target/staticlib/libexport.a library/text.c include/burst.h
	@mkdir -p target/lib
	@$(CC) $(STRICT) $(CFLAGS) -fPIC -c -o target/lib/text.o library/text.c
	@cp target/staticlib/libexport.a $@
	@ar r $@ target/lib/text.o

# Its other names are no symbolic links: `rt` refuses these in a repository.
target/lib/$(SHARED): target/lib/libburst.a
	@$(CC) $(LDFLAGS) -shared -Wl,-soname,$(SONAME),-z,defs,-z,text -Wl,--whole-archive $< -Wl,--no-whole-archive -o $@
	@ln -f $@ target/lib/$(SONAME)
	@ln -f $@ target/lib/libburst.so

tool: target/tool/burst
tool-sanitized: target/tool/burst-sanitized

target/tool/burst: $(wildcard tool/*) include/burst.h target/lib/libburst.a
	@mkdir -p target/tool
	@$(CC) $(STRICT) $(CFLAGS) $(LDFLAGS) -o $@ $(wildcard tool/*.c) target/lib/libburst.a

target/tool/burst-sanitized: target/tool/burst
	@$(CC) $(STRICT) $(SANITIZED) -o $@ $(wildcard tool/*.c) library/text.c target/lib/libburst.a

install: library tool
	install -d $(bin) $(lib)/pkgconfig $(header) $(man)/man1 $(man)/man3 $(man)/man5
	install -m 755 target/tool/burst $(bin)
	install -m 644 target/lib/libburst.a $(lib)
	install -m 755 target/lib/$(SHARED) $(lib)
	ln -sf $(SHARED) $(lib)/$(SONAME)
	ln -sf $(SONAME) $(lib)/libburst.so
	sed 's|@PREFIX@|$(prefix)|; s|@VERSION@|$(VERSION)|' library/burst.pc.in > $(lib)/pkgconfig/burst.pc
	chmod 644 $(lib)/pkgconfig/burst.pc
	install -m 644 include/burst.h $(header)
	install -m 644 man/burst.1 $(man)/man1
	install -m 644 man/burst.3 $(man)/man3
	install -m 644 man/burst-table.5 $(man)/man5

uninstall:
	rm -f $(bin)/burst $(lib)/libburst.a $(lib)/$(SHARED) $(lib)/$(SONAME) $(lib)/libburst.so \
	    $(lib)/pkgconfig/burst.pc $(header)/burst.h $(man)/man1/burst.1 $(man)/man3/burst.3 $(man)/man5/burst-table.5

plot: tool
	@tools/plot target/tool/burst > target/fades.svg
	@mv target/fades.svg docs/fades.svg

bench: staticlib
	@CARGO_TARGET_DIR=target/bench cargo run --release --offline --quiet --manifest-path bench/Cargo.toml

clean:
	rm -rf target crates/*/out

help:
	@sed -n '/^#/!q; s/^# //p' Makefile
