# `make` lists what there is. The version stands in include/snapshot.h.
VERSION := $(shell sed -n 's/^.define SNAP_VERSION_TEXT "\(.*\)"$$/\1/p' include/snapshot.h)
PREFIX ?= /usr/local
SECONDS ?= 60
CFLAGS ?= -O2 -g
ALL_CFLAGS = -std=c99 -Wall -Wextra -Wpedantic -Werror -Iinclude -DSNAPSHOT_VERSION='"$(VERSION)"' $(CPPFLAGS) $(CFLAGS)
LIB = target/staticlib/libsnapshot.a
# The major number, and while that is 0 the minor one too: it may then change the parameters of a function.
NUMBERS = $(subst ., ,$(VERSION))
SONAME = libsnapshot.so.$(firstword $(NUMBERS))$(if $(filter 0,$(firstword $(NUMBERS))),.$(word 2,$(NUMBERS)))
SHARED = libsnapshot.so.$(VERSION)
TOOL_PARTS = $(wildcard tools/*.c)

# A manual page is installed under each of its names.
PAGES = $(wildcard man/*.3)
NAMES = sed -n 's/^\.Nm \([a-z0-9_]*\).*/\1/p'
# What install puts, under PREFIX.
INSTALLED = bin/snapshot include/snapshot.h lib/libsnapshot.a lib/$(SHARED) lib/$(SONAME) lib/libsnapshot.so \
	lib/pkgconfig/snapshot.pc share/man/man1/snapshot.1 $(patsubst %,share/man/man3/%.3,$(shell $(NAMES) $(PAGES))) \
	share/bash-completion/completions/snapshot
TO = $(DESTDIR)$(PREFIX)

.PHONY: help demo test lib tool examples install uninstall samples bench fuzz soak fmt clean

help:
	@echo 'make demo                sets up and shows the main job; half an hour at first'
	@echo 'make test                the gate: proves everything, then runs and compares'
	@echo 'make lib                 the library for C, proved and then compiled'
	@echo 'make tool                the library and the tool'
	@echo 'make examples            the programs of examples/'
	@echo 'make install PREFIX=..   library, header, tool and pages; DESTDIR is honoured'
	@echo 'make uninstall PREFIX=.. removes what install put there'
	@echo 'make samples             the sample files from their sources'
	@echo 'make bench               speed, as ratios'
	@echo 'make fuzz SECONDS=n      the fuzzer, library against Rust'
	@echo 'make soak SECONDS=n      four areas in turn, every byte that comes out checked'
	@echo 'make fmt                 the layout of Rattle files'
	@echo 'make clean               removes target/ and what rt keeps in crates/*/out'

demo:
	@bash tools/demo

test:
	@bash tests/run

lib: $(LIB)

# Proved, then compiled.
$(LIB): crates.txt $(shell find crates \( -name '*.rt' -o -name '*.antt' \) -not -path '*/out/*')
	bash tools/archive snapshot

tool: target/snapshot

target/snapshot: $(TOOL_PARTS) $(wildcard tools/*.h) include/snapshot.h $(LIB)
	$(CC) $(ALL_CFLAGS) $(LDFLAGS) $(TOOL_PARTS) $(LIB) -lpng -lz -ledit -o $@

examples: target/examples/server_slots target/examples/corrections

target/examples/%: examples/%.c examples/load.h include/snapshot.h $(LIB)
	mkdir -p target/examples
	$(CC) $(ALL_CFLAGS) $(LDFLAGS) $< $(LIB) -o $@

# The archive as a shared library; it exports what include/snapshot.map names.
target/$(SHARED): $(LIB) include/snapshot.map include/snapshot.h
	$(CC) -shared $(LDFLAGS) -Wl,-z,now -Wl,-soname,$(SONAME) -Wl,--version-script=include/snapshot.map \
		-Wl,--whole-archive $(LIB) -Wl,--no-whole-archive -o $@

# The prefix may have spaces in it, but no quotes and no dollar signs. The pkg-config file begins with it.
install: tool target/$(SHARED)
	printf 'prefix=%s\n' "$$(realpath -ms -- "$(PREFIX)")" > target/snapshot.pc
	sed 's/@VERSION@/$(VERSION)/' include/snapshot.pc.in >> target/snapshot.pc
	install -D -m 755 target/snapshot "$(TO)/bin/snapshot"
	install -D -m 644 include/snapshot.h "$(TO)/include/snapshot.h"
	install -D -m 644 $(LIB) "$(TO)/lib/libsnapshot.a"
	install -D -m 755 target/$(SHARED) "$(TO)/lib/$(SHARED)"
	ln -sf $(SHARED) "$(TO)/lib/$(SONAME)"
	ln -sf $(SONAME) "$(TO)/lib/libsnapshot.so"
	install -D -m 644 target/snapshot.pc "$(TO)/lib/pkgconfig/snapshot.pc"
	install -D -m 644 tools/snapshot.1 "$(TO)/share/man/man1/snapshot.1"
	install -d "$(TO)/share/man/man3"
	install -m 644 $(PAGES) "$(TO)/share/man/man3"
	for page in $(PAGES); do for name in $$($(NAMES) $$page); do \
		[ "$$page" = "man/$$name.3" ] || ln -sf "$${page#man/}" "$(TO)/share/man/man3/$$name.3" || exit; \
	done; done
	install -D -m 644 tools/completion.bash "$(TO)/share/bash-completion/completions/snapshot"

uninstall:
	for file in $(INSTALLED); do rm -f "$(TO)/$$file"; done

# The sample files from their sources, and README's picture from them; pasmo assembles.
samples: tool
	pasmo samples/border.asm target/border.bin
	$(CC) $(ALL_CFLAGS) samples/make.c $(LIB) -o target/make_sample
	target/make_sample samples/picture.txt target/border.bin samples/museum-48k.z80 samples/museum-128k.z80
	target/snapshot screen samples/museum-48k.z80 docs/screen.png

bench:
	@bash bench/run

fuzz:
	@bash tests/fuzz/run $(SECONDS)

soak:
	@bash tests/soak/run $(SECONDS)

fmt:
	@for crate in crates/*/; do (cd "$$crate" && rt fmt) || exit; done

clean:
	rm -rf target crates/*/out
