# make run        build the program `hits` and search the course's first paper
# make lib        build the library for C and Rust, target/lib/libmitongory.a
# make install    put header, library, pkg-config file and `hits` below PREFIX; a packager's DESTDIR goes before it
# make uninstall  remove these files again
# make test       the whole gate, from nothing
# make bench      the library against C and Rust: prints the tables and writes docs/PERFORMANCE.md. MODE=check checks
#                 instead; other modes (bench/bench.c) time one part. BEFORE=DIR, a clone with an earlier commit and its
#                 library, compares with that one too
.PHONY: run lib install uninstall test bench
.NOTPARALLEL:
SHELL := bash
.SHELLFLAGS := -o pipefail -c

PREFIX ?= /usr/local
to := $(DESTDIR)$(abspath $(PREFIX))
version := $(shell sed -n 's/^.define MITONGORY_VERSION "\(.*\)"/\1/p' include/mitongory.h)
sources := $(shell find crates -name out -prune -o -print) crates.txt

# Runs rt in a crate's folder. Its progress goes to standard error as it comes, without the names of all functions that are
# proved. Crates below are proved first.
rt = @command -v rt >/dev/null || { echo "make: the Rattle toolchain is missing: no 'rt' on the PATH" >&2; exit 1; }; \
	cd crates/$(1) && rt $(2) 2>&1 | \
	{ grep --line-buffered -vE ': proved$$|^(library|statements|crate|logic|axioms|linked)\b|^(rt: )?note: |^checked ' || :; } >&2

run: target/bin/hits
	@target/bin/hits <crates/hits/stdin

lib: target/lib/libmitongory.a

# The copy is put in place only when it is whole.
target/lib/libmitongory.a: $(sources)
	$(call rt,capi,lib)
	@mkdir -p $(@D) && cp crates/capi/out/libcapi.a $@.part && mv -f $@.part $@

# rt builds a program where it runs it: what it prints here goes to standard error.
target/bin/hits: $(sources)
	$(call rt,hits,run <stdin)
	@mkdir -p $(@D) && cp crates/hits/out/hits $@.part && mv -f $@.part $@

install: target/lib/libmitongory.a target/bin/hits
	install -D -m 644 include/mitongory.h $(to)/include/mitongory.h
	install -D -m 644 target/lib/libmitongory.a $(to)/lib/libmitongory.a
	sed -e 's|@PREFIX@|$(abspath $(PREFIX))|' -e 's|@VERSION@|$(version)|' mitongory.pc.in >target/lib/mitongory.pc
	install -D -m 644 target/lib/mitongory.pc $(to)/lib/pkgconfig/mitongory.pc
	install -D -m 755 target/bin/hits $(to)/bin/hits

uninstall:
	rm -f $(addprefix $(to)/,include/mitongory.h lib/libmitongory.a lib/pkgconfig/mitongory.pc bin/hits)

test:
	@tests/run

bench:
	@bench/run $(MODE)
