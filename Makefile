# The project's commands; `make` alone lists them. Rattle code is proved and built by rt, of the Rattle kit; the Rust tests by cargo.

VERSION = 1.0
PREFIX ?= /usr/local
LIBDIR ?= $(PREFIX)/lib
INCLUDEDIR ?= $(PREFIX)/include
DOCDIR ?= $(PREFIX)/share/doc/paradox
CFLAGS ?= -O2 -std=c99 -Wall -Wextra -Wpedantic -Wconversion -Wshadow

# Where libparadox.a is. In its default place it is built from the sources; in any other it is used as it is.
PARADOX_LIB ?= target/staticlib
BUILT_ARCHIVE = target/staticlib/libparadox.a
ARCHIVE = $(PARADOX_LIB)/libparadox.a
LISTER = target/bin/lister
SOURCES = crates.txt $(shell find crates -name out -prune -o \( -name '*.rt' -o -name '*.antt' \) -print)

# For `make soak`: how many cases, and the seed they come from (the present second, if none is given).
COUNT ?= 200000
ifndef SEED
SEED := $(shell date +%s)
endif

RUST = PARADOX_LIB=$(abspath $(PARADOX_LIB)) CARGO_TARGET_DIR=target/tests \
	cargo run --release --quiet --manifest-path tests/Cargo.toml --bin

define HELP
make list FILE=samples/parts.db   print a table of at most 65,536 bytes, or why it is refused
make export FILE=samples/parts.db write a table of any size as comma-separated values, or why it is refused
make export FILE=.. MB=..         write it with its memos and other blobs, from the MB file
make test                         prove everything from nothing and run every test, which takes a good while
make lib                          prove and build target/staticlib/libparadox.a
make example                      build the C examples, target/counter and target/export
make samples                      write the files of samples/ anew
make expected                     write the outputs of the test programs anew, as the Rust model has them
make soak COUNT=.. SEED=..        compare the library and the lister with the Rust model on many files, 30,000 or more
make bench                        measure the calls beside the Rust model
make install PREFIX=..            install archive, header, manual and pkg-config file (DESTDIR is honoured)
make uninstall PREFIX=..          remove them
make clean                        remove target/, and what rt keeps of proofs in crates/*/out
endef

define PKG_CONFIG_FILE
prefix=$(abspath $(PREFIX))
libdir=$(abspath $(LIBDIR))
includedir=$(abspath $(INCLUDEDIR))

Name: paradox
Description: Proved reader of Paradox tables, their primary indexes and their memos
Version: $(VERSION)
Cflags: -I$${includedir}
Libs: -L$${libdir} -lparadox
endef

export HELP PKG_CONFIG_FILE

# $(call need,PROGRAM,WHAT IT BELONGS TO)
need = command -v $(1) >/dev/null || { echo 'There is no $(1) on the PATH: $(2) is needed for this.' >&2; exit 1; }
NEED_RT = $(call need,rt,the Rattle kit)
# $(call need_file,TARGET): FILE names a file that is there.
need_file = test -n "$(FILE)" || { echo 'Which table? Say make $(1) FILE=samples/parts.db' >&2; exit 1; }; \
	test -f "$(FILE)" || { echo 'There is no file $(FILE).' >&2; exit 1; }
# $(call quietly,COMMAND): what it says is kept in target/rt.txt, and shown where it fails.
quietly = mkdir -p target && { $(1) >target/rt.txt 2>&1 || { cat target/rt.txt >&2; exit 1; }; }
NEED_CARGO = $(call need,cargo,Rust)

.PHONY: help list export test lib example samples expected soak bench install uninstall clean cargo

help:
	@printf '%s\n' "$$HELP"

# Asked for before anything is proved.
cargo:
	@$(NEED_CARGO)

list:
	@$(call need_file,list)
	@$(MAKE) --no-print-directory --silent $(LISTER)
	@$(LISTER) <"$(FILE)"

export:
	@$(call need_file,export)
	@test -z "$(MB)" || test -f "$(MB)" || { echo 'There is no file $(MB).' >&2; exit 1; }
	@$(MAKE) --no-print-directory --silent target/export
	@target/export "$(FILE)" $(if $(MB),"$(MB)")

test:
	@$(NEED_RT)
	@echo 'Proving everything from nothing and running every test takes a good while.'
	@bash .ci/run

lib: $(BUILT_ARCHIVE)

example: target/counter target/export

samples: cargo $(ARCHIVE)
	@mkdir -p samples
	$(RUST) samples -- samples

expected: cargo $(ARCHIVE)
	$(RUST) expected -- --write crates

soak: cargo $(ARCHIVE) $(LISTER)
	$(RUST) differential -- --cases $(COUNT) --seed $(SEED) --lister $(LISTER)

bench: cargo $(ARCHIVE)
	$(RUST) bench

install: $(ARCHIVE)
	install -d $(DESTDIR)$(abspath $(LIBDIR))/pkgconfig $(DESTDIR)$(abspath $(INCLUDEDIR)) $(DESTDIR)$(abspath $(DOCDIR))
	install -m 644 $(ARCHIVE) $(DESTDIR)$(abspath $(LIBDIR))/libparadox.a
	install -m 644 include/paradox.h $(DESTDIR)$(abspath $(INCLUDEDIR))/paradox.h
	install -m 644 docs/MANUAL.md $(DESTDIR)$(abspath $(DOCDIR))/MANUAL.md
	printf '%s\n' "$$PKG_CONFIG_FILE" >$(DESTDIR)$(abspath $(LIBDIR))/pkgconfig/paradox.pc
	chmod 644 $(DESTDIR)$(abspath $(LIBDIR))/pkgconfig/paradox.pc

uninstall:
	rm -f $(DESTDIR)$(abspath $(LIBDIR))/libparadox.a $(DESTDIR)$(abspath $(INCLUDEDIR))/paradox.h
	rm -f $(DESTDIR)$(abspath $(LIBDIR))/pkgconfig/paradox.pc $(DESTDIR)$(abspath $(DOCDIR))/MANUAL.md

clean:
	rm -rf target crates/*/out

$(BUILT_ARCHIVE): $(SOURCES)
	@$(NEED_RT)
	@echo 'Proving the library before it is built takes some minutes; what is proved already is not proved again.' >&2
	@$(call quietly,bash tools/build archive)

ifneq ($(ARCHIVE),$(BUILT_ARCHIVE))
$(ARCHIVE):
	@echo 'There is no $@. PARADOX_LIB names the directory of libparadox.a.' >&2; exit 1
endif

$(LISTER): $(SOURCES)
	@$(NEED_RT)
	@echo 'Proving the lister before it is built takes some minutes; what is proved already is not proved again.' >&2
	@$(call quietly,bash tools/build lister)

target/counter target/export: target/%: examples/%.c examples/common.h include/paradox.h $(ARCHIVE)
	@mkdir -p target
	$(CC) $(CFLAGS) -Iinclude $(LDFLAGS) -o $@ $< $(ARCHIVE)
