# Ferghulta: `make help` lists the targets. Whatever is built goes under target/; rt's own work is in crates/*/out/.

PREFIX ?= /usr/local
LIBDIR ?= $(PREFIX)/lib
RT ?= rt
RUSTC ?= rustc
NM ?= nm
CFLAGS ?= -O2
CXXFLAGS ?= -O2
WARNINGS = -Wall -Wextra -Wpedantic
# Without make's flags, in which rustc would look for a job server that it is not given.
RUST = MAKEFLAGS= $(RUSTC) --edition 2021 -O -D warnings
SUDO = $(if $(filter 0,$(shell id -u)),,sudo)

HEADER = include/ferghulta.h
ARCHIVE = target/staticlib/libferghulta.a
BUILD = target/example
FIGURE = docs/row.svg

# Told where something is missing; nothing is installed unasked.
NEED = RT='$(RT)' CC='$(CC)' CXX='$(CXX)' RUSTC='$(RUSTC)' sh needs.sh

# The header alone has the version.
VERSION := $(shell sed -n 's/^.define FERGHULTA_VERSION "\(.*\)"/\1/p' $(HEADER))

# The archive is proved from these; rt itself knows which crates are out of date, and keeps copies of some in out/.
SOURCES := crates.txt $(shell find crates -name out -prune -o \( -name '*.rt' -o -name '*.antt' \) -print)

.PHONY: all test example example-rust check check-c check-header check-archive check-version check-docs figure bench \
        difftest difftest-long difftest-valgrind difftest-mutants fuzz needs install-needs install uninstall absolute clean help

all: $(ARCHIVE)

# Some ten minutes the first time. For every x86-64 processor, where rt alone would build for x86-64-v2.
$(ARCHIVE): $(SOURCES)
	@$(NEED) archive
	cd crates/ferghulta && $(RT) lib --cpu x86-64
	install -D -m 644 crates/ferghulta/out/libferghulta.a $@

test:
	@$(NEED) archive
	$(RT) ci

# ---- examples

example: $(BUILD)/first $(BUILD)/ramp
	$(BUILD)/first
	$(BUILD)/ramp

example-rust: $(BUILD)/ramp-rust $(BUILD)/parallel-rust $(BUILD)/ramp
	$(BUILD)/ramp-rust | tee $(BUILD)/ramp-rust.out
	$(BUILD)/ramp | diff - $(BUILD)/ramp-rust.out
	$(BUILD)/parallel-rust

$(BUILD)/%: examples/%.c $(HEADER) $(ARCHIVE) | $(BUILD)
	@$(NEED) c
	$(CC) -std=c11 $(CFLAGS) $(WARNINGS) -Iinclude $< $(ARCHIVE) -o $@

$(BUILD)/%-c++: examples/%.c $(HEADER) $(ARCHIVE) | $(BUILD)
	@$(NEED) c
	$(CXX) -std=c++11 $(CXXFLAGS) $(WARNINGS) -Iinclude -x c++ $< -x none $(ARCHIVE) -o $@

$(BUILD)/libferghulta.rlib: examples/ferghulta.rs $(ARCHIVE) | $(BUILD)
	@$(NEED) rust
	$(RUST) --crate-type rlib -L $(dir $(ARCHIVE)) $< -o $@

$(BUILD)/%-rust: examples/%.rs $(BUILD)/libferghulta.rlib
	$(RUST) --extern ferghulta=$(BUILD)/libferghulta.rlib $< -o $@

$(BUILD)/libferghulta.so: $(ARCHIVE) | $(BUILD)
	$(CC) -shared -nostdlib -Wl,--whole-archive $< -Wl,--no-whole-archive -o $@

$(BUILD):
	mkdir -p $@

# ---- checks of the interface

check: check-c check-header check-archive check-version check-docs

check-c: $(BUILD)/bench_values $(BUILD)/bench_values-c++
	$(BUILD)/bench_values
	$(BUILD)/bench_values-c++

# The header with every warning as an error, in old and new C and C++, and the mistakes of misuse.c, each refused.
C_STANDARDS = c89 c99 c11 c2x
CXX_STANDARDS = c++98 c++11 c++17
MISTAKES = 1 2 3 4 5 6 7 8 9 10 11 12 13 14 15 16 17 18 19 20
STRICT = -Werror $(WARNINGS) -Wconversion -Wsign-conversion -Wshadow -Iinclude -S -o /dev/null

check-header:
	@$(NEED) c
	@tried() { \
		"$$@" -DMISUSE=0 $(STRICT) examples/misuse.c || exit 1; \
		for m in $(MISTAKES); do \
			! "$$@" -DMISUSE=$$m $(STRICT) examples/misuse.c 2>/dev/null || { echo "$$*: mistake $$m passes"; exit 1; }; \
		done; \
		echo "$$*: the header passes, and $(words $(MISTAKES)) mistakes are refused"; \
	}; \
	for std in $(C_STANDARDS); do tried $(CC) -std=$$std; done; \
	for std in $(CXX_STANDARDS); do tried $(CXX) -std=$$std -Wold-style-cast -x c++; done

# The archive calls nothing but memmove.
check-archive: $(ARCHIVE)
	@$(NEED) c
	@called=$$($(NM) -u $(ARCHIVE) | grep ' U ' | grep -v -w memmove); [ -z "$$called" ] || { echo "the archive calls what it does not have:"; echo "$$called"; exit 1; }
	@echo 'the archive calls nothing that it does not have but memmove'

# Header, archive, Rust wrapper and CHANGELOG.md have one version.
check-version: $(ARCHIVE) | $(BUILD)
	@printf '#include <stdio.h>\n#include "ferghulta.h"\nint main(void) { printf("%%d %%d", FERGHULTA_VERSION_NUMBER, (int)ferghulta_version()); return 0; }\n' | \
		$(CC) -Iinclude -x c - -x none $(ARCHIVE) -o $(BUILD)/version
	@set -- $$($(BUILD)/version) $$(sed -n 's/^pub const VERSION: u32 = \(.*\);/\1/p' examples/ferghulta.rs); \
	[ "$$1" = "$$2" ] && [ "$$1" = "$$3" ] || { echo "versions differ: header $$1, archive $$2, examples/ferghulta.rs $$3"; exit 1; }
	@grep -q '^## $(VERSION)' CHANGELOG.md || { echo 'CHANGELOG.md has no $(VERSION)'; exit 1; }
	@echo 'version $(VERSION): header, archive, examples/ferghulta.rs and CHANGELOG.md'

# README's program and what it prints are examples/first.c and what it prints; the figure is what the library gives.
check-docs: $(BUILD)/first $(BUILD)/row.svg
	sed -n '/^```c$$/,/^```$$/p' README.md | sed '1d;$$d' | diff - examples/first.c
	$(BUILD)/first > $(BUILD)/first.out
	sed -n '/^```text$$/,/^```$$/p' README.md | sed '1d;$$d' | diff - $(BUILD)/first.out
	cmp $(BUILD)/row.svg $(FIGURE)

figure: $(BUILD)/row.svg
	cp $< $(FIGURE)

$(BUILD)/row.svg: examples/waveform.py $(BUILD)/libferghulta.so
	@$(NEED) figure
	python3 $^ $@

# ---- measurements and comparisons, each with a Makefile of its own

bench: $(ARCHIVE)
	$(MAKE) -C bench

difftest difftest-long difftest-valgrind difftest-mutants fuzz: $(ARCHIVE)
	$(MAKE) -C difftest $@

# ---- what must be there

needs:
	@$(NEED)

install-needs:
	@packages="$$($(NEED) --packages)"; \
	if [ -n "$$packages" ]; then set -x; $(SUDO) apt-get update && $(SUDO) apt-get install -y --no-install-recommends $$packages; fi
	@$(NEED)

# ---- installation

install: absolute $(ARCHIVE) check-version
	mkdir -p '$(DESTDIR)$(PREFIX)/include' '$(DESTDIR)$(LIBDIR)/pkgconfig'
	install -m 644 $(HEADER) '$(DESTDIR)$(PREFIX)/include/ferghulta.h'
	install -m 644 $(ARCHIVE) '$(DESTDIR)$(LIBDIR)/libferghulta.a'
	sed 's|@PREFIX@|$(PREFIX)|; s|@LIBDIR@|$(patsubst $(PREFIX)/%,$${prefix}/%,$(LIBDIR))|; s|@VERSION@|$(VERSION)|' \
		ferghulta.pc.in > '$(DESTDIR)$(LIBDIR)/pkgconfig/ferghulta.pc'

uninstall: absolute
	rm -f '$(DESTDIR)$(PREFIX)/include/ferghulta.h' '$(DESTDIR)$(LIBDIR)/libferghulta.a'
	rm -f '$(DESTDIR)$(LIBDIR)/pkgconfig/ferghulta.pc'

# ferghulta.pc names both folders, wherever a compiler is started.
absolute:
	@case '$(PREFIX)' in /*) ;; *) echo 'PREFIX=$(PREFIX) is relative: give it from the root on'; exit 1 ;; esac
	@case '$(LIBDIR)' in /*) ;; *) echo 'LIBDIR=$(LIBDIR) is relative: give it from the root on'; exit 1 ;; esac

# The proofs and the archive stay: they take minutes. `rm -r target crates/*/out` removes them too.
clean:
	rm -rf $(BUILD)

help:
	@echo 'make                    prove the core and build $(ARCHIVE)'
	@echo '                        (some ten minutes the first time)'
	@echo 'make needs              what the targets need, where it comes from, and what is missing'
	@echo 'make install-needs      installs what is missing and Debian has; nothing else here installs a package'
	@echo 'make example            C examples: the program of README.md, and pictures sent and read back'
	@echo 'make example-rust       the latter in Rust, which has to print the same; rows sent by several threads'
	@echo 'make check              the interface: check-c (bench values through the header, as C and as C++),'
	@echo '                        check-header (old and new C and C++, and mistakes that it must refuse),'
	@echo '                        check-archive (it calls memmove alone), check-version,'
	@echo '                        check-docs (program and figure of README.md)'
	@echo 'make figure             makes $(FIGURE) again from the answers of the library'
	@echo 'make test               rt ci: everything proved, wrong builds refused, programs run'
	@echo 'make bench              times (docs/BENCHMARKS.md)'
	@echo 'make difftest           comparisons with programs that share no code (docs/TESTING.md);'
	@echo '                        also difftest-long, difftest-valgrind, difftest-mutants, fuzz'
	@echo 'make install            header, archive and ferghulta.pc to PREFIX=$(PREFIX) and LIBDIR=$(LIBDIR),'
	@echo '                        below DESTDIR'
	@echo 'make uninstall          removes these three'
	@echo 'make clean              removes the examples, not the proofs and the archive'
