# `make` alone says what there is. What stands behind ## is what it says: how long a target takes on four cores, and what it does.

REEL ?= samples/short.reel
PREFIX ?= /usr/local
VERSION := $(shell sed -n 's/^\#define CF_VERSION_TEXT "\(.*\)"/\1/p' include/counterfrost.h)
# Until 1.0.0 calls may change with the second number of the version, so the shared library is known by the first two.
SONAME := libcounterfrost.so.$(basename $(VERSION))

ARCHIVE = target/staticlib/libcounterfrost.a
SHARED = target/shared/libcounterfrost.so.$(VERSION)
PROGRAM = target/bin/counterfrost
DIST = counterfrost-$(VERSION)-linux-x86_64

# What the archive and the programs are built of; what rt keeps stands in crates/NAME/out.
SOURCES := crates.txt $(shell find crates -name out -prune -o \( -name '*.rt' -o -name '*.antt' \) -print)
# How the tests call the program: by its name, or on another processor by a script that runs it under the emulator.
CALLED := $(if $(filter x86_64,$(shell uname -m)),$(PROGRAM),tests/run-command)

TARGETS = help list lib install uninstall dist test check face command stack bench reels expected clean
.PHONY: $(TARGETS) kit
# Two that prove at once in one folder would get in each other's way.
.NOTPARALLEL:

# A reel that is named without REEL= would be passed over, and another one listed.
ifneq ($(filter list,$(MAKECMDGOALS)),)
ifneq ($(filter-out $(TARGETS),$(MAKECMDGOALS)),)
$(error a reel is named so: make list REEL=$(firstword $(filter-out $(TARGETS),$(MAKECMDGOALS))))
endif
endif

help: ## at once             this list
	@echo 'Counterfrost $(VERSION). What was proved once is not proved again: the times in brackets are for later runs.'
	@echo
	@sed -n 's/^\([a-z]*\):.*## /  make \1#/p' Makefile | awk -F'#' '{ printf "%-18s%s\n", $$1, $$2 }'
	@echo
	@echo 'README.md says what all this is for.'

list: target/bin/list ## 5 minutes (at once) lists a sample reel, or with REEL=path another one; nothing is changed in it
	@tools/list-reel "$(REEL)"

lib: $(ARCHIVE) $(SHARED) ## 6 minutes (at once) proves the library for C and builds it: target/staticlib, target/shared

install: lib $(PROGRAM) target/bin/list ## 12 minutes (at once) puts command, library and header below PREFIX, /usr/local if none is named
	@tools/place "$(DESTDIR)$(PREFIX)" $(VERSION) $(SONAME) $(ARCHIVE) $(SHARED)
	@echo "installed below $(DESTDIR)$(PREFIX): bin/counterfrost with its man page and its completion for bash, bin/counterfrost-list,"
	@echo "include/counterfrost.h, and in lib the archive and the shared library"
	@echo "to compile with it: export PKG_CONFIG_PATH=\"$$(realpath -m -- "$(PREFIX)")/lib/pkgconfig\""
	@[ "$$(uname -m)" = x86_64 ] || echo "all of it is for x86-64, which this machine is not: README.md says how to use it here"

uninstall: ## at once             takes away what install puts below PREFIX
	@tools/place --remove "$(DESTDIR)$(PREFIX)"

dist: lib $(PROGRAM) target/bin/list ## 12 minutes (at once) a tar file with all that a user needs, and no need of the kit: target/dist
	@rm -rf target/dist && mkdir -p target/dist
	@tools/place "target/dist/$(DIST)" $(VERSION) $(SONAME) $(ARCHIVE) $(SHARED)
	@tools/pack "target/dist/$(DIST)"
	@echo "target/dist/$(DIST).tar.gz"

test: kit ## 12 minutes (2)       the whole gate: all proved, each wrong program tried, the programs run, library and command compared
	@echo "kit: $$(rt version)"
	@echo "pinned: $$(cat KIT)"
	@.ci/gate

check: kit ## 10 minutes (1)       proves all crates, tries the wrong programs, runs the programs; with NAME=crate that one, and what it stands on
	@rt ci $(NAME)

face: lib $(PROGRAM) target/bin/list ## half a minute       once all is built: header, examples, installation, tar file, calls, stack
	@tests/face/run $(ARCHIVE)
	@tests/stack/run $(ARCHIVE)
	@tests/installed

command: $(PROGRAM) ## seconds             once it is built: the command, the examples of its man page, its completion
	@tests/command/run $(CALLED)
	@tests/man $(CALLED)
	@tests/completion

stack: lib ## seconds             once the library is built: how much of the stack each call takes, held to its goal
	@tests/stack/run $(ARCHIVE)

bench: lib $(PROGRAM) ## 5 minutes           once all is built: measures it, and writes the tables of docs/BENCHMARK.md (needs python3)
	@bench/install
	@bench/run $(ARCHIVE)
	@bench/command $(PROGRAM)

reels: $(PROGRAM) target/bin/list ## 3 minutes           lists some thousand reels, tries the command, and compares (needs python3)
	@python3 tests/reels.py tests/run-made target/bin/list
	@python3 tests/command.py $(CALLED) --long
	@python3 tests/film.py 71 | $(CALLED) map - | cmp - docs/map.svg && echo "docs/map.svg is the map of the film of tests/film.py"

expected: ## seconds             works out again what the programs have to print, and compares (needs python3)
	@python3 tests/expected_worked.py | diff - crates/worked/stdout && echo "crates/worked/stdout is what SPEC asks for"
	@python3 tests/samples.py

clean: ## at once             removes target/, and what rt keeps in each crate's out/
	@rm -rf target crates/*/out

kit:
	@command -v rt >/dev/null || { echo "the command rt of the Rattle kit is not on the path; README.md says what to do without the kit" >&2; exit 2; }

target/bin/list: $(SOURCES) | kit
	@tools/prove list
	@mkdir -p $(@D) && cp crates/list/out/list $@

$(ARCHIVE): $(SOURCES) | kit
	@tools/prove counterfrost
	@mkdir -p $(@D) && cp crates/counterfrost/out/libcounterfrost.a $@

$(PROGRAM): $(SOURCES) tools/link-command | kit
	@tools/prove command
	@tools/link-command crates/command/out/command.o $@

$(SHARED): $(ARCHIVE) packaging/exports
	@tools/share $(ARCHIVE) $@ $(SONAME)
