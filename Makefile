# README.md says how long each of the first four takes.
.PHONY: demo program build test install dist

# A release has the program beside this file. A shell would look for a bare name on its PATH.
PROGRAM := $(or $(wildcard ./wasmhost),crates/wasmhost/out/wasmhost)
# What a release lacks.
SOURCES := crates.txt

# Runs the story of a worker whose power is cut twice. It proves nothing.
demo:
	@scripts/make/demo $(wildcard ./wasmhost)

# Builds the program without any proof. `make build` puts the proved one in its place.
program: $(SOURCES)
	@scripts/make/program

# Proves all crates of the program, and builds it.
build: $(SOURCES)
	@scripts/make/build

# Proves every crate from nothing, tries the must-fail edits, and runs the tests and the program.
# RT_JOBS says how many checks go on at a time.
test: $(SOURCES)
	@command -v rt >/dev/null || { echo "test: there is no command rt: it comes with the kit that" \
		"README.md names" >&2; false; }
	RT_JOBS=$$(scripts/make/jobs) rt ci

$(SOURCES):
	@echo "make: there is no $@: a release has no sources, so take a clone" >&2; false

$(PROGRAM):
	@echo "make: there is no $@: run 'make program' or 'make build' first" >&2; false

# Copies the built program, its manual page, documents and examples, and what a systemd unit wants.
# Each place is an absolute path of letters, digits and /._-+, DESTDIR too where it isn't empty.
install: export DESTDIR ?=
install: export PREFIX ?= /usr/local
install: export BINDIR ?= $(PREFIX)/bin
install: export LIBDIR ?= $(PREFIX)/lib
install: export DATADIR ?= $(PREFIX)/share
install: export DOCDIR ?= $(DATADIR)/doc/wasmhost
install: export UNITDIR ?= $(LIBDIR)/systemd/system
install: $(PROGRAM)
	@scripts/make/install $(PROGRAM)

# Packs the built program, documents and examples in out/wasmhost-VERSION.tar.gz.
dist: $(PROGRAM) $(SOURCES)
	@scripts/make/dist
