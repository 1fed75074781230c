# make                 the command and the library for C, in minutes without their proofs: build/xti, build/libxti.a, build/libxti.so
# make prove           both once they are proved, in their place
# make check           the gate: every proof, edit, test, program, example and document
# make install         the command, the library with its headers and xti.pc, and the manual pages, below PREFIX
# make clean           removes what make has built

# The command and the library for C are made beside each other.
MAKEFLAGS += -j2
PREFIX ?= /usr/local
# c/Makefile is run in another folder.
override PREFIX := $(abspath $(PREFIX))
SOURCES := $(wildcard crates/*/src/*.rt crates/*/src/*/*.rt crates.txt HANDLES)

.PHONY: all library prove check install clean

all: build/xti library

build/xti: $(SOURCES)
	tools/build-command $@

build/libxti_c.a: $(SOURCES)
	tools/build-c-library build --unproved

library: build/libxti_c.a
	@$(MAKE) -s -C c BUILD=../build

prove:
	tools/build-command --proved build/xti
	tools/build-c-library build
	@$(MAKE) -s -C c BUILD=../build

check:
	.ci/run

install: all
	install -D -m 755 build/xti $(DESTDIR)$(PREFIX)/bin/xti
	install -D -m 644 docs/xti.1 $(DESTDIR)$(PREFIX)/share/man/man1/xti.1
	@$(MAKE) -s -C c BUILD=../build PREFIX=$(PREFIX) install

clean:
	rm -rf build
