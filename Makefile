# make             proves every crate, and builds the tool, the model and the library for C, in build/ and target/
# make test        the gate: all of it proved, and the tests outside Rattle
# make check-long  the model beside the program for some minutes, from a new seed; SEED= and COMMANDS= choose others
# make bench       times, side by side with plain C and with SQLite
# make install     the tool, the program, the library, its header and the manual page, below PREFIX (/usr/local) in DESTDIR
# make uninstall   removes these again
# make clean       removes build/ and target/
# make help        these lines
.PHONY: all test check-long bench install uninstall clean help

LIBRARY = target/staticlib/libdesk.a
HARNESS = target/staticlib/libharness.a
SOURCES = $(wildcard crates/*/src/*.rt)
COMMANDS = 20000000
PREFIX = /usr/local
INTO = $(DESTDIR)$(PREFIX)

all: build/sheet build/model build/model-pages build/model-weeks build/model-moves target/bin/console
	rt all check
	@echo 'target/bin/console: the command program. build/sheet: the tool for sheets.'

$(LIBRARY): $(SOURCES)
	tools/link desk

$(HARNESS): $(SOURCES)
	tools/link harness

build/sheet: c/sheet.c c/desk.h $(LIBRARY)
	@mkdir -p build
	gcc -std=c11 -O2 -Wall -Wextra -Werror -o $@ c/sheet.c $(LIBRARY)

build/model: $(wildcard model/*.rs)
	@mkdir -p build
	rustc -O --edition 2021 -D warnings -o $@ model/model.rs

build/model-pages: $(wildcard model/*.rs) $(LIBRARY)
	@mkdir -p build
	rustc -O --edition 2021 -D warnings -L $(dir $(LIBRARY)) -l static=desk -o $@ model/pages.rs

build/model-weeks: $(wildcard model/*.rs) $(LIBRARY)
	@mkdir -p build
	rustc -O --edition 2021 -D warnings -L $(dir $(LIBRARY)) -l static=desk -o $@ model/weeks.rs

build/model-moves: $(wildcard model/*.rs) $(HARNESS)
	@mkdir -p build
	rustc -O --edition 2021 -D warnings -L $(dir $(HARNESS)) -l static=harness -o $@ model/moves.rs

target/bin/console: $(SOURCES)
	tools/link console

test:
	.ci/run

check-long: build/model build/model-pages build/model-weeks build/model-moves target/bin/console
	build/model check target/bin/console $(or $(SEED),$(shell date +%s)) $(COMMANDS)
	build/model-pages $(or $(SEED),$(shell date +%s)) $(shell expr $(COMMANDS) / 4)
	build/model-weeks $(or $(SEED),$(shell date +%s)) $(COMMANDS)
	build/model-moves $(or $(SEED),$(shell date +%s)) $(shell expr $(COMMANDS) / 4)

bench:
	bench/run

install: build/sheet target/bin/console $(LIBRARY)
	install -d $(INTO)/bin $(INTO)/include $(INTO)/lib $(INTO)/share/man/man1
	install build/sheet $(INTO)/bin/sheet
	install target/bin/console $(INTO)/bin/sheet-console
	install -m 644 c/desk.h $(INTO)/include/desk.h
	install -m 644 $(LIBRARY) $(INTO)/lib/libdesk.a
	install -m 644 c/sheet.1 $(INTO)/share/man/man1/sheet.1

uninstall:
	rm -f $(INTO)/bin/sheet $(INTO)/bin/sheet-console $(INTO)/include/desk.h $(INTO)/lib/libdesk.a \
		$(INTO)/share/man/man1/sheet.1

clean:
	rm -rf build target

help:
	@sed -n 's/^# //p' Makefile
