# make build   proves the program's crates and compiles bin/backup_server, if it is out of date: a first build takes 30 to 60 minutes
# make demo    backs up two files into a fresh store and gives one back: each request, and what came of it
# make test    the gate, and then the scripts of tests/ on the program that it built: tests/crash.sh, tests/serve.sh and tests/pull.sh take some minutes each
# make install copies program, client, units, man page and settings below PREFIX (/usr/local): DESTDIR=FOLDER puts a folder before
#              it, PROGRAM=PATH takes a program that is built already. make deb makes build/turretgage_VERSION_ARCH.deb of the same
# make clean   removes what these made, the crates' out/ too, so that the next build proves everything again
# make help    says this

RT ?= rt
PREFIX ?= /usr/local
SYSCONFDIR ?= /etc
PROGRAM ?= bin/backup_server
SOURCES := crates.txt $(shell find $(wildcard crates/*/src crates/*/specs crates/*/proofs) -name '*.rt' -o -name '*.antt')

.DEFAULT_GOAL := build
.PHONY: build demo test install deb help clean

help:
	@sed -n 's/^# //p' Makefile

build: bin/backup_server

bin/backup_server: $(SOURCES)
	@RT='$(RT)' tests/build.sh

demo: bin/backup_server
	@demo/run.py

test:
	.ci/run
	tests/crash.sh crates/backup_server/out/backup_server
	tests/serve.sh crates/backup_server/out/backup_server
	tests/pull.sh crates/backup_server/out/backup_server

install: $(PROGRAM)
	@packaging/install.sh '$(PROGRAM)' '$(DESTDIR)' '$(PREFIX)' '$(SYSCONFDIR)'

deb: $(PROGRAM)
	@packaging/deb.sh '$(PROGRAM)' build

clean:
	rm -rf bin build crates/*/out
