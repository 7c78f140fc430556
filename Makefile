# make            builds the bench and runs a short session on it
# make bench      leaves the bench in build/bin
# make test       proves and tests everything
# make lib        puts the static library and its header into build/lib
# make install    puts library, header, keydock.pc, guides and the bench, as keydock-bench, below PREFIX or /usr/local, in DESTDIR
# make uninstall  removes exactly these; PREFIX and DESTDIR have to be the same
# make speed      counts the instructions of a line of each load, of one line of each call, and of a call from C
.PHONY: run bench test lib install uninstall speed clean

# By the environment, so that a blank in them does no harm.
PREFIX ?= /usr/local
export PREFIX DESTDIR

run: bench
	@echo "The session of crates/bench/stdin, line by line, prints:"
	@build/bin/bench <crates/bench/stdin

bench:
	@scripts/bench

test:
	@scripts/test

lib:
	@scripts/lib

install:
	@scripts/install

uninstall:
	@scripts/install remove

speed:
	@scripts/speed

clean:
	rm -rf build crates/*/out
