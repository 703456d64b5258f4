.PHONY: run test bench libraries install uninstall clean help

# What stands behind #: is what `make help` prints of the target below.

#: run        runs `yearbook` on JOURNAL=FILE, or on an example journal; the first time it is proved and built
run: export JOURNAL_FROM = $(caller)
run:
	@scripts/run

# Where the caller stands. Behind -C make has moved, and the caller's place is what its shell keeps in PWD. -C sets the flag w, unless it is held
# back by -s or --no-print-directory; without any of these make has not moved.
flags = $(firstword -$(MAKEFLAGS))
caller = $(or $(if $(findstring w,$(flags))$(findstring s,$(flags))$(filter --no-print-directory,$(MAKEFLAGS)),$(PWD)),$(CURDIR))

#: test       proves every crate, tries every must-fail edit, runs every program and every test; SEED= COUNT= choose the random journals (1, 5000), outage logs and plants (1, 20000)
test:
	@scripts/test

#: bench      measures the division, of 64 and of 300 weights, and the outage log against plain C, and the program and its C function against the reference
bench:
	@scripts/bench-share
	@scripts/bench-plant
	@scripts/bench-yearbook

#: libraries  proves and builds the static and shared libraries for C in target/lib
libraries:
	@scripts/libraries

#: install    puts program, headers, libraries, pkg-config files and man pages below DESTDIR= and PREFIX=/usr/local, or in BINDIR, INCLUDEDIR, LIBDIR, MANDIR
install:
	@scripts/install

#: uninstall  removes what install puts; it takes the same variables
uninstall:
	@scripts/install remove

#: clean      removes target/, that is, everything that was proved and built
clean:
	@rm -rf target

#: help       prints these lines
help:
	@sed -n 's/^#: //p' Makefile
