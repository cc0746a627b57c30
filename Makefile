## make            builds the library, target/staticlib/librbatl.a, and the desk, target/desk/desk;
##                 from nothing it proves every crate of the library, some minutes
## make check      the gate: proofs, must-fail edits, tests; about a quarter of an hour
## make bench      prints the benchmark
## make install    into PREFIX (/usr/local) under DESTDIR (none): headers, library, rbatl.pc, desk, desk.1
## make uninstall  takes these files away
## make clean      removes the desk and the random run, not the proofs
##
## CC and CFLAGS go to the compiler. To run one test or more random cases (TIHOKEWA_CASES, tests/long),
## see tests/README.md. The library needs the Rattle kit (rt), the desk gcc or CC, check and bench cargo.

PREFIX = /usr/local
DESTDIR =

library := target/staticlib/librbatl.a
desk := target/desk/desk
headers := $(wildcard include/*.h)
version = $(shell sed -n 's/^.define RBATL_VERSION "\([^"]*\)".*/\1/p' include/rbatl.h)
to = $(DESTDIR)$(PREFIX)
installed = $(headers) lib/librbatl.a lib/pkgconfig/rbatl.pc bin/desk share/man/man1/desk.1

.PHONY: all check bench install uninstall clean help
.DELETE_ON_ERROR:

all: $(library) $(desk)

# Folders count too, so that a file taken away is seen; what rt keeps in out/ does not.
$(library): crates.txt $(shell find crates -mindepth 2 -name out -prune -o -print)
	@echo 'proving what is new of the library; from nothing this takes some minutes' >&2
	@tools/prove staticlib rbatl
	@touch -c $@

# CC, CFLAGS and WERROR reach it by the environment.
$(desk): $(library) $(headers) $(wildcard desk/*.[ch]) desk/build
	desk/build

check:
	bash .ci/run

bench: $(library)
	bench/run

install: all
	@case '$(PREFIX)' in /*) ;; *) echo 'make install: PREFIX is not an absolute path' >&2; exit 1 ;; esac
	@test -n '$(version)' || { echo 'make install: include/rbatl.h defines no RBATL_VERSION' >&2; exit 1; }
	install -d '$(to)/include' '$(to)/lib/pkgconfig' '$(to)/bin' '$(to)/share/man/man1'
	install -m 644 $(headers) '$(to)/include'
	install -m 644 $(library) '$(to)/lib'
	sed -e 's|@prefix@|$(PREFIX)|' -e 's|@version@|$(version)|' rbatl.pc.in > target/rbatl.pc
	install -m 644 target/rbatl.pc '$(to)/lib/pkgconfig'
	@rm -f target/rbatl.pc
	install -m 755 $(desk) '$(to)/bin'
	install -m 644 desk/desk.1 '$(to)/share/man/man1'

uninstall:
	rm -f $(installed:%='$(to)/%')

clean:
	rm -rf target/desk target/fuzz

help:
	@sed -n 's/^## \{0,1\}//p' Makefile
