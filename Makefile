# plm80: LINK, LOCATE and a verifying loader for 8080 programs.
#
#   make run       proves every crate, shows its progress, builds plm80 and runs it on the stored examples
#   make try       shows the transcript of a stored example in some five minutes: plm80 is built without any proof, in 4 GB of memory, and kept as out/plm80 until a source changes. ARGS=".." does a command, as in make try ARGS="check a.img a.regions", and fails if the command does
#   make install   builds plm80 as `make run` does, unless `make run` or `make test` has, and installs it with its manual page, the pages for users, its examples and its completion for bash: make install PREFIX=/usr/local
#   make uninstall takes away what make install installed, with the same PREFIX
#   make package   builds plm80 as `make run` does, and makes a Debian package of what make install installs, in out/; a tarball, if there is no dpkg-deb
#   make test      proves every crate and runs every test
#   make core      proves the core alone, with its wrong bodies and the tests of its crates: object files, LINK, LOCATE, the verifier, the loader and bundles; and builds its program, out/plm80_core, which runs a bundle
#   make wrong     tries the wrong bodies that `make test` leaves out, since their crates' checks take long
#   make commands  builds plm80 and runs the tests of its commands alone
#   make faults    runs the tests, and plm80 on the examples, refusing one allocation, read or write at a time
#   make bench     builds plm80 and prints million steps per second and host instructions per step of five programs, its start-up, and what it takes to verify programs, to link modules and to read libraries
#   make clauses   prints the public functions of every crate with their contracts
#   make lemmas    prints the files of lemmas of every crate, with what each is about
#   make help      prints this

.PHONY: help run try install install-files uninstall package package-files test core wrong commands faults bench clauses lemmas build need-rt need-python3 need-cc need-prefix

PREFIX = /usr/local
PROGRAM = crates/plm80/out/plm80

help:
	@sed -n 's/^#  //p' Makefile
	@command -v rt > /dev/null || echo "Missing here: rt, of the Rattle kit. Everything needs it: put the kit's bin folder on PATH."
	@command -v python3 > /dev/null || echo "Missing here: python3. rt needs it, and so do the tests."
	@command -v cc > /dev/null || echo "Missing here: cc, a C compiler. make faults needs it, and make test passes over a few cases without it."

need-rt: need-python3
	@command -v rt > /dev/null || { echo "rt is missing: put the Rattle kit's bin folder on PATH." && exit 1; }

need-python3:
	@command -v python3 > /dev/null || { echo "python3 is missing: rt and the tests are run by it." && exit 1; }

need-cc:
	@command -v cc > /dev/null || { echo "cc is missing: a C compiler makes what refuses the calls." && exit 1; }

build: need-rt
	@tools/build

run: build
	@examples/run $(PROGRAM)

try: need-rt
ifdef ARGS
	@tools/try $(ARGS)
else
	@echo "plm80 < examples/echo.bundle, built without any proof (make run proves it):"
	@tools/try < examples/echo.bundle; echo "status $$?"
endif

need-prefix:
	@mkdir -p "$(DESTDIR)$(PREFIX)" 2> /dev/null; test -w "$(DESTDIR)$(PREFIX)" || { echo "$(DESTDIR)$(PREFIX) can't be written: make install PREFIX=\$$HOME/.local" && exit 1; }

install: need-prefix build install-files

# What there is to install, of a program that is built. PROVED says what proved it, or that this isn't known.
install-files:
	install -D -m 755 $(PROGRAM) "$(DESTDIR)$(PREFIX)/bin/plm80"
	install -D -m 644 share/plm80.1 "$(DESTDIR)$(PREFIX)/share/man/man1/plm80.1"
	@tools/pages "$(DESTDIR)$(PREFIX)/share/doc/plm80"
	install -d "$(DESTDIR)$(PREFIX)/share/doc/plm80/examples"
	install -m 644 examples/*.* "$(DESTDIR)$(PREFIX)/share/doc/plm80/examples"
	install -m 755 examples/make_objects "$(DESTDIR)$(PREFIX)/share/doc/plm80/examples"
	@tools/proved "$(PROGRAM)" > "$(DESTDIR)$(PREFIX)/share/doc/plm80/PROVED"
	install -D -m 644 share/plm80.bash "$(DESTDIR)$(PREFIX)/share/bash-completion/completions/plm80"

uninstall:
	rm -f "$(DESTDIR)$(PREFIX)/bin/plm80" "$(DESTDIR)$(PREFIX)/share/man/man1/plm80.1"
	rm -rf "$(DESTDIR)$(PREFIX)/share/doc/plm80"
	rm -f "$(DESTDIR)$(PREFIX)/share/bash-completion/completions/plm80"

package: build package-files

package-files:
	@tools/package $(PROGRAM)

# tools/gate runs rt ci, which builds the program that it proves, and prints what that took.
test: need-rt need-python3
	@tests/layers/run
	@tests/layers/believed
	@tests/layers/closure
	@tests/examples/run
	@tools/crates --check
	@tools/manual --check
	@tools/completion --check
	@tools/clauses --check
	@tools/statements --check
	@tools/gate
	@tests/commands/run $(PROGRAM)
	@tests/commands/migrated $(PROGRAM)
	@tests/commands/walk $(PROGRAM)
	@tests/source/run $(PROGRAM)
	@tests/page/run $(PROGRAM)
	@tests/generated/sums $(PROGRAM)
	@tests/generated/explained $(PROGRAM)
	@tests/generated/explained --further $(PROGRAM)
	@tests/generated/instruments $(PROGRAM)
	@tests/generated/monitors $(PROGRAM)
	@tests/generated/stored $(PROGRAM)
	@tests/generated/boards $(PROGRAM)
	@tests/generated/devices $(PROGRAM)
	@tests/generated/manners $(PROGRAM)
	@tests/generated/firmware_shown $(PROGRAM)
	@tests/generated/followed $(PROGRAM)
	@tests/generated/live $(PROGRAM)
	@tests/commands/replaced $(PROGRAM)
	@tests/commands/completion $(PROGRAM)
	@tests/commands/fault_page
	@tests/commands/hex $(PROGRAM)
	@tests/package/run $(PROGRAM)
	@tests/package/try
	@tests/package/build
	@if command -v cc > /dev/null; then tests/refused/run $(PROGRAM) program; else echo "faults: passed over without a C compiler"; fi

core: need-rt need-python3
	@tools/gate --core

wrong: need-rt need-python3
	@tests/wrong/run

commands: need-python3 build
	@tests/commands/run $(PROGRAM)
	@tests/commands/migrated $(PROGRAM)
	@tests/commands/walk $(PROGRAM)
	@tests/source/run $(PROGRAM)
	@tests/page/run $(PROGRAM)
	@tests/generated/sums $(PROGRAM)
	@tests/generated/explained $(PROGRAM)
	@tests/generated/instruments $(PROGRAM)
	@tests/generated/monitors $(PROGRAM)
	@tests/generated/stored $(PROGRAM)
	@tests/generated/boards $(PROGRAM)
	@tests/generated/devices $(PROGRAM)
	@tests/generated/manners $(PROGRAM)
	@tests/generated/firmware_shown $(PROGRAM)
	@tests/generated/followed $(PROGRAM)
	@tests/generated/live $(PROGRAM)
	@tests/commands/replaced $(PROGRAM)
	@tests/commands/completion $(PROGRAM)
	@tests/commands/fault_page
	@tests/commands/hex $(PROGRAM)

# FAULTS=".." tries that alone, as FAULTS="program", FAULTS="tests_runs" or FAULTS="tests_links=1..20".
faults: need-cc build
	@tests/refused/run $(PROGRAM) $(FAULTS)

clauses: need-python3
	@tools/clauses

lemmas:
	@tools/lemma_files

bench: need-python3 build
	@bench/make_programs $(PROGRAM)
	@bench/run $(PROGRAM)
	@bench/verifier $(PROGRAM)
	@bench/link $(PROGRAM)
	@bench/library $(PROGRAM)
