# Proves, builds and tests the tool. The toolchain's command is `rt`.

PROGRAM := crates/pegtool/out/pegtool

VERSION := $(shell sed -n 's/.*VERSION: &str = "\(.*\)";/\1/p' crates/peg_c/src/texts.rt)
PREFIX := /usr/local
LIBDIR = $(PREFIX)/lib
DOCDIR = $(PREFIX)/share/doc/pegtool
PYTHON_PATH := $(PREFIX)/lib/python3/dist-packages

.PHONY: help quick try run lib wheel install dist test test-bindings fuzz fmt drawing

help: ## list the targets
	@sed -n 's/^\([a-z-]*\):[^#]*## \(.*\)/  make \1|\2/p' Makefile | column -t -s '|'

quick: ## run several hundred cases without proofs
	tests/quick.py

try: ## run the bundled input without proofs
	cd crates/pegtool && rt try < stdin

run: ## prove and build the program, then run it on the bundled input
	tools/prove.py pegtool run < crates/pegtool/stdin

lib: ## prove and build the C library, into out/lib
	tools/c_library.sh

wheel: ## make a wheel of the Python package with the library that make lib built, in out/
	python3 python/backend/pegtool_build.py out

install: ## install what make run and make lib built, below PREFIX (and LIBDIR, DOCDIR, DESTDIR)
	install -D $(PROGRAM) $(DESTDIR)$(PREFIX)/bin/pegtool
	install -D -m 644 man/pegtool.1 $(DESTDIR)$(PREFIX)/share/man/man1/pegtool.1
	install -D -m 644 include/peg.h $(DESTDIR)$(PREFIX)/include/peg.h
	install -D -m 644 out/lib/libpeg.a $(DESTDIR)$(LIBDIR)/libpeg.a
	install -D out/lib/libpeg.so.1 $(DESTDIR)$(LIBDIR)/libpeg.so.1
	ln -sf libpeg.so.1 $(DESTDIR)$(LIBDIR)/libpeg.so
	install -d $(DESTDIR)$(LIBDIR)/pkgconfig $(DESTDIR)$(DOCDIR) $(DESTDIR)$(PYTHON_PATH)/pegtool
	sed 's#@PREFIX@#$(PREFIX)#; s#@LIBDIR@#$(LIBDIR)#; s#@VERSION@#$(VERSION)#' tools/peg.pc.in \
	  > $(DESTDIR)$(LIBDIR)/pkgconfig/peg.pc
	install -m 644 docs/USAGE.md docs/NOTATION.md docs/LINT.md docs/C.md docs/PYTHON.md $(DESTDIR)$(DOCDIR)
	install -m 644 python/pegtool/*.py python/pegtool/py.typed $(DESTDIR)$(PYTHON_PATH)/pegtool

dist: ## make a tarball of what make install installs, in out/
	rm -rf out/dist && $(MAKE) --no-print-directory install DESTDIR=$(CURDIR)/out/dist/pegtool-$(VERSION) PREFIX=/usr
	tar -C out/dist -czf out/pegtool-$(VERSION).tar.gz pegtool-$(VERSION)

test: ## the gate: proofs, wrong edits, tests, scripts, documents
	tests/gate.sh

$(PROGRAM):
	$(MAKE) --no-print-directory run

test-bindings: $(PROGRAM) ## test the C library and the Python package against the program
	tests/bindings.sh $(PROGRAM)
	tests/python.sh $(PROGRAM)

fuzz: $(PROGRAM) ## compare the program with Ford's relation on 20,000 random grammars
	tests/fuzz.py $(PROGRAM) 1 20000

fmt: ## format every crate
	for crate in crates/*/; do (cd "$$crate" && rt fmt) || exit 1; done

drawing: ## draw the crates into docs/ARCHITECTURE.md
	tools/crates.py --write
