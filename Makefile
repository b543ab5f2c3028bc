# make run         checks a sample capture by what make build made, or else builds dbus-wire without its proofs, in about three processor minutes;
#                  ARGS='show' FILE=my.dbus for another command and capture
# make quick-test  the tests, the cases and the examples of doc comments, without proofs: some minutes
#                  It also holds the manual page and the completions against the texts of help; bench/options.py writes what it can of them
# make api         writes out/api.html, the calls of the libraries with their comments and contracts, out of the sources; make quick-test checks that
#                  each has both
# make graph       writes which crate uses which into docs/ARCHITECTURE.md; make definitions-check, and quick-test, check it
# make definitions writes the tables of docs/DEFINITIONS.md and docs/WORKED-EXAMPLES.md out of the definitions and their examples, those of reasons out of
#                  bench/reasons.txt, and docs/SPECIFICATION.md; make definitions-check, and quick-test, check them
# make definitions-changed changes what N=30 rows of docs/SPECIFICATION.md, which SEED draws, cite of definitions, and sees that the prover notices: some 20
#                  processor seconds a row, and a few minutes for one that its own crate does not notice, beside the libraries below
# make doc-examples builds and runs the examples of doc comments, without proofs: a minute. make quick-test does it too
# make readme-test runs the commands of README.md, by what make build made or else without proofs, and compares what they write;
#                  those of docs/RECIPES.md too, if make build made dbus-wire
# make build       proves dbus-wire and all below it, on all processors, and builds it: half an hour on four
# make test        the gate: every proof, the wrong bodies that are due, the tests and the programs' stored runs
# make weight      prints what the product weighs beside its budgets in bench/weight.txt; with ROWS=--all each number
# make lint        has pyflakes, shellcheck and eslint read the scripts, as far as Debian's packages of these are there
# make gate-times  the gate, and the processor minutes of each of its steps
# make library     proves and builds the library for C, static and shared. TARGET=aarch64-linux-gnu does it for that system, in out/aarch64-linux-gnu, by
#                  Debian's gcc-aarch64-linux-gnu and libc6-dev-arm64-cross; make install-c takes TARGET too
# make peers       compares the cases of messages and values with libdbus, GDBus, sd-bus, jeepney, dbus-next and dbus-fast, and writes
#                  docs/PEERS.md
# make export-cases writes the cases for other implementations to out/, as lines of JSON and as an archive
# make test-c      builds the examples for C over it, tests the Rust crate, and compares what both write with dbus-wire check. With TARGET the examples
#                  for C alone, run by qemu-user-static or what RUN says: a quarter of an hour
# make test-python compares what the module for Python makes of messages by it, and by its extension module, with what dbus-wire writes,
#                  and with what jeepney and dbus-fast make of them, if these are there
# make wheel       makes a wheel of the module for Python, with the library in it, in out/, and with the extension module if there are a
#                  compiler and Python's headers; `pip install ./python` does too
# make test-wheel  installs that in a fresh environment, without a network, and runs the tests of the module there
# make crate       packs the crate for Rust, and builds what it packed, in out/; CARGO_PACKAGE_FLAGS=--allow-dirty if not all is committed
# make test-crate  runs the tests that are packed with it, from a folder of their own
# make test-completions loads the completions in bash, zsh and fish, and compares what each completes with the texts of help
# make page        proves and builds the module of the page for browsers, and puts the page together in out/dbus-wire.html, which opens from the disk,
#                  and in docs/index.html, which git ignores, so that to host the folder is to publish it
# make page-quick  the same without its proofs, in minutes, in out/dbus-wire-unproved.html, which says so at its foot
# make pictures    writes the pictures of the page in docs/, and measures its contrasts and what is seen of it at several widths
# make test-page   compares what the page gives of the samples and cases with what dbus-wire writes: by its module in Node, of version 20 at least, and by
#                  the page in a headless Chromium, of version 133 at least, if there is one; BROWSER names another
# make test-memory runs dbus-wire failing each of its allocations in turn
# make install     installs what make build and make library proved and built: the program with its manual page and completions, and the
#                  library for C with the pages of its calls. PREFIX, BINDIR, LIBDIR, INCLUDEDIR, DATADIR, MANDIR, ZSHDIR and DESTDIR say where. install-program and
#                  install-c install one of the two; of the latter install-shared what programs need to run, install-dev what
#                  compilers need. install-python installs the module for Python in PYTHONDIR
# make deb         packages both for Debian, by debhelper, in out/
# make tarball     packs both, and a checksum, in out/
# make release     makes all files of a release of the commit in out/release: sources, tarball, packages, wheel, crate, documents, checksums
# make test-release makes it once more in another clone, and compares the bytes
# make test-packages checks the packages for Debian by lintian, and builds and runs the examples from them alone
# make test-root   installs the release in a fresh Debian, which debootstrap makes, and builds and runs the examples for C, Rust and
#                  Python there; as root, over the network
# make wrong-bodies prints the wrong bodies that the prover refuses, and what refuses each; bench/wrong_bodies.py tries those that are due, or all
# make promises    writes bench/promises.txt, a checksum of what each public call and law promises; the gate checks it (docs/CHANGING.md)
# make promises-diff prints which of them differ from those of a commit, REV=HEAD, and the definitions by which they do
# make instructions prints the instructions per byte of each command, by valgrind, of libdbus if its headers are there, and of calls of the library for C
# make bench       MB/s of each command on several streams, by user and system time, and of decoding and encoding
# make bench-languages  microseconds of messages that the crate for Rust and the module for Python read and build, beside the library for C and peers
# make bench-c     nanoseconds of calls of the library for C, and of a set of 100,000 match rules; MB/s of a checker of pieces

PREFIX ?= /usr/local
BINDIR ?= $(PREFIX)/bin
LIBDIR ?= $(PREFIX)/lib
INCLUDEDIR ?= $(PREFIX)/include
DATADIR ?= $(PREFIX)/share
MANDIR ?= $(DATADIR)/man
DOCDIR ?= $(DATADIR)/doc/dbus-wire
ZSHDIR ?= $(DATADIR)/zsh/site-functions
PYTHONDIR ?= $(PREFIX)/lib/python3/dist-packages

PROGRAM = crates/dbus_wire/out/dbus_wire
# The page for browsers, and its module.
PAGE = out/dbus-wire.html
MODULE = out/dbus_page.wasm
PAGE_NOTICES = out/page-notices.txt
# Where the library for C is built.
ROOM = out
# include/dbus_wire.h says what changes its number.
SONAME = libdbus_wire.so.0
ARCHIVE = $(ROOM)/libdbus_wire.a
SHARED = $(ROOM)/$(SONAME)
# The calls of malloc, realloc and free, which are C: an object that the archive needs. The kit has it for x86-64.
HEAP_OBJECT = heap.pic.o
HEAP = cd $(ROOM) && $(AR) x $(dir $(firstword $(shell rt doc)))c/liblibc_c.a $(HEAP_OBJECT)
# What the kit names those calls, and what the library does.
HEAP_NAMES = $(foreach call,alloc realloc dealloc,--redefine-sym rattle_$(call)=dbus_wire_$(call))
OBJCOPY ?= objcopy
# The header's types as an object for debuggers and `abidiff --non-reachable-types`, since the kit's compiler writes none. It has no code.
TYPES = $(CC) -std=c99 -g -fno-eliminate-unused-debug-types -ffile-prefix-map=$(CURDIR)=. -Iinclude -fPIC -x c -c
# Another system that the library is built for, by GNU's name: the kit's name of it, its tools, and what runs its programs here.
ifeq ($(origin TARGET),command line)
ifneq ($(TARGET) $(filter-out library test-c install-c install-shared install-dev,$(or $(MAKECMDGOALS),run)),aarch64-linux-gnu )
$(error TARGET is aarch64-linux-gnu, for library, test-c, install-c, install-shared and install-dev)
endif
KIT_TARGET = --target aarch64-unknown-linux-gnu
ROOM = out/$(TARGET)
CC = $(TARGET)-gcc
AR = $(TARGET)-ar
OBJCOPY = $(TARGET)-objcopy
HEAP = $(CC) -std=c99 -O2 -fPIC -c -o $(ROOM)/$(HEAP_OBJECT) packaging/heap.c
RUN = qemu-aarch64-static -L /usr/$(TARGET)
RUN_BY = $(TARGET) $(RUN)
endif
# The extension module for Python, beside the modules that use it.
EXTENSION = python/dbus_wire/_objects.abi3.so
VERSION = $(shell sed -n 's/.*VERSION: &str = "\(.*\)";/\1/p' crates/cli_options/src/help.rt)
# The licences of the kit's crates that are linked in. They come from the kit, and what is installed needs no kit.
NOTICES = out/NOTICES
WRITE_NOTICES = mkdir -p out && packaging/notices.py $(NOTICES) dbus_wire dbus_c
# The kit that everything was proved with, as README says.
KIT = $(shell sed -n 's/.*Proved with\*\* \([^ ,]*\),.*/\1/p' README.md)

COMPLETIONS = bash-completion/completions/dbus-wire fish/vendor_completions.d/dbus-wire.fish
INSTALLED = $(addprefix $(BINDIR)/,dbus-wire dbus-record dbus-join) $(addprefix $(MANDIR)/man1/,dbus-wire.1 dbus-record.1 dbus-join.1) $(addprefix $(DATADIR)/,$(COMPLETIONS)) $(ZSHDIR)/_dbus-wire \
	$(addprefix $(DOCDIR)/,LICENSE NOTICES PROVED.md) $(MANDIR)/man3/dbus_wire*.3 \
	$(addprefix $(INCLUDEDIR)/,dbus_wire.h dbus_wire_bus.h) $(addprefix $(LIBDIR)/,libdbus_wire.a libdbus_wire.so $(SONAME) libdbus_wire.so.$(VERSION)) \
	$(LIBDIR)/pkgconfig/dbus-wire.pc $(LIBDIR)/cmake/dbus-wire/*.cmake

# What make run does, and with which capture.
ARGS = check
FILE = samples/session.dbus

.PHONY: kit run quick-test build library test weight lint test-c test-python page test-page test-memory gate-times wrong-bodies promises promises-diff api graph definitions definitions-check \
	definitions-changed doc-examples readme-test peers export-cases instructions bench bench-c bench-languages install install-program install-c install-shared install-dev install-python install-notices uninstall page-quick pictures deb tarball wheel test-wheel crate test-crate test-completions release test-release test-packages test-root

# What rt try builds is gone when it ends. What make build made runs at once, and needs no kit.
IS_BUILT = [ -x $(PROGRAM) ] && [ -z "$$(find crates.txt crates/*/src -newer $(PROGRAM))" ]

run:
	@if $(IS_BUILT); then exec $(PROGRAM) $(ARGS) < "$(FILE)"; fi; $(MAKE) --no-print-directory kit && \
		echo "dbus-wire without its proofs (make build proves it), which takes at most 64 MiB in and gives 1 MiB out:" >&2 && \
		(cd crates/dbus_wire && rt try -- $(ARGS)) < "$(FILE)"

kit:
	@command -v rt > /dev/null || { echo "rt is missing: the bin folder of the Rattle kit has to be on the PATH" >&2; exit 1; }
	@rt version | grep -q "^$(KIT) " || echo "this was proved with $(KIT); the rt on the PATH is of $$(rt version)" >&2

quick-test: kit definitions-check
	bench/api.py --check
	bench/options.py --check
	bench/doc_examples.py
	bench/quick_test.py

build: kit
	bench/build.py dbus_wire
	$(WRITE_NOTICES)

library: kit
	bench/build.py dbus_c $(KIT_TARGET)
	$(WRITE_NOTICES)
	mkdir -p $(ROOM)
	cp crates/dbus_c/out/libdbus_c.a $(ARCHIVE)
	$(HEAP)
	cd $(ROOM) && $(AR) r $(notdir $(ARCHIVE)) $(HEAP_OBJECT) && rm $(HEAP_OBJECT)
	$(OBJCOPY) $(HEAP_NAMES) $(ARCHIVE)
	echo '#include <dbus_wire.h>' | $(TYPES) -o $(ROOM)/types.o -
	$(CC) -shared -o $(SHARED) -Wl,-soname,$(SONAME) -Wl,--whole-archive $(ARCHIVE) -Wl,--no-whole-archive $(ROOM)/types.o \
		-Wl,--version-script=include/libdbus_wire.map -Wl,--no-undefined-version -Wl,-z,defs -Wl,-z,text -Wl,-z,now

test: kit
	.ci/run

weight:
	bench/weight.py $(ROWS)

lint:
	bench/lint.py

test-c: build library
	CC="$(CC)" examples/test.sh $(PROGRAM) $(ARCHIVE) $(SHARED) $(RUN_BY)

# Cargo builds what it packs, but not its tests.
crate:
	@test -f $(ARCHIVE) || { echo "there is no $(ARCHIVE): run make library" >&2; exit 1; }
	cd rust && DBUS_WIRE_LIB_DIR=$(CURDIR)/out CARGO_TARGET_DIR=$(CURDIR)/out/rust cargo package --offline $(CARGO_PACKAGE_FLAGS)
	cp out/rust/package/dbus-wire-$(VERSION).crate out/

test-crate: crate
	rm -rf out/crate
	mkdir out/crate
	tar -xf out/dbus-wire-$(VERSION).crate -C out/crate
	cd out/crate/* && DBUS_WIRE_LIB_DIR=$(CURDIR)/out CARGO_TARGET_DIR=$(CURDIR)/out/rust cargo test --quiet --offline
	rm -rf out/crate

$(EXTENSION): python/dbus_wire/_objects.c include/dbus_wire.h python/wheel_of_module.py
	python3 python/wheel_of_module.py --extension

# With the extension module, and by ctypes alone.
BOTH_WAYS = for without in '' 1; do DBUS_WIRE_NO_EXTENSION=$$without DBUS_WIRE_PROGRAM=$(PROGRAM) $(1) -W error -m unittest discover python/tests || exit 1; done

test-python: build library $(EXTENSION)
	export DBUS_WIRE_LIBRARY=$(SHARED); $(call BOTH_WAYS,python3)

wheel:
	@test -f $(SHARED) || { echo "there is no $(SHARED): run make library" >&2; exit 1; }
	rm -f out/dbus_wire-*.whl
	SOURCE_DATE_EPOCH=$${SOURCE_DATE_EPOCH:-$$(git log -1 --format=%ct)} python3 python/wheel_of_module.py out

# The module is that of the environment, and its library that of the wheel.
IS_INSTALLED = import dbus_wire, sys; from dbus_wire import _library; \
	assert _library._path().startswith(sys.prefix), _library._path()

test-wheel: wheel
	rm -rf out/venv
	python3 -m venv out/venv
	out/venv/bin/pip install --quiet --no-index out/dbus_wire-$(VERSION)-*.whl
	env -u DBUS_WIRE_LIBRARY out/venv/bin/python -I -c "$(IS_INSTALLED)"
	unset DBUS_WIRE_LIBRARY; $(call BOTH_WAYS,out/venv/bin/python)
	rm -rf out/venv

test-completions:
	completions/test.py

page: kit
	bench/build.py dbus_page
	web/module.py $(MODULE)
	packaging/notices.py $(PAGE_NOTICES) dbus_page
	web/build.py $(MODULE) $(PAGE_NOTICES) $(PAGE)
	cp $(PAGE) docs/index.html

page-quick: kit
	mkdir -p out
	web/quick.py out/dbus_page-unproved.wasm
	packaging/notices.py $(PAGE_NOTICES) dbus_page
	web/build.py out/dbus_page-unproved.wasm $(PAGE_NOTICES) out/dbus-wire-unproved.html unproved

pictures: page
	web/pictures.py $(PAGE)

test-page: build page
	web/test.py $(PROGRAM) $(MODULE) $(PAGE)

test-memory: build
	bench/refused_memory.py $(PROGRAM) samples/big-endian.dbus

gate-times: kit
	bench/gate_times.py

wrong-bodies:
	bench/wrong_bodies.py

promises:
	bench/promises.py

promises-diff:
	bench/promises.py --diff $(or $(REV),HEAD)

api:
	bench/api.py

doc-examples: kit
	bench/doc_examples.py

graph:
	bench/graph.py

definitions:
	bench/definitions.py
	bench/worked_examples.py
	bench/reasons.py
	cases/specification.py

definitions-check:
	bench/graph.py --check
	bench/definitions.py --check
	bench/worked_examples.py --check
	bench/reasons.py --check
	cases/specification.py --check

definitions-changed: kit
	cases/changed_definitions.py $(or $(N),30) $(SEED)

readme-test: kit
	bench/readme_test.py

peers:
	cases/peers/compare.py

export-cases:
	cases/export.py

instructions: build library
	bench/instructions.sh $(PROGRAM)
	bench/apart.sh $(ARCHIVE)

bench: build
	bench/commands.sh $(PROGRAM)
	cd crates/examples && rt run -- speed 64 < ../../samples/session.dbus

bench-c: library
	$(CC) -std=c99 -O2 -Iinclude -o out/calls bench/calls.c $(ARCHIVE)
	head -c 169 samples/session.dbus | out/calls 100000
	$(CC) -std=c99 -O2 -Iinclude -o out/pieces bench/pieces.c $(ARCHIVE)
	bench/pieces.sh out/pieces
	$(CC) -std=c99 -O2 -Iinclude -o out/rules bench/rules.c $(ARCHIVE)

bench-languages: library $(EXTENSION)
	bench/languages.sh out

install: install-program install-c

install-program: install-notices
	@test -x $(PROGRAM) || { echo "there is no $(PROGRAM): run make build" >&2; exit 1; }
	install -D -m 755 $(PROGRAM) $(DESTDIR)$(BINDIR)/dbus-wire
	install -D -m 755 -t $(DESTDIR)$(BINDIR) packaging/dbus-record packaging/dbus-join
	install -D -m 644 -t $(DESTDIR)$(MANDIR)/man1 man/dbus-wire.1 man/dbus-record.1 man/dbus-join.1
	install -D -m 644 completions/dbus-wire.bash $(DESTDIR)$(DATADIR)/bash-completion/completions/dbus-wire
	install -D -m 644 completions/_dbus-wire $(DESTDIR)$(ZSHDIR)/_dbus-wire
	install -D -m 644 completions/dbus-wire.fish $(DESTDIR)$(DATADIR)/fish/vendor_completions.d/dbus-wire.fish

install-c: install-shared install-dev

install-shared: install-notices
	@test -f $(SHARED) || { echo "there is no $(SHARED): run make library" >&2; exit 1; }
	install -D -m 644 $(SHARED) $(DESTDIR)$(LIBDIR)/libdbus_wire.so.$(VERSION)
	ln -sf libdbus_wire.so.$(VERSION) $(DESTDIR)$(LIBDIR)/$(SONAME)

install-dev: install-notices
	@test -f $(ARCHIVE) || { echo "there is no $(ARCHIVE): run make library" >&2; exit 1; }
	install -D -m 644 -t $(DESTDIR)$(INCLUDEDIR) include/dbus_wire.h include/dbus_wire_bus.h
	install -D -m 644 $(ARCHIVE) $(DESTDIR)$(LIBDIR)/libdbus_wire.a
	ln -sf $(SONAME) $(DESTDIR)$(LIBDIR)/libdbus_wire.so
	install -d $(DESTDIR)$(LIBDIR)/pkgconfig $(DESTDIR)$(LIBDIR)/cmake/dbus-wire
	for file in pkgconfig/dbus-wire.pc cmake/dbus-wire/dbus-wire-config.cmake cmake/dbus-wire/dbus-wire-config-version.cmake; do \
		sed 's|@INCLUDEDIR@|$(INCLUDEDIR)|; s|@LIBDIR@|$(LIBDIR)|; s|@VERSION@|$(VERSION)|; s|@SONAME@|$(SONAME)|' \
			include/$${file##*/}.in > $(DESTDIR)$(LIBDIR)/$$file || exit 1; \
	done
	install -d $(DESTDIR)$(MANDIR)/man3
	packaging/manual.py > $(DESTDIR)$(MANDIR)/man3/dbus_wire.3
	for call in $$(packaging/manual.py --calls); do ln -sf dbus_wire.3 $(DESTDIR)$(MANDIR)/man3/$$call.3; done

# The module needs the shared library, which install-shared installs.
install-python:
	install -D -m 644 LICENSE $(DESTDIR)$(DOCDIR)/LICENSE
	install -D -m 644 -t $(DESTDIR)$(PYTHONDIR)/dbus_wire $(wildcard python/dbus_wire/*.py) python/dbus_wire/py.typed

install-notices:
	@test -f $(NOTICES) || { echo "there is no $(NOTICES): run make build or make library" >&2; exit 1; }
	install -D -m 644 -t $(DESTDIR)$(DOCDIR) LICENSE docs/PROVED.md $(NOTICES)

uninstall:
	rm -f $(addprefix $(DESTDIR),$(INSTALLED))
	rm -rf $(DESTDIR)$(PYTHONDIR)/dbus_wire

deb:
	packaging/deb.sh $(VERSION)

tarball:
	packaging/tarball.sh $(VERSION)

release:
	packaging/release.sh $(VERSION)

test-release: release
	packaging/release_test.sh $(VERSION)

test-root: release
	packaging/root_test.sh $(VERSION)

test-packages: deb
	lintian --fail-on error,warning out/*.deb
	packaging/installed_test.sh out/*.deb
