# make run    builds the library and shows it at work
# make test   runs every test; its last line is rt's 'N passed, M failed'
# make bench  measures against plain C and Rust, and writes docs/PERFORMANCE.md anew; where a promise on speed is broken it fails
#             and leaves the file as it was
# make fuzz SECONDS=60
#             fuzzes each call against the independent implementation, for about that time in all
# make install PREFIX=/usr/local LIBDIR=/usr/local/lib
#             header, archive, pkg-config file, man pages, documents and examples; INCLUDEDIR, MANDIR, DOCDIR and DESTDIR are
#             known too. An archive that is newer than its sources is installed as it is, without the toolchain
# make uninstall PREFIX=/usr/local LIBDIR=/usr/local/lib
#             removes what install put there
# make clean  removes what the others made

SHELL = /bin/bash
RT ?= rt
CC ?= cc
CXX ?= c++
CFLAGS ?= -O2 -g
STRICT = -Wall -Wextra -Wpedantic -Werror
WARNINGS = -std=c99 $(STRICT)
SANITIZERS = -fsanitize=address,undefined -fno-sanitize-recover=all

PREFIX ?= /usr/local
LIBDIR ?= $(PREFIX)/lib
INCLUDEDIR ?= $(PREFIX)/include
MANDIR ?= $(PREFIX)/share/man
DOCDIR ?= $(PREFIX)/share/doc/tweedstork
export PREFIX LIBDIR INCLUDEDIR MANDIR DOCDIR
SECONDS ?= 60

ARCHIVE = target/staticlib/libtweedstork.a
OUT = target/c
# Real certificates, for a test: those of Debian's package ca-certificates.
AUTHORITIES ?= /etc/ssl/certs/ca-certificates.crt

.PHONY: all run test c-tests bench fuzz install uninstall clean toolchain archive examples
all: archive

toolchain:
	@command -v $(RT) >/dev/null 2>&1 || { echo "make: the Rattle toolchain is missing: put its command 'rt' on the PATH (README.md, \"Two commands\")" >&2; exit 1; }

# Proves what has changed since the last time and writes the archive, that of the crate tweedstork_c. The first time takes minutes, so
# each crate is named as it comes; what the prover says besides is in the log, which is shown whole where it refuses.
archive: toolchain
	@mkdir -p $(OUT) $(dir $(ARCHIVE))
	@echo "proving the crates and building $(ARCHIVE)$$([ -e $(ARCHIVE) ] || echo '; the first time takes some minutes')"
	@set -o pipefail; (cd crates/tweedstork_c && $(RT) lib) 2>&1 | tee $(OUT)/archive.log | sed -u -n 's/^rt: chose --jobs [0-9]* for \([a-z0-9_]*\)$$/proving \1/p' || \
	    { status=$$?; echo "make: the archive is not built; the whole log:" >&2; cat $(OUT)/archive.log; exit $$status; }
	@cp crates/tweedstork_c/out/libtweedstork_c.a $(ARCHIVE)

# The example programs.
examples: archive
	@$(CC) $(CFLAGS) $(WARNINGS) -Iinclude examples/discover.c $(ARCHIVE) -o $(OUT)/discover
	@$(CC) $(CFLAGS) $(WARNINGS) -Iinclude examples/publish.c $(ARCHIVE) -o $(OUT)/publish
	@$(CC) $(CFLAGS) $(WARNINGS) -Iinclude examples/certificate.c $(ARCHIVE) -o $(OUT)/certificate
	@$(CC) $(CFLAGS) $(WARNINGS) -Iinclude examples/relay.c examples/scenario.c $(ARCHIVE) -o $(OUT)/relay

run: examples
	@echo; $(OUT)/discover examples/domain/records.txt examples/domain/policy.txt
	@echo; $(OUT)/discover examples/domain/records.txt examples/domain/wrong-policy.txt || [ $$? -eq 1 ]
	@echo; $(OUT)/publish --id 20160831085700Z enforce 604800 mail.example.com '*.example.net' backupmx.example.com
	@echo; $(OUT)/certificate examples/certificates/leaf.pem
	@echo; $(OUT)/certificate examples/certificates/split-names.pem || [ $$? -eq 1 ]
	@echo; $(OUT)/relay examples/scenarios/*.txt

# The proofs, the must-fail edits and the cases first, since the archive is then built of what they proved; then the tests in C
# and the independent implementation. The last line is rt's once more, so that it comes only where all of them passed.
test: toolchain
	@set -o pipefail; log=$$(mktemp); echo '$(RT) ci'; $(RT) ci 2>&1 | tee "$$log" || { rm -f "$$log"; exit 1; }; \
	    mkdir -p $(OUT) && mv "$$log" $(OUT)/ci.log
	tests/must-fail.sh $(OUT)/ci.log
	@$(MAKE) --no-print-directory c-tests
	@tail -n 1 $(OUT)/ci.log

c-tests: examples
	@echo '#include "tweedstork.h"' | $(CC) $(WARNINGS) -Iinclude -x c -fsyntax-only -
	@for standard in c++11 c++20; do \
	    echo '#include "tweedstork.h"' | $(CXX) -std=$$standard $(STRICT) -Iinclude -x c++ -fsyntax-only - || exit 1; done
	tests/declarations.sh
	tests/documents.sh
	@$(CC) $(CFLAGS) $(WARNINGS) $(SANITIZERS) -Iinclude tests/conveniences.c -o $(OUT)/conveniences
	$(OUT)/conveniences
	@$(CC) $(CFLAGS) $(WARNINGS) $(SANITIZERS) -Iinclude tests/boundary.c $(ARCHIVE) -o $(OUT)/boundary
	$(OUT)/boundary
	@$(CC) $(CFLAGS) $(WARNINGS) $(SANITIZERS) -Iinclude tests/cache.c $(ARCHIVE) -o $(OUT)/cache
	$(OUT)/cache
	@$(CC) $(CFLAGS) $(WARNINGS) $(SANITIZERS) -Iinclude tests/publish.c $(ARCHIVE) -o $(OUT)/publishing
	$(OUT)/publishing
	@$(CC) $(CFLAGS) $(WARNINGS) $(SANITIZERS) -Iinclude tests/reader.c $(ARCHIVE) -o $(OUT)/reader
	$(OUT)/reader
	@$(CC) $(CFLAGS) $(WARNINGS) $(SANITIZERS) -Iinclude tests/leaf.c $(ARCHIVE) -o $(OUT)/leaf
	$(OUT)/leaf
	@if pkg-config --exists 'openssl >= 3'; then \
	    echo $(OUT)/real-certificates $(AUTHORITIES); \
	    $(CC) $(CFLAGS) $(WARNINGS) $(SANITIZERS) -Iinclude tests/real-certificates.c $(ARCHIVE) \
	        $$(pkg-config --cflags --libs openssl) -o $(OUT)/real-certificates && $(OUT)/real-certificates $(AUTHORITIES) || exit 1; \
	    echo $(OUT)/openssl; \
	    $(CC) $(CFLAGS) $(WARNINGS) $(SANITIZERS) -Iinclude tests/openssl.c examples/openssl.c $(ARCHIVE) \
	        $$(pkg-config --cflags --libs openssl) -o $(OUT)/openssl && $(OUT)/openssl; \
	else echo "openssl, real-certificates: left out, since OpenSSL 3's headers are missing (Debian's package libssl-dev)"; fi
	tests/examples.sh $(OUT)
	CC='$(CC)' CXX='$(CXX)' tests/install.sh $(ARCHIVE)
	tests/independent/run target/staticlib $(OUT)/independent

bench: archive
	CC='$(CC)' bench/run target/staticlib $(OUT)/bench --write docs/PERFORMANCE.md

# libFuzzer: Debian's packages clang and libclang-rt-14-dev.
fuzz: archive
	fuzz/run target/staticlib $(OUT)/fuzz $(SECONDS)

# Both read in the environment where to.
install:
	@[ -e $(ARCHIVE) ] && [ -z "$$(find crates crates.txt include -name out -prune -o -newer $(ARCHIVE) -print -quit)" ] || \
	    $(MAKE) --no-print-directory archive
	@packaging/install $(ARCHIVE)

uninstall:
	@packaging/install --remove

clean:
	rm -rf target crates/*/out
