# make run: builds everything and shows the demo's capture. make panel: the panel program alone, build/panel.
# make test: the gate. make bench: the benchmark's ratios. make soak: 12,000,000 cases against the second program, not in the gate.
# make install PREFIX=.. DESTDIR=..: header, archive, pkg-config file and panel program. make uninstall, with the same: removes them.
# CC and AR: the C compiler and the archiver, cc and ar if they are not given.
.PHONY: run panel demo panel-tests test bench soak install uninstall clean compiler

# No half-made file is left where a command failed.
.DELETE_ON_ERROR:

CFLAGS = -std=c11 -O2 -Wall -Wextra -Werror
LIBRARY = target/staticlib/libc_panel.a
HEADERS = $(wildcard host/*.h demo/*.h) include/rembulfose.h
PANEL = $(wildcard host/*.c)
BUILDER = demo/build.c host/plan.c host/names.c host/refusal.c
MAKER = demo/make-capture.c demo/batches.c demo/descriptors.c $(BUILDER)

run: panel demo
	build/panel show demo/acid-batches.capture

panel: build/panel

# The capture is made again and must be the one that is shipped.
demo: build/make-capture
	build/make-capture >build/acid-batches.capture
	cmp build/acid-batches.capture demo/acid-batches.capture

build/panel: $(PANEL) $(HEADERS) $(LIBRARY) | compiler
	mkdir -p build
	$(CC) $(CFLAGS) $(PANEL) $(LIBRARY) -o $@

build/make-capture: $(MAKER) $(HEADERS) $(LIBRARY) | compiler
	mkdir -p build
	$(CC) $(CFLAGS) $(MAKER) $(LIBRARY) -o $@

# What tests/panel/run needs besides.
panel-tests: build/panel-captures build/panel-cut build/panel-feed build/panel-formats build/panel-long-row build/panel-local-times

RECORDS = tests/panel/records.c
RECORDS_OF = $(RECORDS) $(wildcard tests/panel/*.h) $(HEADERS)

build/panel-captures: tests/panel/captures.c tests/panel/joined.c $(RECORDS_OF) | compiler
	mkdir -p build
	$(CC) $(CFLAGS) tests/panel/captures.c tests/panel/joined.c $(RECORDS) -o $@

build/panel-cut build/panel-feed: build/panel-%: tests/panel/%.c $(RECORDS_OF) | compiler
	mkdir -p build
	$(CC) $(CFLAGS) $< $(RECORDS) -o $@

build/panel-%: tests/panel/%.c tests/panel/sending.h tests/hex.h $(BUILDER) $(HEADERS) $(LIBRARY) | compiler
	mkdir -p build
	$(CC) $(CFLAGS) $< $(BUILDER) $(LIBRARY) -o $@

# Code, contracts, definitions and proofs: what was changed is proved before the library is used. What rt keeps beside them, in out/, does not count.
PROVED := crates.txt $(shell find $(wildcard crates/*/src crates/*/specs crates/*/proofs) -name '*.rt' -o -name '*.antt')

$(LIBRARY): $(PROVED) | compiler
	@bash tools/build-library

# An archive whose build was cut off is not taken, though it is newer than the code.
ifneq ($(wildcard $(LIBRARY:.a=.unfinished)),)
.PHONY: $(LIBRARY)
endif

# A missing C compiler is installed from Debian's packages; one that was chosen with CC is not.
compiler:
	@command -v $(firstword $(CC)) >/dev/null || { test '$(CC)' = cc && echo 'installing gcc' && \
		apt-get update -qq && apt-get install -y -qq gcc libc6-dev; } || { echo '$(CC) is missing' >&2; exit 1; }

test:
	bash .ci/run

bench:
	bash bench/run

soak:
	bash tests/build
	bash tests/soak

PREFIX = /usr/local
place := $(abspath $(PREFIX))
# The header's, so that there is one version and not two.
version := $(shell sed -n 's/^.define REMBULFOSE_VERSION "\(.*\)"$$/\1/p' include/rembulfose.h)

# The library and the refusals in words, as one archive.
build/librembulfose.a: $(LIBRARY) host/refusal.c include/rembulfose.h | compiler
	mkdir -p build
	$(CC) $(CFLAGS) -c host/refusal.c -o build/refusal.o
	cp $(LIBRARY) $@
	$(AR) rsD $@ build/refusal.o

# Files are put below DESTDIR, if it is given, and say that they are in PREFIX: for packages.
to = $(DESTDIR)$(place)

install: build/librembulfose.a build/panel
	install -d '$(to)/include' '$(to)/lib/pkgconfig' '$(to)/bin'
	install -m 644 include/rembulfose.h '$(to)/include/rembulfose.h'
	install -m 644 build/librembulfose.a '$(to)/lib/librembulfose.a'
	sed 's|@PREFIX@|$(place)|; s|@VERSION@|$(version)|' rembulfose.pc.in >'$(to)/lib/pkgconfig/rembulfose.pc'
	chmod 644 '$(to)/lib/pkgconfig/rembulfose.pc'
	install -m 755 build/panel '$(to)/bin/panel'

# The files that install puts there; folders stay.
uninstall:
	rm -f '$(to)/include/rembulfose.h' '$(to)/lib/librembulfose.a' '$(to)/lib/pkgconfig/rembulfose.pc' '$(to)/bin/panel'

# Also what rt keeps of each crate, so that all is proved from nothing the next time.
clean:
	rm -rf target build crates/*/out
