# The commands of this repository: make help lists them, and README.md says more.

.PHONY: all demo install uninstall test compare bench clean help FORCE

PREFIX = /usr/local
LIBDIR = $(PREFIX)/lib

# The version stands in the header alone. Before version 1 its second number may change a call, so that the shared
# library's name has both.
VERSION := $(shell sed -n 's/^\#define SEQ_VERSION_[A-Z]* //p' include/seqp.h | paste -sd.)
SONAME := libseqp.so.$(basename $(VERSION))

# ARCHIVE=FILE takes another archive than the one that rt makes.
MADE = crates/seqp_c/out/libseqp_c.a
JUDGE = crates/seqp_judge/out/seqp_judge
USED = $(or $(ARCHIVE),$(MADE))
CRATES = crates.txt $(shell find crates -type f -not -path "*/out/*")
STATION = examples/station.c $(wildcard examples/station/*.c)
LIBRARY = build/lib/libseqp.a build/lib/libseqp.so.$(VERSION) build/include/seqp.h

all: $(LIBRARY) build/bin/station build/bin/seqp_judge
	@echo "made: $^"

$(MADE): $(CRATES)
	@scripts/kit
	@scripts/timed "proving the library and making its archive" scripts/made seqp_c

$(JUDGE): $(CRATES)
	@scripts/kit
	@scripts/timed "proving and making the program seqp_judge" scripts/made seqp_judge

# Copied only where it differs, so that what is linked with it is not linked again.
build/lib/libseqp.a: $(USED) FORCE
	@mkdir -p $(@D)
	@cmp -s $< $@ || cp $< $@

build/lib/libseqp.so.$(VERSION): build/lib/libseqp.a
	@scripts/timed "making the shared library" scripts/cc -shared -Wl,-soname,$(SONAME),-z,defs,-z,now \
		-Wl,--whole-archive $< -Wl,--no-whole-archive -o $@

build/include/seqp.h: include/seqp.h
	@mkdir -p $(@D)
	@cp $< $@

build/bin/seqp_judge: $(JUDGE)
	@mkdir -p $(@D)
	@cp $< $@

build/bin/station: $(STATION) $(wildcard examples/station/*.h) build/include/seqp.h build/lib/libseqp.a
	@mkdir -p $(@D)
	@scripts/timed "making the station" scripts/cc -std=c11 -static -Ibuild/include $(STATION) build/lib/libseqp.a -o $@

demo: build/bin/station
	@scripts/timed "running the station on the examples" scripts/demo

install: $(LIBRARY) build/bin/seqp_judge
	@scripts/timed "installing into $(DESTDIR)$(PREFIX)" scripts/install put "$(DESTDIR)" "$(PREFIX)" "$(LIBDIR)" "$(VERSION)"

uninstall:
	@scripts/install remove "$(DESTDIR)" "$(PREFIX)" "$(LIBDIR)" "$(VERSION)"

test:
	@scripts/test

# Compares the library with the second matcher: CASES calls (20,000 unless given) made from SEED (else the clock's).
compare:
	@scripts/compare "$(SEED)" "$(CASES)"

# Counts instructions beside libxml2. ARCHIVE=FILE measures another archive than the one that rt makes.
bench:
	@scripts/need python3
	@python3 -B bench/bench.py $(ARCHIVE)

clean:
	@rm -rf build crates/*/out

help:
	@echo "make            proves and builds the library, the station and seqp_judge into build/"
	@echo "make demo       builds the station and runs it on the examples"
	@echo "make install    installs library, header, man pages and seqp_judge: PREFIX=$(PREFIX) LIBDIR=$(LIBDIR) DESTDIR="
	@echo "make uninstall  removes what make install put there, with the same PREFIX, LIBDIR and DESTDIR"
	@echo "make test       proves and tests everything; its last line is the verdict"
	@echo "make bench      counts instructions, beside libxml2"
	@echo "make compare    compares the library with an independent second matcher: SEED= CASES="
	@echo "make clean      removes all that was made, the proofs' results included"
	@echo "ARCHIVE=FILE behind make, make demo or make bench takes a library archive that is there already."
