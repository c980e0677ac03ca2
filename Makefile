# The engine's library, and the second program that is compared with it.
LIBRARY := target/staticlib/libdoughpillar.a
SECOND := --manifest-path second/Cargo.toml
BUILD_SECOND := cargo build --quiet --release --offline --locked $(SECOND) --target-dir target/second

.PHONY: test beside library listing run host compare bench count

# What a proof is made of: a crate's out/ is what the toolchain keeps of it.
SOURCES := crates.txt $(shell find crates -mindepth 2 -name out -prune -o -mindepth 2 -print)

# make test: every crate proved, every must-fail edit refused, and the tests below. The last line is rt ci's.
test:
	@tests/all

# make beside: the library as C has it, the listing program, the comparison with the second program, what is installed,
# and what the pages show.
beside:
	@$(MAKE) --no-print-directory library
	@tests/host/run
	@$(MAKE) --no-print-directory --jobs=2 --output-sync listing compare
	@tests/listing/run
	@tests/install/run
	@tests/pages/run

# make library: proves the engine and archives it, if a crate has changed.
library: $(LIBRARY)

$(LIBRARY): $(SOURCES)
	@mkdir -p $(@D)
	@cd crates/doughpillar && rt lib > $(CURDIR)/target/library.log 2>&1 || { cat $(CURDIR)/target/library.log; exit 1; }
	@cp crates/doughpillar/out/libdoughpillar.a $@

# make listing: proves the listing program and links it, if a crate has changed.
listing: target/bin/listing

target/bin/listing: $(SOURCES)
	@mkdir -p $(@D)
	@cd crates/listing && rt run < /dev/null > $(CURDIR)/target/listing.log 2>&1 || { cat $(CURDIR)/target/listing.log; exit 1; }
	@cp crates/listing/out/listing $@

# make run BOOK=FILE NAMES=FILE: answers a book with the example host; NAMES, a name for each atom, may be left out.
# Without BOOK it is the sample book. A refusal is an answer too, and no error of make's.
ifndef BOOK
BOOK := samples/night.book
NAMES := samples/night.names
endif

run: host
	@target/host/logger '$(BOOK)' $(if $(NAMES),'$(NAMES)') || [ $$? -eq 1 ]

# make host: the example host in C.
host: target/host/logger

target/host/logger: $(LIBRARY) include/doughpillar.h $(wildcard host/*.c host/*.h)
	@mkdir -p target/host
	@$(CC) -std=c99 -Wall -Wextra -O2 -Iinclude $(wildcard host/*.c) $(LIBRARY) -o $@

# make compare: the engine and the second program on the fixtures, at the limits, on short hostile books and on 200,000
# seeded ones.
compare: library
	@$(BUILD_SECOND)
	@target/second/release/compare

# make bench: times of the engine, of its rounds written plainly and of the second program, and its stack; then the
# hostile books. BENCH=hostile: these alone; BENCH="hostile 4": the fourth; BENCH="hostile 4 10": a tenth of it.
bench: library
	@$(BUILD_SECOND)
	@target/second/release/bench $(BENCH)

# make count: the same books by instructions, which are the same in every run; COUNT=hostile: those of the hostile books
# that second/count lists. Needs valgrind.
count: library
	@$(BUILD_SECOND)
	@second/count $(COUNT)

# make shared, install, uninstall
include host/install.mk
