# The commands of the README.
.PHONY: test check mutants differential fuzz bench slow controller vectors list host archive native install fmt clean

SHEET ?= sheets/a
PREFIX ?= /usr/local
C_FLAGS = -std=c11 -Wall -Wextra -Wpedantic -Werror -O2 -Iinclude
CRATES := crates.txt $(shell find crates -type f ! -path '*/must-fail/*' ! -path '*/mutants/*' ! -path 'crates/*/out/*')
LISTING = crates/listing/out/listing
VECTORS = crates/vectors/out/vectors
ARCHIVE = crates/host/out/libhost.a
NATIVE = $(ARCHIVE) crates/stepping/out/libstepping.a

# Every proof, must-fail edit and test; of the proofs, those that rt ci has not seen on this machine.
test:
	bash .ci/run

# Every proof, rechecking only what changed.
check:
	rt all check

# A wider run of wrong programs that the check must refuse (long: a check of a crate for each).
mutants:
	tools/mutants

# The Rust, unchanged from ../shared/docs/src, beside a model written from document 01 and our archives: optimised, then with overflow checks.
differential: $(NATIVE)
	tools/bench differential --sheets 1000000 --bounds 10000000
	tools/bench --checked differential --sheets 100000 --bounds 1000000

# Random and mutated bytes through the archive, in buffers of many lengths between guard bytes; and eight viewers over one tile, at random and each on a run of its own.
fuzz: $(NATIVE) $(VECTORS)
	tools/bench fuzz
	tools/fuzz-viewers

# Time and instructions of a whole run beside the Rust's, and time of a single step; then sheets with few packets and a huge grid, and a search for more.
bench: $(NATIVE)
	tools/bench bench
	tools/bench instructions

slow: $(NATIVE)
	tools/bench slow --limit 60 --search 5000

# The library routines for 64 bits that each export reaches on a small 32-bit controller.
controller:
	tools/controller

# The stored answers that the program crates/vectors replays: the Rust's and the model's.
vectors:
	cd bench && cargo run --profile checked -- vectors ../crates/vectors/data

# The listing of a sheet in words, on standard output: make list SHEET=sheets/a
list: $(LISTING)
	@tools/list "$(SHEET)"

# The archive for C, crates/host/out/libhost.a.
archive: $(ARCHIVE)

# The archives that the bench links, the host's and that of the run by single steps.
native: $(NATIVE)

# The C host of examples/host, as target/c/host.
host: target/c/host

# The archive, the header and a pkg-config file, under DESTDIR and PREFIX.
install: $(ARCHIVE)
	install -d "$(DESTDIR)$(PREFIX)/include" "$(DESTDIR)$(PREFIX)/lib/pkgconfig"
	install -m 644 include/bonxigarth.h "$(DESTDIR)$(PREFIX)/include/bonxigarth.h"
	install -m 644 $(ARCHIVE) "$(DESTDIR)$(PREFIX)/lib/libbonxigarth.a"
	sed 's|@PREFIX@|$(PREFIX)|' include/bonxigarth.pc.in >"$(DESTDIR)$(PREFIX)/lib/pkgconfig/bonxigarth.pc"

# rt tells by contents what to prove again, and leaves alone what is as it was: hence the touch.
$(LISTING) $(VECTORS): $(CRATES)
	@tools/prove run $(@F)
	@touch $@

$(NATIVE): $(CRATES)
	@tools/prove lib $(patsubst lib%.a,%,$(@F))
	@touch $@

target/c/host: examples/host/host.c include/bonxigarth.h $(ARCHIVE)
	@mkdir -p target/c
	$(CC) $(C_FLAGS) -o $@ examples/host/host.c $(ARCHIVE)

target/c/guards: tests/guards.c include/bonxigarth.h $(ARCHIVE)
	@mkdir -p target/c
	$(CC) $(C_FLAGS) -o $@ tests/guards.c $(ARCHIVE)

fmt:
	for crate in crates/*; do (cd $$crate && rt fmt) || exit; done

clean:
	rm -rf target crates/*/out
