# The targets of the repository. `make help` prints the comment above each of them up to its first full stop, so each target has one.
PREFIX ?= /usr/local
DESTDIR ?=
VERSION = 0.1.0
CFLAGS ?= -O2
LDFLAGS ?=
# The log that make gate-times reads.
LOG ?= target/gate.log
# The crates whose exports make up the library for C.
EXPORTS = gpt_c card_c text_c
# The scripts take these from the environment.
export CC CFLAGS LDFLAGS PREFIX DESTDIR

.PHONY: help tour versions demo sums test gate-times deps outside programs bench bench-list lib card card-test install uninstall install-test deb dist package-test boundary guard examples example lister-test python python-types wheel wheel-test rust documents interop differential differential-slips scripts-test boundary-valgrind rust-outside race model corpus writers cuts cuts-quick firmware firmware-quick edits clean

# Two runs of rt in one repository write the same files, so with -j, too, one target is made after the other.
.NOTPARALLEL:

# Lists the targets. Plain `make` does this too.
help:
	@awk '/^#/ { if (!said) said = substr($$0, 3); next } /^[a-z][a-z-]*:/ { name = $$1; sub(/:.*/, "", name); sub(/\.( .*)?$$/, "", said); printf "make %-19s%s\n", name, said } { said = "" }' Makefile
	@scripts/kit

# Lays a sample card in a file, with three slots, and lists it.
demo:
	@scripts/prove sample lister
	@echo '$$ target/bin/sample > target/demo.img'
	@target/bin/sample > target/demo.img
	@echo '$$ target/bin/lister < target/demo.img'
	@target/bin/lister < target/demo.img

# Prints the check sums of published vectors and of what is piped in. A terminal counts as no input.
sums:
	@scripts/prove sums
	@if [ -t 0 ]; then target/bin/sums </dev/null; else target/bin/sums; fi

# The gate: all proofs, the layout, the wrong programs tried, the programs run, the tests outside Rattle. Its last line is rt ci's `N passed, 0 failed`, which comes only when everything has passed (scripts/gate).
test:
	@scripts/gate

# Says where the minutes of the gate went. It reads LOG, or else what the last `make test` kept.
gate-times:
	@python3 scripts/gate-times '$(LOG)'

# Installs Debian's packages that the tests want, if you are root, and else says what is missing. No other target installs anything on the machine, but for install.
deps:
	@scripts/deps

# Reads what rt said of the edits that must fail, and asks that each function that an edit changes was refused by itself, and not for its shape.
edits:
	@python3 tests/edits.py

# Runs what this machine can of the tests outside Rattle. See tests/outside.sh.
outside:
	tests/outside.sh

# Proves and builds the programs that the tests outside Rattle and the documents run.
programs:
	@scripts/prove lister free_ground uefi_lister sample sums

# Makes the library for C and whatever calls C, target/lib/libcard.a and libcard.so. The header is include/card.h.
lib: target/lib/libcard.so.0
	@echo "target/lib/libcard.a and target/lib/libcard.so; the header is include/card.h"

# The ported calls, the card calls and the text calls are each a crate and an archive of their own, so that none takes long to prove; the objects of all three go into one archive.
target/lib/libcard.a: crates.txt $(shell find crates/*/src crates/*/specs crates/*/proofs -type f)
	@scripts/prove $(EXPORTS)
	@mkdir -p target/lib
	@rm -rf target/lib/objects && mkdir target/lib/objects && rm -f target/lib/libcard.a
	@cd target/lib/objects && for crate in $(EXPORTS); do $(AR) x ../../staticlib/lib$$crate.a || exit 1; done
	$(AR) rcs target/lib/libcard.a target/lib/objects/*.o
	@rm -r target/lib/objects

# Every symbol is bound when the library is loaded, and what was written for that is then read-only.
target/lib/libcard.so: target/lib/libcard.a
	$(CC) $(CFLAGS) -shared -o target/lib/libcard.so -Wl,-soname,libcard.so.0 -Wl,-z,now -Wl,-z,relro -Wl,--whole-archive target/lib/libcard.a -Wl,--no-whole-archive $(LDFLAGS)

# The name by which a program that was linked to the shared library asks for it. It is a second name of one file, since rt ci refuses a symbolic link anywhere in the repository.
target/lib/libcard.so.0: target/lib/libcard.so
	ln -f target/lib/libcard.so target/lib/libcard.so.0

# Builds the card command, target/card/card (hosts/card). Cargo asks no registry.
card: lib
	@mkdir -p target/card
	@cd hosts/card && CARD_LIB_DIR=../../target/lib CARGO_TARGET_DIR=../../target/rust-card cargo build --release --offline --locked >../../target/card.log 2>&1 || { cat ../../target/card.log; exit 1; }
	@new=$$(mktemp target/card/new.XXXXXX) && cp "$$(find target/rust-card -path '*/release/card' -type f | head -n 1)" "$$new" && if cmp -s "$$new" target/card/card; then rm "$$new"; else chmod 755 "$$new" && mv "$$new" target/card/card; fi
	@echo "target/card/card"

# Tries every command of card, every refusal's words and every exit status, on files of any size, on failing input and output, and beside other tools (tests/card). Variables: SEED.
card-test: card
	@cd hosts/card && CARD_LIB_DIR=../../target/lib CARGO_TARGET_DIR=../../target/rust-card cargo test --offline --locked >../../target/card-unit.log 2>&1 || { cat ../../target/card-unit.log; exit 1; }
	python3 tests/card/run.py $(if $(SEED),--seed $(SEED))

# Installs the card command (where there is cargo), header, libraries, lister, a pkg-config file and the licences, below DESTDIR and PREFIX.
install: lib
	@scripts/prove lister
	@if command -v cargo >/dev/null 2>&1; then $(MAKE) -s card >/dev/null; else echo "install: there is no cargo, so the card command is left out"; rm -f target/card/card; fi
	@VERSION=$(VERSION) scripts/install put

# Removes what install has put below DESTDIR and PREFIX. Folders that other software shares, such as lib, stay.
uninstall:
	@scripts/install remove

# Installs into an empty folder, uses what is there, and removes it: a C program by either library, and the lister (tests/install).
install-test:
	tests/install/run.sh

# Makes a package for Debian of what install puts in place, and the Python package (target/package). It needs cargo and dpkg-deb.
deb: lib card
	@scripts/prove lister
	@VERSION=$(VERSION) scripts/package deb

# Makes a tarball of the same, with sums, for a bench without a toolchain.
dist: lib card
	@scripts/prove lister
	@VERSION=$(VERSION) scripts/package dist

# Unpacks both into empty folders, and uses what is there (tests/install/package.sh).
package-test: deb dist
	tests/install/package.sh

# Measures the check sum beside a plain byte table and zlib, the card calls, and both beside the Rust original (bench/beside), in one run each.
bench: lib
	@echo '#include <zlib.h>' | $(CC) $(CFLAGS) -E - >/dev/null 2>&1 || { echo "bench: zlib's header is missing; on Debian make deps installs it (zlib1g-dev)"; exit 1; }
	@scripts/prove crc32_c
	$(CC) $(CFLAGS) -Iinclude -o target/bench-crc bench/crc.c target/staticlib/libcrc32_c.a target/lib/libcard.a $(LDFLAGS) -lz
	$(CC) $(CFLAGS) -Iinclude -o target/bench-card bench/card.c target/lib/libcard.a $(LDFLAGS) -lpthread
	target/bench-crc
	target/bench-card
	bench/beside/run.sh

# Measures the whole process of card list beside sgdisk, sfdisk, parted and the Rust original, on files of 1 MiB and 64 GiB, in one run (bench/list).
bench-list: card
	bench/list/run.sh

# Calls every function of include/card.h from C, and measures the stack that calls need (tests/c).
boundary: lib
	tests/c/machine.sh
	$(CC) -std=c11 -Wall -Wextra $(CFLAGS) -Iinclude -pthread -o target/stack tests/c/stack.c target/lib/libcard.a $(LDFLAGS)
	target/stack
	$(CC) -std=c11 -Wall -Wextra $(CFLAGS) -Iinclude -o target/boundary tests/c/boundary.c target/lib/libcard.a $(LDFLAGS)
	target/boundary

# Makes 200,000 calls over all exports of include/card.h between pages that cannot be touched (tests/c). Variables: SEED, CALLS.
guard: lib
	$(CC) -std=c11 -Wall -Wextra -pedantic $(CFLAGS) -Iinclude -o target/guard tests/c/guard.c target/lib/libcard.a $(LDFLAGS)
	tests/c/exports.sh target/guard names
	target/guard $(or $(SEED),1) $(or $(CALLS),200000)

# Builds the three pages of examples/c as a user would, by both libraries, and runs them in a row: lay, update, cuts, repair, list (tests/examples).
examples: lib
	tests/examples/run.sh

# Compares the stored cards of the gate with those of the independent maker.
example:
	@mkdir -p target
	python3 tests/example/make_card.py lister | cmp - crates/lister/stdin
	python3 tests/example/make_card.py free_ground | cmp - crates/free_ground/stdin
	python3 tests/example/make_card.py uefi_lister | cmp - crates/uefi_lister/stdin
	python3 tests/example/make_card.py sample | cmp - crates/sample/stdout
	grep '^[0-9]*: digest of the image' crates/cases/stdout >target/digests
	python3 tests/example/make_card.py sums | cmp - target/digests
	@echo "four cards and $$(wc -l <target/digests) sums of cards are the independent maker's"

# Runs the lister, free_ground, uefi_lister, sums and sample: 39 cards, input, output and arguments that fail, and long input.
lister-test:
	@scripts/prove lister free_ground uefi_lister sample sums
	python3 tests/example/lister.py

# Checks the Python package's types, runs the examples in its own text, and its tests (tests/python).
python: lib python-types
	PYTHONPATH=hosts/python python3 -m card
	python3 tests/python/test_card.py
	python3 tests/python/test_files.py

# Checks the types of the Python package by mypy --strict (hosts/python/pyproject.toml). Where there is no mypy, it says so.
python-types:
	@mkdir -p target
	@if command -v mypy >/dev/null 2>&1; then mypy --config-file hosts/python/pyproject.toml --cache-dir target/mypy hosts/python/card hosts/python/card_wheel.py; else echo "there is no mypy (make deps installs it on Debian)"; echo "python-types: skipped, no type was checked"; fi

# Writes a wheel of the Python package with the shared library in it (target/wheel). pip installs it without a network.
wheel: lib
	@VERSION=$(VERSION) python3 hosts/python/card_wheel.py target/wheel

# Installs the wheel into an empty folder, by pip where it is there, and uses it outside the repository (tests/install/wheel.py).
wheel-test: wheel
	python3 tests/install/wheel.py

# Runs the tests of the Rust crate and of the example in its text. Cargo asks no registry.
rust: lib rust-outside
	@cd hosts/rust && CARD_LIB_DIR=../../target/lib CARGO_TARGET_DIR=../../target/rust cargo test --offline >../../target/rust.log 2>&1 || { cat ../../target/rust.log; exit 1; }
	@! grep 'skipped: ' target/rust.log
	@awk '/^test result: ok/ { n += $$4 } END { print "rust: " n + 0 " tests ok"; exit n == 0 }' target/rust.log

# Lays cards beside sgdisk, sfdisk, fdisk and parted (tests/interop).
interop: lib
	python3 tests/interop/run.py

# Runs the port beside the Rust original (tests/differential). Variables: GPT_SRC (where the original is), SEED, CASES.
differential:
	@tests/differential/run.sh run

# Says how soon that run catches slips put into the port's answers.
differential-slips:
	@tests/differential/run.sh slips

# Compares the version of the Makefile with every other place that names it.
versions:
	tests/versions.sh

# Reads the files and lines that docs/TOUR.md names, and the picture of the crates. `python3 tests/tour.py --mend` puts both right.
tour:
	python3 tests/tour.py

# Runs every command that the documents give and compares what it prints, or has it accounted for (tests/documents.py).
documents: lib card
	python3 tests/documents.py

# Tries the scripts of the gate and of this file, with a stand-in for rt (tests/scripts).
scripts-test:
	@tests/scripts/run.sh

# Makes every call from C again, under valgrind: no call makes a decision by a byte that nothing was stored in.
boundary-valgrind: lib
	$(CC) -std=c11 -g -O1 -Iinclude -o target/boundary-valgrind tests/c/boundary.c target/lib/libcard.a $(LDFLAGS)
	valgrind -q --error-exitcode=1 target/boundary-valgrind

# Runs the Rust crate's tests in a copy of it outside the repository.
rust-outside: lib
	tests/install/outside-rust.sh

# Makes calls while another thread writes the image, in C and in Python, for 10 seconds each (tests/race).
race: lib
	$(CC) -std=c11 -Wall -Wextra $(CFLAGS) -Iinclude -pthread -o target/race tests/race/race.c target/lib/libcard.a $(LDFLAGS)
	target/race 10
	python3 tests/race/race.py 10

# Compares every call of the library, its answers and every lent byte, with a model that was written from the documents alone (tests/model):
# 75,000 calls, in which each number is seen, and then others for SECONDS. Variables: SEED, SECONDS.
model: lib
	python3 tests/model/run.py --alone --seed 1 --cases 75000
	python3 tests/model/run.py --seed 1 --cases 75000
	python3 tests/model/run.py $(if $(SEED),--seed $(SEED)) --seconds $(or $(SECONDS),30) >target/model.random; grep 'compared, 0 differences' target/model.random || { cat target/model.random; exit 1; }

# Runs 171 images that once showed a defect, or that every reader must survive, through every reader, and compares what each says (tests/corpus).
corpus: lib
	python3 tests/corpus/run.py

# Makes the same calls on two files that have one table and other tiles, and compares every answer and both tables (tests/writers). Variables: SEED, CALLS.
writers: lib
	python3 tests/writers/run.py $(if $(SEED),--seed $(SEED)) $(if $(CALLS),--calls $(CALLS))

# Pulls cards in files: cuts updates and repairs after every stage at every slot, and at 10,000 random places (tests/cuts). Variables: SEED, CUTS.
cuts: lib
	python3 tests/cuts/run.py $(if $(SEED),--seed $(SEED)) --cuts $(or $(CUTS),10000)

# Makes some thousand of these cuts.
cuts-quick: lib
	python3 tests/cuts/run.py --quick $(if $(SEED),--seed $(SEED))

# Shows whole, cut and damaged cards to Linux, EDK2's firmware, U-Boot and the readers of other makers (tests/firmware). It takes minutes, QEMU, and a kernel that apt-get downloads.
firmware: lib
	@tests/firmware/run.sh

# Shows some of these cards to the readers on files.
firmware-quick: lib
	@SKIP="kernel ovmf uboot" QUICK=1 tests/firmware/run.sh

# Removes all that was built and proved.
clean:
	rm -rf target crates/*/out
