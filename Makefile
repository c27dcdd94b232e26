# make demo       proves everything, then captures four damaged lines with examples/capture.c, and shows what came out; each sequence
#                 has ALIGNMENT alignment frames if that is given, else 12 at sites 2 and 4 and 32 at the others
# make test       the gate: proves everything, tries the must-fail edits, runs the programs and the tests
# make prove      the proofs alone
# make trial      document 01's trial values through the real calls
# make lib        the archive for C, target/staticlib/libowsopel.a
# make install    header, archive and pkg-config file to PREFIX, which is /usr/local unless given, below DESTDIR if that is given
# make uninstall  takes these three files away
# make examples   the C programs of examples/, to target/examples
# make test-c     the tests in C: the interface, the instructions that inverted frames take, an installation, the programs of examples/
# make compare    the Rust version of the rules against the archive; prints the numbers of calls
# make fuzz       random lists of calls beside the Rust version, for a minute and from a new seed unless SECONDS and SEED are given;
#                 with SEED and LIST that one list, told
# make bench      the archive's speed beside natural Rust versions' and beside copying, and where a linker has put the calls that
#                 feed at four places, as tables

VERSION = 1.0.0
PREFIX = /usr/local
ALIGNMENT =
SECONDS = 60
SEED =
LIST =
ARCHIVE = target/staticlib/libowsopel.a
INCLUDE_TO = $(DESTDIR)$(PREFIX)/include
LIB_TO = $(DESTDIR)$(PREFIX)/lib
C_FLAGS = -std=c89 -pedantic -Wall -Wextra -Werror -O2 -Iinclude

.PHONY: demo test prove trial lib install uninstall examples test-c compare fuzz bench format clean

demo: prove examples
	examples/demo.sh target/examples target/demo $(ALIGNMENT)

test:
	.ci/run

prove:
	rt all check

trial:
	cd crates/trial && rt run

lib: $(ARCHIVE)

# Each call begins at a multiple of 64 bytes, so that its speed does not hang on where a linker puts it. The compiler's calls of memset
# are bound to the archive's own.
$(ARCHIVE): crates.txt archive/memset.s $(shell find crates \( -name must-fail -o -name out \) -prune -o -type f -print)
	cd crates/owsopel_c && rt lib
	mkdir -p $(@D)
	as -o $(@D)/memset.o archive/memset.s
	ld -r -o $(@D)/owsopel.o $(@D)/memset.o --whole-archive crates/owsopel_c/out/libowsopel_c.a
	objcopy --localize-hidden --set-section-alignment '.text.*=64' $(@D)/owsopel.o
	rm -f $@
	ar rcsD $@ $(@D)/owsopel.o
	rm $(@D)/memset.o $(@D)/owsopel.o

install: $(ARCHIVE)
	install -d $(INCLUDE_TO) $(LIB_TO)/pkgconfig
	install -m 644 include/owsopel.h $(INCLUDE_TO)
	install -m 644 $(ARCHIVE) $(LIB_TO)
	sed -e 's|@PREFIX@|$(abspath $(PREFIX))|' -e 's|@VERSION@|$(VERSION)|' owsopel.pc.in >$(LIB_TO)/pkgconfig/owsopel.pc

uninstall:
	rm -f $(INCLUDE_TO)/owsopel.h $(LIB_TO)/libowsopel.a $(LIB_TO)/pkgconfig/owsopel.pc

examples: lib
	mkdir -p target/examples
	$(CC) $(C_FLAGS) -o target/examples/capture examples/capture.c examples/record_file.c examples/book_file.c examples/files.c $(ARCHIVE)
	$(CC) $(C_FLAGS) -o target/examples/show_book examples/show_book.c examples/book_file.c examples/files.c $(ARCHIVE)
	$(CC) $(C_FLAGS) -o target/examples/make_line examples/make_line.c $(ARCHIVE)

test-c: lib
	tests/c/interface.sh
	tests/c/inversion.sh
	tests/c/install.sh
	tests/c/capture.sh

compare: lib
	cargo test --offline --manifest-path tests/Cargo.toml --target-dir target/cargo --test frame_archive --test strip_archive --test strip_forms --test strip_spoiled --test strip_conversion --test lane_archive --test lane_crossed --test lane_cuts --test lane_frames --test lane_promises --test lane_refusals --test lane_runs --test lane_sends --test lane_starts --test lane_sums -- --nocapture

fuzz: lib
	cargo run --release --offline --quiet --manifest-path tests/Cargo.toml --target-dir target/cargo --bin fuzz -- seed=$(SEED) seconds=$(SECONDS) list=$(LIST)

bench: lib
	cargo run --release --offline --quiet --manifest-path tests/Cargo.toml --target-dir target/cargo --bin bench
	tests/c/placement.sh

format:
	for crate in crates/*/; do (cd $$crate && rt fmt) || exit 1; done
	cargo fmt --manifest-path tests/Cargo.toml
	clang-format -i include/*.h examples/*.[ch] tests/c/*/*.[ch]

clean:
	rm -rf target crates/*/out
