# make run        build the proved library and show it at work on an example
# make test       the gate: every proof, every must-fail edit, every test
# make benchmark  how fast the calls are, beside Rust written for speed and beside memcpy
# make stack      how much stack each call takes
.PHONY: run programs test benchmark stack

ARCHIVE := target/staticlib/librindthok.a
PROGRAMS := target/bin/listing target/bin/report target/bin/bench
SOURCES := $(shell find crates -name out -prune -o \( -name '*.rt' -o -name '*.antt' \) -print) crates.txt

run: $(PROGRAMS) target/write_and_read target/file_log
	printf '\001' | ./target/bin/listing
	./target/bin/bench read 6250 forward <examples/damaged_forward.txt
	./target/bin/bench read 6250 backward <examples/damaged_backward.txt
	./target/file_log <examples/damaged_forward.txt | ./target/bin/report
	./target/write_and_read

test:
	bash .ci/run

target/write_and_read target/file_log: target/%: examples/%.c include/rindthok.h $(ARCHIVE)
	$(CC) -O2 -Wall -Wextra -Werror -Iinclude -o $@ $< $(ARCHIVE)

# rt proves the crate and what it stands on, and builds only if every function is proved.
$(ARCHIVE): $(SOURCES)
	cd crates/rindthok && rt lib
	mkdir -p $(@D) && cp crates/rindthok/out/librindthok.a $@

# A program is built by running it, here on no input.
programs: $(PROGRAMS)

$(PROGRAMS): target/bin/%: $(SOURCES)
	cd crates/$* && rt run </dev/null >/dev/null
	mkdir -p $(@D) && cp crates/$*/out/$* $@

# How fast the calls are, beside an implementation in Rust and beside memcpy; draws docs/benchmark.svg.
benchmark: $(ARCHIVE)
	cargo run --release --offline --quiet --manifest-path benchmark/Cargo.toml -- docs/benchmark.svg

# How many bytes of stack each call takes, below the caller's; the C library is bound before.
stack: target/stack
	./target/stack

target/stack: benchmark/stack.c include/rindthok.h $(ARCHIVE)
	$(CC) -O1 -Wall -Wextra -Wno-cast-function-type -Werror -Iinclude -o $@ $< $(ARCHIVE) -z now
