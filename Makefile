# make run < FILE   plans the query text FILE (the program is proved and linked first)
# make test         the gate: every crate, every must-fail edit, every test and program, then the library from C
# make lib          crates/butirampol/out/libbutirampol.a, for C
# make engine       a small engine in C over it, run on an example
# make compare      the library held to the C reference, as the gate does it (docs/TESTING.md)
# make soak         the same for long: TEXTS, CALLS and SEED may be given
# make faults       faults put into the reference, each of which the comparison must find
# make fuzz         libFuzzer over the same, SECONDS long (needs clang)
# make counts       instructions of one plan, the library's and C's (needs valgrind)
# make plot         docs/performance.svg from TABLE, a file of what `make bench` printed (needs gnuplot)
# make bench        the library beside native planners in C (bench/README.md); ROW="clique 12" for those rows alone
.PHONY: run test lib harness engine c-tests examples compare compare-1 compare-2 soak faults fuzz bench counts plot

CFLAGS = -std=c11 -O2 -Wall -Wextra -Werror -Iinclude
LIBRARY = crates/butirampol/out/libbutirampol.a
HARNESS = crates/harness/out/libharness.a
PROGRAM = crates/plan/out/plan

SANITIZERS = -g -fsanitize=address,undefined -fno-sanitize-recover=all
REFERENCE = tests/c/check.c tests/c/reference.c
REFERENCE_HEADERS = tests/c/check.h tests/c/reference.h tests/c/harness.h include/butirampol.h

TEXTS = 2000000
CALLS = 200000
SEED = 2
SECONDS = 600
# the gate's comparison, in two halves that run at once
HALF = target/compare -t 100000 -c 10000

# does a command of rt in a crate's folder; what rt says is shown only where it fails
quietly = mkdir -p target && { (cd crates/$(1) && rt $(2) </dev/null) >target/$(1).log 2>&1 || { cat target/$(1).log; exit 1; }; }

run:
	@cd crates/plan && rt run

test:
	@tests/run

# where the two are wanted at once, rt has the second wait
lib:
	@$(call quietly,butirampol,lib)

harness:
	@$(call quietly,harness,lib)

# as `rt ci` or `make run` left it; proved and built here where it is not there, or older than the code
$(PROGRAM): crates.txt $(wildcard crates/*/src/*.rt)
	@$(call quietly,plan,run)
	@touch $@

target/engine: examples/engine.c include/butirampol.h lib
	@$(CC) $(CFLAGS) -o $@ $< $(LIBRARY)

target/buffers: tests/c/buffers.c include/butirampol.h lib
	@$(CC) $(CFLAGS) -o $@ $< $(LIBRARY)

target/stack: tests/c/stack.c include/butirampol.h lib
	@$(CC) $(CFLAGS) -o $@ $< $(LIBRARY) -lpthread

target/compare: tests/c/compare.c $(REFERENCE) $(REFERENCE_HEADERS) lib harness
	@$(CC) $(CFLAGS) $(SANITIZERS) -o $@ $< $(REFERENCE) $(LIBRARY) $(HARNESS)

target/fuzz: tests/c/fuzz.c $(REFERENCE) $(REFERENCE_HEADERS) lib harness
	@command -v clang >/dev/null || { echo 'make fuzz needs clang: apt-get install clang libclang-rt-14-dev'; exit 1; }
	@clang $(CFLAGS) $(SANITIZERS) -fsanitize=fuzzer -o $@ $< $(REFERENCE) $(LIBRARY) $(HARNESS)

engine: target/engine
	@target/engine examples/worked.txt

# what `rt ci` does not see: the compiled library behind its C header
c-tests: examples compare

examples: $(PROGRAM) target/engine target/buffers target/stack
	@tests/examples

compare: compare-1 compare-2

compare-1 compare-2: target/compare
	@$(HALF) -s $(subst compare-,,$@)

soak: target/compare
	@nice target/compare -t $(TEXTS) -c $(CALLS) -s $(SEED)

faults: lib harness
	@nice tests/c/faults

# the seeds are the examples, each behind a byte for the buffer's length; what is found anew is kept in target/corpus
fuzz: target/fuzz
	@mkdir -p target/corpus
	@for f in examples/*.txt examples/refused/*.txt; do { printf '0'; cat $$f; } >target/corpus/$$(basename $$f .txt); done
	@nice target/fuzz -max_total_time=$(SECONDS) -max_len=16400 -dict=tests/c/fuzz.dict -artifact_prefix=target/ -print_final_stats=1 target/corpus

target/bench: bench/bench.c bench/native.c bench/native.h tests/c/harness.h harness
	@$(CC) -std=gnu11 -O3 -Wall -Wextra -Werror -Itests/c -o $@ bench/bench.c bench/native.c $(HARNESS)

bench: target/bench
	@target/bench "$(ROW)"

counts: target/bench
	@bench/counts

plot:
	@bench/plot "$(TABLE)" docs/performance.svg
