# `make example` runs the main job on an example, `make test` runs everything that must hold; `make help` lists the rest, by the words
# behind ## below.
.PHONY: example report check-log programs lib example-c example-firmware test wrong bench soak clean help given

# One after the other, from left to right, whatever -j says: a file is looked at before anything is proved, and rt has jobs of its own.
.NOTPARALLEL:

# What rt makes of a crate lies in that crate's out/.
LIBRARY = target/staticlib/librecorder.a
SEASON = crates/season/out/season
CHECK_LOG = crates/check_log/out/check_log

example: $(SEASON) ## proves and links the program, and prints the report of paper 01's whole example
	@echo "The report of paper 01's whole example, the text crates/season/stdin:" >&2
	@$(SEASON) <crates/season/stdin

# FILE goes to the script as it was typed: make takes a `$` in it for its own wherever it expands it, and the shell a quote or a
# backquote wherever it reads it, so that it is neither expanded nor written into a recipe. (Make drops blanks at its beginning.)
unexport FILE
export INPUT := $(value FILE)

report: PROGRAM = season
report: given $(SEASON) ## FILE=season.txt: the report of a text of one's own, and nothing else on standard output
	@bash scripts/report "$$INPUT" season

check-log: PROGRAM = check_log
check-log: given $(CHECK_LOG) ## FILE=log.txt: a log alone, as the box writes it: printed again, or its refusal
	@bash scripts/report "$$INPUT" check_log

# A file that cannot be read is told before anything is proved.
given:
	@{ [ -r "$$INPUT" ] && [ ! -d "$$INPUT" ]; } || bash scripts/report "$$INPUT" $(PROGRAM)

programs: $(SEASON) $(CHECK_LOG) ## proves and links the office's programs, and says where they are
	@printf 'program: %s\n' $^

# Proves the program and all below it, links it, and runs it once, on its crate's own stdin. What the prover says goes to standard error.
# A program that nothing has changed is not linked again, and so keeps its time.
$(SEASON) $(CHECK_LOG): $(wildcard crates/*/src/*.rt crates/*/specs/*.antt) crates.txt
	@echo "$@ is not there, or older than its sources: it and the crates below it are proved first, each shown as it is done." >&2
	@echo "From nothing this takes ten to fifteen minutes on four cores; what has not changed since it was proved is not proved again." >&2
	@command -v rt >/dev/null || { echo "This needs the Rattle kit, and rt is not on the path. scripts/report runs a program that is there." >&2; exit 2; }
	@cd $(@D:/out=) && rt run <stdin >/dev/null
	@touch -c $@

# For any x86-64, as the header says: by itself rt takes the instructions of x86-64-v2.
lib: ## the archive for C, and where it and the header are
	@cd crates/recorder_c && rt lib --cpu=x86-64 >&2
	@mkdir -p target/staticlib && cp crates/recorder_c/out/librecorder_c.a $(LIBRARY)
	@echo "archive: $(LIBRARY)"
	@echo "header:  include/recorder.h"

example-c: lib ## the same example through the calls from C
	mkdir -p target/examples
	$(CC) -std=c11 -O2 -Wall -Wextra -Iinclude -o target/examples/season examples/season.c $(LIBRARY)
	target/examples/season

# A main loop around them, as the firmware has it: evicted records go to a card, which fails, and the loop recovers.
example-firmware: lib ## a main loop with a card that fails in mid step, which writes its log at the end
	mkdir -p target/examples
	$(CC) -std=c11 -O2 -Wall -Wextra -pedantic -Iinclude -o target/examples/firmware examples/firmware/*.c $(LIBRARY)
	target/examples/firmware

test: ## everything: proofs from nothing, the wrong programs, vectors, documents, C and firmware, guide, a short soak
	bash scripts/test

# The wrong programs beyond the two of each promise that the tests try: of every crate that has some, or make wrong CRATES="cache layout"
wrong: ## the wrong programs that the tests leave out for time, each to be refused; CRATES="cache layout": those of some crates
	bash scripts/wrong $(CRATES)

# Not part of the tests: times against plain Rust that does the same checks on the same bytes, and prints the same report.
bench: $(SEASON) $(CHECK_LOG) lib ## instructions, stack and times against plain Rust
	bash bench/run
	bash bench/season/run
	bash bench/log/run

# docs/PRACTICE.md has what came of one. With fewer cases it is part of the tests. One case again: make soak SEED=1 ONLY=seasons:123
SEED = 1
SEASONS = 100000
TEXTS = 100000
STATES = 1000000
PLANS = 1000000
SENTENCES = 1000000
LOGS = 500000
soak: $(SEASON) $(CHECK_LOG) lib ## a long differential run of the library and the programs against plain Rust (docs/PRACTICE.md)
	bash bench/soak/run seed=$(SEED) seasons=$(SEASONS) texts=$(TEXTS) states=$(STATES) plans=$(PLANS) sentences=$(SENTENCES) logs=$(LOGS) only=$(ONLY)

clean: ## removes target/ and the crates' out/: all that was proved, built and measured
	rm -rf target crates/*/out

help: ## this list
	@awk -F ' ## ' '/^[a-z-]+:.* ## / { sub(/:.*/, "", $$1); printf "make %-17s%s\n", $$1, $$2 }' Makefile
