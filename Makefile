# 'make help' prints these lines.
#   make run            runs the sheet program on an example sheet (SHEET=busy_desk names another) and explains its output
#   make host           builds and runs the example host in C
#   make test           the gate: all proofs, the edits that must be refused, the tests outside Rattle
#   make lib            the archive and its header, in build/
#   make bench          times the six calls against boards in Rust and in C, runs of steps against a program in Rust
#                       without the soundness check, the board with rings against the first board, and the sheet programs
#                       against those in Rust
#   make instructions   counts the instructions of the hall's calls at the largest hall; needs valgrind
#   make proved         lists the theorems
#   make edits          tries the wrong programs and rules in edits/: each must be refused where it says
#   make gallery        draws the example sheets again, in docs/gallery/
#   make selftest       shows that the comparisons catch 153 wrong boards and 203 wrong sheet programs, and that the trace of
#                       stores catches 26 stray ones (more than 40 minutes)
#   make soak           runs the comparisons with new seeds; MINUTES=10 says how long (default: 1)
#   make fuzz           fuzzes the calls, then the sheet programs, each for half of MINUTES; installs clang if missing
#   make fuzz-selftest  shows that the fuzzing catches wrong boards, stray accesses and wrong programs (minutes)
PROGRAMS = $(addprefix target/bin/,day_sheet shorten_sheet day_sheet_2 to_edition_2 to_edition_1 training_sheet)
.PHONY: run host test lib programs bench instructions proved edits gallery selftest soak fuzz fuzz-selftest help $(PROGRAMS)

CARGO = cargo run --quiet --offline --release --manifest-path
export CARGO_TARGET_DIR = $(CURDIR)/target/outside
export SESSION_BOARD_LIB = $(CURDIR)/build
SHEET = quiet_shift
# The sheets of examples/training are of the training room.
ROOM = $(if $(filter training/%,$(SHEET)),training,hall)
PROGRAM_hall = day_sheet
PROGRAM_training = training_sheet
MINUTES = 1

run: build/$(SHEET).sheet target/bin/$(PROGRAM_$(ROOM))
	@tools/sheet explain --room $(ROOM) $<

# Renamed when complete, so that two makes can run at once.
build/%.sheet: examples/%.txt $(wildcard tools/day_sheet_tool/*.py)
	@mkdir -p $(@D)
	@tools/sheet encode --room $(ROOM) $< > $@.$$$$ && mv $@.$$$$ $@

# An unknown SHEET is reported before anything is proved.
SHEETS = $(patsubst examples/%.txt,%,$(wildcard examples/*.txt examples/training/*.txt))
examples/%.txt:
	@echo "make: no file $@; SHEET= is one of: $(SHEETS)" >&2; exit 2

host: lib
	@gcc -Iinclude examples/host.c build/libsession_board.a -o build/host_example.$$$$ && \
	    mv build/host_example.$$$$ build/host_example
	@build/host_example

test:
	@tools/gate

lib:
	@tools/build lib

programs: $(PROGRAMS)

$(PROGRAMS):
	@tools/build $(@F)

bench: lib $(PROGRAMS)
	@bench/c_board/compare.sh
	@echo
	@$(CARGO) bench/Cargo.toml
	@echo
	@$(CARGO) bench/Cargo.toml -- runs
	@echo
	@$(CARGO) bench/Cargo.toml -- rings
	@cargo build --quiet --offline --release --manifest-path tests/reference/Cargo.toml
	@echo
	@$(CARGO) bench/sheets/Cargo.toml -- target/bin target/outside/release

instructions: lib
	@$(CARGO) bench/Cargo.toml -- instructions

proved:
	@tools/proved

edits:
	@tools/edits

gallery: $(patsubst examples/%.txt,build/%.sheet,$(wildcard examples/*.txt)) target/bin/day_sheet
	@for sheet in $(filter %.sheet,$^); do \
	    tools/sheet picture $$sheet docs/gallery/$$(basename $$sheet .sheet).svg || exit 1; \
	done

selftest:
	@tests/selftest.sh boards
	@tests/selftest.sh programs
	@tests/selftest.sh stores

soak: lib $(PROGRAMS)
	@tests/soak.sh build target/bin $(MINUTES)

fuzz: lib $(PROGRAMS)
	@tests/fuzz/run.sh build target/bin $(MINUTES)

fuzz-selftest:
	@tests/selftest.sh fuzz

help:
	@sed -n 's/^#   //p' Makefile

# Unknown target.
.DEFAULT:
	@echo "make: unknown target '$@'; 'make help' lists the targets" >&2; exit 2
