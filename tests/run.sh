#!/bin/sh
# Runs the tests outside Rattle, up to the first failure (tests/README.md):
#
#     tests/run.sh LIBDIR PROGRAMS
#
# LIBDIR contains the archive libsession_board.a, and PROGRAMS the sheet programs.
# Built files go to $TARGET, or else to target/outside.
set -eu

root=$(cd "$(dirname "$0")/.." && pwd)
name=run words="LIBDIR PROGRAMS (folders: one contains libsession_board.a, the other the sheet programs)"
. "$root/tests/arguments.sh"
[ $# -eq 2 ] || usage "two arguments are needed"
archive_at "$1"
programs_at "$2"
CARGO_TARGET_DIR=${TARGET:-$root/target/outside}
export CARGO_TARGET_DIR
mkdir -p "$CARGO_TARGET_DIR"
rust=$CARGO_TARGET_DIR/release
log=$CARGO_TARGET_DIR/run.log
warnings="-std=c11 -Wall -Wextra -Wpedantic -Werror -O2"

# step NAME LINES COMMAND...: prints the last LINES lines of output, or all on failure
step() {
    name=$1 lines=$2
    shift 2
    if "$@" >"$log" 2>&1; then
        tail -n "$lines" "$log"
    else
        cat "$log"
        echo "run: $name failed"
        exit 1
    fi
}

# build CRATE: a crate of tests/
build() {
    cargo build --quiet --offline --release --manifest-path "$root/tests/$1/Cargo.toml"
}

# link NAME SOURCE...: a C program, with the archive
link() {
    built=$CARGO_TARGET_DIR/$1
    shift
    gcc $warnings -I"$root/include" -I"$root/tests/c" "$@" "$SESSION_BOARD_LIB/libsession_board.a" -o "$built"
}

# tests_of CRATE: the tests in Rust of a crate of tests/
tests_of() {
    cargo test --quiet --offline --release --manifest-path "$root/tests/$1/Cargo.toml" \
        --tests >"$log.full" 2>&1 || { cat "$log.full"; return 1; }
    awk -v crate="$1" '/^test result: ok/ { n += $4 } END { print crate ": " n " tests passed" }' "$log.full"
}

# The reference's old reader in the place of day_sheet, and of its reference.
old_reader() {
    mkdir -p "$CARGO_TARGET_DIR/old_reader"
    for program in day_sheet day_sheet_reference; do
        cp "$rust/archive_sheet_reference" "$CARGO_TARGET_DIR/old_reader/$program"
    done
    "$rust/sheet_vectors" "$CARGO_TARGET_DIR/old_reader" "$CARGO_TARGET_DIR/old_reader" "$@"
}

step "reference" 1 tests_of reference
step "building compare" 0 build compare
step "compare" 1 "$rust/compare"
step "vectors" 1 "$rust/vectors" "$root"/tests/vectors/*-calls.txt
step "building host_test" 0 link host_test "$root/tests/host/host_test.c" "$root"/tests/c/*.c
step "host_test" 1 "$CARGO_TARGET_DIR/host_test"
step "divisions in the source" 1 "$root/tests/divisions/source.py" marks::mark_position 'host::*'
step "divisions in the archive" 1 "$root/tests/divisions/archive.py" "$SESSION_BOARD_LIB/libsession_board.a"
step "the tests of divisions" 1 "$root/tests/divisions/selftest.py" "$SESSION_BOARD_LIB/libsession_board.a"
step "building sheets" 0 build sheets
step "building the sheet programs in Rust" 0 build reference
step "the tests of sheet_vectors" 0 tests_of sheets
step "sheet_vectors" 1 "$rust/sheet_vectors" "$programs" "$rust" "$root"/tests/vectors/*-sheets.txt
step "sheet_vectors with the old reader" 0 old_reader "$root/tests/vectors/job-02-sheets.txt"
for program in day_sheet day_sheet_2; do
    step "sheets" 1 "$rust/sheets" $program "$programs"
done
step "sheets" 1 "$rust/sheets" training_sheet "$programs" --count 10000
for program in shorten_sheet to_edition_2 to_edition_1; do
    step "converted" 1 "$rust/converted" $program "$programs"
done
step "sheet_cases" 1 "$root/tests/sheet_cases.py" --check --references "$rust"
step "tool" 1 "$root/tests/tool.sh" "$programs"
step "sheet_errors" 1 "$root/tests/sheet_errors.sh" "$programs"
step "building the example" 0 link host_example "$root/examples/host.c"
step "the example" 0 "$CARGO_TARGET_DIR/host_example"
step "man" 1 "$root/tests/man.py" "$SESSION_BOARD_LIB/libsession_board.a"
step "documents" 1 "$root/tests/documents.py"
step "moved" 1 "$root/tests/moved.py"
step "stores" 1 "$root/tests/stores/run.sh" "$SESSION_BOARD_LIB"
echo "run: all passed"
