#!/bin/sh
# Builds the two harnesses into a folder:
#
#     tests/fuzz/build.sh LIBDIR FOLDER [REFERENCE]
#
# LIBDIR contains the archive libsession_board.a. REFERENCE is the folder of the crate
# reference_in_c; the self-test passes one with a patched reference.
set -eu

fuzz=$(cd "$(dirname "$0")" && pwd)
library=$1/libsession_board.a
mkdir -p "$2"
out=$(cd "$2" && pwd)
reference=${3:-$fuzz/reference_in_c}

# Fuzzing needs clang with its fuzzer library.
if ! command -v clang >/dev/null || ! echo 'int LLVMFuzzerTestOneInput(void) { return 0; }' |
    clang -fsanitize=fuzzer,address -x c - -o "$out/try" 2>/dev/null; then
    apt-get update --quiet --quiet
    apt-get install --quiet --quiet --yes clang libclang-rt-14-dev
fi

# One object with the calls of the header and all that they need, in which only
# their names are global, as in tests/archive: a board in Rust comes with a
# runtime, and so does the reference.
calls=$(sed -n 's/^uint32_t \([a-z_]*\)(.*/\1/p' "$fuzz/../../include/session_board.h")
ld -r --force-group-allocation $(printf -- '--undefined=%s ' $calls) "$library" -o "$out/board.o"
objcopy $(printf -- '--keep-global-symbol=%s ' $calls) \
    --remove-section=.llvmbc --remove-section=.llvmcmd "$out/board.o"

# The reference guides the fuzzer: its branches are counted and its comparisons
# traced.
coverage="-Cpasses=sancov-module
    -Cllvm-args=-sanitizer-coverage-level=4
    -Cllvm-args=-sanitizer-coverage-inline-8bit-counters
    -Cllvm-args=-sanitizer-coverage-pc-table
    -Cllvm-args=-sanitizer-coverage-trace-compares"
RUSTFLAGS="$coverage -Awarnings" CARGO_TARGET_DIR=$out/reference cargo build --quiet --offline \
    --release --manifest-path "$reference/Cargo.toml"
expected=$out/reference/release/libreference_in_c.a

warnings="-std=c11 -Wall -Wextra -Wpedantic -Werror"
harness() {
    name=$1
    shift
    clang $warnings -O2 -g -fsanitize=fuzzer,address -I"$fuzz/../../include" -I"$fuzz" -I"$fuzz/../c" "$@" \
        "$expected" -o "$out/$name"
}
cd "$fuzz"
harness fuzz_calls fuzz_calls.c tally.c ../c/*.c "$out/board.o"
harness fuzz_sheets fuzz_sheets.c
