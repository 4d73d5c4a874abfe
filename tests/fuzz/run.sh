#!/bin/sh
# Fuzzes the calls of both rooms and of the rings, and runs, then the sheet programs, each for half of the time:
#
#     tests/fuzz/run.sh LIBDIR PROGRAMS MINUTES
#
# LIBDIR contains the archive libsession_board.a, and PROGRAMS the sheet programs. All
# files go to $FUZZ, or else to target/fuzz: the inputs worth keeping (the next run
# starts with them), the logs, and in found/ an input that failed.
set -eu

fuzz=$(cd "$(dirname "$0")" && pwd)
name=fuzz words="LIBDIR PROGRAMS MINUTES"
. "$fuzz/../arguments.sh"
[ $# -eq 3 ] || usage "three arguments are needed"
archive_at "$1"
programs_at "$2"
minutes "$3"
PROGRAMS=$programs
seconds=$(($3 * 30))
out=${FUZZ:-$fuzz/../../target/fuzz}
mkdir -p "$out"
out=$(cd "$out" && pwd)
export PROGRAMS

"$fuzz/build.sh" "$SESSION_BOARD_LIB" "$out"
CARGO_TARGET_DIR=$out/seeds cargo build --quiet --offline --release \
    --manifest-path "$fuzz/seeds/Cargo.toml"

# fuzz NAME MAX_BYTES: runs the harness fuzz_NAME, starting with its seeds
fuzz() {
    mkdir -p "$out/found" "$out/$1" "$out/$1_seeds"
    "$out/seeds/release/$1_seeds" "$out/$1_seeds" 2000
    log=$out/$1.log
    if ! "$out/fuzz_$1" -max_total_time="$seconds" -max_len="$2" -timeout=60 -print_final_stats=1 \
        -artifact_prefix="$out/found/$1-" "$out/$1" "$out/$1_seeds" >"$log" 2>&1; then
        grep -a -v '^#' "$log" # without the fuzzer's progress
        input=$(sed -n 's/.*Test unit written to //p' "$log")
        echo "fuzz: failed; again: PROGRAMS=$PROGRAMS $out/fuzz_$1 $input"
        exit 1
    fi
    sed -n -e 's/^stat::number_of_executed_units: */executions: /p' \
        -e 's/^stat::average_exec_per_sec: */executions a second: /p' \
        -e '/^reply/,$p' "$log"
    echo
}

# A large table with a few hundred calls; slightly more than the longest sheet.
fuzz calls 8192
fuzz sheets 70000
