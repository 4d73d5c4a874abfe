#!/bin/sh
# Compares the board and the sheet programs with those in Rust for a given time,
# in rounds, each with a new seed. Stops at the first difference, with a command
# that runs it again:
#
#     tests/soak.sh LIBDIR PROGRAMS MINUTES [FIRST_SEED]
#
# LIBDIR contains the archive libsession_board.a, and PROGRAMS the sheet programs. No
# round starts after the time is over. Built files go to $TARGET, or else to
# target/outside.
set -eu

# Some ten seconds each, and far more than are needed to get every reply.
calls=20000000
sheets=12000
converted=6000

root=$(cd "$(dirname "$0")/.." && pwd)
name=soak words="LIBDIR PROGRAMS MINUTES [FIRST_SEED]"
. "$root/tests/arguments.sh"
[ $# -ge 3 ] || usage "three arguments are needed"
archive_at "$1"
programs_at "$2"
minutes "$3"
end=$(($(date +%s) + $3 * 60))
first=${4:-$(date +%s)} # the time: different in each run
CARGO_TARGET_DIR=${TARGET:-$root/target/outside}
export CARGO_TARGET_DIR
built=$CARGO_TARGET_DIR/release
log=$CARGO_TARGET_DIR/soak.log

for crate in compare sheets reference; do
    cargo build --quiet --offline --release --manifest-path "$root/tests/$crate/Cargo.toml"
done

# round COMMAND...: prints the last line of output, or, on failure, all lines,
# which include the command that runs it again
round() {
    if ! "$@" >"$log" 2>&1; then
        cat "$log"
        echo "soak: stopped at seed $seed; $all_calls calls and $all_sheets sheets before it had 0 differences"
        echo "soak: to run it again: compare, sheets and converted are in $built"
        exit 1
    fi
    tail -n 1 "$log"
}

# compared: how many calls or sheets the last round compared
compared() {
    sed -n '$s/^.*: \([0-9]*\) .*/\1/p' "$log"
}

# sheets_round COMPARISON COUNT PROGRAM: so many sheets through a program
sheets_round() {
    round "$built/$1" "$3" "$programs" --seed "$seed" --count "$2"
    all_sheets=$((all_sheets + $(compared)))
}

seed=$first all_calls=0 all_sheets=0
while [ "$(date +%s)" -lt "$end" ]; do
    echo "seed $seed"
    round "$built/compare" --seed "$seed" --calls "$calls"
    all_calls=$((all_calls + $(compared)))
    for program in day_sheet day_sheet_2 training_sheet; do sheets_round sheets $sheets $program; done
    for program in shorten_sheet to_edition_2 to_edition_1; do sheets_round converted $converted $program; done
    seed=$((seed + 1))
done
echo "soak: seeds $first to $((seed - 1)), $all_calls calls, $all_sheets sheets, 0 differences"
