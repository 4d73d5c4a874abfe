#!/bin/sh
# Shows that the tests can fail. Each must pass on a right board or program, and
# must catch each wrong one of tests/wrong:
#
#     tests/selftest.sh KIND [NAME...]      all of a kind, or those named
#
#     KIND       what must catch them     the wrong ones
#     boards     compare, and vectors     wrong/boards: patches of the reference, which replaces the archive
#                if wrong about repeats,
#                the training room, runs,
#                message numbers or rings
#     programs   sheets or converted,     wrong/programs: patches of the reference, which replaces the programs that the
#                and sheet_vectors        name says (`replaced`)
#     stores     stores and host_test     wrong/stores.c: right answers, but a store outside the call's footprint
#     fuzz       fuzz_calls, fuzz_sheets  some of wrong/boards and wrong/programs, and wrong/accesses.c
#
# A test that catches a wrong one prints how to run the case again; that must
# fail too. A patch may name a test of the reference ("Case:"), which must fail
# on the patched reference.
set -eu

tests=$(cd "$(dirname "$0")" && pwd)
root=$(dirname "$tests")
work=$(mktemp -d)
trap 'rm -rf "$work"' EXIT
export RUSTFLAGS=-Awarnings # a patch can leave a function unused
. "$tests/arguments.sh"      # sheet_programs

fail() {
    echo "selftest: $1"
    exit 1
}

is_one_of() {
    case " $2 " in *" $1 "*) ;; *) return 1 ;; esac
}

# ---- building -------------------------------------------------------------

# build CRATE TARGET: a crate's folder, into $work/TARGET. Right and wrong copies
# of a crate have different targets: cargo would take one for the other.
build() {
    CARGO_TARGET_DIR=$work/$2 cargo build --quiet --offline --release --manifest-path "$1/Cargo.toml"
}

# patched KIND NAME: copies the crates to $work/tests, and patches the reference.
# The copies get new times, so that cargo builds all of them again.
patched() {
    rm -rf "$work/tests"
    mkdir -p "$work/tests/fuzz"
    ln -sfn "$root/include" "$work/include"
    for crate in reference fake_archive archive compare fuzz/reference_in_c; do
        mkdir "$work/tests/$crate"
        (cd "$tests/$crate" && tar -cf - --exclude=target .) | tar -xmf - -C "$work/tests/$crate"
    done
    patch --quiet --fuzz=0 -d "$work/tests/reference" -p1 <"$tests/wrong/$1/$2.patch" ||
        fail "$2: the patch does not apply"
}

# case_fails KIND NAME: the patched reference fails the test that the patch names.
case_fails() {
    set -- "$2" $(sed -n 's/^Case: //p' "$tests/wrong/$1/$2.patch")
    [ $# -eq 3 ] || return 0
    if CARGO_TARGET_DIR=$work/case cargo test --quiet --offline --release \
        --manifest-path "$work/tests/reference/Cargo.toml" --test "$2" -- --exact "$3" \
        >"$work/out.case" 2>&1; then fail "$1: case $3 passes"; fi
    grep -q "^test result: FAILED" "$work/out.case" || fail "$1: case $3 did not run"
}

# The names of the patches of a kind.
patches() {
    (cd "$tests/wrong/$1" && ls | sed 's/\.patch$//')
}

# ---- boards ---------------------------------------------------------------

# build_compare TARGET: the comparison, with the archive in $work/TARGET
build_compare() {
    SESSION_BOARD_LIB=$work/$1/release build "$tests/compare" compare
}

compare() {
    timeout 120 "$work/compare/release/compare" "$@"
}

vectors() {
    timeout 120 "$work/compare/release/vectors" "$tests"/vectors/*-calls.txt >"$work/out.vectors" 2>&1
}

# No published call is an accepted swap between sessions that share only their low byte, or a run of 256 steps, or has
# a code outside 1 to 5 with the low byte of a step's.
unseen_by_vectors="repeat-of-one-byte run-length-of-one-byte run-code-of-one-byte"

# caught_by_vectors NAME: the published calls must catch a board that is wrong about repeats, the training room,
# message numbers, runs or rings.
caught_by_vectors() {
    grep -q -e '^Case: repeats ' -e '^Case: training_room ' -e '^Case: message_numbers ' -e '^Case: runs ' \
        -e '^Case: ring ' "$tests/wrong/boards/$1.patch" && ! is_one_of "$1" "$unseen_by_vectors" || return 0
    if vectors; then fail "$1: not caught by vectors"; fi
}

# Wrong boards that differ from their own single calls: the answer, the replies, the table.
differ_from_single_calls="run-answers-its-length run-clears-the-replies run-moves-the-number-of-17"

# Wrong rings that differ from the first board: the answer, the list, the beginning.
differ_from_the_first_board="ring-room-one-early ring-settles-from-the-first-place ring-reset-when-empty"

# caught_without_the_reference NAME: such a board is caught where the reference of the comparison is wrong too.
caught_without_the_reference() {
    if is_one_of "$1" "$differ_from_single_calls"; then
        by='single calls '
    elif is_one_of "$1" "$differ_from_the_first_board"; then
        by='\(another answer than\|it does not read as\|a beginning is not\)'
    else
        return 0
    fi
    SESSION_BOARD_LIB=$work/wrong/release build "$work/tests/compare" both_wrong
    if timeout 120 "$work/both_wrong/release/compare" >"$work/out.both" 2>&1; then fail "$1: not caught in both"; fi
    grep -q "^  $by" "$work/out.both" || fail "$1: not caught by itself, but by the reference"
}

# The last match of the first pattern, or else of the second: after a crash only
# the number of the case is known.
last_match() {
    sed -n "$1" "$work/out" | tail -n 1 | grep . || sed -n "$2" "$work/out"
}

boards_all() {
    patches boards
}

boards_right() {
    build "$tests/fake_archive" right
    build_compare right
    compare >"$work/out" || fail "the right board differs: $(tail -n 1 "$work/out")"
    vectors || fail "the right board differs: $(head -n 1 "$work/out.vectors")"
    echo "right board: $(tail -n 1 "$work/out")"
}

boards_wrong() {
    patched boards "$1"
    build "$work/tests/fake_archive" wrong
    build_compare wrong
    if compare >"$work/out" 2>"$work/err"; then fail "$1: not caught"; fi
    again=$(last_match 's/^replay: compare //p' 's/^crash, again: compare //p')
    [ -n "$again" ] || fail "$1: no replay line"
    if eval "compare $again" >"$work/out.again" 2>&1; then fail "$1: the replay does not differ"; fi
    grep -q '^Case: ' "$tests/wrong/boards/$1.patch" || fail "$1: the patch names no case"
    case_fails boards "$1"
    caught_by_vectors "$1"
    caught_without_the_reference "$1"
    echo "$1: caught, $(last_match 's/^smallest case so far: //p' 's/^crash.*/crash/p')"
}

# ---- programs -------------------------------------------------------------

# replaced NAME: the programs that a wrong one replaces. What is read from standard input is the same in all.
replaced() {
    case $1 in
    edition-2-*) echo day_sheet_2 ;;
    shorten-*) echo shorten_sheet ;;
    to-2-*) echo to_edition_2 ;;
    to-1-*) echo to_edition_1 ;;
    convert-*) echo to_edition_2 to_edition_1 ;;
    training-*) echo training_sheet ;;
    reads-*) echo $sheet_programs ;;
    *) echo day_sheet ;;
    esac
}

# programs_with TARGET [PROGRAM...]: all programs in $work/programs, the references; these are from $work/TARGET
programs_with() {
    target=$1
    shift
    rm -rf "$work/programs"
    mkdir "$work/programs"
    for program in $sheet_programs; do
        from=right
        if is_one_of "$program" "$*"; then from=$target; fi
        ln -s "$work/$from/release/${program}_reference" "$work/programs/$program"
    done
}

# compare_program PROGRAM [OPTION...]: sheets or converted, on $work/programs
compare_program() {
    tested=$1
    shift
    case $tested in
    day_sheet | day_sheet_2 | training_sheet) comparison=sheets ;;
    *) comparison=converted ;;
    esac
    timeout 300 "$work/sheets/release/$comparison" "$tested" "$work/programs" "$@"
}

# sheet_vectors: the published sheets, on $work/programs
sheet_vectors() {
    timeout 120 "$work/sheets/release/sheet_vectors" "$work/programs" "$work/right/release" \
        "$tests"/vectors/*-sheets.txt >"$work/out.vectors" 2>&1
}

# The published sheets come from a file, all at once.
unseen_by_sheet_vectors="reads-once"

# caught_by_sheet_vectors NAME
caught_by_sheet_vectors() {
    ! is_one_of "$1" "$unseen_by_sheet_vectors" || return 0
    if sheet_vectors; then fail "$1: not caught by sheet_vectors"; fi
    grep -q "^sheet vectors: .* faults$" "$work/out.vectors" || fail "$1: $(tail -n 1 "$work/out.vectors")"
}

# How sheet_vectors reads its files, and which output it refuses.
sheet_vectors_tests() {
    CARGO_TARGET_DIR=$work/sheets cargo test --quiet --offline --release --manifest-path "$tests/sheets/Cargo.toml" \
        --bin sheet_vectors >"$work/out.tests" 2>&1 || fail "sheet_vectors: $(cat "$work/out.tests")"
}

programs_all() {
    patches programs
}

programs_start() {
    build "$tests/sheets" sheets
    build "$tests/reference" right
}

programs_right() {
    sheet_vectors_tests
    programs_with right
    for program in $sheet_programs; do
        compare_program $program >"$work/out" || fail "the right program differs: $(tail -n 1 "$work/out")"
        echo "right program: $(tail -n 1 "$work/out")"
    done
    sheet_vectors || fail "the right program differs: $(head -n 1 "$work/out.vectors")"
}

# question NAME: what converted asks beside the output of the reference, and which of the wrong ones must show that it
# does; nothing for the others
question() {
    case $1 in
    shorten-pads) echo longer ;;
    shorten-keeps-the-header | to-2-writes-desks-out) echo other lines ;;
    shorten-one-group-at-a-time | convert-desks-outside-become-0) echo other way back ;;
    esac
}

# caught_by_comparison NAME PROGRAM
caught_by_comparison() {
    if compare_program "$2" >"$work/out" 2>&1; then fail "$1: not caught by the comparison of $2"; fi
    grep -q "^[a-z]*: $2: 1 difference" "$work/out" || fail "$1: $(tail -n 1 "$work/out")"
    asked=$(question "$1")
    [ -z "$asked" ] || grep -q "^  $asked" "$work/out" || fail "$1: not '$asked'"
    bytes=$(sed -n "s/^replay: .*--hex '\(.*\)'$/\1/p" "$work/out")
    if compare_program "$2" --hex "$bytes" >"$work/out.again" 2>&1; then
        fail "$1: the replay does not differ"
    fi
    echo "$1: caught, $2, $(sed -n 's/^smallest sheet found: //p' "$work/out")"
}

programs_wrong() {
    patched programs "$1"
    build "$work/tests/reference" wrong
    case_fails programs "$1" # two patches name none: no test of the reference reads as they do
    for wrong_program in $(replaced "$1"); do
        programs_with wrong $wrong_program
        caught_by_comparison "$1" $wrong_program
        caught_by_sheet_vectors "$1"
    done
}

# ---- stores ---------------------------------------------------------------

# The read-only pages cannot show these: they are between two words of the
# footprint, on their page.
unseen_by_pages="RETIRE_REWRITES_K RING_RETIRE_REWRITES_THE_NEXT_PLACE RING_COLLECT_REWRITES_THE_LIST"
unseen_by_pages="$unseen_by_pages RING_COLLECT_REWRITES_THE_NEW_BEGINNING"

stores_all() {
    grep -o 'defined [A-Z_]*' "$tests/wrong/stores.c" | sed 's/defined //' | sort -u
}

stores_start() {
    . "$tests/stores/build.sh"
    build "$tests/fake_archive" right
    right=$work/right/release/libsession_board.a
}

stores_right() {
    build_driver "$right" "$work/driver"
    "$tests/stores/check.py" "$work/driver" >"$work/out" || fail "the right board fails: $(head -n 1 "$work/out")"
    echo "right board: $(tail -n 1 "$work/out")"
}

# call_of NAME: the wrong call, by the first word of the name, or by the first two of a call of the training room or of
# the rings
call_of() {
    case $1 in
    TRAINING_* | RING_*) echo "$1" | sed 's/^\([A-Z]*_[A-Z]*\)_.*/\1/' ;;
    *) echo "BOARD_${1%%_*}" ;;
    esac | tr A-Z a-z
}

# caught_by_pages NAME CALL
caught_by_pages() {
    gcc -O2 -I"$root/include" -I"$tests/c" -D"$1" "-Wl,--wrap=$2" "$tests/wrong/stores.c" \
        "$tests/host/host_test.c" "$tests"/c/*.c "$right" -o "$work/host_test" 2>"$work/err" ||
        fail "$1: $(cat "$work/err")"
    if "$work/host_test" >"$work/out"; then
        is_one_of "$1" "$unseen_by_pages" || fail "$1: not caught by host_test"
    else
        grep -q "^FAILED in .*: $2 .* a store to byte" "$work/out" || is_one_of "$2" "board_open ring_open" ||
            fail "$1: caught by host_test, but not as a store"
    fi
}

# The trace runs on the smallest hall of each room, and of the rings.
stores_wrong() {
    call=$(call_of "$1")
    build_driver "$right" "$work/driver" -D"$1" -Wno-unused-function "-Wl,--wrap=$call" "$tests/wrong/stores.c"
    if "$tests/stores/check.py" "$work/driver" small >"$work/out"; then fail "$1: not caught"; fi
    found=$(sed -n 's/^stores: \(.* outside its footprint\)$/\1/p' "$work/out")
    case $found in
    "$call "*) ;;
    *) fail "$1: not caught at $call, but: $(cat "$work/out")" ;;
    esac
    [ "$(echo "$found" | wc -l)" -eq 1 ] || fail "$1: caught at other calls too: $found"
    caught_by_pages "$1" "$call"
    echo "$1: caught, $found"
}

# ---- fuzz -----------------------------------------------------------------

# Wrong boards that only the reference can tell.
fuzz_boards="keeps-every-copy joins-in-mid-reading room-one-early position-before-screen newest-first"
fuzz_boards="$fuzz_boards training-size-after-length training-sound-as-the-hall"
fuzz_boards="$fuzz_boards message-before-desk message-after-screen ring-beginning-of-2s-is-sound ring-marks-of-places"
# Wrong boards that the header's promises rule out: the reference is patched too.
fuzz_boards_and_reference="opening-clears-all opening-clears-odd-byte refused-swap-writes repeat-owes"
fuzz_boards_and_reference="$fuzz_boards_and_reference message-of-one-byte message-left-by-an-opening"
fuzz_boards_and_reference="$fuzz_boards_and_reference message-moved-by-a-refused-call message-not-moved-by-a-repeat"
fuzz_boards_and_reference="$fuzz_boards_and_reference message-of-every-desk-moved message-first-in-the-record"
fuzz_boards_and_reference="$fuzz_boards_and_reference run-moves-the-number-of-17 run-soundness-asked-first"
fuzz_boards_and_reference="$fuzz_boards_and_reference run-clears-the-odd-byte run-part-of-a-step-done"
fuzz_boards_and_reference="$fuzz_boards_and_reference ring-reset-when-empty ring-opening-leaves-the-beginnings"
fuzz_programs="reads-once two-groups stops-at-refusal counts-exchanged offset-of-the-failing-byte"
fuzz_programs="$fuzz_programs padded-zero-only shorten-keeps-padded-fields shorten-offset-without-zero-groups"
fuzz_programs="$fuzz_programs edition-2-desk-of-an-accepted-record edition-2-edition-asked-after-both"
fuzz_programs="$fuzz_programs edition-2-unchanged-is-allowed to-2-desks-of-the-hall-only to-1-first-desk-stays"
fuzz_programs="$fuzz_programs training-session-is-22 training-opening-goes-on"

fuzz_all() {
    echo $fuzz_boards $fuzz_boards_and_reference
    grep -o 'defined [A-Z_]*' "$tests/wrong/accesses.c" | sed 's/defined //'
    echo $fuzz_programs
}

# What an access or a failed check is called.
how() {
    sed -n -e 's/^FAILED: /broken: /p' -e 's/^.*ERROR: AddressSanitizer: \([^ ]*\).*/\1/p' "$work/out" | head -n 1
}

# caught_by NAME HARNESS: within five minutes, from no inputs, and again on the input that it saved
caught_by() {
    rm -rf "$work/found"
    mkdir -p "$work/found"
    begun=$(date +%s)
    if "$2" -seed=1 -max_total_time=300 -max_len=4096 -timeout=20 \
        -artifact_prefix="$work/found/" >"$work/out" 2>&1; then fail "$1: not caught"; fi
    took=$(($(date +%s) - begun))
    input=$(find "$work/found" -type f | head -n 1)
    [ -n "$input" ] || fail "$1: no input saved, $(tail -n 1 "$work/out")"
    if "$2" "$input" >"$work/out.again" 2>&1; then fail "$1: not caught again"; fi
    echo "$1: caught after $took s, $(how)"
}

fuzz_start() {
    build "$tests/fake_archive" right
    build "$tests/reference" right
    "$tests/fuzz/build.sh" "$work/right/release" "$work/harness"
    PROGRAMS=$work/programs
    export PROGRAMS
}

# With nothing wrong, ten seconds pass.
fuzz_right() {
    programs_with right
    for harness in fuzz_calls fuzz_sheets; do
        "$work/harness/$harness" -seed=1 -max_total_time=10 >"$work/out" 2>&1 ||
            fail "$harness fails on what is right: $(how)"
        echo "nothing wrong: $(tail -n 1 "$work/out"), none caught"
    done
}

fuzz_wrong() {
    if is_one_of "$1" "$fuzz_boards"; then
        patched boards "$1"
        build "$work/tests/fake_archive" wrong
        "$tests/fuzz/build.sh" "$work/wrong/release" "$work/wrong_harness"
        caught_by "$1" "$work/wrong_harness/fuzz_calls"
    elif is_one_of "$1" "$fuzz_boards_and_reference"; then
        patched boards "$1"
        build "$work/tests/fake_archive" wrong
        "$tests/fuzz/build.sh" "$work/wrong/release" "$work/both_wrong_harness" "$work/tests/fuzz/reference_in_c"
        caught_by "$1, in the reference too" "$work/both_wrong_harness/fuzz_calls"
    elif is_one_of "$1" "$fuzz_programs"; then
        patched programs "$1"
        build "$work/tests/reference" wrong_program
        programs_with wrong_program $(replaced "$1")
        caught_by "$1" "$work/harness/fuzz_sheets"
    else
        # The right board with the name right_drop, and the one of accesses.c, which calls it.
        mkdir -p "$work/accesses"
        objcopy --redefine-sym board_drop=right_drop "$work/harness/board.o" "$work/accesses/right.o"
        gcc -O2 -D"$1" -I"$root/include" -c "$tests/wrong/accesses.c" -o "$work/accesses/accesses.o"
        rm -f "$work/accesses/libsession_board.a"
        ar crs "$work/accesses/libsession_board.a" "$work/accesses/right.o" "$work/accesses/accesses.o"
        "$tests/fuzz/build.sh" "$work/accesses" "$work/wrong_harness"
        caught_by "$1" "$work/wrong_harness/fuzz_calls"
    fi
}

# ---- the kind asked for ---------------------------------------------------

kind=${1:-}
case $kind in
boards | programs | stores | fuzz) shift ;;
*)
    echo "usage: $0 boards|programs|stores|fuzz [NAME...]" >&2
    exit 2
    ;;
esac
all=$("${kind}_all" | tr '\n' ' ')
for name; do is_one_of "$name" "$all" || fail "no '$name' among the $kind"; done
if [ $kind != boards ]; then "${kind}_start"; fi
if [ $# -eq 0 ]; then
    "${kind}_right"
    set -- $all
fi
for name; do "${kind}_wrong" "$name"; done
echo "selftest $kind: $# wrong ones, all caught"
