#!/bin/sh
# Compares the board in C with the one in Rust, as tests/compare does it with
# the archive: the C board replaces the archive.
#
#     bench/c_board/compare.sh [CALLS]
set -eu

here=$(cd "$(dirname "$0")" && pwd)
root=$(dirname "$(dirname "$here")")
out=$root/target/c_board
mkdir -p "$out"
# board SOURCE OBJECT [OPTION...]: the board of a room, or the one with rings
board() {
    source=$1 object=$2
    shift 2
    gcc -std=c11 -Wall -Wextra -Wpedantic -Werror -O2 -msse2 -fno-builtin-memset -I"$root/include" "$@" \
        -c "$here/$source" -o "$object"
}
board board.c "$out/hall.o"
board ring.c "$out/ring.o"
board board.c "$out/training.o" '-DCALL(name)=training_##name' -DROOM_DESKS=4 -DROOM_SCREENS=1 -DROOM_SESSIONS=999
rm -f "$out/libsession_board.a"
ar crs "$out/libsession_board.a" "$out/hall.o" "$out/training.o" "$out/ring.o"
# A folder of its own: cargo builds the comparison anew for each archive.
SESSION_BOARD_LIB=$out CARGO_TARGET_DIR=$out cargo run --quiet --offline --release \
    --manifest-path "$root/tests/compare/Cargo.toml" -- --calls "${1:-500000}" >"$out/compare.log" ||
    { cat "$out/compare.log"; exit 1; }
echo "the board in C against the one in Rust: $(tail -n 1 "$out/compare.log")"
