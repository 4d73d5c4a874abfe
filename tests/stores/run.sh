#!/bin/sh
# Traces the stores of an archive's calls, and compares them with the calls'
# footprints:
#
#     tests/stores/run.sh LIBDIR
#
# LIBDIR contains the archive libsession_board.a. Built files go to
# $CARGO_TARGET_DIR, or else to target/outside.
set -eu

stores=$(cd "$(dirname "$0")" && pwd)
root=$(dirname "$(dirname "$stores")")
out=${CARGO_TARGET_DIR:-$root/target/outside}
mkdir -p "$out"
. "$stores/build.sh"
build_driver "$1/libsession_board.a" "$out/stores_driver"
exec "$stores/check.py" "$out/stores_driver"
