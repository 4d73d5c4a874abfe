# Sourced by run.sh and by tests/selftest.sh, which set `root`: builds the driver.

# The trace needs valgrind.
if ! command -v valgrind >/dev/null; then
    apt-get update --quiet --quiet
    apt-get install --quiet --quiet --yes valgrind
fi

# build_driver LIBRARY PROGRAM [OPTION..]
build_driver() {
    library=$1 built=$2
    shift 2
    gcc -std=c11 -Wall -Wextra -Wpedantic -Werror -O2 -I"$root/include" -I"$root/tests/c" "$@" \
        "$root/tests/stores/driver.c" "$root/tests/c/calls.c" "$root/tests/c/layout.c" "$root/tests/c/runs.c" \
        "$library" -o "$built"
}
