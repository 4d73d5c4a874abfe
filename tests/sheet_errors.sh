#!/bin/sh
# Tests what the sheet programs do where they cannot read or write, and what
# they answer to arguments:
#
#     tests/sheet_errors.sh PROGRAMS        the folder that contains them
set -eu

name=sheet_errors words="PROGRAMS (a folder that contains the sheet programs)"
. "$(dirname "$0")/arguments.sh"
[ $# -eq 1 ] || usage "one argument is needed"
programs_at "$1"
work=$(mktemp -d)
trap 'rm -rf "$work"' EXIT
cd "$work"
checks=0
# The system's messages are compared.
LC_ALL=C
export LC_ALL

fail() {
    echo "sheet_errors: $name: $1"
    exit 1
}

# came WHAT STATUS OUT ERR: a run ended with this status and wrote this, in
# printf's form.
came() {
    [ "$status" -eq "$2" ] || fail "$1: status $status"
    printf "$3" | cmp -s - out || { cat out; fail "$1: standard output"; }
    printf "$4" | cmp -s - err || { cat err; fail "$1: standard error"; }
    checks=$((checks + 1))
}

# run COMMAND...: its status, and out and err. What a command redirects is its own.
run() {
    status=0
    : >out
    "$@" 2>err || status=$?
}

# A program that waits for input is ended, with status 124.
quick() {
    timeout 10 "$program" "$@"
}

mkdir folder
mkfifo pipe unread

from_sheet() { quick <sheet >out; }
nothing() { quick </dev/null >out; }
in_parts() { { head -c 1 sheet; sleep 0.1; tail -c +2 sheet | head -c 3; sleep 0.1; tail -c +5 sheet; } | quick >out; }
from_folder() { quick <folder >out; }
closed_input() { quick <&- >out; }
full_output() { quick <sheet >/dev/full; }
closed_output() { quick <sheet >&-; }
# The end that reads is closed, and the signal is ignored: the first write fails.
unread_output() { (trap '' PIPE; exec 3<>unread 4>unread 3<&-; quick <sheet >&4); }
# The input is a pipe that stays open: a program that read it would wait.
argument() { quick "$@" <>pipe >out; }
full_help() { quick --help >/dev/full; }

# errors NAME SHEET OUTPUT EMPTY: what all programs do alike. OUTPUT is what the
# program writes for SHEET, in printf's form too, EMPTY what it writes for no bytes at all.
errors() {
    name=$1 program=$programs/$1
    printf "$2" >sheet
    usage="usage: $name < SHEET, or $name --help\n"
    input="$name: cannot read standard input: "
    output="$name: cannot write standard output: "

    run from_sheet
    came "a sheet" 0 "$3" ""
    run nothing
    came "no input" 0 "$4" ""
    run in_parts
    came "input that comes in parts" 0 "$3" ""
    run from_folder
    came "a directory as input" 0 "" "${input}Is a directory\n"
    run closed_input
    came "a closed input" 0 "" "${input}Bad file descriptor\n"
    run full_output
    came "a full output" 0 "" "${output}No space left on device\n"
    run closed_output
    came "a closed output" 0 "" "${output}Bad file descriptor\n"
    run unread_output
    came "a pipe that is not read" 0 "" "${output}Broken pipe\n"

    run argument sheet
    came "a file name" 0 "" "$usage"
    run argument ""
    came "an empty argument" 0 "" "$usage"
    run argument --hel
    came "a shorter word" 0 "" "$usage"
    run argument --helpp
    came "a longer word" 0 "" "$usage"
    run argument --help-with-sheets
    came "a word that does not fit" 0 "" "$usage"
    run argument --help sheet
    came "the help and a file name" 0 "" "$usage"

    run argument --help
    grep -qxF "usage: $name < SHEET" out || fail "--help: no usage"
    cp out help
    came "--help" 0 "$(sed 's/%/%%/g' help)\n" ""
    run full_help
    came "--help to a full output" 0 "" "${output}No space left on device\n"
}

# helps WHAT PATTERN: the help says this, in any number of lines
helps() {
    tr '\n' ' ' <help | grep -q "$2" || fail "--help: nothing about $1"
}

# repeated N BYTES: the bytes, in sed's form, N times
repeated() {
    head -c "$1" /dev/zero | sed "s/\x00/$2/g"
}

# From the file long. The reader takes a line and ends: a later write fails.
broken_pipe() { (trap '' PIPE; quick <long) | head -n 1 >out; }
# From the file long, to a checksum.
from_long() { quick <long | cksum >out; }

# long_output WHAT EXPECTED...: the program writes for the file long what this command does
long_output() {
    what=$1
    shift
    run from_long
    came "$what" 0 "$("$@" | cksum)\n" ""
}

# lines_of_day_sheet: more lines than a batch has room for
lines_of_day_sheet() {
    run broken_pipe
    came "a pipe that is no longer read" 0 '0 0 0 0\n' "${output}Broken pipe\n"
}

# helps_about_refusals: the help of a program that writes sheets
helps_about_refusals() {
    helps "refused sheets" 'refused.* line\|line.* refused'
}

errors day_sheet '\1\1\1\4\1' '0 0 0 0\n1 4 13 0\nend 0 1 0\n' '0 0 15 0\nend 0 0 0\n'
helps offsets 'With 15, 16 and 19'
{ printf '\1\1\1'; repeated 30000 '\x05\x01'; } >long
lines_of_day_sheet

errors day_sheet_2 '\0\2\1\1\1\4\1\14' '0 0 0 0\n1 4 13 0\n2 4 13 0\nend 0 2 0\n' '0 0 15 0\nend 0 0 0\n'
helps "its edition" 'edition 2'
{ printf '\0\2\1\1\1\5\1'; repeated 65529 '\x0d'; } >long
lines_of_day_sheet

errors training_sheet '\1\1\1\3\1\1\350\7' '0 0 0 0\n1 3 16 6\nend 0 0 0\n' '0 0 15 0\nend 0 0 0\n'
helps "its room" 'training room'
helps offsets 'With 15, 16 and 19'
{ printf '\4\1\100'; repeated 30000 '\x05\x04'; } >long
lines_of_day_sheet

errors shorten_sheet '\201\0\1\1\4\1' '\1\1\1\4\1' '15 0\n'
helps "what it writes" 'shortest form'
helps_about_refusals
# 65,536 bytes in, 32,769 out.
{ printf '\201\0\1\1'; repeated 16383 '\x85\x00\x81\x00'; } >long
long_in_shortest_form() { printf '\1\1\1'; repeated 16383 '\x05\x01'; }
long_output "the longest sheet" long_in_shortest_form

errors to_edition_2 '\1\1\1\4\1\4\1' '\0\2\1\1\1\4\1\14' '15 0\n'
helps "what it reads" 'edition 1'
helps "what it writes" 'edition 2'
helps_about_refusals
# 65,534 bytes in, 65,536 out; then one byte more in, so that the output is too long.
long_in_edition_1() { printf '\2\1\1\2\2\1'; repeated 16382 '\x05\x01\x05\x02'; }
long_in_edition_2() { printf '\0\2'; long_in_edition_1; }
long_in_edition_1 >long
long_output "the longest output" long_in_edition_2
{ printf '\2\1\1'; repeated 16383 '\x05\x01\x05\x02'; } >long
long_output "an output that is too long" echo 18 0

errors to_edition_1 '\0\2\1\1\1\4\1\14' '\1\1\1\4\1\4\1' '15 0\n'
helps "what it reads" 'edition 2'
helps "what it writes" 'edition 1'
helps_about_refusals
# 32,773 bytes in, 65,536 out; then the longest sheet, whose output is too long.
{ printf '\0\2\1\1\1\2\1\1'; repeated 32765 '\x0d'; } >long
long_with_every_desk() { printf '\1\1\1\2\1\1'; repeated 32765 '\x05\x01'; }
long_output "the longest output" long_with_every_desk
{ printf '\0\2\1\1\1\5\1'; repeated 65529 '\x0d'; } >long
long_output "an output that is too long" echo 18 0

echo "sheet_errors: $checks passed"
