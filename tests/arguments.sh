# Sourced by the scripts that test an archive and the sheet programs: names the programs, and checks the arguments. The
# scripts set `name` and `words`: their own name, and their arguments for the usage line.
usage() {
    echo "$name: $1"
    echo "usage: $0 $words"
    exit 2
}

# The sheet programs, by name.
sheet_programs="day_sheet shorten_sheet day_sheet_2 to_edition_2 to_edition_1 training_sheet"

# archive_at LIBDIR: sets SESSION_BOARD_LIB to its absolute path
archive_at() {
    [ -f "$1/libsession_board.a" ] || usage "no file $1/libsession_board.a"
    SESSION_BOARD_LIB=$(cd "$1" && pwd)
    export SESSION_BOARD_LIB
}

# programs_at PROGRAMS: sets programs to the absolute path of the folder, which contains all sheet programs
programs_at() {
    for program in $sheet_programs; do
        [ -f "$1/$program" ] && [ -x "$1/$program" ] || usage "$1/$program is not a program"
    done
    programs=$(cd "$1" && pwd)
}

# minutes N: 0 would test nothing, and libFuzzer would not stop
minutes() {
    case $1 in
    '' | *[!0-9]* | 0*) usage "MINUTES must be a whole number of at least 1, not '$1'" ;;
    esac
}
