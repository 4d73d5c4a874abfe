#!/bin/sh
# Tests tools/sheet from the command line, with valid and invalid input, and the worked examples of docs/SHEETS.md:
#
#     tests/tool.sh PROGRAMS
#
# PROGRAMS is a folder with the programs day_sheet, shorten_sheet, day_sheet_2, to_edition_2, to_edition_1 and training_sheet.
set -eu

usage() {
    echo "tool: $1"
    echo "usage: $0 PROGRAMS"
    exit 2
}

[ $# -eq 1 ] || usage "one folder is needed"
for name in day_sheet shorten_sheet day_sheet_2 to_edition_2 to_edition_1 training_sheet; do
    [ -f "$1/$name" ] && [ -x "$1/$name" ] || usage "$1/$name is not a program"
done
programs=$(cd "$1" && pwd)
root=$(cd "$(dirname "$0")/.." && pwd)
work=$(mktemp -d)
trap 'rm -rf "$work"' EXIT
cd "$work"
here=$(pwd -P)
checks=0

# A copy of the tool, which finds the programs in target/bin. The commands of docs/SHEETS.md run as they are shown there.
mkdir tools target
cp -R "$root/tools/sheet" "$root/tools/day_sheet_tool" tools
ln -s "$programs" target/bin

# -S: no installed packages; finding them takes longer than the tool.
python=$(python3 -c 'import sys; print(sys.executable)')
sheet() {
    "$python" -S tools/sheet "$@"
}

fail() {
    echo "tool: $1"
    exit 1
}

passed() {
    checks=$((checks + 1))
}

# same WHAT FILE FILE
same() {
    cmp -s "$2" "$3" || { diff "$2" "$3" | head -n 5; fail "$1"; }
    passed
}

# refused STATUS MESSAGE COMMAND...: the command ends with this status, prints
# exactly this line on standard error, and nothing on standard output.
refused() {
    status=0 expected=$1 message=$2
    shift 2
    sheet "$@" >out 2>err || status=$?
    [ "$status" -eq "$expected" ] || { cat err; fail "$*: status $status"; }
    grep -qxF "sheet: $message" err || { cat err; fail "$*: not the message '$message'"; }
    [ "$(wc -l <err)" -eq 1 ] || { cat err; fail "$*: more than one line"; }
    [ ! -s out ] || fail "$*: something was written"
    passed
}

# bad_text MESSAGE TEXT: the text, a printf format, cannot be encoded.
bad_text() {
    printf "$2" >bad.txt
    refused 2 "bad.txt$1" encode bad.txt
}

# bad_sheet MESSAGE BYTES: the bytes, a printf format, cannot be read.
bad_sheet() {
    printf "$2" >bad.sheet
    status=0
    sheet decode bad.sheet >out 2>err || status=$?
    [ "$status" -eq 2 ] || fail "decode: status $status"
    grep -qxF "sheet: bad.sheet: the reading ends at $1" err || { cat err; fail "decode: not '$1'"; }
    passed
}

# ends MEANING ROW BYTES [OPTION...]: for the bytes, a printf format, 'explain' prints this line where the reading ends, and this
# row below it. Several spaces are one here.
ends() {
    printf "$3" >bad.sheet
    printf '%s\n' "$1" " $2" >expected
    shift 3
    sheet explain bad.sheet "$@" | tail -n 3 | head -n 2 | tr -s ' ' >out
    same "explain: not '$(head -n 1 expected)'" expected out
}

# Sheets that several checks use: no bytes, an unknown code, 65,537 bytes.
: >empty.sheet
printf '\001\001\001\011\001' >unknown.sheet
head -c 65537 /dev/zero >long.sheet

# Case D, whole.
cat >d.txt <<'END'
hall 1 1 1
swap 1 1 300
take 1 1 1
swap 1 1 7
retire 1
collect 1
drop 1 1
collect 1
retire 1
END
printf '\001\001\001\003\001\001\254\002\001\001\001\001\003\001\001\007\004\001\005\001\002\001\001\005\001\004\001' >d.bytes
"$root/tools/sheet" encode d.txt >d.sheet
same "encode: case D" d.bytes d.sheet
cat >d.offsets <<'END'
hall 1 1 1     # header, byte 0, edition 1
swap 1 1 300   # record 1, byte 3
take 1 1 1     # record 2, byte 8
swap 1 1 7     # record 3, byte 12
retire 1       # record 4, byte 16
collect 1      # record 5, byte 18
drop 1 1       # record 6, byte 20
collect 1      # record 7, byte 23
retire 1       # record 8, byte 25
END
sheet decode d.sheet >d.again
same "decode: case D" d.offsets d.again
sheet encode d.again >d.sheet
same "encode: case D, with the offsets as comments" d.bytes d.sheet

cat >d.meaning <<'END'
0 0 0 0     a hall of 1 desk, 1 screen per desk, 1 position opens
1 3 0 0     desk 1 swaps position 1 to session 300: was empty, nothing is owed
2 1 0 300   desk 1 takes position 1 onto screen 1: it shows 300
3 3 0 300   desk 1 swaps position 1 to session 7: was 300, now owed
4 4 0 300   desk 1 retires: 300 now waits on its list
5 5 0 0     desk 1 collects: nothing is handed back
6 2 0 300   desk 1 drops screen 1: it showed 300
7 5 0 300   desk 1 collects: one retirement of 300 is handed back; nothing references it now, so it may be closed
8 4 13 0    desk 1 retires: refused, the desk owes no session
end 7 1 1   7 steps accepted, 1 refused by the board, 1 session handed back
END
sheet explain d.sheet >d.explained
same "explain: case D" d.meaning d.explained
sheet explain d.sheet --program "$programs/day_sheet" >d.explained
same "explain: case D by a program" d.meaning d.explained
target/bin/day_sheet <d.sheet >d.lines
sheet explain d.sheet --lines d.lines >d.explained
same "explain: case D by its lines" d.meaning d.explained

# A session that is on the list twice: one retirement is handed back while a screen shows it.
cat >twice.txt <<'END'
hall 2 1 2
swap 1 1 5
swap 1 2 5
take 2 1 1
swap 1 2 7
retire 1
collect 1
swap 1 1 8
retire 1
collect 1
END
sheet encode twice.txt >twice.sheet
echo "9 5 0 5     desk 1 collects: one retirement of 5 is handed back; it is still on desk 1's list and must stay open" >twice.meaning
sheet explain twice.sheet | sed -n 's/ *$//; /^9 /p' >twice.explained
same "explain: a session that must stay open" twice.meaning twice.explained

# Repeats: a swap to what is already at the position changes nothing, and nothing is owed for it.
cat >repeats.txt <<'END'
hall 2 1 2
swap 1 2 0
swap 1 1 500
swap 2 1 500
retire 2
swap 1 1 600
swap 1 1 600
retire 1
swap 1 1 600
collect 1
END
cat >repeats.meaning <<'END'
0 0 0 0     a hall of 2 desks, 1 screen per desk, 2 positions opens
1 3 0 0     desk 1 swaps position 2 to nothing: it is already empty, nothing changes
2 3 0 0     desk 1 swaps position 1 to session 500: was empty, nothing is owed
3 3 0 500   desk 2 swaps position 1 to session 500: it already holds 500, nothing changes
4 4 13 0    desk 2 retires: refused, the desk owes no session
5 3 0 500   desk 1 swaps position 1 to session 600: was 500, now owed
6 3 12 0    desk 1 swaps position 1 to session 600: refused, the desk must first retire the session it owes
7 4 0 500   desk 1 retires: 500 now waits on its list
8 3 0 600   desk 1 swaps position 1 to session 600: it already holds 600, nothing changes
9 5 0 500   desk 1 collects: one retirement of 500 is handed back; nothing references it now, so it may be closed
end 7 2 1   7 steps accepted, 2 refused by the board, 1 session handed back
END
sheet encode repeats.txt >repeats.sheet
sheet explain repeats.sheet >repeats.explained
same "explain: repeats" repeats.meaning repeats.explained
sheet picture repeats.sheet repeats.svg
[ "$(grep -c '>no change<' repeats.svg)" -eq 3 ] || fail "the picture of repeats does not show three"
[ "$(grep -c '>owes<' repeats.svg)" -eq 2 ] && [ "$(grep -c 'stroke-dasharray="2 2"' repeats.svg)" -eq 1 ] ||
    fail "the picture of repeats does not show that only one swap owes"
[ "$(grep -c '>600</text>' repeats.svg)" -eq 1 ] || fail "the picture of repeats does not show 600 in one bar"
passed

# Comments, blank lines, spaces and other line ends do not change the bytes.
printf '\357\273\277# a comment\r\n\r\n\thall  1 1 1 # the hall\r\nswap 1 01 300\r\n' >loose.txt
sheet encode loose.txt >loose.sheet
printf '\001\001\001\003\001\001\254\002' >loose.bytes
same "encode: a loose text" loose.bytes loose.sheet

# 'decode' gives the offset of each record, also after numbers of several bytes, and writes the part that could be read.
printf '\001\001\001\003\001\001\254\002\004\377\377\003\005\200' >wide.sheet
cat >wide.offsets <<'END'
hall 1 1 1     # header, byte 0, edition 1
swap 1 1 300   # record 1, byte 3
retire 65535   # record 2, byte 8
END
sheet decode wide.sheet >wide.again 2>err && fail "decode: a cut sheet"
same "decode: numbers of several bytes, and a cut record" wide.offsets wide.again
echo "sheet: wide.sheet: the reading ends at byte 13: the desk of record 3 (collect) is cut off after 1 byte (reply number 15)" >expected
same "decode: where it is cut" expected err

# 'encode' writes every number in shortest form: each length's ends, and numbers with zeros before them.
cat >short.txt <<'END'
hall 1 1 01
swap 0 1 127
swap 1 128 16383
swap 1 16384 65535
swap 00001 001 0000000
END
sheet encode short.txt >short.sheet
printf '\001\001\001\003\000\001\177\003\001\200\001\377\177\003\001\200\200\001\377\377\003\003\001\001\000' >expected
same "encode: in shortest form" expected short.sheet
printf '0 0 0 0\n1 3 6 0\n2 3 8 0\n3 3 8 0\n4 3 0 0\nend 1 3 0\n' >expected
target/bin/day_sheet <short.sheet >out
same "the program reads what 'encode' writes" expected out
target/bin/shorten_sheet <short.sheet >out
same "shorten_sheet leaves what 'encode' writes" short.sheet out

# The examples in both editions: encoded and decoded, converted, and their pictures, compared with the gallery.
for text in "$root"/examples/*.txt; do
    name=$(basename "$text" .txt)
    for edition in 2 1; do
        sheet encode "$text" --edition "$edition" >"$name.sheet"
        sheet decode "$name.sheet" >"$name.txt"
        sheet encode "$name.txt" --edition "$edition" >"$name.again"
        same "$name, edition $edition: encode, decode, encode" "$name.sheet" "$name.again"
        sheet picture "$name.sheet" "$name.svg"
        same "$name, edition $edition: docs/gallery is not up to date ('make gallery')" "$root/docs/gallery/$name.svg" "$name.svg"
        cp "$name.sheet" "$name.$edition"
        sheet explain "$name.sheet" >"$name.meaning.$edition"
    done
    same "$name: explained in both editions" "$name.meaning.1" "$name.meaning.2"
    target/bin/to_edition_2 <"$name.1" >out
    same "$name: to_edition_2" "$name.2" out
    target/bin/to_edition_1 <"$name.2" >out
    same "$name: to_edition_1" "$name.1" out
done

# Pictures are XML, also of a sheet without records and of a truncated one.
printf '\002\001\001' >nothing.sheet
printf '\002\001\001\005\001\001\002' >cut.sheet
for name in d nothing cut; do
    sheet picture "$name.sheet" "$name.svg"
    "$python" -c 'import sys, xml.dom.minidom as dom; dom.parse(sys.argv[1])' "$name.svg" || fail "$name.svg: not XML"
    passed
done
grep -q ">refused 13<" d.svg || fail "the picture of case D does not show the refusal"
grep -q ">number 15<" cut.svg && grep -q ">byte 7<" cut.svg || fail "the picture of a cut sheet does not show its end"
passed

# Texts that cannot be encoded.
bad_text ":2: no step 'take2'; the steps are take, drop, swap, retire, collect" 'hall 1 1 1\ntake2 1 1\n'
bad_text ":3: 'take' has 3 numbers (desk, screen, position), here it has 2" 'hall 1 1 1\n\ntake 1 1 # short\n'
bad_text ":2: 'retire' has 1 number (desk), here it has 2" 'hall 1 1 1\nretire 1 1\n'
bad_text ":2: session: '-7' is not a number" 'hall 1 1 1\nswap 1 1 -7\n'
bad_text ":2: session: 65536 is over 65,535 (reply number 16)" 'hall 1 1 1\nswap 1 1 65536\n'
bad_text ":2: desk: 12345678901234567890... is over 65,535 (reply number 16)" 'hall 1 1 1\nretire 1234567890123456789012345\n'
bad_text ":1: the first line must be 'hall DESKS SCREENS POSITIONS', not 'take'" 'take 1 1 1\nhall 1 1 1\n'
bad_text ":2: only the first line may be 'hall'" 'hall 1 1 1\nhall 1 1 1\n'
bad_text ": no line 'hall DESKS SCREENS POSITIONS'; every sheet starts with one" '# nothing but a comment\n'
bad_text ": no line 'hall DESKS SCREENS POSITIONS'; every sheet starts with one" ''
bad_text ":2: not UTF-8 text; is it a sheet already? then 'decode' reads it" 'hall 1 1 1\n\377\376\n'
bad_text ":1: not plain text; is it a sheet already? then 'decode' reads it" '\001\001\001\005\001'
awk 'BEGIN { print "hall 1 1 1"; for (i = 0; i < 32767; i++) print "collect 1" }' >long.txt
refused 2 "long.txt:32768: the sheet is longer than 65,536 bytes with this record (reply number 18)" encode long.txt

# Sheets that cannot be read.
bad_sheet "byte 0: number P of the header (desks) is missing (reply number 15)" ''
bad_sheet "byte 5: the screen of record 1 (take) is cut off after 1 byte (reply number 15)" '\001\001\001\001\001\201'
bad_sheet "byte 4: the desk of record 1 (swap) is 65,536, over 65,535 (reply number 16)" '\001\001\001\003\200\200\004\001'
bad_sheet "byte 5: the code of record 2 is 9, but the codes are 1 to 5 (reply number 17)" '\001\001\001\005\001\011\001'
too_long="the reading ends before the header: a sheet has at most 65,536 bytes (reply number 18)"
refused 2 "long.sheet: $too_long" decode long.sheet

# The number that ends a reading, explained with the bytes around it: each number of the header, the code, each field.
ends "0 0 15 0 the reading ends at byte 0: number P of the header (desks) is missing (reply number 15)" \
    "from byte 0: [end] offset 0 (0x0)" ''
ends "0 0 15 1 the reading ends at byte 1: number c of the header (screens per desk) is missing (reply number 15)" \
    "from byte 0: 01 [end] offset 1 (0x1)" '\001'
ends "0 0 16 2 the reading ends at byte 2: number L of the header (positions) is 65,536, over 65,535 (reply number 16)" \
    "from byte 0: 01 01 [80 80 04] 05 01 05 01 .. offset 2 (0x2)" '\001\001\200\200\004\005\001\005\001\005\001'
ends "0 0 16 2 the reading ends at byte 2: number L of the header (positions) is 65,536, over 65,535 (reply number 16)" \
    "from byte 0: 01 01 [80 80 04] 05 01 05 01 offset 2 (0x2)" '\001\001\200\200\004\005\001\005\001'
ends "2 0 15 5 the reading ends at byte 5: the code of record 2 is cut off after 1 byte (reply number 15)" \
    "from byte 0: 01 01 01 05 01 [80] offset 5 (0x5)" '\001\001\001\005\001\200'
ends "1 5 15 4 the reading ends at byte 4: the desk of record 1 (collect) is missing (reply number 15)" \
    "from byte 0: 01 01 01 05 [end] offset 4 (0x4)" '\001\001\001\005'
ends "1 5 15 4 the reading ends at byte 4: the desk of record 1 (collect) is cut off after 2 bytes (reply number 15)" \
    "from byte 0: 01 01 01 05 [80 80] offset 4 (0x4)" '\001\001\001\005\200\200'
ends "1 2 16 5 the reading ends at byte 5: the screen of record 1 (drop) is longer than three bytes (reply number 16)" \
    "from byte 0: 01 01 01 02 01 [ff ff ff] 01 offset 5 (0x5)" '\001\001\001\002\001\377\377\377\001'
ends "1 1 16 6 the reading ends at byte 6: the position of record 1 (take) is 2,097,151, over 65,535 (reply number 16)" \
    "from byte 0: 01 01 01 01 01 01 [ff ff 7f] offset 6 (0x6)" '\001\001\001\001\001\001\377\377\177'
# Numbers of two and three bytes before it.
ends "2 3 15 13 the reading ends at byte 13: the session of record 2 (swap) is cut off after 1 byte (reply number 15)" \
    "from byte 5: ff 03 03 80 80 01 ff 7f [ac] offset 13 (0xd)" '\001\001\001\004\377\377\003\003\200\200\001\377\177\254'
ends "2 9 17 0 the reading ends at byte 5: the code of record 2 is 9, but the codes are 1 to 5 (reply number 17)" \
    "from byte 0: 01 01 01 05 01 [09] 01 offset 5 (0x5)" '\001\001\001\005\001\011\001'
# A padded number: its value, its bytes, and those of its shortest form.
ends "0 0 19 0 the reading ends at byte 0: number P of the header (desks) is 1, padded: 81 00 instead of 01 (reply number 19)" \
    "from byte 0: [81 00] 01 01 05 01 offset 0 (0x0)" '\201\000\001\001\005\001'
ends "0 0 19 1 the reading ends at byte 1: number c of the header (screens per desk) is 128, padded: 80 81 00 instead of 80 01 (reply number 19)" \
    "from byte 0: 01 [80 81 00] 01 offset 1 (0x1)" '\001\200\201\000\001'
ends "0 0 19 2 the reading ends at byte 2: number L of the header (positions) is 0, padded: 80 80 00 instead of 00 (reply number 19)" \
    "from byte 0: 11 01 [80 80 00] offset 2 (0x2)" '\021\001\200\200\000'
ends "2 0 19 5 the reading ends at byte 5: the code of record 2 is 6, padded: 86 00 instead of 06 (reply number 19)" \
    "from byte 0: 01 01 01 05 01 [86 00] 05 01 offset 5 (0x5)" '\001\001\001\005\001\206\000\005\001'
ends "1 4 19 4 the reading ends at byte 4: the desk of record 1 (retire) is 127, padded: ff 00 instead of 7f (reply number 19)" \
    "from byte 0: 01 01 01 04 [ff 00] offset 4 (0x4)" '\001\001\001\004\377\000'
ends "1 2 19 5 the reading ends at byte 5: the screen of record 1 (drop) is 1, padded: 81 80 00 instead of 01 (reply number 19)" \
    "from byte 0: 01 01 01 02 01 [81 80 00] 05 01 offset 5 (0x5)" '\001\001\001\002\001\201\200\000\005\001'
ends "1 1 19 6 the reading ends at byte 6: the position of record 1 (take) is 0, padded: 80 00 instead of 00 (reply number 19)" \
    "from byte 0: 01 01 01 01 01 01 [80 00] offset 6 (0x6)" '\001\001\001\001\001\001\200\000'
ends "1 3 19 6 the reading ends at byte 6: the session of record 1 (swap) is 16,383, padded: ff ff 00 instead of ff 7f (reply number 19)" \
    "from byte 0: 01 01 01 03 01 01 [ff ff 00] offset 6 (0x6)" '\001\001\001\003\001\001\377\377\000'
# 15 and 16 are asked before 19.
ends "1 5 15 4 the reading ends at byte 4: the desk of record 1 (collect) is cut off after 2 bytes (reply number 15)" \
    "from byte 0: 01 01 01 05 [81 80] offset 4 (0x4)" '\001\001\001\005\201\200'
ends "1 5 16 4 the reading ends at byte 4: the desk of record 1 (collect) is longer than three bytes (reply number 16)" \
    "from byte 0: 01 01 01 05 [81 80 80] 00 offset 4 (0x4)" '\001\001\001\005\201\200\200\000'
# The greatest offset: 65,536 bytes, and the desk of the last collect should follow them.
"$python" -c 'import sys; sys.stdout.buffer.write(b"\1\1\1" + 32766 * b"\5\1" + b"\5")' >full.sheet
cat >full.meaning <<'END'
32767 5 15 65536   the reading ends at byte 65536: the desk of record 32767 (collect) is missing (reply number 15)
                   from byte 65528: 01 05 01 05 01 05 01 05 [end]   offset 65536 (0x10000)
end 32766 0 0      32,766 steps accepted, 0 refused by the board, 0 sessions handed back
END
sheet explain full.sheet | tail -n 3 >full.explained
same "explain: offset 65,536" full.meaning full.explained
# An opening that is refused, or a sheet that is too long, has no such row.
printf '\021\001\001\005' >closed.sheet
cat >expected <<'END'
0 0 1 0     a hall of 17 desks, 1 screen per desk, 1 position: refused, a hall has 1 to 16 desks; nothing more is read
end 0 0 0   0 steps accepted, 0 refused by the board, 0 sessions handed back
END
sheet explain closed.sheet >out
same "explain: 1" expected out
cat >expected <<'END'
0 0 18 0    the reading ends before the header: a sheet has at most 65,536 bytes (reply number 18)
end 0 0 0   0 steps accepted, 0 refused by the board, 0 sessions handed back
END
sheet explain long.sheet >out
same "explain: 18" expected out

# found ARGUMENT...: 'find' prints the lines of standard input.
found() {
    cat >expected
    sheet find "$@" >out
    same "find $*" expected out
}

# Records and their bytes, from a record and from a byte.
swap_of_d="record 1: byte 3 (0x3), 5 bytes: 03 01 01 ac 02
text: swap 1 1 300
byte 3: 03      code: 3 (swap)
byte 4: 01      desk: 1
byte 5: 01      position: 1
byte 6: ac 02   session: 300"
found --record 1 d.sheet <<END
$swap_of_d
END
found --byte 7 d.sheet <<END
byte 7: the second of the 2 bytes of the session of record 1 (swap)
$swap_of_d
END
found --record 0 d.sheet <<'END'
header: byte 0 (0x0), 3 bytes: 01 01 01
text: hall 1 1 1
byte 0: 01   P (desks): 1
byte 1: 01   c (screens per desk): 1
byte 2: 01   L (positions): 1
END
found --byte 0x1a d.sheet <<'END'
byte 26: the desk of record 8 (retire)
record 8: byte 25 (0x19), 2 bytes: 04 01
text: retire 1
byte 25: 04   code: 4 (retire)
byte 26: 01   desk: 1
END
# A number of three bytes, and the number that ends the reading.
found --byte 11 wide.sheet <<'END'
byte 11: the third of the 3 bytes of the desk of record 2 (retire)
record 2: byte 8 (0x8), 4 bytes: 04 ff ff 03
text: retire 65535
byte 8: 04         code: 4 (retire)
byte 9: ff ff 03   desk: 65535
END
found --byte 13 wide.sheet <<'END'
byte 13: the desk of record 3 (collect)
record 3: byte 12 (0xc), 2 bytes: 05 80
no text: the reading ends here
byte 12: 05   code: 5 (collect)
byte 13: 80   desk: cut off after 1 byte (reply number 15)
END
found --record 1 unknown.sheet <<'END'
record 1: byte 3 (0x3), 1 byte: 09
no text: the reading ends here
byte 3: 09   code: 9, but the codes are 1 to 5 (reply number 17)
END
found --byte 65536 full.sheet <<'END'
byte 65536: the sheet ends here; the desk of record 32767 (collect) is missing
record 32767: byte 65535 (0xffff), 1 byte: 05
no text: the reading ends here
byte 65535: 05      code: 5 (collect)
byte 65536: [end]   desk: missing (reply number 15)
END
found --byte 0 empty.sheet <<'END'
byte 0: the sheet ends here; number P of the header (desks) is missing
header: byte 0 (0x0), 0 bytes: none
no text: the reading ends here
byte 0: [end]   P (desks): missing (reply number 15)
END

# A hall that is refused: 'decode' writes the records and 'find' finds them, and both say that the program does not read them.
no_record="the hall is refused and the program reads no record"
bad_desks="$no_record: number P of the header (desks) is 17, but a hall has 1 to 16 desks (reply number 1)"
bad_screens="$no_record: number c of the header (screens per desk) is 5, but a desk has 1 to 4 screens (reply number 2)"
bad_positions="$no_record: number L of the header (positions) is 128, but a hall has 1 to 64 positions (reply number 3)"
printf '\021\001\001\005\200' >desks.sheet
printf '\001\005\001\005\001\011\001' >screens.sheet
printf '\001\001\200\001\005\001' >positions.sheet

# decoded MESSAGE SHEET [OPTION...]: 'decode' writes the lines of standard input and this message; its status is 2.
decoded() {
    cat >expected
    status=0 message=$1
    shift
    sheet decode "$@" >out 2>err || status=$?
    [ "$status" -eq 2 ] || fail "decode $*: status $status"
    same "decode $*" expected out
    echo "sheet: $1: $message" >expected
    same "decode $*: its message" expected err
}
cut_off="with a valid hall, the reading ends at byte 4: the desk of record 1 (collect) is cut off after 1 byte (reply number 15)"
decoded "$bad_desks; $cut_off" desks.sheet <<'END'
hall 17 1 1   # header, byte 0, edition 1
END
bad_code="with a valid hall, the reading ends at byte 5: the code of record 2 is 9, but the codes are 1 to 5 (reply number 17)"
decoded "$bad_screens; $bad_code" screens.sheet <<'END'
hall 1 5 1   # header, byte 0, edition 1
collect 1    # record 1, byte 3
END
decoded "$bad_positions" positions.sheet <<'END'
hall 1 1 128   # header, byte 0, edition 1
collect 1      # record 1, byte 4
END
found --byte 4 desks.sheet <<END
byte 4: the desk of record 1 (collect)
record 1: byte 3 (0x3), 2 bytes: 05 80
$bad_desks
no text: with a valid hall, the reading ends here
byte 3: 05   code: 5 (collect)
byte 4: 80   desk: cut off after 1 byte (reply number 15)
END
found --record 1 screens.sheet <<END
record 1: byte 3 (0x3), 2 bytes: 05 01
$bad_screens
text: collect 1
byte 3: 05   code: 5 (collect)
byte 4: 01   desk: 1
END
found --byte 5 positions.sheet <<END
byte 5: the desk of record 1 (collect)
record 1: byte 4 (0x4), 2 bytes: 05 01
$bad_positions
text: collect 1
byte 4: 05   code: 5 (collect)
byte 5: 01   desk: 1
END
found --record 0 positions.sheet <<'END'
header: byte 0 (0x0), 4 bytes: 01 01 80 01
text: hall 1 1 128
byte 0: 01      P (desks): 1
byte 1: 01      c (screens per desk): 1
byte 2: 80 01   L (positions): 128, but a hall has 1 to 64 positions (reply number 3)
END
refused 2 "desks.sheet: record 2 is not read; $bad_desks; $cut_off" find desks.sheet --record 2
refused 2 "screens.sheet: byte 6 is not read; $bad_screens; $bad_code" find screens.sheet --byte 6
refused 2 "positions.sheet: no record 2; the sheet has 1 record, and the header is record 0" find positions.sheet --record 2

# Padded numbers: 'decode' and 'find' stop where the program does, and say whether shorten_sheet accepts the sheet.

# shortened LINE SHEET: shorten_sheet refuses this sheet, and its whole output is this line.
shortened() {
    echo "$1" >expected
    target/bin/shorten_sheet <"$2" >out
    same "shorten_sheet <$2" expected out
}
rewritten="'shorten_sheet' rewrites the sheet in shortest form"
refused_too="'shorten_sheet' refuses the sheet too"
ends_at="the reading ends at byte 8: the code of record 2 is 5, padded: 85 00 instead of 05 (reply number 19)"
printf '\001\001\001\003\001\001\254\002\205\000\201\200\000' >padded.sheet
decoded "$ends_at; $rewritten" padded.sheet <<'END'
hall 1 1 1     # header, byte 0, edition 1
swap 1 1 300   # record 1, byte 3
END
printf '\001\001\001\003\001\001\254\002\005\001' >expected
target/bin/shorten_sheet <padded.sheet >shortest.sheet
same "shorten_sheet <padded.sheet" expected shortest.sheet
found --byte 9 padded.sheet <<'END'
byte 9: the second of the 2 bytes of the code of record 2
record 2: byte 8 (0x8), 2 bytes: 85 00
no text: the reading ends here
byte 8: 85 00   code: 5, padded: 85 00 instead of 05 (reply number 19)
END
refused 2 "padded.sheet: byte 10 is not read; $ends_at; $rewritten" find padded.sheet --byte 10
refused 2 "padded.sheet: record 3 is not read; $ends_at; $rewritten" find padded.sheet --record 3
sheet picture padded.sheet padded.svg
grep -q ">number 19<" padded.svg && grep -q ">byte 8<" padded.svg || fail "the picture of a padded sheet does not show its end"
passed
# Lines from the time when padded numbers were read are those of the rewritten sheet.
printf '0 0 0 0\n1 3 0 0\n2 5 0 0\nend 2 0 0\n' >padded.lines
sheet explain shortest.sheet --lines padded.lines >out
sheet explain shortest.sheet >expected
same "explain: the lines of a sheet before it was rewritten" expected out

# Sheets that shorten_sheet refuses too: with 15, 16, 17, and 1.
padded_desks="the reading ends at byte 0: number P of the header (desks) is 1, padded: 81 00 instead of 01 (reply number 19)"
ends_at="the reading ends at byte 15: the desk of record 3 (collect) is missing (reply number 15)"
printf '\201\000\001\001\003\001\001\254\202\000\204\200\000\001\005' >padded.sheet
decoded "$padded_desks; $refused_too: $ends_at" padded.sheet </dev/null
shortened "15 15" padded.sheet
padded_desk="the reading ends at byte 4: the desk of record 1 (collect) is 1, padded: 81 00 instead of 01 (reply number 19)"
ends_at="the reading ends at byte 7: the desk of record 2 (collect) is 65,536, over 65,535 (reply number 16)"
printf '\001\001\001\005\201\000\005\200\200\004' >padded.sheet
decoded "$padded_desk; $refused_too: $ends_at" padded.sheet <<'END'
hall 1 1 1   # header, byte 0, edition 1
END
refused 2 "padded.sheet: byte 7 is not read; $padded_desk; $refused_too: $ends_at" find padded.sheet --byte 7
shortened "16 7" padded.sheet
padded_code="the reading ends at byte 3: the code of record 1 is 6, padded: 86 00 instead of 06 (reply number 19)"
ends_at="the reading ends at byte 3: the code of record 1 is 6, but the codes are 1 to 5 (reply number 17)"
printf '\001\001\001\206\000\001' >padded.sheet
decoded "$padded_code; $refused_too: $ends_at" padded.sheet <<'END'
hall 1 1 1   # header, byte 0, edition 1
END
shortened "17 0" padded.sheet
padded_screens="the reading ends at byte 1: number c of the header (screens per desk) is 1, padded: 81 00 instead of 01 (reply number 19)"
printf '\021\201\000\001\005\001' >padded.sheet
decoded "$padded_screens; $refused_too: $bad_desks" padded.sheet </dev/null
shortened "1 0" padded.sheet
# The hall is refused: neither program reads the padded number after it.
printf '\021\001\001\005\201\000' >padded.sheet
decoded "$bad_desks; with a valid hall, $padded_desk" padded.sheet <<'END'
hall 17 1 1   # header, byte 0, edition 1
END
shortened "1 0" padded.sheet

# The line of a refused sheet, where the rewritten one was expected.
printf '\001\001\001\005\200\200\004' | target/bin/shorten_sheet >line.sheet
no_sheet="line.sheet: this is not a sheet but the line of a refused one"
too_large="at its byte 4: a number must end within three bytes and be at most 65,535"
refused 2 "$no_sheet: 16 4 ($too_large)" decode line.sheet
refused 2 "$no_sheet: 16 4 ($too_large)" explain line.sheet
head -c 10 d.sheet | target/bin/shorten_sheet >line.sheet
refused 2 "$no_sheet: 15 10 (at its byte 10: the sheet ends before this number is complete)" decode line.sheet
target/bin/shorten_sheet <desks.sheet >line.sheet
refused 2 "$no_sheet: 1 0 (a hall has 1 to 16 desks)" decode line.sheet
target/bin/shorten_sheet <unknown.sheet >line.sheet
refused 2 "$no_sheet: 17 0 (no step has this code)" find line.sheet --byte 0
target/bin/shorten_sheet <long.sheet >line.sheet
refused 2 "$no_sheet: 18 0 (a sheet has at most 65,536 bytes)" find line.sheet --record 0
# Lines that it does not write are bytes like others.
for line in "0 0" "17 3" "20 4" "99 0"; do
    echo "$line" >line.sheet
    status=0
    sheet decode line.sheet >out 2>err || status=$?
    [ "$status" -eq 2 ] && grep -q "^sheet: line.sheet: $no_record: number P" err || { cat err; fail "decode: '$line'"; }
    passed
done

# Records and bytes that are not there, or after the end of the reading.
ends_at="the reading ends at byte 13: the desk of record 3 (collect) is cut off after 1 byte (reply number 15)"
refused 2 "d.sheet: no record 9; the sheet has 8 records, and the header is record 0" find d.sheet --record 9
refused 2 "d.sheet: no byte 27; the sheet has 27 bytes, counted from 0" find d.sheet --byte 27
refused 2 "wide.sheet: record 4 is not read; $ends_at" find wide.sheet --record 4
refused 2 "wide.sheet: no byte 14; the sheet has 14 bytes, counted from 0" find wide.sheet --byte 14
refused 2 "unknown.sheet: byte 4 is not read; the reading ends at byte 3: the code of record 1 is 9, but the codes are 1 to 5 (reply number 17)" \
    find unknown.sheet --byte 4
refused 2 "empty.sheet: no byte 1; the sheet has 0 bytes, counted from 0" find empty.sheet --byte 1
refused 2 "long.sheet: byte 0 is not read; $too_long" find long.sheet --byte 0
refused 2 "long.sheet: byte 65536 is not read; $too_long" find long.sheet --byte 65536
refused 2 "'find' needs either --record N or --byte N" find d.sheet
refused 2 "'find' needs either --record N or --byte N" find d.sheet --record 1 --byte 1
refused 2 "--record 'x1': not a number from 0 to 65,536" find d.sheet --record x1
refused 2 "--record '-1': not a number from 0 to 65,536" find d.sheet --record -1
refused 2 "--byte '65537': not a number from 0 to 65,536" find d.sheet --byte 65537
refused 2 "d.txt: this is the text of a sheet; 'encode' makes the sheet" find d.txt --byte 0

# Each command has a help text.
for command in encode decode explain find picture; do
    sheet "$command" --help >out
    grep -q "^usage: sheet $command " out || fail "$command --help"
    sheet --help | grep -q "^ *$command  " || fail "--help does not name $command"
    passed
done
sheet find --help | grep -qx 'usage: sheet find \[-h\] SHEET (--record N | --byte N) \[--edition N\] \[--room ROOM\]' ||
    fail "find --help: not its usage"
passed

# Files and programs that do not exist, or are of the wrong kind.
refused 2 "none.txt: no such file or directory" encode none.txt
refused 2 "none.sheet: no such file or directory" explain none.sheet
refused 2 ".: is a directory" decode .
refused 2 "d.txt: this is the text of a sheet; 'encode' makes the sheet" explain d.txt
refused 2 "./none: no such file or directory" explain d.sheet --program none
refused 2 "/bin/false: ended with status 1" explain d.sheet --program /bin/false
refused 2 "/bin/true: the last line is incomplete; are these the lines of a sheet?" explain d.sheet --program /bin/true
printf '#!/bin/sh\necho "day_sheet: cannot read standard input: Is a directory" >&2\n' >failing
chmod +x failing
refused 2 "./failing: day_sheet: cannot read standard input: Is a directory" explain d.sheet --program failing
refused 2 "none/d.svg: no such file or directory" picture d.sheet none/d.svg
printf '\021\001\001' >refused.sheet
refused 2 "the opening is refused with 1, so there is no hall to draw ('explain' says why)" \
    picture refused.sheet refused.svg

# Lines of another sheet, and lines that the board would not print.
refused 2 "d.lines:2: not a line of this sheet: it says record 1, code 3; the sheet has record 1, code 1" \
    explain mistakes.sheet --lines d.lines
sed 's/^7 5 0 300$/7 5 0 0/' d.lines >wrong.lines
refused 2 "record 7: the program printed 0 0, but by documents 01 and 02 it is 0 300; nothing is drawn" \
    picture d.sheet wrong.svg --lines wrong.lines
sed 's/^end .*/end 7 1 2/' d.lines >wrong.lines
refused 2 "end: the program printed 7 1 2, but by documents 01 and 02 it is 7 1 1; nothing is drawn" \
    picture d.sheet wrong.svg --lines wrong.lines
[ ! -e wrong.svg ] || fail "a picture of wrong lines was written"

# corrected LINE SHEET LINES [OPTION...]: with these lines, a printf format, 'explain' prints this line, which says what is wrong.
corrected() {
    line=$1 of=$2
    printf "$3" >wrong.lines
    shift 3
    sheet explain "$of" --lines wrong.lines "$@" >out
    grep -qxF "$line" out || { cat out; fail "explain: not '$line'"; }
    passed
}
ends_at="the reading ends at byte 3: the code of record 1 is 9, but the codes are 1 to 5 (reply number 17)"
corrected "1 9 17 3    the last column is 3, but it should be 0; $ends_at" unknown.sheet '0 0 0 0\n1 9 17 3\nend 0 0 0\n'
ends_at="the reading ends at byte 7: the screen of record 2 (take) is missing (reply number 15)"
corrected "2 1 0 0     the reply number is 0, but it should be 15; $ends_at" cut.sheet '0 0 0 0\n1 5 0 0\n2 1 0 0\nend 2 0 0\n'
corrected "2 1 15 6    the last column is 6, but it should be 7; $ends_at" cut.sheet '0 0 0 0\n1 5 0 0\n2 1 15 6\nend 1 0 0\n'
refused 2 "record 2: the program printed 15 6, but by documents 01 and 02 it is 15 7; nothing is drawn" \
    picture cut.sheet wrong.svg --lines wrong.lines
printf '\001\001\001\005\001\205\000\001' >padded.sheet
ends_at="the reading ends at byte 5: the code of record 2 is 5, padded: 85 00 instead of 05 (reply number 19)"
corrected "2 0 17 0    the reply number is 17, but it should be 19; $ends_at" padded.sheet '0 0 0 0\n1 5 0 0\n2 0 17 0\nend 1 0 0\n'
corrected "2 0 19 0    the last column is 0, but it should be 5; $ends_at" padded.sheet '0 0 0 0\n1 5 0 0\n2 0 19 0\nend 1 0 0\n'

# Edition 2. Case D: 'encode' leaves out the desk of each record but the first; the lines and their meaning are the same.
cat >d2.offsets <<'END'
hall 1 1 1     # header, byte 0, edition 2
swap 1 1 300   # record 1, byte 5
take 1 1 1     # record 2, byte 10
swap 1 1 7     # record 3, byte 13
retire 1       # record 4, byte 16
collect 1      # record 5, byte 17
drop 1 1       # record 6, byte 18
collect 1      # record 7, byte 20
retire 1       # record 8, byte 21
END
printf '\000\002\001\001\001\003\001\001\254\002\011\001\001\013\001\007\014\015\012\001\015\014' >d2.bytes
sheet encode --edition 2 d.txt >d2.sheet
same "encode: case D in edition 2" d2.bytes d2.sheet
sheet encode --edition 1 d.txt >out
same "encode: case D in edition 1" d.bytes out
sheet decode d2.sheet >d2.again
same "decode: case D in edition 2" d2.offsets d2.again
sheet encode --edition 2 d2.again >out
same "encode: case D in edition 2, with the offsets as comments" d2.bytes out
sheet explain d2.sheet >d.explained
same "explain: case D in edition 2" d.meaning d.explained
sheet explain d2.sheet --lines d.lines >d.explained
same "explain: case D in edition 2 by its lines" d.meaning d.explained

# A desk is left out after a record that the board refuses, and outside the hall too.
cat >outside.txt <<'END'
hall 1 1 1
collect 9
retire 9
collect 0
drop 0 1
retire 65535
swap 65535 1 5
collect 1
END
printf '\000\002\001\001\001\005\011\014\005\000\012\001\004\377\377\003\013\001\005\005\001' >expected
sheet encode --edition 2 outside.txt >outside.sheet
same "encode: desks outside the hall" expected outside.sheet
sheet decode outside.sheet | sed 's/ *#.*//' >out
same "decode: desks outside the hall" outside.txt out
echo "6 3 6 0     desk 65535 swaps position 1 to session 5: refused, the hall has no such desk" >expected
sheet explain outside.sheet | grep '^6 ' >out
same "explain: a desk outside the hall is left out" expected out

# 65,536 bytes are a sheet of 65,530 records; one more does not fit.
awk 'BEGIN { print "hall 1 1 1"; for (i = 0; i < 65530; i++) print "collect 1" }' >most.txt
sheet encode --edition 2 most.txt >most.sheet
[ "$(wc -c <most.sheet)" -eq 65536 ] || fail "encode: not 65,536 bytes"
passed
echo "collect 1" >>most.txt
refused 2 "most.txt:65532: the sheet is longer than 65,536 bytes with this record (reply number 18)" encode --edition 2 most.txt

# The number that ends a reading in edition 2. 15 and 16, also of numbers that could give 20 or 21:
ends "0 0 15 1 the reading ends at byte 1: the edition number of the header is missing (reply number 15)" \
    "from byte 0: 00 [end] offset 1 (0x1)" '\000'
ends "0 0 15 4 the reading ends at byte 4: number L of the header (positions) is missing (reply number 15)" \
    "from byte 0: 00 02 11 01 [end] offset 4 (0x4)" '\000\002\021\001'
ends "1 1 15 7 the reading ends at byte 7: the position of record 1 (take) is missing (reply number 15)" \
    "from byte 0: 00 02 01 01 01 09 01 [end] offset 7 (0x7)" '\000\002\001\001\001\011\001'
ends "2 3 15 10 the reading ends at byte 10: the session of record 2 (swap) is missing (reply number 15)" \
    "from byte 2: 01 01 01 05 01 03 01 01 [end] offset 10 (0xa)" '\000\002\001\001\001\005\001\003\001\001'
ends "0 0 16 1 the reading ends at byte 1: the edition number of the header is 65,536, over 65,535 (reply number 16)" \
    "from byte 0: 00 [80 80 04] 01 offset 1 (0x1)" '\000\200\200\004\001'
ends "2 2 16 8 the reading ends at byte 8: the screen of record 2 (drop) is longer than three bytes (reply number 16)" \
    "from byte 0: 00 02 01 01 01 05 01 0a [ff ff ff] offset 8 (0x8)" '\000\002\001\001\001\005\001\012\377\377\377'
# 17: below, between and above both ranges.
codes="but the codes are 1 to 5 and 9 to 13 (reply number 17)"
ends "1 0 17 0 the reading ends at byte 5: the code of record 1 is 0, $codes" \
    "from byte 0: 00 02 01 01 01 [00] offset 5 (0x5)" '\000\002\001\001\001\000'
ends "2 8 17 0 the reading ends at byte 7: the code of record 2 is 8, $codes" \
    "from byte 0: 00 02 01 01 01 05 01 [08] 01 offset 7 (0x7)" '\000\002\001\001\001\005\001\010\001'
ends "1 14 17 0 the reading ends at byte 5: the code of record 1 is 14, $codes" \
    "from byte 0: 00 02 01 01 01 [0e] offset 5 (0x5)" '\000\002\001\001\001\016'
# 19: numbers of the header, a code, a desk that is written out again, and a field of a record without its desk.
ends "0 0 19 0 the reading ends at byte 0: the first number of the header is 0, padded: 80 00 instead of 00 (reply number 19)" \
    "from byte 0: [80 00] 02 01 01 01 offset 0 (0x0)" '\200\000\002\001\001\001'
ends "0 0 19 1 the reading ends at byte 1: the edition number of the header is 3, padded: 83 00 instead of 03 (reply number 19)" \
    "from byte 0: 00 [83 00] offset 1 (0x1)" '\000\203\000'
ends "0 0 19 2 the reading ends at byte 2: number P of the header (desks) is 1, padded: 81 00 instead of 01 (reply number 19)" \
    "from byte 0: 00 02 [81 00] 01 01 offset 2 (0x2)" '\000\002\201\000\001\001'
ends "2 0 19 7 the reading ends at byte 7: the code of record 2 is 13, padded: 8d 00 instead of 0d (reply number 19)" \
    "from byte 0: 00 02 01 01 01 05 01 [8d 00] offset 7 (0x7)" '\000\002\001\001\001\005\001\215\000'
ends "2 5 19 8 the reading ends at byte 8: the desk of record 2 (collect) is 1, padded: 81 00 instead of 01 (reply number 19)" \
    "from byte 0: 00 02 01 01 01 05 01 05 [81 00] offset 8 (0x8)" '\000\002\001\001\001\005\001\005\201\000'
ends "2 3 19 9 the reading ends at byte 9: the session of record 2 (swap) is 5, padded: 85 80 00 instead of 05 (reply number 19)" \
    "from byte 1: 02 01 01 01 05 01 0b 01 [85 80 00] offset 9 (0x9)" '\000\002\001\001\001\005\001\013\001\205\200\000'
# 20: a desk left out in the first record; a desk written out again, also one of two bytes outside the hall.
first="9, with no desk before it: 09 instead of 01 and the desk (reply number 20)"
ends "1 1 20 0 the reading ends at byte 5: the code of record 1 (take) is $first" \
    "from byte 0: 00 02 01 01 01 [09] 01 01 offset 5 (0x5)" '\000\002\001\001\001\011\001\001'
again="the reading ends at byte 8: the desk of record 2 (collect) is 1 again: 05 01 instead of 0d (reply number 20)"
ends "2 5 20 0 $again" \
    "from byte 0: 00 02 01 01 01 05 01 05 [01] 0d offset 8 (0x8)" '\000\002\001\001\001\005\001\005\001\015'
ends "2 1 20 0 the reading ends at byte 9: the desk of record 2 (take) is 300 again: 01 ac 02 instead of 09 (reply number 20)" \
    "from byte 1: 02 01 01 01 04 ac 02 01 [ac 02] 01 01 offset 9 (0x9)" '\000\002\001\001\001\004\254\002\001\254\002\001\001'
# 21: another first number, whatever follows it, and another edition.
ends "0 0 21 0 the reading ends at byte 0: the first number of the header is 1, but it must be 0 (reply number 21)" \
    "from byte 0: [01] 80 80 80 offset 0 (0x0)" '\001\200\200\200' --edition 2
another="the reading ends at byte 1: the edition number of the header is 3, but it must be 2 (reply number 21)"
ends "0 0 21 0 $another" \
    "from byte 0: 00 [03] 01 01 01 offset 1 (0x1)" '\000\003\001\001\001'

# What 'decode', 'find' and 'picture' say of them.
printf '\000\002\001\001\001\005\001\005\001\015' >again.sheet
printf '\000\002\001\001\001\011\001\001' >first.sheet
printf '\000\003\001\001\001\005\001' >another.sheet
printf '\000\002\001\001\001\005\001\013\001\205\000' >padded.sheet
printf '\000\002\021\001\001\005\001\015' >desks.sheet
decoded "$again" again.sheet <<'END'
hall 1 1 1   # header, byte 0, edition 2
collect 1    # record 1, byte 5
END
decoded "the reading ends at byte 5: the code of record 1 (take) is $first" first.sheet <<'END'
hall 1 1 1   # header, byte 0, edition 2
END
decoded "$another" another.sheet </dev/null
decoded "the reading ends at byte 9: the session of record 2 (swap) is 5, padded: 85 00 instead of 05 (reply number 19)" \
    padded.sheet <<'END'
hall 1 1 1   # header, byte 0, edition 2
collect 1    # record 1, byte 5
END
decoded "$bad_desks" desks.sheet <<'END'
hall 17 1 1   # header, byte 0, edition 2
collect 1     # record 1, byte 5
collect 1     # record 2, byte 7
END
found --record 0 d2.sheet <<'END'
header: byte 0 (0x0), 5 bytes: 00 02 01 01 01
text: hall 1 1 1
byte 0: 00   first number: 0
byte 1: 02   edition number: 2
byte 2: 01   P (desks): 1
byte 3: 01   c (screens per desk): 1
byte 4: 01   L (positions): 1
END
found --byte 14 d2.sheet <<'END'
byte 14: the position of record 3 (swap)
record 3: byte 13 (0xd), 3 bytes: 0b 01 07
text: swap 1 1 7
byte 13: 0b   code: 11 (swap, desk left out: 1 as in record 2)
byte 14: 01   position: 1
byte 15: 07   session: 7
END
found --record 2 again.sheet <<'END'
record 2: byte 7 (0x7), 2 bytes: 05 01
no text: the reading ends here
byte 7: 05   code: 5 (collect)
byte 8: 01   desk: 1 again: 05 01 instead of 0d (reply number 20)
END
found --byte 6 first.sheet <<END
byte 6: the screen of record 1 (take)
record 1: byte 5 (0x5), 3 bytes: 09 01 01
no text: the reading ends here
byte 5: 09   code: $first
byte 6: 01   screen: 1
byte 7: 01   position: 1
END
head -c 7 first.sheet >cut.sheet
found --byte 7 cut.sheet <<'END'
byte 7: the sheet ends here; the position of record 1 (take) is missing
record 1: byte 5 (0x5), 2 bytes: 09 01
no text: the reading ends here
byte 5: 09      code: 9 (take, desk left out)
byte 6: 01      screen: 1
byte 7: [end]   position: missing (reply number 15)
END
found --record 2 padded.sheet <<'END'
record 2: byte 7 (0x7), 4 bytes: 0b 01 85 00
no text: the reading ends here
byte 7: 0b      code: 11 (swap, desk left out: 1 as in record 1)
byte 8: 01      position: 1
byte 9: 85 00   session: 5, padded: 85 00 instead of 05 (reply number 19)
END
found --byte 1 another.sheet <<'END'
byte 1: the edition number of the header
header: byte 0 (0x0), 2 bytes: 00 03
no text: the reading ends here
byte 0: 00   first number: 0
byte 1: 03   edition number: 3, but it must be 2 (reply number 21)
END
found --byte 2 desks.sheet <<'END'
byte 2: number P of the header (desks)
header: byte 0 (0x0), 5 bytes: 00 02 11 01 01
text: hall 17 1 1
byte 0: 00   first number: 0
byte 1: 02   edition number: 2
byte 2: 11   P (desks): 17, but a hall has 1 to 16 desks (reply number 1)
byte 3: 01   c (screens per desk): 1
byte 4: 01   L (positions): 1
END
refused 2 "again.sheet: byte 9 is not read; $again" find again.sheet --byte 9
sheet picture again.sheet again.svg
grep -q ">number 20<" again.svg && grep -q ">byte 8<" again.svg || fail "the picture of a desk written out again does not show the end"
passed
corrected "2 5 0 0     the reply number is 0, but it should be 20; $again" again.sheet '0 0 0 0\n1 5 0 0\n2 5 0 0\nend 2 0 0\n'
corrected "2 5 20 8    the last column is 8, but it should be 0; $again" again.sheet '0 0 0 0\n1 5 0 0\n2 5 20 8\nend 1 0 0\n'
sed 's/^2 1 /2 9 /' d.lines >wrong.lines
refused 2 "wrong.lines:3: not a line of this sheet: it says record 2, code 9; the sheet has record 2, code 1" \
    explain d2.sheet --lines wrong.lines

# The wrong edition: one that does not exist, and the program of the other.
for edition in 3 0 x ''; do
    refused 2 "--edition '$edition': the editions are 1 and 2" encode d.txt --edition "$edition"
    refused 2 "--edition '$edition': the editions are 1 and 2" decode d.sheet --edition "$edition"
done
# lines_of PROGRAM OTHER: the message if lines are of PROGRAM, and the sheet is read as OTHER reads it
lines_of() {
    case $1 in
    day_sheet) options="--room hall --edition 1" ;;
    day_sheet_2) options="--room hall --edition 2" ;;
    training_sheet) options="--room training --edition 1" ;;
    esac
    echo "these are lines of $1, but the sheet is read as $2 reads it; use $options"
}
refused 2 "target/bin/day_sheet: $(lines_of day_sheet day_sheet_2)" explain d2.sheet --program target/bin/day_sheet
target/bin/day_sheet_2 <d.sheet >wrong.lines
refused 2 "wrong.lines: $(lines_of day_sheet_2 day_sheet)" picture d.sheet wrong.svg --lines wrong.lines
cat >expected <<'END'
0 0 1 0     a hall of 0 desks, 2 screens per desk, 1 position: refused, a hall has 1 to 16 desks; nothing more is read
end 0 0 0   0 steps accepted, 0 refused by the board, 0 sessions handed back
END
sheet explain d2.sheet --edition 1 >out
same "explain: edition 2, read as edition 1" expected out
refused 2 "d.sheet: the reading ends at byte 0: the first number of the header is 1, but it must be 0 (reply number 21)" \
    decode d.sheet --edition 2
# An edition 1 sheet that says 0 desks.
printf '\000\001\001\005\001' >desks.sheet
decoded "the reading ends at byte 1: the edition number of the header is 1, but it must be 2 (reply number 21)" desks.sheet </dev/null
found --record 0 desks.sheet --edition 1 <<'END'
header: byte 0 (0x0), 3 bytes: 00 01 01
text: hall 0 1 1
byte 0: 00   P (desks): 0, but a hall has 1 to 16 desks (reply number 1)
byte 1: 01   c (screens per desk): 1
byte 2: 01   L (positions): 1
END

# The line of a sheet that a converter refused.
target/bin/to_edition_1 <padded.sheet >line.sheet
refused 2 "$no_sheet: 19 9 (at its byte 9: a number must be in shortest form)" decode line.sheet
target/bin/to_edition_1 <again.sheet >line.sheet
refused 2 "$no_sheet: 20 0 (a desk is left out exactly if it is the desk of the record before)" decode line.sheet
target/bin/to_edition_1 <d.sheet >line.sheet
refused 2 "$no_sheet: 21 0 (a sheet of edition 2 starts with 0 and 2)" explain line.sheet
target/bin/to_edition_2 <d2.sheet >line.sheet
refused 2 "$no_sheet: 1 0 (a hall has 1 to 16 desks)" find line.sheet --byte 0
target/bin/to_edition_1 <most.sheet >line.sheet
refused 2 "$no_sheet: 18 0 (a sheet has at most 65,536 bytes)" decode line.sheet

# The training room. Within its limits a text has the same bytes and a sheet the same lines as in the hall.
for text in "$root"/examples/training/*.txt d.txt; do
    name=$(basename "$text" .txt)
    sheet encode "$text" >expected
    sheet encode --room training "$text" >room.sheet
    same "$name: encode in both rooms" expected room.sheet
    target/bin/day_sheet <room.sheet >expected
    target/bin/training_sheet <room.sheet >out
    same "$name: the lines in both rooms" expected out
    sheet explain room.sheet | sed '1s/a hall of/a training room of/' >expected
    sheet explain --room training room.sheet >out
    same "$name: explain in both rooms" expected out
    sheet decode room.sheet | sed '1s/$/, training room/' >expected
    sheet decode --room training room.sheet >room.txt
    same "$name: decode in both rooms" expected room.txt
    sheet encode --room training room.txt >out
    same "$name: encode, decode, encode" room.sheet out
    sheet picture room.sheet room.svg
    sed 's/A hall of/A training room of/; s/screens of the hall/screens of the training room/' room.svg >expected
    sheet picture --room training room.sheet room.svg
    same "$name: picture in both rooms" expected room.svg
done
grep -q "A training room of 1 desk" room.svg || fail "the picture of case D does not name the training room"
passed
sheet explain d2.sheet --room hall >out
same "explain: --room hall, edition 2" d.meaning out

# over MESSAGE TEXT: the text, a printf format, can be encoded for the hall, but not for the training room.
over() {
    printf "$2" >over.txt
    sheet encode over.txt >over.sheet
    refused 2 "over.txt$1" encode --room training over.txt
}
most="a training room has at most 4 desks with 1 screen each (reply number 22)"
over ":1: desks: 5, but $most" 'hall 5 1 1\n'
over ":1: desks: 16, but $most" 'hall 16 4 64\n'
over ":1: screens per desk: 2, but $most" 'hall 4 2 1\n'
over ":1: desks: 17, but a training room has 1 to 4 desks (reply number 1)" 'hall 17 2 1\n'
over ":1: screens per desk: 5, but a desk has 1 screen (reply number 2)" 'hall 5 5 1\n'
over ":1: positions: 65, but a training room has 1 to 64 positions (reply number 3)" 'hall 5 1 65\n'
over ":1: desks: 0, but a training room has 1 to 4 desks (reply number 1)" 'hall 0 1 1\n'
over ":2: session: 1000 is over 999 (reply number 16)" 'hall 4 1 64\nswap 1 1 1000\n'
over ":3: session: 65535 is over 999 (reply number 16)" 'hall 1 1 1\nswap 9 9 999\nswap 9 9 65535\n'
# Only sessions are limited: a desk, screen or position that the room does not have is the board's to refuse.
printf 'hall 4 1 64\ntake 1000 1 1\nswap 1 1000 999\ndrop 1 65535\nswap 4 64 0\n' >room.txt
sheet encode --room training room.txt >room.sheet
cat >expected <<'END'
0 0 0 0     a training room of 4 desks, 1 screen per desk, 64 positions opens
1 1 6 0     desk 1000 takes position 1 onto screen 1: refused, the training room has no such desk
2 3 8 0     desk 1 swaps position 1000 to session 999: refused, the training room has no such position
3 2 7 0     desk 1 drops screen 65535: refused, the desk has no such screen
4 3 0 0     desk 4 swaps position 64 to nothing: it is already empty, nothing changes
end 1 3 0   1 step accepted, 3 refused by the board, 0 sessions handed back
END
sheet explain --room training room.sheet >out
same "explain: the training room" expected out

# not_opened NUMBER SIZE REASON BYTES: for the bytes, a printf format, 'explain' says that the training room is refused.
not_opened() {
    printf "$4" >bad.sheet
    cat >expected <<END
0 0 $1 0 a training room of $2: refused, $3; nothing more is read
end 0 0 0 0 steps accepted, 0 refused by the board, 0 sessions handed back
END
    sheet explain --room training bad.sheet | tr -s ' ' >out
    same "explain: not $1 for a training room of $2" expected out
}
too_large="a training room has at most 4 desks with 1 screen each"
not_opened 22 "5 desks, 1 screen per desk, 1 position" "$too_large" '\005\001\001\005\001'
not_opened 22 "4 desks, 2 screens per desk, 1 position" "$too_large" '\004\002\001\005\001'
not_opened 22 "16 desks, 4 screens per desk, 64 positions" "$too_large" '\020\004\100'
# 1, 2 and 3 are asked before 22; a sheet of edition 2 has 0 desks.
not_opened 1 "17 desks, 2 screens per desk, 1 position" "a training room has 1 to 4 desks" '\021\002\001'
not_opened 2 "5 desks, 5 screens per desk, 1 position" "a desk has 1 screen" '\005\005\001'
not_opened 3 "5 desks, 1 screen per desk, 65 positions" "a training room has 1 to 64 positions" '\005\001\101'
not_opened 1 "0 desks, 2 screens per desk, 1 position" "a training room has 1 to 4 desks" '\000\002\001\001\001'
ends "0 0 15 2 the reading ends at byte 2: number L of the header (positions) is missing (reply number 15)" \
    "from byte 0: 05 02 [end] offset 2 (0x2)" '\005\002' --room training

# A session over the limit is 16, also if it is padded; a padded one within it is 19. Other numbers are up to 65,535.
ends "1 3 16 6 the reading ends at byte 6: the session of record 1 (swap) is 1,000, over 999 (reply number 16)" \
    "from byte 0: 01 01 01 03 01 01 [e8 07] 05 01 offset 6 (0x6)" '\001\001\001\003\001\001\350\007\005\001' --room training
ends "1 3 16 6 the reading ends at byte 6: the session of record 1 (swap) is 1,000, over 999 (reply number 16)" \
    "from byte 0: 01 01 01 03 01 01 [e8 87 00] offset 6 (0x6)" '\001\001\001\003\001\001\350\207\000' --room training
ends "1 3 16 6 the reading ends at byte 6: the session of record 1 (swap) is 65,536, over 999 (reply number 16)" \
    "from byte 0: 01 01 01 03 01 01 [80 80 04] offset 6 (0x6)" '\001\001\001\003\001\001\200\200\004' --room training
ends "1 3 16 6 the reading ends at byte 6: the session of record 1 (swap) is longer than three bytes (reply number 16)" \
    "from byte 0: 01 01 01 03 01 01 [80 80 80] offset 6 (0x6)" '\001\001\001\003\001\001\200\200\200' --room training
ends "1 3 16 5 the reading ends at byte 5: the position of record 1 (swap) is 65,536, over 65,535 (reply number 16)" \
    "from byte 0: 01 01 01 03 01 [80 80 04] e8 07 offset 5 (0x5)" '\001\001\001\003\001\200\200\004\350\007' --room training
padded_session="the session of record 1 (swap) is 999, padded: e7 87 00 instead of e7 07 (reply number 19)"
ends "1 3 19 6 the reading ends at byte 6: $padded_session" \
    "from byte 0: 01 01 01 03 01 01 [e7 87 00] offset 6 (0x6)" '\001\001\001\003\001\001\347\207\000' --room training

# What 'decode', 'find' and 'picture' say of them. shorten_sheet is not for the training room.
refused_room="the training room is refused and the program reads no record: number c of the header (screens per desk) is 2, but $most"
cut_off="the reading ends at byte 6: the desk of record 2 (collect) is cut off after 1 byte (reply number 15)"
printf '\004\002\001\005\001\005\200' >screens.sheet
decoded "$refused_room; with a valid training room, $cut_off" screens.sheet --room training <<'END'
hall 4 2 1   # header, byte 0, edition 1, training room
collect 1    # record 1, byte 3
END
found --record 0 screens.sheet --room training <<END
header: byte 0 (0x0), 3 bytes: 04 02 01
text: hall 4 2 1
byte 0: 04   P (desks): 4
byte 1: 02   c (screens per desk): 2, but $most
byte 2: 01   L (positions): 1
END
found --byte 6 screens.sheet --room training <<END
byte 6: the desk of record 2 (collect)
record 2: byte 5 (0x5), 2 bytes: 05 80
$refused_room
no text: with a valid training room, the reading ends here
byte 5: 05   code: 5 (collect)
byte 6: 80   desk: cut off after 1 byte (reply number 15)
END
refused 2 "the opening is refused with 22, so there is no training room to draw ('explain' says why)" \
    picture screens.sheet wrong.svg --room training
printf '\001\001\001\003\001\001\347\207\000' >padded.sheet
decoded "the reading ends at byte 6: $padded_session" padded.sheet --room training <<'END'
hall 1 1 1   # header, byte 0, edition 1, training room
END
printf '\001\001\001\005\001\003\001\001\350\007\005\001' >over.sheet
over_limit="the reading ends at byte 8: the session of record 2 (swap) is 1,000, over 999 (reply number 16)"
decoded "$over_limit" over.sheet --room training <<'END'
hall 1 1 1   # header, byte 0, edition 1, training room
collect 1    # record 1, byte 3
END
found --byte 9 over.sheet --room training <<'END'
byte 9: the second of the 2 bytes of the session of record 2 (swap)
record 2: byte 5 (0x5), 5 bytes: 03 01 01 e8 07
no text: the reading ends here
byte 5: 03      code: 3 (swap)
byte 6: 01      desk: 1
byte 7: 01      position: 1
byte 8: e8 07   session: 1,000, over 999 (reply number 16)
END
refused 2 "over.sheet: record 3 is not read; $over_limit" find over.sheet --record 3 --room training
sheet picture over.sheet over.svg --room training
grep -q ">number 16<" over.svg && grep -q ">byte 8<" over.svg || fail "the picture of a session over the limit does not show the end"
passed
corrected "2 3 22 0    the reply number is 22, but it should be 16; $over_limit" \
    over.sheet '0 0 0 0\n1 5 0 0\n2 3 22 0\nend 1 0 0\n' --room training

# The wrong room: one that does not exist, edition 2, and the program of the other.
for room in Hall train ''; do
    refused 2 "--room '$room': the rooms are hall and training" encode d.txt --room "$room"
    refused 2 "--room '$room': the rooms are hall and training" decode d.sheet --room "$room"
done
for command in "encode d.txt" "decode d2.sheet" "explain d2.sheet" "find d2.sheet --byte 0" "picture d2.sheet wrong.svg"; do
    refused 2 "--edition 2: a sheet of a training room is of edition 1" $command --room training --edition 2
done
head -c 10 over.sheet >last_over.sheet   # its last record has the session
head -c 3 screens.sheet >no_record.sheet # it has no record
for name in over last_over screens no_record; do
    refused 2 "target/bin/training_sheet: $(lines_of training_sheet day_sheet)" \
        explain "$name.sheet" --program target/bin/training_sheet
    target/bin/day_sheet <"$name.sheet" >wrong.lines
    refused 2 "wrong.lines: $(lines_of day_sheet training_sheet)" explain "$name.sheet" --lines wrong.lines --room training
done
target/bin/day_sheet_2 <d2.sheet >wrong.lines
refused 2 "wrong.lines: $(lines_of day_sheet_2 training_sheet)" picture d2.sheet wrong.svg --lines wrong.lines --room training

# The tool names the program that it does not find.
mv target/bin target/away
for edition in "d.sheet:day_sheet" "d2.sheet:day_sheet_2" "d.sheet --room training:training_sheet"; do
    name=${edition#*:}
    refused 2 "no file $here/target/bin/$name: 'make -C $here target/bin/$name' builds it; or use --program or --lines" \
        explain ${edition%:*}
done
mv target/away target/bin

# worked SECTION COUNT: the commands of this section of docs/SHEETS.md, at least so many, print what it shows.
worked() {
    awk -v section="## $1" '/^## / { on = $0 == section } on && sub(/^    /, "")' "$root/docs/SHEETS.md" >worked.shown
    sed -n 's/^\$ //p' worked.shown >worked.commands
    [ "$(wc -l <worked.commands)" -ge "$2" ] || fail "docs/SHEETS.md: too few commands in '$1'"
    while IFS= read -r command; do
        printf '$ %s\n' "$command"
        eval "$command" 2>&1 || true # 'decode' of a broken sheet ends with status 2
    done <worked.commands >worked.printed
    same "docs/SHEETS.md: '$1'" worked.shown worked.printed
}
worked "The two editions" 9
worked "From one edition to the other" 5
worked "The training room" 5
worked "A worked repair" 10
worked "Repairs in edition 2" 6
worked "Padded numbers" 6

# The lines for scripts in docs/SHEETS.md that find out whether shorten_sheet, or a converter, wrote a sheet.
awk 'sub(/^    /, "") && /shorten_sheet < OLD.sheet/ { on = 1 } /^$/ { on = 0 } on' "$root/docs/SHEETS.md" |
    sed 's|target/bin/shorten_sheet|"$1"|' >script
[ "$(wc -l <script)" -eq 2 ] || fail "docs/SHEETS.md: no lines for scripts"
# scripted MESSAGE PROGRAM: the last line that they print if OLD.sheet is the input. (The shell prints one before it if there is
# no such file.)
scripted() {
    printf "$1" >expected
    sh script "$2" >printed 2>&1
    tail -n 1 printed >out
    same "the lines for scripts: '$1'" expected out
}
cp d.sheet OLD.sheet
scripted '' target/bin/shorten_sheet
scripted '' target/bin/to_edition_2
scripted 'NEW.sheet is not a sheet\n' target/bin/to_edition_1
cp d2.sheet OLD.sheet
scripted '' target/bin/to_edition_1
scripted 'NEW.sheet is not a sheet\n' target/bin/to_edition_2
printf '\012\001\001' >OLD.sheet # the number of desks is a newline
scripted '' target/bin/shorten_sheet
printf '\061\001\001' >OLD.sheet # it is a digit: no hall has so many
scripted 'NEW.sheet is not a sheet\n' target/bin/shorten_sheet
cp d.sheet OLD.sheet
printf '#!/bin/sh\nhead -c 10\nkill -PIPE $$\nexit 1\n' >killed # within the sheet, by a signal of which shells print nothing
chmod +x killed
scripted 'NEW.sheet is not a sheet\n' ./killed
scripted '' target/bin/shorten_sheet
rm OLD.sheet # NEW.sheet is the one before
scripted 'NEW.sheet is not a sheet\n' target/bin/shorten_sheet
mkdir OLD.sheet
scripted 'NEW.sheet is not a sheet\n' target/bin/shorten_sheet

# Random bytes, also after a header of edition 2: a message, never a Python traceback.
for at in 1 2 3; do
    head -c "$((at * 700))" target/bin/day_sheet | tail -c 300 >junk
    { printf '\000\002\001\001\001' && cat junk; } >junk_2
    for command in "encode junk" "decode junk" "decode junk_2" "explain junk" "explain junk_2" "explain d.sheet --lines junk" \
        "find junk --record $at" "find junk_2 --record $at" "find junk --byte $at" "picture junk junk.svg" "picture junk_2 junk.svg" \
        "decode junk --room training" "explain junk --room training" "explain junk_2 --room training"; do
        sheet $command >out 2>err || true
        if grep -q Traceback err; then cat err; fail "$command: a traceback"; fi
    done
    passed
done

echo "tool: $checks checks passed"
