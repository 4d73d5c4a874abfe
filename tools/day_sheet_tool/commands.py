"""The five commands of tools/sheet."""

import argparse
import os
import re
import sys

from .editions import EDITIONS, edition_in
from .errors import UserError, plural
from .explain import explained
from .faults import ending
from .files import read_sheet, read_text, reason, write_text
from .find import find_byte, find_record
from .lines import lines_of
from .picture import MAX_RECORDS, picture
from .reading import edition_of, read
from .replay import replay
from .rooms import HALL, ROOMS
from .steps import MAX_BYTES
from .text import decode, encode, shown

EPILOG = "docs/SHEETS.md has examples. A file named '-' is standard input."
WHOLE = "Converts, explains, searches and draws day sheets."
ENCODE = "Writes the bytes of a text. In edition 2 it leaves out each desk that is the desk of the record before."
DECODE = "Writes a sheet as text. Comments give the edition, and the offset of each record's first byte."
EXPLAIN = """Writes each line of the sheet program with its meaning. Where a number ends the reading, it says
which number this is, gives the offset of its first byte, and shows the bytes around it in hex."""
FIND = """Finds the bytes of a record, or what a byte belongs to, up to the number that ends the reading.
Bytes are counted from 0. N is decimal, or hex with 0x."""
FIND_USAGE = "sheet find [-h] SHEET (--record N | --byte N) [--edition N] [--room ROOM]"


def main(arguments):
    try:
        options = parser().parse_args(arguments)
        if sys.stdout is None:
            raise UserError("standard output is closed")
        options.command(options)
        sys.stdout.flush()
        return 0
    except UserError as error:
        return report(error)
    except BrokenPipeError:  # the reader, as head, has closed the pipe
        discard_output()
        return 0
    except OSError as error:
        discard_output()
        return report(f"standard output: {reason(error)}")
    except KeyboardInterrupt:
        return 130


def report(message):
    print(f"sheet: {message}", file=sys.stderr)
    return 2


def discard_output():
    """Python would try at exit to write what could not be written."""
    os.dup2(os.open(os.devnull, os.O_WRONLY), sys.stdout.fileno())


def parser():
    whole = argparse.ArgumentParser(prog="sheet", description=WHOLE, epilog=EPILOG)
    commands = whole.add_subparsers(metavar="COMMAND", required=True)

    one = commands.add_parser("encode", help="text to bytes, to standard output", description=ENCODE, epilog=EPILOG)
    one.add_argument("text", metavar="FILE.txt")
    add_edition(one, default=1, help="the edition of the sheet, 1 or 2 (default: 1)")
    one.set_defaults(command=to_bytes)

    one = commands.add_parser(
        "decode", help="bytes to text, with the offset of each record", description=DECODE, epilog=EPILOG
    )
    add_sheet(one)
    one.set_defaults(command=to_text)

    one = commands.add_parser(
        "explain", help="each printed line with its meaning", description=EXPLAIN, epilog=EPILOG
    )
    add_sheet(one)
    add_lines(one)
    one.set_defaults(command=explain)

    one = commands.add_parser(
        "find", help="the bytes of a record, or the record of a byte", usage=FIND_USAGE, description=FIND, epilog=EPILOG
    )
    add_sheet(one)
    one.add_argument("--record", metavar="N", help="the bytes and the numbers of record N; 0 is the header")
    one.add_argument("--byte", metavar="N", help="the record and the number that byte N belongs to")
    one.set_defaults(command=find)

    one = commands.add_parser("picture", help="a replay as SVG", epilog=EPILOG)
    add_sheet(one)
    one.add_argument("svg", metavar="OUT.svg")
    one.add_argument("--from", dest="first", metavar="N", type=int, default=1, help="the first record drawn")
    add_lines(one)
    one.set_defaults(command=draw)
    return whole


def add_sheet(command):
    command.add_argument("sheet", metavar="SHEET")
    add_edition(command, help="read it as edition 1 or 2 (default: 2 if its first number is 0, else 1)")


def add_edition(command, **keywords):
    command.add_argument("--edition", metavar="N", type=edition_number, **keywords)
    command.add_argument(
        "--room",
        metavar="ROOM",
        type=room_named,
        default=HALL,
        help="the room of the sheet, hall or training, which is of edition 1 only (default: hall)",
    )


def edition_number(word):
    for edition in EDITIONS:
        if word == str(edition.number):
            return edition.number
    raise UserError(f"--edition '{shown(word)}': the editions are 1 and 2")


def room_named(word):
    if word not in ROOMS:
        raise UserError(f"--room '{shown(word)}': the rooms are {' and '.join(ROOMS)}")
    return ROOMS[word]


def edition_asked(options):
    """The edition that the options name, in their room; None if they name none."""
    if options.edition is None:
        return None
    edition = edition_in(options.room, options.edition)
    if edition is None:
        raise UserError(f"--edition {options.edition}: a sheet of a {options.room.title} is of edition 1")
    return edition


def add_lines(command):
    source = command.add_mutually_exclusive_group()
    source.add_argument(
        "--program", metavar="PROG", help="the sheet program (default: that of the edition and the room, in target/bin)"
    )
    source.add_argument("--lines", metavar="FILE", help="lines that it printed before")


def to_bytes(options):
    edition = edition_asked(options)
    data = encode(read_text(options.text), options.text, edition)
    if sys.stdout.isatty():
        raise UserError("a sheet is binary: redirect the output to a file with > FILE.sheet")
    sys.stdout.buffer.write(data)


def data_and_sheet(options):
    """The bytes of the sheet, and the sheet."""
    edition = edition_asked(options)
    data = read_sheet(options.sheet)
    return data, read(data, edition or edition_of(data, options.room))


def to_text(options):
    data, sheet = data_and_sheet(options)
    sys.stdout.write(decode(sheet))
    sys.stdout.flush()
    if sheet.end:
        raise UserError(f"{options.sheet}: {ending(data, sheet)}")


def explain(options):
    data, sheet = data_and_sheet(options)
    lines, end = lines_of(data, sheet, options.program, options.lines)
    sys.stdout.write(explained(data, sheet, lines, end))


def find(options):
    if (options.record is None) == (options.byte is None):
        raise UserError("'find' needs either --record N or --byte N")
    if options.byte is None:
        found, number = find_record, place("--record", options.record)
    else:
        found, number = find_byte, place("--byte", options.byte)
    data, sheet = data_and_sheet(options)
    try:
        sys.stdout.write(found(data, sheet, number))
    except UserError as error:
        raise UserError(f"{options.sheet}: {error}") from None


def place(option, word):
    """The number of a record or a byte, in decimal or in hex."""
    if re.fullmatch("[0-9]{1,9}|0x[0-9a-fA-F]{1,8}", word):
        number = int(word, 16 if word.startswith("0x") else 10)
        if number <= MAX_BYTES:
            return number
    raise UserError(f"{option} '{shown(word)}': not a number from 0 to 65,536")


def draw(options):
    data, sheet = data_and_sheet(options)
    lines, end = lines_of(data, sheet, options.program, options.lines)
    last = len(sheet.records)
    if not 1 <= options.first <= max(last, 1):
        raise UserError(f"--from {options.first}: the sheet has {plural(last, 'record')}")
    numbers = range(options.first, min(options.first + MAX_RECORDS, last + 1))
    moments = replay(sheet, lines, end, numbers)
    write_text(options.svg, picture(os.path.basename(options.sheet), sheet, moments, end))
    if len(moments) < last:
        print(f"sheet: drew {plural(len(moments), 'record')} of {last:,}; --from N starts elsewhere", file=sys.stderr)
