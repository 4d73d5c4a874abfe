"""Runs the sheet program, and checks its lines against the sheet."""

import os
import subprocess
from collections import namedtuple

from .editions import EDITIONS
from .errors import UserError, plural
from .faults import OPENING
from .files import read_bytes, reason
from .reading import read

# Record number, step code, reply number, session.
Line = namedtuple("Line", "record code reply session")

# Steps accepted, steps refused by the board, sessions handed back.
End = namedtuple("End", "accepted refused handed_back")

ROOT = os.path.dirname(os.path.dirname(os.path.dirname(os.path.realpath(__file__))))
MAX_SECONDS = 30
MAX_LINES = 4 * 1024 * 1024
ENDS_READING = (*OPENING, *range(15, 22))  # the reply numbers that end a reading


def lines_of(data, sheet, program, file):
    """The program's lines for this sheet, and the end; read from a file if one is given."""
    if file is not None:
        name, printed = file, read_bytes(file, MAX_LINES)
    else:
        name, printed = run(data, program, sheet.edition.program)
    lines, end = parse(printed, name)
    check_program(lines, data, sheet, name)
    check_against_sheet(lines, sheet, name)
    return lines, end


def run(data, program, usual):
    """What the program prints for these bytes; None is the usual one."""
    path = program or os.path.join(ROOT, "target", "bin", usual)
    if program is None and not os.path.exists(path):
        raise UserError(f"no file {path}: 'make -C {ROOT} target/bin/{usual}' builds it; or use --program or --lines")
    if os.sep not in path:
        path = os.path.join(os.curdir, path)
    try:
        done = subprocess.run([path], input=data, capture_output=True, timeout=MAX_SECONDS, check=False)
    except (OSError, ValueError) as error:
        raise UserError(f"{path}: {reason(error)}") from None
    except subprocess.TimeoutExpired:
        raise UserError(f"{path}: did not end within {MAX_SECONDS} s") from None
    if done.returncode != 0:
        raise UserError(f"{path}: ended with status {done.returncode}")
    if done.stderr:  # the program reports a failed read or write there; its status is always 0
        raise UserError(f"{path}: {first_line(done.stderr)}")
    return path, done.stdout


def first_line(data):
    line = data.decode(errors="replace").split("\n")[0][:200]
    return "".join(letter if letter.isprintable() else "?" for letter in line)


def parse(printed, name):
    """Lines of four numbers, then the line that starts with 'end'."""
    text = printed.decode("ascii", errors="replace")
    rows = text.split("\n")
    if rows[-1] != "" or len(rows) < 2:
        raise UserError(f"{name}: the last line is incomplete; are these the lines of a sheet?")
    lines = [Line(*numbers_of(row.split(" "), 4, name, at)) for at, row in enumerate(rows[:-2], start=1)]
    last = rows[-2].split(" ")
    if last[0] != "end":
        raise UserError(f"{name}:{len(rows) - 1}: the last line does not start with 'end'")
    return lines, End(*numbers_of(last[1:], 3, name, len(rows) - 1))


def numbers_of(words, count, name, at):
    if len(words) != count or not all(word.isascii() and word.isdigit() and len(word) < 12 for word in words):
        raise UserError(f"{name}:{at}: not {plural(count, 'number')} with one space between")
    return map(int, words)


def check_program(lines, data, sheet, name):
    """The lines must not end where only the reading of another program ends."""
    if not lines or ends_like(lines, sheet):
        return
    for edition in EDITIONS:
        if ends_like(lines, read(data, edition)):
            options = f"--room {edition.room.name} --edition {edition.number}"
            raise UserError(
                f"{name}: these are lines of {edition.program}, but the sheet is read as {sheet.edition.program} "
                f"reads it; use {options}"
            )


def ends_like(lines, sheet):
    """Does the last line have the record, the code and the reply number with which the reading of the sheet ends?"""
    if sheet.end:
        return lines[-1][:3] == (sheet.end.record, sheet.end.code, sheet.end.reply)
    return lines[-1].record == len(sheet.records) and lines[-1].reply not in ENDS_READING


def check_against_sheet(lines, sheet, name):
    """Each line must be the answer to the sheet's record of that number, and none may be missing."""
    opened = sheet.hall is not None and bool(lines) and lines[0].reply == 0
    expected = records_answered(sheet, opened)
    for at, (line, (record, code)) in enumerate(zip(lines, expected), start=1):
        if (line.record, line.code) != (record, code):
            raise UserError(
                f"{name}:{at}: not a line of this sheet: it says record {line.record}, code {line.code}; "
                f"the sheet has record {record}, code {code}"
            )
    if len(lines) != len(expected):
        raise UserError(f"{name}: {plural(len(lines), 'line')} before the end; this sheet has {len(expected)}")


def records_answered(sheet, opened):
    """Record number and code of each line. Without an opening there is only the header's line."""
    if not opened:
        return [(0, 0)]
    answered = [(0, 0)] + [(at, record.code) for at, record in enumerate(sheet.records, start=1)]
    if sheet.fault:
        answered.append((sheet.fault.record, sheet.fault.code))
    return answered
