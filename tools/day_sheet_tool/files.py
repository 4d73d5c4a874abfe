"""Reads and writes files; an error becomes a message."""

import re
import sys

from .errors import UserError
from .reading import WITH_OFFSET
from .replies import REASONS
from .rooms import HALL
from .steps import MAX_BYTES

MAX_TEXT = 16 * 1024 * 1024
# All that shorten_sheet or a converter writes for a refused sheet. Their sheets are the hall's.
REFUSAL = re.compile(rb"(15|16|19) [0-9]{1,5}\n|([123]|17|18|20|21) 0\n")
A_SHEET = "is it a sheet already? then 'decode' reads it"


def read_bytes(name, most):
    """At most this many bytes of a file, or of standard input for '-'."""
    try:
        if name == "-":
            if sys.stdin is None:
                raise UserError("standard input is closed")
            return sys.stdin.buffer.read(most)
        with open(name, "rb") as file:
            return file.read(most)
    except (OSError, ValueError) as error:
        raise UserError(f"{name}: {reason(error)}") from None


def read_sheet(name):
    """One byte more than the longest sheet is enough to know that it is too long."""
    data = read_bytes(name, MAX_BYTES + 1)
    words = (line.split(b"#", 1)[0].split() for line in data.split(b"\n"))
    if next(filter(None, words), [b""])[0] == b"hall":  # as bytes, these letters would mean 104 desks
        raise UserError(f"{name}: this is the text of a sheet; 'encode' makes the sheet")
    if REFUSAL.fullmatch(data):  # as bytes, the first digit would mean 49 desks or more
        raise UserError(f"{name}: this is not a sheet but the line of a refused one: {refusal(data)}")
    return data


def refusal(line):
    """'15 10 (at its byte 10: the sheet ends before this number is complete)'"""
    number, offset = map(int, line.split())
    where = f"at its byte {offset}: " if number in WITH_OFFSET else ""
    return f"{number} {offset} ({where}{REASONS[HALL][number]})"


def read_text(name):
    data = read_bytes(name, MAX_TEXT + 1)
    if len(data) > MAX_TEXT:
        raise UserError(f"{name}: longer than 16 MB; no sheet has this much text")
    try:
        text = data.decode("utf-8-sig")
    except UnicodeDecodeError as error:
        line = data.count(b"\n", 0, error.start) + 1
        raise UserError(f"{name}:{line}: not UTF-8 text; {A_SHEET}") from None
    control = re.search(r"[\x00-\x08\x0e-\x1f]", text)
    if control:
        line = text.count("\n", 0, control.start()) + 1
        raise UserError(f"{name}:{line}: not plain text; {A_SHEET}")
    return text


def write_text(name, text):
    try:
        with open(name, "w", encoding="utf-8", newline="\n") as file:
            file.write(text)
    except (OSError, ValueError) as error:
        raise UserError(f"{name}: {reason(error)}") from None


def reason(error):
    """As in 'no such file or directory', without the number that Python puts before it."""
    return (getattr(error, "strerror", None) or str(error)).lower()
