"""A replay: the state of the board after each record, checked against the program's lines."""

import copy
from collections import namedtuple

from .board import Board
from .errors import UserError
from .steps import STEPS

# After one record: its number, the record, its reply number and session, and the board after it.
Moment = namedtuple("Moment", "number record reply session board")


def replay(sheet, lines, end, numbers):
    """The moments of the records with these numbers. Every reply, of all records, and the counts at the end are
    checked against the program's lines."""
    nothing = f"so there is no {sheet.edition.room.title} to draw"
    if sheet.hall is None:
        raise UserError(f"the header cannot be read, {nothing} ('decode' says why)")
    refused = sheet.refusal.reply if sheet.refusal else 0
    agree(lines[0], refused, 0)
    if refused:
        raise UserError(f"the opening is refused with {refused}, {nothing} ('explain' says why)")
    board = Board(sheet.hall)
    moments, counts = [], [0, 0, 0]
    for record, line in zip(sheet.records, lines[1:]):
        reply, session = board.step(record)
        agree(line, reply, session)
        counts[1 if reply else 0] += 1
        counts[2] += STEPS[record.code].name == "collect" and session != 0
        if line.record in numbers:
            moments.append(Moment(line.record, record, reply, session, copy.deepcopy(board)))
    if sheet.fault:
        agree(lines[-1], sheet.fault.reply, sheet.fault.session)
    if end != tuple(counts):
        differ("end", " ".join(map(str, end)), " ".join(map(str, counts)))
    return moments


def agree(line, reply, session):
    if (line.reply, line.session) != (reply, session):
        differ(f"record {line.record}", f"{line.reply} {line.session}", f"{reply} {session}")


def differ(what, printed, expected):
    raise UserError(f"{what}: the program printed {printed}, but by documents 01 and 02 it is {expected}; nothing is drawn")
