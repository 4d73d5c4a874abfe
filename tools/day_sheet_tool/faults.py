"""Where and why a reading ends, in words."""

from .dump import in_hex
from .editions import EDITION_1, LEFT_OUT
from .errors import plural
from .reading import read
from .replies import REASONS
from .steps import HALL_FIELDS, STEPS
from .writing import number_bytes

HALL_LETTERS = dict(zip(HALL_FIELDS, "PcL"))
OPENING = (1, 2, 3, 22)  # the reply numbers of a hall that is refused


def ending(data, sheet):
    """Where and why the reading of a sheet ends; after a padded number of edition 1 in the hall also what shorten_sheet
    does."""
    faults = filter(None, (sheet.refusal, sheet.fault))
    words = f"; with a valid {sheet.edition.room.title}, ".join(map(where_and_why, faults))
    return f"{words}; {shortened(data)}" if sheet.end.reply == 19 and sheet.edition == EDITION_1 else words


def shortened(data):
    """What shorten_sheet does with a sheet of edition 1 that has a padded number."""
    end = read(data, EDITION_1, archived=True).end
    if end:
        return f"'shorten_sheet' refuses the sheet too: {where_and_why(end)}"
    return "'shorten_sheet' rewrites the sheet in shortest form"


def where_and_why(fault):
    """'the reading ends at byte 12: the screen of record 3 (take) is longer than three bytes (reply number 16)'"""
    room = fault.edition.room
    if fault.reply == 18:
        return f"the reading ends before the header: {REASONS[room][18]} (reply number 18)"
    name = number_in_words(fault.record, fault.code, fault.number.field)
    if fault.reply in OPENING:
        return f"the {room.title} is refused and the program reads no record: {name} is {why(fault)}"
    return f"the reading ends at byte {fault.number.start}: {name} is {why(fault)}"


def number_in_words(record, code, field):
    """'number c of the header (screens per desk)', 'the screen of record 3 (take)', 'the code of record 4'"""
    if field in HALL_LETTERS:
        return f"number {HALL_LETTERS[field]} of the header ({field})"
    if record == 0:
        return f"the {field} of the header"
    step = f" ({STEPS[code].name})" if code in STEPS else ""
    return f"the {field} of record {record}{step}"


def why(fault):
    """'longer than three bytes (reply number 16)'"""
    return f"{reason(fault)} (reply number {fault.reply})"


def reason(fault):
    """What is wrong with the number, in words that can follow 'it is'."""
    number = fault.number
    if fault.reply in OPENING:
        return f"{number.value:,}, but {REASONS[fault.edition.room][fault.reply]}"
    length = len(number.data)
    if fault.reply == 15:
        return f"cut off after {plural(length, 'byte')}" if length else "missing"
    if fault.reply == 17:
        return f"{fault.code}, but the codes are {fault.edition.codes}"
    if fault.reply == 19:
        return f"{number.value:,}, padded: {in_hex(number.data)} instead of {in_hex(number_bytes(number.value))}"
    if fault.reply == 20:
        return wrong_desk(fault)
    if fault.reply == 21:
        return f"{number.value:,}, but it must be {fault.edition.lead[number.field]}"
    if number.value is None:
        return "longer than three bytes"
    return f"{number.value:,}, over {fault.edition.largest(number.field):,}"


def wrong_desk(fault):
    """A desk that is left out though no record is before it, or written out though the record before has the same."""
    written, left_out = number_bytes(fault.code), number_bytes(fault.code + LEFT_OUT)
    number = fault.number
    if number.field == "code":
        return f"{number.value}, with no desk before it: {in_hex(left_out)} instead of {in_hex(written)} and the desk"
    return f"{number.value:,} again: {in_hex(written + number.data)} instead of {in_hex(left_out)}"
