"""Finds the bytes of a record, and the number that a byte belongs to."""

from .dump import in_hex
from .errors import UserError, plural
from .faults import HALL_LETTERS, ending, number_in_words, where_and_why, why
from .steps import STEPS
from .text import record_name, record_text

ORDINALS = ("first", "second", "third")


def find_record(data, sheet, record):
    """The bytes of a record, its text, and the offset of each of its numbers."""
    if record >= len(sheet.numbers):
        raise UserError(no_record(data, sheet, record))
    first, end = sheet.numbers[record][0].start, sheet.numbers[record][-1].end
    head = f"{record_name(record)}: byte {first} ({first:#x}), {plural(end - first, 'byte')}"
    lines = [f"{head}: {in_hex(data[first:end]) or 'none'}"]
    if record > 0 and sheet.refusal:
        lines.append(where_and_why(sheet.refusal))
    lines.append(text_line(sheet, record))
    return "\n".join(lines + number_lines(sheet, record)) + "\n"


def text_line(sheet, record):
    if sheet.fault and record == sheet.fault.record:
        valid = f"with a valid {sheet.edition.room.title}, " if sheet.refusal else ""
        return f"no text: {valid}the reading ends here"
    return f"text: {record_text(sheet, record)}"


def number_lines(sheet, record):
    """For each number of a record its offset, its bytes and its meaning."""
    rows = [
        (f"byte {number.start}:", in_hex(number.data) or "[end]", meaning(sheet, record, number))
        for number in sheet.numbers[record]
    ]
    widths = [max(len(row[column]) for row in rows) for column in (0, 1)]
    return [f"{where:<{widths[0]}} {in_bytes:<{widths[1]}}   {words}" for where, in_bytes, words in rows]


def meaning(sheet, record, number):
    """'desk: 1', or what is wrong with the number."""
    letter = HALL_LETTERS.get(number.field)
    name = f"{letter} ({number.field})" if letter else number.field
    for fault in filter(None, (sheet.refusal, sheet.fault)):
        if number is fault.number:
            return f"{name}: {why(fault)}"
    step = f" ({step_in_words(sheet, record, number.value)})" if number.field == "code" else ""
    return f"{name}: {number.value}{step}"


def step_in_words(sheet, record, code):
    """'collect', or 'collect, desk left out: 1 as in record 4'"""
    step, left_out = sheet.edition.meaning(code)
    name = STEPS[step].name
    if not left_out:
        return name
    desk = f": {sheet.records[record - 2].desk} as in record {record - 1}" if record > 1 else ""
    return f"{name}, desk left out{desk}"


def no_record(data, sheet, record):
    if sheet.fault:
        return f"record {record} is not read; {ending(data, sheet)}"
    return f"no record {record}; the sheet has {plural(len(sheet.records), 'record')}, and the header is record 0"


def find_byte(data, sheet, byte):
    """What a byte is, and the record that it belongs to."""
    for record, numbers in enumerate(sheet.numbers):
        for number in numbers:
            if belongs(byte, number):
                return f"{byte_in_words(byte, sheet, record, number)}\n{find_record(data, sheet, record)}"
    raise UserError(no_byte(data, sheet, byte))


def belongs(byte, number):
    """A missing number has no bytes; the offset where it should start is taken for it."""
    return number.start <= byte < number.end or number.start == byte == number.end


def byte_in_words(byte, sheet, record, number):
    name = number_in_words(record, code_of(sheet, record), number.field)
    length = len(number.data)
    if length == 0:
        return f"byte {byte}: the sheet ends here; {name} is missing"
    part = "" if length == 1 else f"the {ORDINALS[byte - number.start]} of the {length} bytes of "
    return f"byte {byte}: {part}{name}"


def code_of(sheet, record):
    """The code of a record's step; 0 if it was not read, and for the header."""
    if sheet.fault and record == sheet.fault.record:
        return sheet.fault.code
    return sheet.records[record - 1].code if record else 0


def no_byte(data, sheet, byte):
    if sheet.fault and byte < len(data):
        return f"byte {byte} is not read; {ending(data, sheet)}"
    return f"no byte {byte}; the sheet has {plural(len(data), 'byte')}, counted from 0"
