"""The text form of a sheet: the hall, then one record a line."""

from .errors import UserError, plural
from .replies import REASONS
from .rooms import HALL
from .steps import CODES, HALL_FIELDS, MAX_BYTES, STEPS, Record
from .writing import Writer

HALL_LINE = "'hall DESKS SCREENS POSITIONS'"


def encode(text, name, edition):
    """The bytes of a text; an error names the line."""
    writer = Writer(edition)
    for number, line in enumerate(text.split("\n"), start=1):
        words = line.split("#", 1)[0].split()
        if words:
            try:
                write_line(writer, words)
            except UserError as error:
                raise UserError(f"{name}:{number}: {error}") from None
            if len(writer.data) > MAX_BYTES:
                raise UserError(f"{name}:{number}: the sheet is longer than 65,536 bytes with this record (reply number 18)")
    if not writer.data:
        raise UserError(f"{name}: no line {HALL_LINE}; every sheet starts with one")
    return bytes(writer.data)


def write_line(writer, words):
    """Writes the words of a line: the first line is the hall, the others are records."""
    if writer.data:
        writer.record(record_of(words, writer.edition))
    else:
        writer.hall(hall_of(words, writer.edition))


def hall_of(words, edition):
    """The hall. One that is too large is left to the program; the limits of a smaller room are asked here too."""
    if words[0] != "hall":
        raise UserError(f"the first line must be {HALL_LINE}, not '{shown(words[0])}'")
    hall = numbers_of(words, HALL_FIELDS, edition)
    reply, at = edition.room.opening(hall)
    if reply and edition.room != HALL:
        why = f"{REASONS[edition.room][reply]} (reply number {reply})"
        raise UserError(f"{HALL_FIELDS[at]}: {hall[at]:,}, but {why}")
    return hall


def record_of(words, edition):
    if words[0] == "hall":
        raise UserError("only the first line may be 'hall'")
    if words[0] not in CODES:
        raise UserError(f"no step '{shown(words[0])}'; the steps are {', '.join(CODES)}")
    code = CODES[words[0]]
    return Record(code, numbers_of(words, STEPS[code].fields, edition))


def numbers_of(words, fields, edition):
    """The numbers after the first word of a line."""
    word, *given = words
    if len(given) != len(fields):
        raise UserError(f"'{word}' has {plural(len(fields), 'number')} ({', '.join(fields)}), here it has {len(given)}")
    return tuple(number(digits, field, edition.largest(field)) for field, digits in zip(fields, given))


def number(word, field, largest):
    """Plain decimal digits, 0 to the largest. The board decides whether the hall has such a desk."""
    if not (word.isascii() and word.isdigit()):
        raise UserError(f"{field}: '{shown(word)}' is not a number")
    digits = word.lstrip("0") or "0"
    if len(digits) > 5 or int(digits) > largest:
        raise UserError(f"{field}: {shown(word)} is over {largest:,} (reply number 16)")
    return int(digits)


def shown(word):
    """A word of the text for a message: printable, and not too long."""
    printable = "".join(letter if letter.isprintable() else "?" for letter in word[:20])
    return printable if len(word) <= 20 else printable + "..."


def decode(sheet):
    """The text of the part of a sheet that could be read. Comments give the edition, and the offset of each record's
    first byte. A desk that the sheet leaves out is written out."""
    if sheet.hall is None:
        return ""
    lines = [record_text(sheet, record) for record in range(len(sheet.records) + 1)]
    width = max(map(len, lines))
    return "".join(f"{line:<{width}}   # {comment(sheet, record)}\n" for record, line in enumerate(lines))


def comment(sheet, record):
    """'record 3, byte 12'; the header's also has the edition, and the room unless it is the hall."""
    where = f"{record_name(record)}, byte {sheet.numbers[record][0].start}"
    if record:
        return where
    room = "" if sheet.edition.room == HALL else f", {sheet.edition.room.title}"
    return f"{where}, edition {sheet.edition.number}{room}"


def record_name(record):
    return f"record {record}" if record else "header"


def record_text(sheet, record):
    """The text of a record that was read; record 0 is the hall."""
    if record == 0:
        return " ".join(["hall", *map(str, sheet.hall)])
    code, numbers = sheet.records[record - 1]
    return " ".join([STEPS[code].name, *map(str, numbers)])
