"""Reads the bytes of a sheet."""

from collections import namedtuple

from .editions import edition_in
from .steps import HALL_FIELDS, MAX_BYTES, STEPS, Record

MAX_GROUPS = 3
WITH_OFFSET = (15, 16, 19)


class Number(namedtuple("Number", "field start data value")):
    """A number of a sheet: its field ("code" for a step code), the offset of its first byte, its bytes, and its value,
    which is None for a number that does not end."""

    @property
    def end(self):
        """The offset after its last byte."""
        return self.start + len(self.data)

    @property
    def padded(self):
        """Does it have a zero group at the high end? 0 in one byte does not."""
        return len(self.data) > 1 and self.data[-1] == 0


class Fault(namedtuple("Fault", "edition reply record code number")):
    """Why a reading ends: the edition that is read, the reply number, the record being read (0 is the header), its code
    (that of its step; 0 if it was not read) and the number of the sheet that caused it (None for 18)."""

    @property
    def session(self):
        """The last column of its line: for 15, 16 and 19 the offset of the number's first byte, else 0."""
        return self.number.start if self.reply in WITH_OFFSET else 0


class Sheet(namedtuple("Sheet", "edition hall records numbers fault")):
    """The contents of a sheet, up to the number that ends its reading. The hall is None if it could not be read;
    numbers[N] has the numbers of record N as they are in the sheet (0 is the header), also the one that ends the
    reading; fault is None if the whole sheet could be read. The records after a hall that is refused are here too,
    though the program does not read them."""

    @property
    def refusal(self):
        """Why the opening is refused: 1, 2, 3 or 22 and the number of the header. None if it is not."""
        if self.hall is None:
            return None
        reply, at = self.edition.room.opening(self.hall)
        return Fault(self.edition, reply, 0, 0, self.numbers[0][len(self.edition.lead) + at]) if reply else None

    @property
    def end(self):
        """What ends the program's reading. None if it reads the whole sheet."""
        return self.refusal or self.fault


class Refused(Exception):
    """The reply number (15, 16, 17, 19, 20 or 21) and the number of the sheet that ends the reading."""


class Reader:
    def __init__(self, data, edition, archived):
        self.data = data
        self.edition = edition
        self.archived = archived
        self.at = 0
        self.numbers = []
        self.code = 0  # of the record being read

    def at_end(self):
        return self.at == len(self.data)

    def start_record(self):
        self.numbers.append([])
        self.code = 0

    def number(self, field):
        """The record's next number. It is recorded with its bytes, also if it is refused."""
        value, end = number_at(self.data, self.at)
        number = Number(field, self.at, self.data[self.at : end], value)
        self.at = end
        self.numbers[-1].append(number)
        if value is None and len(number.data) < MAX_GROUPS:
            raise Refused(15, number)
        if value is None or value > self.edition.largest(field):
            raise Refused(16, number)
        if number.padded and not self.archived:
            raise Refused(19, number)
        return number

    def header(self):
        """The hall, after the numbers with which this edition starts."""
        self.start_record()
        for field, value in self.edition.lead.items():
            number = self.number(field)
            if number.value != value:
                raise Refused(21, number)
        return tuple(self.number(field).value for field in HALL_FIELDS)

    def record(self, before):
        """The next record, with its desk; 'before' is the record before it, None for the first."""
        self.start_record()
        step, left_out = self.step()
        fields = STEPS[step].fields
        values = tuple(self.number(field).value for field in (fields[1:] if left_out else fields))
        if left_out and before is None:
            raise Refused(20, self.numbers[-1][0])  # the code
        record = Record(step, (before.desk, *values) if left_out else values)
        if not left_out and self.edition.leaves_out(record, before):
            raise Refused(20, self.numbers[-1][1])  # the desk
        return record

    def step(self):
        """The code of the next step, and whether its desk is left out."""
        code = self.number("code")
        meaning = self.edition.meaning(code.value)
        self.code = meaning.step if meaning else code.value
        if meaning is None:
            raise Refused(17, code)
        return meaning

    def fault(self, reply, number):
        return Fault(self.edition, reply, len(self.numbers) - 1, self.code, number)


def number_at(data, start):
    """The value of the number that starts here, None if it does not end, and the offset after its last byte. It has
    groups of seven bits, lowest first; the top bit of a byte says that another follows."""
    value = 0
    for group, byte in enumerate(data[start : start + MAX_GROUPS]):
        value |= (byte & 0x7F) << (7 * group)
        if byte < 0x80:
            return value, start + group + 1
    return None, min(start + MAX_GROUPS, len(data))


def edition_of(data, room):
    """The edition of a sheet of this room. Edition 2 starts with 0; edition 1 starts with the number of desks, and no
    hall has 0."""
    edition_2 = edition_in(room, 2) if number_at(data, 0)[0] == 0 else None
    return edition_2 or edition_in(room, 1)


def read(data, edition, archived=False):
    """The sheet of these bytes: as the edition's program reads it, or an archived one of edition 1, as shorten_sheet
    reads it, with padded numbers."""
    if len(data) > MAX_BYTES:
        return Sheet(edition, None, [], [], Fault(edition, 18, 0, 0, None))
    reader = Reader(data, edition, archived)
    hall, records, fault = None, [], None
    try:
        hall = reader.header()
        while not reader.at_end():
            records.append(reader.record(records[-1] if records else None))
    except Refused as refused:
        fault = reader.fault(*refused.args)
    return Sheet(edition, hall, records, reader.numbers, fault)
