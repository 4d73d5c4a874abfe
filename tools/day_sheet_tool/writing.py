"""Writes the bytes of a sheet."""

from .editions import LEFT_OUT


def number_bytes(number):
    """A number in as few bytes as possible."""
    groups = []
    while number > 0x7F:
        groups.append(number & 0x7F | 0x80)
        number >>= 7
    return bytes(groups + [number])


class Writer:
    """Writes the hall, then record by record. data has the bytes so far."""

    def __init__(self, edition):
        self.edition = edition
        self.data = bytearray()
        self.before = None  # the record before

    def hall(self, hall):
        self.numbers(*self.edition.lead.values(), *hall)

    def record(self, record):
        if self.edition.leaves_out(record, self.before):
            self.numbers(record.code + LEFT_OUT, *record.numbers[1:])
        else:
            self.numbers(record.code, *record.numbers)
        self.before = record

    def numbers(self, *numbers):
        for number in numbers:
            self.data += number_bytes(number)
