"""The five steps: their codes, names and fields. The largest number and the greatest length of a sheet."""

from collections import namedtuple


class Record(namedtuple("Record", "code numbers")):
    """A step of a sheet: its code, 1 to 5, and its numbers in the order of the fields. The desk is among them, also if
    the sheet leaves it out."""

    @property
    def desk(self):
        return self.numbers[0]


Step = namedtuple("Step", "name fields")

STEPS = {
    1: Step("take", ("desk", "screen", "position")),
    2: Step("drop", ("desk", "screen")),
    3: Step("swap", ("desk", "position", "session")),
    4: Step("retire", ("desk",)),
    5: Step("collect", ("desk",)),
}

CODES = {step.name: code for code, step in STEPS.items()}

HALL_FIELDS = ("desks", "screens per desk", "positions")

MAX_NUMBER = 65_535
MAX_BYTES = 65_536


def is_repeat(record, session):
    """Is the record, accepted with this session, a swap to what was already at the position? Then it changed nothing."""
    return STEPS[record.code].name == "swap" and record.numbers[2] == session
