"""The editions of the day sheet, and all in which they differ: the numbers before the hall, codes with the desk left
out, and the room."""

from collections import namedtuple

from .rooms import HALL, TRAINING
from .steps import MAX_NUMBER, STEPS

# A code with the desk left out is greater by this than the code of the step.
LEFT_OUT = 8

# What a code of a sheet means: the code of the step, and whether its desk is left out.
Code = namedtuple("Code", "step left_out")


class Edition(namedtuple("Edition", "number room lead shorthand codes program")):
    """room: the room of its sheets. lead: the name and the value of each number before the hall. shorthand: can a desk
    be left out? codes: the codes, in words. program: the one that runs these sheets."""

    def meaning(self, code):
        """What a code of a sheet means; None if this edition does not have it."""
        if code in STEPS:
            return Code(code, False)
        if self.shorthand and code - LEFT_OUT in STEPS:
            return Code(code - LEFT_OUT, True)
        return None

    def leaves_out(self, record, before):
        """Must the desk of a record be left out? 'before' is the record before it, None for the first."""
        return self.shorthand and before is not None and before.desk == record.desk

    def largest(self, field):
        """The largest number of this field that a sheet can have."""
        return self.room.sessions if field == "session" else MAX_NUMBER


EDITION_1 = Edition(1, HALL, {}, False, "1 to 5", "day_sheet")
EDITION_2 = Edition(2, HALL, {"first number": 0, "edition number": 2}, True, "1 to 5 and 9 to 13", "day_sheet_2")
EDITIONS = (EDITION_1, EDITION_2, EDITION_1._replace(room=TRAINING, program="training_sheet"))


def edition_in(room, number):
    """The edition with this number in a room; None if the room does not have it."""
    return next((edition for edition in EDITIONS if (edition.room, edition.number) == (room, number)), None)
