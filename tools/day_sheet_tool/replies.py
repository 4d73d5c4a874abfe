"""The meaning of each reply number."""

from .errors import plural
from .rooms import HALL, ROOMS
from .steps import MAX_BYTES, MAX_NUMBER


def reasons_in(room):
    """Reply numbers with their reasons. A sheet cannot get 4 and 5: the program lends a table of its own."""
    reasons = {
        1: f"a {room.title} has {range_of(room.desks, 'desk')}",
        2: f"a desk has {range_of(room.screens, 'screen')}",
        3: f"a {room.title} has {range_of(room.positions, 'position')}",
        6: f"the {room.title} has no such desk",
        7: "the desk has no such screen",
        8: f"the {room.title} has no such position",
        9: "the screen shows a session already",
        10: "the position holds no session",
        11: "the screen shows nothing",
        12: "the desk must first retire the session it owes",
        13: "the desk owes no session",
        14: "the desk's list is full; it must collect first",
        15: "the sheet ends before this number is complete",
        16: f"a number must end within three bytes and be at most {MAX_NUMBER:,}",
        17: "no step has this code",
        18: f"a sheet has at most {MAX_BYTES:,} bytes",
        19: "a number must be in shortest form",
        20: "a desk is left out exactly if it is the desk of the record before",
        21: "a sheet of edition 2 starts with 0 and 2",
    }
    if room != HALL:
        reasons[16] += f", a session at most {room.sessions:,}"
        most = f"at most {plural(room.desks, 'desk')} with {plural(room.screens, 'screen')} each"
        reasons[22] = f"a {room.title} has {most}"
    return reasons


def range_of(most, thing):
    """'1 to 16 desks', '1 screen'"""
    return plural(1, thing) if most == 1 else f"1 to {plural(most, thing)}"


REASONS = {room: reasons_in(room) for room in ROOMS.values()}
