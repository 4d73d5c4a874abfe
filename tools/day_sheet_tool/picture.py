"""The picture of a replay: one column per record, in strips one below the other.

Each strip has the records with their replies, then the positions, then every desk with its screens, what it owes
and its list. A column shows the state after its record.
"""

from .errors import plural
from .explain import end_in_words, hall_in_words
from .legend import legend
from .shapes import (
    CELL, COLUMN, HANDED_BACK, LEFT, MARGIN, MAX_CELLS, REFUSED, ROW, SCREEN, bars, boxed, listed,
)
from .steps import STEPS, is_repeat
from .svg import FAINT, INK, Drawing

HEAD = 78  # a record and its reply
STRIP_COLUMNS = 18  # at most
MAX_POSITIONS = 8
FEW_DESKS = 4

# The most records of one picture.
MAX_RECORDS = 160


def picture(name, sheet, moments, end):
    """The SVG of these moments of a sheet."""
    hall = hall_in_words(sheet)
    drawing = Drawing(f"Day sheet {name}", f"A {hall}: {end_in_words(end)}")
    drawing.words(MARGIN, 28, f"Day sheet {name}", "big")
    drawing.words(MARGIN, 46, f"A {hall}. {drawn(sheet, moments)} In all: {end_in_words(end)}.")
    drawing.words(
        MARGIN, 61, "A column shows the state after its record. Every reply agrees with the program's line.", "soft"
    )
    shown = Shown(sheet, moments)
    columns = list(moments)
    if sheet.fault and (not moments or moments[-1].number == len(sheet.records)):
        columns.append(None)  # where the reading ends
    y = 78
    for some in even_parts(columns):
        y = strip(drawing, some, shown, y) + 14
    legend(drawing, sheet.edition.room, y)
    return drawing.whole(MARGIN)


def drawn(sheet, moments):
    if not moments:
        return "It has no records."
    first, last = moments[0].number, moments[-1].number
    if last - first + 1 == len(sheet.records):
        return f"{plural(len(sheet.records), 'record')}."
    return f"Records {first:,} to {last:,} of {len(sheet.records):,}."


def even_parts(columns):
    """As few strips as possible, all of about the same length."""
    strips = -(-len(columns) // STRIP_COLUMNS)
    length = -(-len(columns) // max(strips, 1))
    return [columns[start : start + length] for start in range(0, len(columns), max(length, 1))]


class Shown:
    """Which desks and positions are drawn: all of a small hall, else those where something happens."""

    def __init__(self, sheet, moments):
        desks, _, positions = sheet.hall
        self.fault = sheet.fault
        self.desks = [at for at in range(desks) if desks <= FEW_DESKS or any(busy(moment, at) for moment in moments)]
        held = [at for at in range(positions) if any(moment.board.positions[at] for moment in moments)]
        self.positions = held[:MAX_POSITIONS]
        self.positions_left_out = len(held) - len(self.positions)


def busy(moment, at):
    desk = moment.board.desks[at]
    named = moment.record.numbers[0] == at + 1
    return named or any(desk.screens) or desk.owed != 0 or desk.used() > 0


def strip(drawing, columns, shown, top):
    """Draws one strip; returns the y of its end."""
    moments = [column for column in columns if column is not None]
    width = len(columns) * COLUMN
    drawing.rect(LEFT, top, width, HEAD, fill="#f6f6f6", stroke="none")
    for at, column in enumerate(columns):
        if column is None:
            reading_ends(drawing, shown.fault, LEFT + at * COLUMN, top)
        else:
            record(drawing, column, LEFT + at * COLUMN, top)
    y = top + HEAD + 6
    if not moments:
        return y
    if shown.positions:
        y = positions(drawing, moments, shown, y)
    for at in shown.desks:
        y = desk(drawing, moments, at, y, width)
    return y


def record(drawing, moment, x, top):
    """The step, and its reply."""
    middle = x + COLUMN / 2
    drawing.line(x, top, x, top + HEAD, stroke=FAINT, stroke_width=1)
    drawing.words(middle, top + 13, str(moment.number), "bold", "middle")
    drawing.words(middle, top + 27, f"desk {moment.record.numbers[0]}", "", "middle")
    for line, words in enumerate(asked(moment.record)):
        look = "small" if len(words) > 10 else ""
        drawing.words(middle, top + 40 + 12 * line, words, look, "middle")
    if moment.reply != 0:
        boxed(drawing, x, top + 59, f"refused {moment.reply}", **REFUSED)
    elif moment.record.code == 5 and moment.session != 0:
        boxed(drawing, x, top + 59, f"back {moment.session}", **HANDED_BACK)
    else:
        drawing.words(middle, top + 70, replied(moment), "soft", "middle")


def asked(record):
    """Two short lines."""
    name = STEPS[record.code].name
    rest = record.numbers[1:]
    if name == "take":
        return [f"take p{rest[1]}", f"on s{rest[0]}"]
    if name == "drop":
        return [f"drop s{rest[0]}"]
    if name == "swap":
        return [f"swap p{rest[0]}", f"to {rest[1] or 'none'}"]
    return [name]


def replied(moment):
    name = STEPS[moment.record.code].name
    if is_repeat(moment.record, moment.session):
        return "no change"
    if name == "swap":
        return f"was {moment.session or 'none'}"
    if name == "retire":
        return f"{moment.session} waits"
    return str(moment.session) if moment.session else "nothing"


def reading_ends(drawing, fault, x, top):
    middle = x + COLUMN / 2
    drawing.line(x, top, x, top + HEAD, stroke=INK, stroke_width=2)
    drawing.words(middle, top + 13, str(fault.record), "bold", "middle")
    drawing.words(middle, top + 27, "the reading", "", "middle")
    drawing.words(middle, top + 40, "ends at", "", "middle")
    drawing.words(middle, top + 52, f"byte {fault.number.start}", "", "middle")
    boxed(drawing, x, top + 59, f"number {fault.reply}", **REFUSED)


def positions(drawing, moments, shown, y):
    for at in shown.positions:
        bars(drawing, f"position {at + 1}", [moment.board.positions[at] for moment in moments], y, fill="#ffffff")
        y += ROW
    if shown.positions_left_out:
        drawing.words(LEFT, y + 10, f"and {plural(shown.positions_left_out, 'more position')} in use", "soft small")
        y += ROW
    return y + 4


def desk(drawing, moments, at, top, width):
    """Draws a desk's screens, what it owes and its list; returns the y of its end."""
    states = [moment.board.desks[at] for moment in moments]
    rows = max(1, *(min(state.used(), MAX_CELLS) for state in states))
    screens = len(states[0].screens)
    height = (screens + 1) * ROW + rows * CELL + 12
    for column, moment in enumerate(moments):
        if moment.record.numbers[0] == at + 1:
            drawing.rect(LEFT + column * COLUMN, top, COLUMN, height, fill="#ededed", stroke="none")
    drawing.line(MARGIN, top, LEFT + width, top, stroke=INK, stroke_width=1)
    drawing.words(MARGIN, top + 14, f"desk {at + 1}", "bold")
    y = top + 4
    for screen in range(screens):
        bars(drawing, f"screen {screen + 1}", [state.screens[screen] for state in states], y, fill=SCREEN)
        y += ROW
    bars(drawing, "owes", [state.owed for state in states], y, fill="#ffffff", stroke_dasharray="2 2")
    y += ROW
    drawing.words(LEFT - 6, y + 11, "list", "soft", "end")
    for column, state in enumerate(states):
        listed(drawing, state, LEFT + column * COLUMN, y)
    return top + height
