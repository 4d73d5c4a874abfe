"""The shapes of a picture: a row of bars, a desk's list, a boxed reply."""

from itertools import groupby

from .svg import FAINT, INK, SOFT

COLUMN = 66
LEFT = 122  # room for the names of the rows
MARGIN = 16
ROW = 18
CELL = 15
MAX_CELLS = 10  # of a list; the rest is shown as a count

SCREEN = "#bcd9ee"
REFUSED = {"fill": INK, "stroke": INK}
HANDED_BACK = {"fill": "#ffffff", "stroke": INK, "stroke_width": 2}

# They can be told apart without colour, and each cell has a letter.
KINDS = {
    "ready": {"fill": "#ffffff", "stroke": INK, "stroke_width": 2},
    "tested": {"fill": "url(#hatch)", "stroke": INK, "stroke_width": 1},
    "waiting": {"fill": "#e4e4e4", "stroke": SOFT, "stroke_width": 1, "stroke_dasharray": "3 2"},
}


def boxed(drawing, x, y, words, **style):
    drawing.rect(x + 2, y, COLUMN - 4, 15, rx=3, **style)
    look = "white" if style["fill"] == INK else "bold"
    drawing.words(x + COLUMN / 2, y + 11, words, f"{look} small", "middle")


def bars(drawing, name, sessions, y, **style):
    """A row: a bar for each run of columns with the same session, with its number."""
    drawing.words(LEFT - 6, y + 12, name, "soft", "end")
    drawing.line(LEFT, y + 8, LEFT + len(sessions) * COLUMN, y + 8, stroke=FAINT, stroke_width=1)
    start = 0
    for session, run in groupby(sessions):
        length = len(list(run))
        if session != 0:
            x = LEFT + start * COLUMN
            drawing.rect(x + 3, y + 1, length * COLUMN - 6, ROW - 4, rx=2, stroke=INK, stroke_width=1, **style)
            drawing.words(x + COLUMN / 2, y + 12, str(session), "", "middle")
        start += length


def listed(drawing, state, x, y):
    """The list from its front: ready, tested, waiting. What does not fit is shown as a count."""
    cells = [("ready", session, False) for session in state.ready]
    cells += [("tested", session, marked) for session, marked in zip(state.tested, state.marks)]
    cells += [("waiting", session, False) for session in state.waiting]
    fit = len(cells) if len(cells) <= MAX_CELLS else MAX_CELLS - 1
    for at, (kind, session, marked) in enumerate(cells[:fit]):
        cell(drawing, kind, str(session), marked, x, y + at * CELL)
    if fit < len(cells):
        drawing.words(x + COLUMN / 2, y + fit * CELL + 11, f"and {len(cells) - fit} more", "small", "middle")


def cell(drawing, kind, words, marked, x, y):
    drawing.rect(x + 5, y + 1, COLUMN - 10, CELL - 3, **KINDS[kind])
    drawing.words(x + 9, y + 11, kind[0].upper(), "bold small")
    drawing.words(x + COLUMN / 2 + 2, y + 11, words, "small", "middle")
    if marked:
        drawing.dot(x + COLUMN - 11, y + 7, 3)
