"""The legend of a picture."""

from .shapes import COLUMN, HANDED_BACK, LEFT, MARGIN, REFUSED, ROW, SCREEN, boxed, cell
from .svg import FAINT, INK


def legend(drawing, room, top):
    """Two columns of samples with their meanings."""
    drawing.line(MARGIN, top, LEFT + 11 * COLUMN, top, stroke=FAINT, stroke_width=1)
    drawing.words(MARGIN, top + 18, "legend", "bold")
    x, y = LEFT, top + 7
    for kind, marked, words in [
        ("ready", False, "ready: a later collect hands it back"),
        ("tested", False, f"tested: the screens of the {room.title} are being read"),
        ("tested", True, "tested and marked: a screen that was read shows it"),
        ("waiting", False, "waiting: the next reading tests it"),
    ]:
        cell(drawing, kind, "300", marked, x, y)
        drawing.words(x + COLUMN + 4, y + 11, words)
        y += ROW
    x, y = LEFT + 6 * COLUMN, top + 7
    drawing.rect(x + 3, y, COLUMN - 6, ROW - 4, rx=2, stroke=INK, stroke_width=1, fill=SCREEN)
    drawing.words(x + COLUMN / 2, y + 11, "300", "", "middle")
    drawing.words(x + COLUMN + 4, y + 11, "a screen shows 300, as long as the bar")
    boxed(drawing, x, y + ROW, "refused 13", **REFUSED)
    drawing.words(x + COLUMN + 4, y + ROW + 11, "the board refused the step, with this number")
    boxed(drawing, x, y + 2 * ROW, "back 300", **HANDED_BACK)
    drawing.words(x + COLUMN + 4, y + 2 * ROW + 11, "a collect handed back one retirement of 300")
    drawing.words(x + 3, y + 3 * ROW + 11, "p1, s1: position 1, screen 1. Grey: the desk whose step it is.")
    drawing.words(
        LEFT,
        y + 4 * ROW + 11,
        "A session may be closed once it is at no position, owed by no desk and on no list: then no screen shows it.",
    )
