"""A minimal SVG writer: rectangles, lines and words, with three fills that can be told apart without colour."""

from html import escape

INK = "#1a1a1a"
SOFT = "#8a8a8a"
FAINT = "#d9d9d9"

# The approximate width of a letter: it keeps words within the picture.
LETTER = 6.2

STYLE = """
text { font-family: "DejaVu Sans", Verdana, Arial, sans-serif; font-size: 10px; fill: #1a1a1a; }
.big { font-size: 15px; font-weight: bold; }
.bold { font-weight: bold; }
.small { font-size: 9px; }
.soft { fill: #595959; }
.white { fill: #ffffff; font-weight: bold; }
"""

PATTERNS = """
<pattern id="hatch" width="6" height="6" patternUnits="userSpaceOnUse" patternTransform="rotate(45)">
<rect width="6" height="6" fill="#ffffff"/><line x1="0" y1="0" x2="0" y2="6" stroke="#c4c4c4" stroke-width="2"/>
</pattern>
"""


class Drawing:
    def __init__(self, title, description):
        self.parts = []
        self.title = title
        self.description = description
        self.width = 0
        self.height = 0

    def rect(self, x, y, width, height, **style):
        self.parts.append(
            f'<rect x="{x:g}" y="{y:g}" width="{width:g}" height="{height:g}"{attributes(style)}/>'
        )
        self.width = max(self.width, x + width)
        self.height = max(self.height, y + height)

    def line(self, x1, y1, x2, y2, **style):
        self.parts.append(f'<line x1="{x1:g}" y1="{y1:g}" x2="{x2:g}" y2="{y2:g}"{attributes(style)}/>')

    def dot(self, x, y, radius):
        self.parts.append(f'<circle cx="{x:g}" cy="{y:g}" r="{radius:g}" fill="{INK}"/>')

    def words(self, x, y, words, look="", anchor="start"):
        """Words with their baseline at y; the anchor says which end, or the middle, is at x."""
        self.parts.append(f'<text x="{x:g}" y="{y:g}" class="{look}" text-anchor="{anchor}">{plain(words)}</text>')
        self.height = max(self.height, y + 4)
        if anchor == "start":
            self.width = max(self.width, x + LETTER * len(words))

    def whole(self, margin):
        width, height = self.width + margin, self.height + margin
        head = (
            f'<svg xmlns="http://www.w3.org/2000/svg" width="{width:g}" height="{height:g}" '
            f'viewBox="0 0 {width:g} {height:g}" role="img">\n'
            f"<title>{plain(self.title)}</title>\n<desc>{plain(self.description)}</desc>\n"
            f"<style>{STYLE}</style>\n<defs>{PATTERNS}</defs>\n"
            f'<rect width="{width:g}" height="{height:g}" fill="#ffffff"/>\n'
        )
        return head + "\n".join(self.parts) + "\n</svg>\n"


def plain(words):
    """Words escaped for XML; what cannot be printed, as in an odd file name, becomes '?'."""
    return escape("".join(letter if letter.isprintable() else "?" for letter in words), quote=False)


def attributes(style):
    """stroke_width=2 becomes stroke-width="2"."""
    return "".join(f' {name.replace("_", "-")}="{escape(str(value))}"' for name, value in style.items())
