"""Bytes of a sheet in hex."""

BEFORE, AFTER = 8, 4  # bytes shown around a number


def in_hex(data):
    return data.hex(" ")


def around(data, number):
    """The number in brackets, with a few bytes around it: 'from byte 0: 01 01 01 05 [80 80]   offset 4 (0x4)'.
    A number that is missing is shown as [end]."""
    first = max(number.start - BEFORE, 0)
    last = number.end + AFTER
    parts = [
        in_hex(data[first : number.start]),
        f"[{in_hex(number.data) or 'end'}]",
        in_hex(data[number.end : last]),
        ".." if last < len(data) else "",
    ]
    return f"from byte {first}: {' '.join(filter(None, parts))}   offset {number.start} ({number.start:#x})"
