"""Errors that the tool reports to its user."""


class UserError(Exception):
    """The tool prints the message and ends with status 2."""


def plural(count, thing):
    """'1 desk', '2 desks', '1,000 desks'."""
    return f"{count:,} {thing}" + ("" if count == 1 else "s")
