"""Where sessions are referenced, from the accepted steps. A session that is at no position, owed by no desk and on no desk's list is
shown on no screen: this is a theorem about the board, and the rule by which a session may be closed."""

from collections import Counter

from .steps import STEPS, is_repeat


class References:
    def __init__(self):
        self.positions = {}  # position -> session
        self.owed = {}  # desk -> session
        self.lists = {}  # desk -> how often each session is on its list

    def accept(self, record, session):
        """An accepted step, with the session that it replied."""
        desk, *rest = record.numbers
        listed = self.lists.setdefault(desk, Counter())
        name = STEPS[record.code].name
        if name == "swap" and not is_repeat(record, session):
            self.positions[rest[0]] = rest[1]
            self.owed[desk] = session
        elif name == "retire":
            self.owed[desk] = 0
            listed[session] += 1
        elif name == "collect":
            listed[session] -= 1

    def where(self, session):
        """One place that references the session, in words, or None."""
        for position, held in sorted(self.positions.items()):
            if held == session:
                return f"at position {position}"
        for desk, owed in sorted(self.owed.items()):
            if owed == session:
                return f"owed by desk {desk}"
        for desk, listed in sorted(self.lists.items()):
            if listed[session] > 0:
                return f"on desk {desk}'s list"
        return None
