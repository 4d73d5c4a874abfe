"""A board from documents 01 and 02, used to draw the state after each record."""

from .steps import STEPS


class Desk:
    def __init__(self, screens):
        self.screens = [0] * screens  # what each shows, 0 for nothing
        self.owed = 0
        self.scanned = 0  # k, the screens of the hall read so far
        self.ready = []
        self.tested = []
        self.marks = []  # one for each tested place
        self.waiting = []

    def used(self):
        return len(self.ready) + len(self.tested) + len(self.waiting)


class Board:
    def __init__(self, hall):
        desks, self.screens, positions = hall
        self.positions = [0] * positions
        self.desks = [Desk(self.screens) for _ in range(desks)]

    def all_screens(self):
        """What the screens of the hall show, desk by desk."""
        return [shown for desk in self.desks for shown in desk.screens]

    def step(self, record):
        """The reply number and the session. A refused step changes nothing."""
        given = dict(zip(STEPS[record.code].fields, record.numbers))
        if not 1 <= given["desk"] <= len(self.desks):
            return 6, 0
        if "screen" in given and not 1 <= given["screen"] <= self.screens:
            return 7, 0
        if "position" in given and not 1 <= given["position"] <= len(self.positions):
            return 8, 0
        desk = self.desks[given.pop("desk") - 1]
        return getattr(self, STEPS[record.code].name)(desk, **given)

    def take(self, desk, screen, position):
        session = self.positions[position - 1]
        if desk.screens[screen - 1] != 0:
            return 9, 0
        if session == 0:
            return 10, 0
        desk.screens[screen - 1] = session
        return 0, session

    def drop(self, desk, screen):
        session = desk.screens[screen - 1]
        if session == 0:
            return 11, 0
        desk.screens[screen - 1] = 0
        return 0, session

    def swap(self, desk, position, session):
        if desk.owed != 0:
            return 12, 0
        old = self.positions[position - 1]
        if session != old:
            self.positions[position - 1] = session
            desk.owed = old
        return 0, old

    def retire(self, desk):
        if desk.owed == 0:
            return 13, 0
        if desk.used() >= 2 * len(self.all_screens()):
            return 14, 0
        session, desk.owed = desk.owed, 0
        desk.waiting.append(session)
        return 0, session

    def collect(self, desk):
        if not desk.tested and desk.waiting:
            desk.tested, desk.waiting = desk.waiting, []
            desk.marks = [False] * len(desk.tested)
        screens = self.all_screens()
        if desk.tested:
            for session in screens[desk.scanned : desk.scanned + 2]:
                mark_first(desk, session)
                desk.scanned += 1
        if desk.scanned == len(screens):
            settle(desk)
        return 0, desk.ready.pop(0) if desk.ready else 0


def mark_first(desk, session):
    """Marks the first unmarked tested place with this session, if there is one."""
    for at, (tested, marked) in enumerate(zip(desk.tested, desk.marks)):
        if tested == session and not marked:
            desk.marks[at] = True
            return


def settle(desk):
    """The whole hall is read: unmarked sessions become ready, marked ones wait again, ahead of the others."""
    pairs = list(zip(desk.tested, desk.marks))
    desk.ready += [session for session, marked in pairs if not marked]
    desk.waiting = [session for session, marked in pairs if marked] + desk.waiting
    desk.tested, desk.marks, desk.scanned = [], [], 0
