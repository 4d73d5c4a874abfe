"""The rooms and their limits."""

from collections import namedtuple


class Room(namedtuple("Room", "name title desks screens positions sessions")):
    """name: that of the option --room. title: what sentences call it. Then its limits: the most desks, screens per desk
    and positions, and the largest session."""

    def opening(self, hall):
        """The reply number of an opening with these numbers, 0 if it is accepted, and which of them it refuses. Every
        room first asks the ranges of the hall."""
        for at, (given, most) in enumerate(zip(hall, HALL.most())):
            if not 1 <= given <= most:
                return at + 1, at
        for at, (given, most) in enumerate(zip(hall, self.most())):
            if given > most:
                return 22, at
        return 0, None

    def most(self):
        """The limits of the numbers of a hall, in their order."""
        return self.desks, self.screens, self.positions


HALL = Room("hall", "hall", desks=16, screens=4, positions=64, sessions=65_535)
TRAINING = Room("training", "training room", desks=4, screens=1, positions=64, sessions=999)
ROOMS = {room.name: room for room in (HALL, TRAINING)}
