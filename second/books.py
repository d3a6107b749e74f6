"""The plain book of docs/BOOKS.md: the bytes of a text and a list of places.

Each call takes the length of the text that is handed in, and its numbers; it cuts everything anew and answers from the
cutting and the walls, or raises Refused.
"""

import breaks

PINS_MOST = 64  # the most pins that are kept


class PlainBook:
    """A plain book of a rule, over the empty text until a text is opened. `places` are those of its pins, rising."""

    def __init__(self, rule):
        self.rule = rule
        self.text = b""
        self.places = []

    def open(self, text):
        """Takes a text, and has no pins then."""
        breaks.try_text(text)
        self.text = bytes(text)
        self.places = []

    # What the calls share

    def try_handed(self, handed):
        """Raises Refused where the length of the text handed in is not that of the book's text."""
        if handed != len(self.text):
            raise breaks.Refused(12, breaks.TEXT, handed)

    def number_at(self, wall):
        """How many runs of the text come before a wall: those that end at or before it."""
        return sum(1 for _, stop in self.rule.cutting(self.text) if stop <= wall)

    # The seven calls

    def look(self, handed, place):
        """Number, start and end of the run over the byte at a place."""
        self.try_handed(handed)
        breaks.try_place(self.text, place)
        for number, (start, stop) in enumerate(self.rule.cutting(self.text)):
            if start <= place < stop:
                return number, start, stop
        raise AssertionError("a place that no run is over")

    def fetch(self, handed, number):
        """Start and end of the run of a number."""
        self.try_handed(handed)
        runs = self.rule.cutting(self.text)
        if number >= len(runs):
            raise breaks.Refused(11, breaks.TEXT, number)
        return runs[number]

    def read(self, handed, which):
        """Place and number of a pin, told by how many pins come before it."""
        self.try_handed(handed)
        if which >= len(self.places):
            raise breaks.Refused(11, breaks.TEXT, which)
        place = self.places[which]
        return place, self.number_at(place)

    def pin(self, handed, place):
        """Keeps the greatest wall not above a place; its place and number."""
        self.try_handed(handed)
        breaks.try_place(self.text, place)
        wall = max(wall for wall in self.rule.walls(self.text) if wall <= place)
        if wall not in self.places:
            if len(self.places) >= PINS_MOST:
                raise breaks.Refused(14, breaks.TEXT, PINS_MOST)
            self.places = sorted(self.places + [wall])
        return wall, self.number_at(wall)

    def unpin(self, handed, place):
        """Lets the pin at a place go; its number."""
        self.try_handed(handed)
        breaks.try_place(self.text, place)
        if place not in self.places:
            raise breaks.Refused(15, breaks.TEXT, place)
        self.places = [other for other in self.places if other != place]
        return self.number_at(place)

    def try_(self, handed, place, byte):
        """What put would answer: the window's start and end, the difference, and how many pins are dropped."""
        return self.upset(handed, place, byte)[0]

    def put(self, handed, place, byte):
        """Writes a byte at a place; answers what that upset."""
        answer, self.text, self.places = self.upset(handed, place, byte)
        return answer

    def upset(self, handed, place, byte):
        """What a byte at a place upsets, the text with that byte, and the places that are walls of that text."""
        self.try_handed(handed)
        breaks.try_place(self.text, place)
        new = self.text[:place] + bytes([byte]) + self.text[place + 1:]
        new_walls = self.rule.walls(new)
        both = sorted(set(self.rule.walls(self.text)) & set(new_walls))
        start = max(wall for wall in both if wall <= place)
        stop = min([wall for wall in both if wall > place] + [len(new)])
        difference = len(self.rule.cutting(new)) - len(self.rule.cutting(self.text))
        kept = [pin for pin in self.places if pin in new_walls]
        return (start, stop, difference, len(self.places) - len(kept)), new, kept
