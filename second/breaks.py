"""Texts cut by rules: a plain reading of docs/FORMAT.md, docs/RULES.md and docs/REFUSALS.md.

Everything here is done in the most direct way that the documents allow; nothing is made fast. Find and the steady check
are in finds.py, the plain book is in books.py, and the programs are in programs.py:

    python3 second/breaks.py ...  does the same as python3 second/programs.py ...
"""

import sys
from collections import deque

TEXT_MOST = 16383  # the most bytes a text has

HEADER, CLASS_TABLE, BACKWARD, FORWARD, TEXT = range(5)  # the parts of a refusal


class Refused(Exception):
    """The answer to bad input: a number, a part and a place."""

    def __init__(self, number, part, place):
        super().__init__(number, part, place)
        self.number = number
        self.part = part
        self.place = place

    def line(self):
        """The line of the refusal, without the LF that closes it."""
        return "refused %d part %d place %d" % (self.number, self.part, self.place)

    def __str__(self):
        return self.line()


# Reading numbers


def signed_byte(data, place):
    """The byte at a place, from -128 to 127."""
    assert 0 <= place < len(data)
    value = data[place]
    return value - 256 if value >= 128 else value


def word(data, place):
    """The word at a place: 16 bits, signed, high byte first."""
    assert 0 <= place and place + 2 <= len(data)
    value = data[place] * 256 + data[place + 1]
    return value - 65536 if value >= 32768 else value


# Accepting a table


def accept(handed_in):
    """The Table that the bytes are; raises Refused for the first fault of REFUSALS.md, from the top."""
    data = bytes(handed_in)

    if len(data) < 272:
        raise Refused(1, HEADER, 0)
    length = word(data, 14)
    if length < 272 or length > len(data):
        raise Refused(1, HEADER, 14)
    data = data[:length]  # what lies past length is not part of the table

    if data[0] & 128 == 0:
        raise Refused(2, HEADER, 0)

    two_byte = data[1] != 0
    class_at = word(data, 4)
    aux_at = word(data, 6)
    backward_at = word(data, 8)
    forward_at = word(data, 10)
    if class_at < 0 or class_at + 256 > length:
        raise Refused(3, HEADER, 4)
    if forward_at < 0 or forward_at + 6 > length:
        raise Refused(3, HEADER, 10)
    if backward_at < 0 or backward_at + 6 > length:
        raise Refused(3, HEADER, 8)
    if two_byte and (aux_at < 0 or aux_at + 2 > length):
        raise Refused(3, HEADER, 6)

    states, classes = read_list(data, FORWARD, forward_at, None)
    backward_states, _ = read_list(data, BACKWARD, backward_at, classes)

    for value in range(256):
        if class_is_wrong(data, two_byte, class_at, aux_at, classes, value):
            raise Refused(5, CLASS_TABLE, class_at + value)

    try_codes(data, FORWARD, forward_at, states, classes)
    try_codes(data, BACKWARD, backward_at, backward_states, classes)

    table = Table(data, two_byte, class_at, aux_at, forward_at, states, backward_at, backward_states, classes)
    place = table.first_empty_exit()
    if place is not None:
        raise Refused(7, FORWARD, place)
    return table


def read_list(data, part, offset, wanted_classes):
    """S and C of the list at an offset; wanted_classes is None for the forward list, else the C it must have."""
    if word(data, offset) != 0:
        raise Refused(4, part, offset)

    word_1 = word(data, offset + 2)
    if word_1 % 2 != 0 or word_1 < 6 or word_1 > 128:
        raise Refused(4, part, offset + 2)
    states = word_1 // 2

    classes = word(data, offset + 4) - word_1
    if wanted_classes is None:
        if classes < 1 or classes > 128:
            raise Refused(4, part, offset + 4)
    else:
        if classes != wanted_classes:
            raise Refused(4, part, offset + 4)

    if offset + 2 * states + (states - 1) * classes > len(data):
        raise Refused(4, part, offset + 2)

    for number in range(3, states):
        place = offset + 2 * number
        if word(data, place) != word(data, place - 2) + classes:
            raise Refused(4, part, place)
    return states, classes


def class_is_wrong(data, two_byte, class_at, aux_at, classes, value):
    """Whether the class under the class table's entry of a byte value is wrong."""
    entry = signed_byte(data, class_at + value)

    if not two_byte or entry >= 0:
        return not 0 <= entry < classes

    k = -entry
    if k % 2 == 1:
        w = word(data, aux_at)
        if w >= 0:
            return not 0 <= w < classes
        place = aux_at - w + k - 1
        if place + 2 > len(data):
            return True
        return not 0 <= word(data, place) < classes

    if aux_at + k + 2 > len(data):
        return True
    row_at = aux_at + word(data, aux_at + k)
    if row_at < 0 or row_at + 256 > len(data):
        return True
    for second in range(256):
        if not 0 <= signed_byte(data, row_at + second) < classes:
            return True
    return False


def try_codes(data, part, offset, states, classes):
    """Raises Refused for the first code that is odd or names a state of S or more."""
    first = offset + 2 * states
    for place in range(first, first + (states - 1) * classes):
        code = data[place]
        if code % 2 == 1 or (code & 127) // 2 >= states:
            raise Refused(6, part, place)


# Rules


class Rule:
    """What every rule answers. A rule of its own kind says what run and stands are."""

    def run(self, text):
        """The length of the first run of a text that is not empty."""
        raise NotImplementedError

    def stands(self, text, place):
        """Whether a wall stands between the bytes before a place of a text and the rest, neither of them empty."""
        raise NotImplementedError

    def end(self, text, place):
        """Where the first run of what begins at a place of a text ends."""
        try_text(text)
        try_place(text, place)
        return place + self.run(text[place:])

    def cutting(self, text):
        """All runs of a text, a list of (start, end): its first run, then the cutting of what remains."""
        return cutting_by(self.end, text)

    def wall(self, text, place):
        """Whether a wall is at a place of a text: always at place 0."""
        try_text(text)
        try_place(text, place)
        return place == 0 or self.stands(text, place)

    def walls(self, text):
        """The places of a text at which walls are, rising."""
        try_text(text)
        return [place for place in range(len(text)) if self.wall(text, place)]


class Table(Rule):
    """The table rule: an accepted break table. `states` is S of the forward table, `classes` is C."""

    def __init__(self, data, two_byte, class_at, aux_at, forward_at, states, backward_at, backward_states, classes):
        self.data = data
        self.two_byte = two_byte
        self.class_at = class_at
        self.aux_at = aux_at
        self.forward_at = forward_at
        self.states = states
        self.backward_at = backward_at
        self.backward_states = backward_states
        self.classes = classes
        self.sure = None  # the sure pairs, once they were asked for

    # Codes

    def code_place(self, state, char_class):
        """The place of the forward code of a state and a class."""
        return self.forward_at + 2 * self.states + (state - 1) * self.classes + char_class

    def code(self, state, char_class):
        """Whether the forward code of a state and a class marks, and the next state."""
        code = self.data[self.code_place(state, char_class)]
        return code & 128 != 0, (code & 127) // 2

    def backward_code_place(self, state, char_class):
        """The place of the backward code of a state and a class."""
        return self.backward_at + 2 * self.backward_states + (state - 1) * self.classes + char_class

    def backward_code(self, state, char_class):
        """Whether the backward code of a state and a class marks, and the next state."""
        code = self.data[self.backward_code_place(state, char_class)]
        return code & 128 != 0, (code & 127) // 2

    def first_empty_exit(self):
        """The place of the first code by which the forward scan can exit with no mark set after the first
        character; None where there is no such code.

        A search over all (state, whether a mark was set after the first character) that rows of classes lead to.
        """
        faults = []
        waiting = deque()
        seen = set()

        def reach(state, advanced):
            if (state, advanced) not in seen:
                seen.add((state, advanced))
                waiting.append((state, advanced))

        # The first character is read in state 1. Its own mark is not one after the first character.
        for char_class in range(self.classes):
            _, following = self.code(1, char_class)
            if following == 0:
                faults.append(self.code_place(1, char_class))
            else:
                reach(following, False)

        # Every later character.
        while waiting:
            state, advanced = waiting.popleft()
            for char_class in range(self.classes):
                marks, following = self.code(state, char_class)
                advanced_then = advanced or marks
                if following != 0:
                    reach(following, advanced_then)
                elif not advanced_then:
                    faults.append(self.code_place(state, char_class))

        return min(faults) if faults else None

    # Characters

    def char(self, text, place):
        """Size and class of the character that starts at a place of a text."""
        data = self.data
        entry = signed_byte(data, self.class_at + text[place])
        if not self.two_byte or entry >= 0:
            return 1, entry
        if place + 1 == len(text):
            return 1, 0  # a first byte that ends the text

        k = -entry
        if k % 2 == 1:
            w = word(data, self.aux_at)
            if w >= 0:
                return 2, w
            first_byte_classes = self.aux_at - w
            return 2, word(data, first_byte_classes + k - 1)
        row_at = self.aux_at + word(data, self.aux_at + k)
        return 2, signed_byte(data, row_at + text[place + 1])

    def chars(self, text, start=0):
        """The characters of a text, counted from start: a list of (place, size, class)."""
        found = []
        place = start
        while place < len(text):
            size, char_class = self.char(text, place)
            found.append((place, size, char_class))
            place += size
        return found

    # Runs

    def scan(self, text, start):
        """The forward scan from start: where the run ends, and how many characters were read for it."""
        state = 1
        mark = None
        place = start
        read = 0
        while place < len(text):
            size, char_class = self.char(text, place)
            read += 1
            marks, state = self.code(state, char_class)
            if marks:
                mark = place
            if state == 0:
                return mark, read
            place += size
        return len(text), read

    def end(self, text, place):
        """Where the run from a place of a text ends."""
        try_text(text)
        try_place(text, place)
        return self.scan(text, place)[0]

    def run(self, text):
        """The length of the first run of a text that is not empty."""
        return self.end(text, 0)

    # Walls

    def reached(self):
        """Start, and the states that some row of classes reaches from start without exit."""
        found = {1}
        waiting = deque([1])
        while waiting:
            state = waiting.popleft()
            for char_class in range(self.classes):
                _, following = self.code(state, char_class)
                if following != 0 and following not in found:
                    found.add(following)
                    waiting.append(following)
        return found

    def sure_pairs(self):
        """The sure pairs of classes: a set of (a, b)."""
        if self.sure is None:
            self.sure = set()
            states = self.reached()
            for a in range(self.classes):
                after_a = {self.code(state, a)[1] for state in states} - {0}
                for b in range(self.classes):
                    if all(self.code(state, b) == (True, 0) for state in after_a):
                        self.sure.add((a, b))
        return self.sure

    def stands(self, text, place):
        """Whether the characters that meet at a place, counted from place 0, have a sure pair of classes."""
        before = None
        for start, _, char_class in self.chars(text):
            if start == place:
                return (before, char_class) in self.sure_pairs()
            before = char_class
        return False  # no character place

    def walls(self, text):
        """The places of a text at which walls are; the characters are counted but once for all of them."""
        try_text(text)
        found = []
        before = None
        for start, _, char_class in self.chars(text):
            if start == 0 or (before, char_class) in self.sure_pairs():
                found.append(start)
            before = char_class
        return found


class Line(Rule):
    """The line rule."""

    def run(self, text):
        """The length of the first run: up to and with its first byte 13, or the whole text."""
        return line_end(text, 0)

    def end(self, text, place):
        """Where the run from a place of a text ends."""
        return line_end(text, place)

    def stands(self, text, place):
        """Whether the byte before a place is 13."""
        return text[place - 1] == 13


class Layer(Rule):
    """A rule that joins some runs of the rule below, those that a byte tells. A layer of its own kind says what
    joins is."""

    def __init__(self, below, byte):
        if not 0 <= byte <= 255:
            raise ValueError("a byte is 0 to 255")
        self.below = below
        self.byte = byte

    def joins(self, text, place):
        """Whether the two runs below that meet at a place are joined."""
        raise NotImplementedError

    def run(self, text):
        """The length of the first run: the first run below, and the next ones as long as they are joined to it."""
        try_text(text)
        try_place(text, 0)
        size = self.below.run(text)
        while size < len(text) and self.joins(text, size):
            size += self.below.run(text[size:])
        return size

    def cutting(self, text):
        """All runs of a text: those of the cutting below, joined."""
        runs = []
        for start, stop in self.below.cutting(text):
            if runs and self.joins(text, start):
                runs[-1] = (runs[-1][0], stop)
            else:
                runs.append((start, stop))
        return runs

    def stands(self, text, place):
        """Whether a wall stands below, and runs that met here would not be joined."""
        return self.below.stands(text, place) and not self.joins(text, place)

    def walls(self, text):
        """The places of a text at which walls are: place 0, and of the others below those that are left."""
        return [place for place in self.below.walls(text) if place == 0 or not self.joins(text, place)]


class Joint(Layer):
    """The joint layer: a run below whose last byte is the layer's byte takes in the next run."""

    def joins(self, text, place):
        """Whether the byte before a place is the layer's."""
        return text[place - 1] == self.byte


class Tail(Layer):
    """The tail layer: a run takes in the next run while that one starts with the layer's byte."""

    def joins(self, text, place):
        """Whether the byte after a place is the layer's."""
        return text[place] == self.byte


# Texts


def try_text(text):
    """Raises Refused for a text that is too long."""
    if len(text) > TEXT_MOST:
        raise Refused(9, TEXT, len(text))


def try_place(text, place):
    """Raises Refused for a place that is not below the text's length."""
    if place < 0:
        raise ValueError("a place is never negative")
    if place >= len(text):
        raise Refused(10, TEXT, place)


def cutting_by(end, text):
    """All runs of a text by a rule, of which end(text, place) tells where the run from a place ends."""
    try_text(text)
    runs = []
    start = 0
    while start < len(text):
        stop = end(text, start)
        assert start < stop <= len(text)
        runs.append((start, stop))
        start = stop
    return runs


def line_end(text, place):
    """Where the run from a place ends by the line rule: after a byte 13, or at the text's end."""
    try_text(text)
    try_place(text, place)
    while place < len(text):
        place += 1
        if text[place - 1] == 13:
            return place
    return place


def line_cutting(text):
    """All runs of a text by the line rule: a list of (start, end)."""
    return cutting_by(line_end, text)


if __name__ == "__main__":
    import programs

    sys.exit(programs.main(sys.argv[1:]))
