"""Makers of break tables for tests (docs/FORMAT.md, docs/REFUSALS.md).

school() is the school table. random_table(rng) makes tables, sound and damaged, from a random.Random. A table is first
made sound, as a Made that knows where its parts are; then a share of them is damaged in one or a few places. Backward
tables that make tables steady or nearly so are in backward.py, texts in texts.py.
"""

MOST = 32767  # the most that a table's length can say


def word(number):
    """A word: 16 bits in two bytes, high byte first."""
    return (number & 0xFFFF).to_bytes(2, "big")


def state_table(classes, rows):
    """A state table: its list, then the rows of codes, the row of state 1 first."""
    states = len(rows) + 1
    out = bytearray(word(0))
    for state in range(1, states):
        out += word(2 * states + (state - 1) * classes)
    for row in rows:
        assert len(row) == classes
        out += bytes(row)
    return bytes(out)


def header(flags1, flags2, version, class_at, aux_at, backward_at, forward_at, backup, length):
    """The 16 bytes of a header."""
    return (bytes([flags1, flags2]) + word(version) + word(class_at) + word(aux_at) + word(backward_at)
            + word(forward_at) + word(backup) + word(length))


SCHOOL_BACKWARD = [[132, 132, 132, 6], [132, 132, 132, 0], [132, 132, 132, 6]]
SCHOOL_FORWARD = [[10, 4, 10, 8], [128, 4, 134, 128], [0, 4, 0, 0], [128, 128, 128, 8], [128, 128, 128, 128]]


def school_classes():
    """The class table of the school table: 0 other, 1 letter, 2 hyphen, 3 blank."""
    entries = bytearray(256)
    for first, last in ((65, 90), (97, 122)):
        for value in range(first, last + 1):
            entries[value] = 1
    entries[45] = 2
    entries[32] = 3
    return entries


def school():
    """The school table, 324 bytes."""
    return (header(128, 0, 0, 16, 272, 272, 292, 0, 324) + bytes(school_classes())
            + state_table(4, SCHOOL_BACKWARD) + state_table(4, SCHOOL_FORWARD))


# Sound tables


class Made:
    """A table under way: its bytes, and where its parts are.

    `data` is all bytes that are handed in; what lies past `length` is not part of the table. `row_at` has the place of
    the row table for each even k that is in use, `odd_at` the place of the first-byte class table or None, `odds` the
    odd k in use. `aux_at` is None in a table for one-byte text.
    """

    def __init__(self, classes, states, backward_states):
        self.classes = classes
        self.states = states
        self.backward_states = backward_states
        self.data = bytearray()
        self.class_at = self.forward_at = self.backward_at = 0
        self.aux_at = None
        self.row_at = {}
        self.odd_at = None
        self.odds = []

    def length(self):
        """What the length field says."""
        return int.from_bytes(self.data[14:16], "big", signed=True)

    def put_word(self, place, number):
        """Sets the word at a place, where the bytes handed in have it."""
        if 0 <= place and place + 2 <= len(self.data):
            self.data[place:place + 2] = word(number)

    def put_byte(self, place, number):
        """Sets the byte at a place, where the bytes handed in have it."""
        if 0 <= place < len(self.data):
            self.data[place] = number & 255

    def forward_code(self, state, char_class):
        """The place of a forward code."""
        return self.forward_at + 2 * self.states + (state - 1) * self.classes + char_class

    def backward_code(self, state, char_class):
        """The place of a backward code."""
        return self.backward_at + 2 * self.backward_states + (state - 1) * self.classes + char_class


def random_classes(rng):
    """A number of classes, mostly small, at times 1 or 128."""
    kind = rng.random()
    if kind < 0.05:
        return 1
    if kind < 0.11:
        return 128
    if kind < 0.8:
        return rng.randint(2, 8)
    return rng.randint(9, 127)


def random_states(rng):
    """A number of states, mostly small, at times 3 or 64."""
    kind = rng.random()
    if kind < 0.12:
        return 3
    if kind < 0.18:
        return 64
    if kind < 0.85:
        return rng.randint(4, 9)
    return rng.randint(10, 63)


def forward_rows(rng, classes, states, free=None):
    """Rows of a forward table that is not non-advancing.

    The states are of two sorts. A careful state can be reached with no mark set after the first character, so each exit
    from it marks. A free state is reached from careful ones by a marking code only, so it may exit with no mark. State
    1 is careful and never exits.
    """
    if free is None:
        others = list(range(2, states))
        rng.shuffle(others)
        free = set(others[:rng.randint(0, len(others) - 1)])
    careful = [state for state in range(1, states) if state not in free]
    quiet = rng.choice([0.05, 0.2, 0.4])
    leaving = rng.choice([0.3, 0.5, 0.8])
    rows = []
    for state in range(1, states):
        row = []
        for _ in range(classes):
            mark = 128 * (rng.random() < 0.5)
            if state == 1:
                code = mark + 2 * rng.choice(careful if rng.random() < 0.2 or len(careful) == 1 else careful[1:])
            elif state in free:
                code = mark + (0 if rng.random() < leaving else 2 * rng.randint(1, states - 1))
            elif rng.random() < quiet:
                code = 2 * rng.choice(careful)
            elif rng.random() < leaving:
                code = 128
            else:
                code = 128 + 2 * rng.randint(1, states - 1)
            row.append(code)
        rows.append(row)
    return rows


def backward_rows(rng, classes, states):
    """Rows of a backward table: any codes that are even and name a state below S."""
    return [[128 * rng.randint(0, 1) + 2 * rng.randint(0, states - 1) for _ in range(classes)]
            for _ in range(states - 1)]


def class_stretches(rng, classes, count):
    """A list of classes that change every now and then, so that neighbouring byte values are alike."""
    known = list(range(classes))
    if rng.random() < 0.3:
        known = rng.sample(known, rng.randint(1, classes))  # some classes do not occur
    longest = rng.choice([1, 4, 30])
    out = []
    while len(out) < count:
        out += [rng.choice(known)] * rng.randint(1, longest)
    return out[:count]


def first_byte_values(rng):
    """The byte values that are to be first bytes: a range or two, some single ones, at times all or none."""
    kind = rng.random()
    if kind < 0.05:
        return []
    if kind < 0.1:
        return list(range(256))
    if kind < 0.4:
        return rng.sample(range(256), rng.randint(1, 40))
    if kind < 0.7:
        return list(range(0x81, 0xA0)) + list(range(0xE0, 0xFD))
    start = rng.randint(0, 250)
    return list(range(start, min(256, start + rng.randint(1, 80))))


def lay(rng, sizes, most=MOST):
    """Places for parts of the sizes given, in their order, from 16 on with gaps between; and the length."""
    spare = most - 16 - sum(sizes) - 40 * len(sizes)
    far = rng.randrange(len(sizes)) if spare > 0 and rng.random() < 0.08 else None
    places = []
    place = 16
    for number, size in enumerate(sizes):
        if rng.random() < 0.4:
            place += rng.randint(1, 20)
        if number == far:
            place += rng.choice([spare, rng.randint(0, spare)])
        places.append(place)
        place += size
    if rng.random() < 0.4:
        place += rng.randint(1, 20)
    if far is not None and rng.random() < 0.3:
        place = most
    return places, max(272, place)


def fresh(rng, made, length):
    """Gives a Made its bytes: noise of the length given, and at times more bytes past it."""
    past = 0
    if rng.random() < 0.3:
        past = rng.choice([1, 2, rng.randint(3, 400)])
    made.data = bytearray(rng.randbytes(length + past))


def put(made, place, part):
    """Writes a part at a place."""
    assert place + len(part) <= len(made.data)
    made.data[place:place + len(part)] = part


def finish(rng, made, length, version=None, two_byte=False):
    """Writes the header."""
    flags2 = rng.choice([1, 2, 128, 255, rng.randint(1, 255)]) if two_byte else 0
    aux_at = made.aux_at if two_byte else rng.choice([0, -1, 32767, -32768, rng.randint(0, 300)])
    if version is None:
        version = rng.choice([0, 1, -1, rng.randint(-32768, 32767)])
    put(made, 0, header(128 + rng.choice([0, 0, 127, rng.randint(0, 127)]), flags2, version, made.class_at, aux_at,
                        made.backward_at, made.forward_at, rng.choice([0, 1, -1, rng.randint(-32768, 32767)]), length))
    return made


def one_byte(rng, shared=None):
    """A sound table for one-byte text; the two state tables may be the same bytes."""
    if shared is None:
        shared = rng.random() < 0.15
    classes = random_classes(rng)
    states = random_states(rng)
    backward_states = states if shared else random_states(rng)
    made = Made(classes, states, backward_states)
    forward = state_table(classes, forward_rows(rng, classes, states))
    backward = state_table(classes, backward_rows(rng, classes, backward_states))
    parts = [("class_at", bytes(class_stretches(rng, classes, 256))), ("forward_at", forward)]
    if not shared:
        parts.append(("backward_at", backward))
    rng.shuffle(parts)
    places, length = lay(rng, [len(part) for _, part in parts])
    fresh(rng, made, length)
    for (name, part), place in zip(parts, places):
        setattr(made, name, place)
        put(made, place, part)
    if shared:
        made.backward_at = made.forward_at
    return finish(rng, made, length)


def two_byte(rng, entries="some"):
    """A sound table for two-byte text.

    Its first bytes have entries with k odd, even or both; with k odd there is one class for all or a first-byte class
    table. Row tables lie before or after the auxiliary table, apart or overlapping. With entries "any" every negative
    entry is sound and the number of classes is 128, and the class table lies anywhere, over any other part.
    """
    anywhere = entries == "any"
    classes = 128 if anywhere else random_classes(rng)
    states = rng.randint(3, 9) if anywhere else random_states(rng)
    shared = rng.random() < 0.15
    backward_states = states if shared else rng.randint(3, 12)
    made = Made(classes, states, backward_states)

    with_odd, with_even = rng.choice([(True, False), (False, True), (True, True), (True, True)])
    if anywhere:
        evens = list(range(2, 130, 2))
        made.odds = list(range(1, 129, 2))
    else:
        evens = rng.sample(range(2, 130, 2), rng.randint(1, 4)) if with_even else []
        made.odds = rng.sample(range(1, 129, 2), rng.randint(1, 4)) if with_odd else []
        if with_odd and rng.random() < 0.2:
            made.odds.append(127)
        if with_even and rng.random() < 0.2:
            evens.append(128)
    odd_table = bool(made.odds) and rng.random() < 0.6

    # Row tables: each k has its own, or one that overlaps the one before, or the same.
    row_parts = []  # lists of (k, place in the part), one list for each part
    for k in evens:
        if row_parts and (anywhere or rng.random() < 0.3):
            last = row_parts[-1]
            last.append((k, last[-1][1] + rng.choice([0, 0, 1, rng.randint(0, 255)]) * (not anywhere)))
        else:
            row_parts.append([(k, 0)])

    aux_size = max([2] + [k + 2 for k in evens])
    forward = state_table(classes, forward_rows(rng, classes, states))
    backward = state_table(classes, backward_rows(rng, classes, backward_states))
    parts = [("forward", forward), ("aux", bytes(aux_size))]
    if not anywhere:
        parts.append(("class", bytes(256)))
    if not shared:
        parts.append(("backward", backward))
    for number, row_part in enumerate(row_parts):
        parts.append((number, bytes(class_stretches(rng, classes, 256 + row_part[-1][1]))))
    rng.shuffle(parts)
    if odd_table:
        # The first-byte class table lies past the start of the auxiliary table.
        after = [name for name, _ in parts].index("aux") + 1
        parts.insert(rng.randint(after, len(parts)), ("odd", bytes(max(made.odds) + 1)))
    places, length = lay(rng, [len(part) for _, part in parts])
    fresh(rng, made, length)
    at = {}
    for (name, part), place in zip(parts, places):
        at[name] = place
        if name not in ("aux", "odd", "class"):
            put(made, place, part)

    made.forward_at = at["forward"]
    made.backward_at = made.forward_at if shared else at["backward"]
    made.aux_at = at["aux"]
    if made.odds:
        made.put_word(made.aux_at, rng.randrange(classes))
    if odd_table:
        made.odd_at = at["odd"]
        made.put_word(made.aux_at, made.aux_at - made.odd_at)
        for k in made.odds:
            made.put_word(made.odd_at + k - 1, rng.randrange(classes))
    for number, row_part in enumerate(row_parts):
        for k, into in row_part:
            made.row_at[k] = at[number] + into
            made.put_word(made.aux_at + k, made.row_at[k] - made.aux_at)

    if anywhere:
        made.class_at = rng.choice([0, 1, 2, 15, made.forward_at, made.backward_at, made.aux_at, length - 256,
                                    rng.randint(0, length - 256)])
        made.class_at = max(0, min(made.class_at, length - 256))
        return finish(rng, made, length, two_byte=True)

    made.class_at = at["class"]
    put(made, made.class_at, bytes(class_stretches(rng, classes, 256)))
    for value in first_byte_values(rng):
        made.put_byte(made.class_at + value, -rng.choice(evens + made.odds))
    return finish(rng, made, length, two_byte=True)


def over_everything(rng):
    """A sound two-byte table whose class table lies anywhere, over the header or over other parts."""
    return two_byte(rng, entries="any")


def nested(rng):
    """A sound one-byte table whose backward table lies among the codes of the forward table."""
    classes = rng.choice([2, 4, 6, 8])
    states = rng.randint(30, 64)
    backward_states = rng.randint(3, 4)
    made = Made(classes, states, backward_states)
    backward = state_table(classes, backward_rows(rng, classes, backward_states))
    first_free = states - 20
    forward = bytearray(state_table(classes, forward_rows(rng, classes, states, set(range(first_free, states)))))
    lowest = 2 * states + (first_free - 1) * classes
    inside = rng.randint(lowest, len(forward) - len(backward))
    forward[inside:inside + len(backward)] = backward
    parts = [("class_at", bytes(class_stretches(rng, classes, 256))), ("forward_at", bytes(forward))]
    rng.shuffle(parts)
    places, length = lay(rng, [len(part) for _, part in parts])
    fresh(rng, made, length)
    for (name, part), place in zip(parts, places):
        setattr(made, name, place)
        put(made, place, part)
    made.backward_at = made.forward_at + inside
    return finish(rng, made, length)


def aux_in_header(rng):
    """A sound two-byte table whose auxiliary table is at place 2: the version is its first word, and the class table
    offset is the word of k = 2, so that the row table is the class table itself, from its third byte on."""
    made = one_byte(rng)
    if made.length() < made.class_at + 258 or made.class_at > made.length() - 258:
        return made
    for part_at in (made.forward_at, made.backward_at):
        if part_at in (made.class_at + 256, made.class_at + 257):
            return made  # the row table's last two entries would lie in a state table
    made.aux_at = 2
    made.put_word(6, 2)
    made.data[1] = rng.randint(1, 255)
    made.put_word(2, rng.randrange(made.classes))
    made.put_byte(made.class_at, rng.choice([-2, -1, -3]))
    made.put_byte(made.class_at + 1, rng.choice([-2, -127]))
    made.put_byte(made.class_at + 256, rng.randrange(made.classes))
    made.put_byte(made.class_at + 257, rng.randrange(made.classes))
    made.row_at[2] = made.class_at + 2
    made.odds = [1, 3, 127]
    return made


def aux_over_forward(rng):
    """A sound two-byte table whose auxiliary table is the forward list: its first word is 0, the class of all its
    two-byte characters."""
    made = one_byte(rng)
    made.aux_at = made.forward_at
    made.put_word(6, made.aux_at)
    made.data[1] = rng.randint(1, 255)
    made.odds = [1, 5, 77, 127]
    for value in first_byte_values(rng):
        made.put_byte(made.class_at + value, -rng.choice(made.odds))
    return made


def sound(rng):
    """A sound table of any kind, as a Made."""
    makers = [one_byte, two_byte, over_everything, nested, aux_in_header, aux_over_forward]
    return rng.choices(makers, [40, 40, 6, 5, 4, 5])[0](rng)


# Damage. Each of these changes a Made; some of the changes do no harm, and that is wanted.


def short(rng, made):
    """Fewer than 272 bytes are handed in."""
    del made.data[rng.choice([0, 1, 2, 14, 15, 16, 270, 271, 271, rng.randint(0, 271)]):]


def handed_in_less(rng, made):
    """Fewer bytes are handed in than length says, or exactly as many."""
    del made.data[max(272, made.length() - rng.choice([0, 1, 1, 2, rng.randint(0, 300)])):]


def length_field(rng, made):
    """Another length, at the edges of what may be."""
    handed_in = len(made.data)
    made.put_word(14, rng.choice([271, 270, 272, 0, -1, -32768, 32767, 16, handed_in, handed_in + 1, handed_in + 1]))


def length_at_a_part(rng, made):
    """A length that ends a part, or that leaves off its last byte or more."""
    ends = [made.class_at + 256, made.forward_at + 6, made.backward_at + 6,
            made.forward_code(made.states, 0), made.backward_code(made.backward_states, 0)]
    if made.aux_at is not None:
        ends += [made.aux_at + 2, made.aux_at + 2]
        ends += [place + 256 for place in made.row_at.values()]
        ends += [made.aux_at + k + 2 for k in made.row_at]
        if made.odd_at is not None:
            ends += [made.odd_at + k + 1 for k in made.odds]
    end = rng.choice(ends) - rng.choice([0, 1, 1, 2, rng.randint(0, 8)])
    made.put_word(14, max(272, min(end, made.length())))


def flags1(rng, made):
    """The top bit of flags1 at 0."""
    made.data[0] &= 127


def flags2(rng, made):
    """A one-byte table said to be for two-byte text, or the other way round."""
    made.data[1] = 0 if made.data[1] else rng.choice([1, 128, 255])


def class_offset(rng, made):
    """Another class table offset."""
    length = made.length()
    made.put_word(4, rng.choice([-1, -256, -32768, 32767, 32512, length, length - 255, length - 255, length - 256,
                                 0, made.class_at + rng.choice([-1, 1])]))


def state_offset(rng, made, field, own, other):
    """Another offset of a state table."""
    length = made.length()
    made.put_word(field, rng.choice([-1, -2, -32768, 32767, 32762, length, length - 5, length - 5, length - 6,
                                     own + rng.choice([-1, 1, 2]), other]))


def forward_offset(rng, made):
    """Another forward offset."""
    state_offset(rng, made, 10, made.forward_at, made.backward_at)


def backward_offset(rng, made):
    """Another backward offset."""
    state_offset(rng, made, 8, made.backward_at, made.forward_at)


def aux_offset(rng, made):
    """Another auxiliary offset, in a two-byte table."""
    if made.aux_at is None:
        made.data[1] = rng.randint(1, 255)
        made.aux_at = 0
    length = made.length()
    made.put_word(6, rng.choice([-1, -2, -32768, 32767, 32766, length, length - 1, length - 1, length - 2,
                                 made.aux_at + rng.choice([-1, 1, 2])]))


def damage_list(rng, made, offset, states):
    """A list that breaks one of its rules."""
    classes = made.classes
    two_s = 2 * states
    kind = rng.randrange(7)
    if kind == 0:
        made.put_word(offset, rng.choice([1, 2, -1, 256, two_s]))
    elif kind == 1:
        made.put_word(offset + 2, rng.choice([two_s + 1, 4, 5, 2, 0, -2, 129, 130, 132, -32768 + two_s, two_s + 256]))
    elif kind == 2:
        made.put_word(offset + 4, two_s + rng.choice([0, -1, classes + 1, classes - 1, 129, 128, 1, -32768, 32000]))
    elif kind == 3:  # another number of states, that fits the word after it
        other = rng.choice([3, 64, 65, 2, states + 1, states - 1])
        made.put_word(offset + 2, 2 * other)
        made.put_word(offset + 4, 2 * other + classes)
    elif kind == 4:  # another number of classes, the whole list through
        other = rng.choice([1, 128, 129, 0, classes + 1, max(1, classes - 1)])
        for number in range(2, states):
            made.put_word(offset + 2 * number, two_s + (number - 1) * other)
    else:
        number = rng.choice([states - 1, min(3, states - 1), rng.randint(1, states - 1)])
        right = two_s + (number - 1) * classes
        made.put_word(offset + 2 * number, rng.choice([right + 1, right - 1, right + 256, 0, -right, right ^ 0x8000]))


def forward_list(rng, made):
    """A forward list that breaks its rule."""
    damage_list(rng, made, made.forward_at, made.states)


def backward_list(rng, made):
    """A backward list that breaks its rule."""
    damage_list(rng, made, made.backward_at, made.backward_states)


def entry(rng, made):
    """An entry of the class table that may be wrong."""
    value = rng.choice([0, 255, rng.randint(0, 255), rng.randint(0, 255)])
    made.put_byte(made.class_at + value, rng.choice([made.classes, made.classes, 127, -1, -2, -127, -128,
                                                     -rng.randint(1, 128)]))


def aux_word(rng, made):
    """Another first word of the auxiliary table: a wrong class, or another place of a first-byte class table."""
    if made.aux_at is None or not made.odds:
        return entry(rng, made)
    k = rng.choice(made.odds)
    made.put_word(made.aux_at, rng.choice([
        made.classes, made.classes - 1, 32767, 256, -1, -2, -32767, -32768,
        made.aux_at - (made.length() - k - 1),  # the word for k ends at length
        made.aux_at - (made.length() - k),  # and passes it by one
        made.aux_at - made.class_at - rng.randint(0, 100)]))


def odd_class(rng, made):
    """Another word in the first-byte class table."""
    if made.odd_at is None:
        return aux_word(rng, made)
    made.put_word(made.odd_at + rng.choice(made.odds) - 1,
                  rng.choice([made.classes, made.classes - 1, -1, 256, -32768, 128]))


def row_offset(rng, made):
    """Another offset of a row table."""
    if not made.row_at:
        return aux_word(rng, made)
    k = rng.choice(list(made.row_at))
    aux_at = made.aux_at
    made.put_word(aux_at + k, rng.choice([
        -aux_at, -aux_at - 1, -aux_at - 2, -32768, 32767, 32767 - aux_at + 1, made.length() - 256 - aux_at,
        made.length() - 255 - aux_at, made.class_at - aux_at, made.row_at[k] - aux_at + rng.choice([-1, 1])]))


def row_entry(rng, made):
    """A wrong entry in a row table."""
    if not made.row_at:
        return entry(rng, made)
    place = rng.choice(list(made.row_at.values()))
    made.put_byte(place + rng.choice([0, 255, rng.randint(0, 255)]), rng.choice([made.classes, 127, -1, -128]))


def wrong_code(rng, states):
    """A code that is odd, or names a state of S or more, or the highest that is right."""
    return rng.choice([2 * states, 2 * states, 2 * states - 2, 1, 129, 127, 126, 255, 254,
                       2 * rng.randrange(states) + 1])


def forward_code(rng, made):
    """A forward code that may be wrong."""
    made.put_byte(made.forward_code(rng.randint(1, made.states - 1), rng.randrange(made.classes)),
                  wrong_code(rng, made.states) | 128 * rng.randint(0, 1))


def backward_code(rng, made):
    """A backward code that may be wrong."""
    made.put_byte(made.backward_code(rng.randint(1, made.backward_states - 1), rng.randrange(made.classes)),
                  wrong_code(rng, made.backward_states) | 128 * rng.randint(0, 1))


def any_class(rng, made):
    """A class of the table."""
    return rng.randrange(made.classes)


def exit_at_start(rng, made):
    """An exit in the row of state 1, marked or not."""
    made.put_byte(made.forward_code(1, any_class(rng, made)), rng.choice([0, 128]))


def exit_after_quiet(rng, made):
    """The first code marks or not, some quiet codes follow, then an exit with no mark."""
    others = list(range(2, made.states))
    rng.shuffle(others)
    chain = [1] + others[:rng.choice([1, 1, 2, 3, 6, len(others)])]
    for state, following in zip(chain, chain[1:]):
        mark = 128 if state == 1 and rng.random() < 0.5 else 0
        made.put_byte(made.forward_code(state, any_class(rng, made)), mark + 2 * following)
    made.put_byte(made.forward_code(chain[-1], any_class(rng, made)), 0)


def exit_after_a_mark(rng, made):
    """As above, but one of the codes on the way marks, so that this way does no harm."""
    others = list(range(2, made.states))
    rng.shuffle(others)
    chain = [1] + others[:rng.randint(1, 4)]
    for state, following in zip(chain, chain[1:]):
        made.put_byte(made.forward_code(state, any_class(rng, made)), 128 + 2 * following)
    made.put_byte(made.forward_code(chain[-1], any_class(rng, made)), 0)


def many_exits(rng, made):
    """Exits with no mark at several codes past the row of state 1."""
    for _ in range(rng.randint(2, 12)):
        made.put_byte(made.forward_code(rng.randint(2, made.states - 1), any_class(rng, made)), 0)


def unmark(rng, made):
    """All codes of a state lose their mark."""
    state = rng.randint(1, made.states - 1)
    for char_class in range(made.classes):
        place = made.forward_code(state, char_class)
        if place < len(made.data):
            made.data[place] &= 127


def any_byte(rng, made):
    """Any byte of the table made another."""
    if made.data:
        made.data[rng.randrange(len(made.data))] = rng.choice([0, 1, 127, 128, 255, rng.randint(0, 255)])


def any_bit(rng, made):
    """Any bit of the table the other way round, at times one of the header."""
    if made.data:
        most = rng.choice([16, len(made.data)])
        made.data[rng.randrange(min(most, len(made.data)))] ^= 1 << rng.randint(0, 7)


DAMAGES = [
    (short, 3), (handed_in_less, 2), (length_field, 2), (length_at_a_part, 5), (flags1, 3), (flags2, 2),
    (class_offset, 3), (forward_offset, 3), (backward_offset, 3), (aux_offset, 4),
    (forward_list, 6), (backward_list, 5),
    (entry, 5), (aux_word, 3), (odd_class, 2), (row_offset, 3), (row_entry, 2),
    (forward_code, 5), (backward_code, 5),
    (exit_at_start, 4), (exit_after_quiet, 6), (exit_after_a_mark, 3), (many_exits, 3), (unmark, 2),
    (any_byte, 3), (any_bit, 3),
]


def damage(rng, made):
    """Damages a Made in one way."""
    if len(made.data) < 272:
        return  # the parts are gone
    makers, weights = zip(*DAMAGES)
    rng.choices(makers, weights)[0](rng, made)


def random_table(rng):
    """The bytes of a table: sound, or damaged in one way, or in a few."""
    made = sound(rng)
    kind = rng.random()
    if kind > 0.42:
        damage(rng, made)
    if kind > 0.9:
        damage(rng, made)
        damage(rng, made)
    return bytes(made.data)


def walled(rng):
    """The bytes of a sound table that has many sure pairs: most of its codes past the row of state 1 mark and exit.

    All exits from its lower states mark. Its higher states, if there are any, are reached by nothing; their codes are
    any.
    """
    made = rng.choice([one_byte, two_byte])(rng)
    highest = rng.choice([made.states - 1, made.states - 1, rng.randint(2, made.states - 1)])
    leaving = rng.choice([0.6, 0.85, 0.97])
    for state in range(1, made.states):
        for char_class in range(made.classes):
            if state > highest:
                code = 128 * rng.randint(0, 1) + 2 * rng.randint(0, made.states - 1)
            elif state > 1 and rng.random() < leaving:
                code = 128
            else:
                code = 128 * rng.randint(0, 1) + 2 * rng.randint(min(2, highest), highest)
            made.put_byte(made.forward_code(state, char_class), code)
    return bytes(made.data)


def big_file(size, length=None):
    """A table file of more bytes than are read: the school table and noise past it; with a length of its own where one
    is given."""
    data = bytearray(school())
    data += bytes((place * 7 + place // 256) & 255 for place in range(len(data), size))
    if length is not None:
        data[14:16] = word(length)
    return bytes(data)
