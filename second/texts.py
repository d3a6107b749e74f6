"""Makers of texts and layers for tests, from a random.Random (docs/FORMAT.md, docs/RULES.md)."""

import breaks
from tables import MOST


def random_text(rng, table):
    """The bytes of a text, chosen for a table (its bytes, sound or not)."""
    try:
        accepted = breaks.accept(table[:MOST])
    except breaks.Refused:
        accepted = None
    kind = rng.random()
    if kind < 0.15:
        size = rng.choice([0, 1, 2])
    elif kind < 0.95:
        size = rng.choice([rng.randint(3, 20), rng.randint(3, 120), rng.randint(3, 400)])
    else:
        size = rng.choice([16382, 16383, 16383, 16384, 16384, 16385, 20000, 70000])
    text = text_of(rng, accepted, size)
    if size > 1000 and accepted is not None and slow(accepted, text[:breaks.TEXT_MOST]):
        text = text[:rng.randint(3, 400)]
    return text


def text_of(rng, accepted, size):
    """A text of a size: stretches of first bytes, of pairs, of bytes of one class and of any bytes, with a first byte
    or a pair at its end at times."""
    first, plain = [], {}
    if accepted is not None:
        for value in range(256):
            entry_value = breaks.signed_byte(accepted.data, accepted.class_at + value)
            if entry_value < 0:
                first.append(value)
            else:
                plain.setdefault(entry_value, []).append(value)
    first = first or [0x81, 0x9F, 0xE0]
    by_class = list(plain.values()) or [list(range(65, 91)), [32], [45]]

    def stretch():
        kind = rng.random()
        count = rng.choice([1, 2, 3, rng.randint(1, 12)])
        if kind < 0.2:
            return [rng.choice(first) for _ in range(count)]
        if kind < 0.4:
            return [value for _ in range(count) for value in (rng.choice(first), rng.randint(0, 255))]
        if kind < 0.65:
            values = rng.choice(by_class)
            return [rng.choice(values) for _ in range(count)]
        if kind < 0.75:
            return list(b"a well-kept  page - it is"[:2 * count])
        if kind < 0.8:
            return [rng.randint(0, 255)] * count
        return [rng.randint(0, 255) for _ in range(count)]

    out = []
    while len(out) < size:
        out += stretch()
    del out[size:]
    kind = rng.random()
    if kind < 0.2 and size >= 1:
        out[-1] = rng.choice(first)
    elif kind < 0.35 and size >= 2:
        out[-2:] = [rng.choice(first), rng.choice(first)]
    elif kind < 0.45 and size >= 3:
        out[-3:] = [rng.choice(first), rng.choice(first), rng.choice(first)]
    return bytes(out)


def line_text(rng):
    """The bytes of a text for the line rule: many bytes 13 and 10, and some others, few of them different."""
    size = rng.randint(0, 2) if rng.random() < 0.1 else rng.randint(3, rng.choice([20, 120, 400]))
    values = [13] * rng.randint(1, 4) + [10] * rng.randint(0, 3) + list(b"a- ") + [rng.randint(0, 255)]
    return bytes(rng.choice(values) for _ in range(size))


def random_layers(rng, rule, text, joining=0.75):
    """Some layers for a rule, lowest first, each its class of breaks.py and its byte: mostly none, one or two, and
    at times about as many as a first line of `walls` has room for. As often as joining says, the byte is one that joins
    runs of the text."""
    layers = []
    for _ in range(rng.choice([0, 1, 1, 2, 2, rng.randint(3, 4), rng.randint(3, 6)])):
        kind = rng.choice([breaks.Joint, breaks.Tail])
        runs = rule.cutting(text[:400])
        if rng.random() < joining and len(runs) > 1:
            place = rng.choice(runs)[0] or runs[1][0]
            byte = text[place - 1 if kind is breaks.Joint else place]
        elif rng.random() < 0.6 and text:
            byte = rng.choice(text[:400])
        else:
            byte = rng.choice([0, 255, rng.randint(0, 255)])
        layers.append((kind, byte))
        rule = kind(rule, byte)
    return layers


def first_line(lowest, layers):
    """The first line for the program `walls`, its LF with it."""
    words = ["rule", lowest]
    for kind, byte in layers:
        words += [kind.__name__.lower(), str(byte)]
    return " ".join(words).encode("ascii") + b"\n"


def slow(accepted, text, most=200000):
    """Whether cutting a text means reading more than so many characters, some of them again and again."""
    read = 0
    start = 0
    while start < len(text):
        start, count = accepted.scan(text, start)
        read += count
        if read > most:
            return True
    return False
