"""Makers of backward tables for tests (docs/FIND.md).

redrawn(rng, table) gives an accepted table another backward table and another doBackup, so that steady tables, nearly
steady ones and any others all occur.

The new backward table is put after all else, and the length grows by it.
"""

import breaks
import finds
import tables


def with_rows(table, rows, gap=b"", past=b""):
    """The bytes of an accepted table with a backward table of other rows behind it; None where that does not fit or
    where the bytes that changed were part of something else and it is no longer accepted."""
    length = breaks.word(table, 14)
    data = bytearray(table[:length] + gap)
    data[8:10] = tables.word(len(data))
    classes = breaks.accept(table).classes
    data += tables.state_table(classes, rows)
    if len(data) > tables.MOST:
        return None
    data[14:16] = tables.word(len(data))
    data = bytes(data) + past
    try:
        breaks.accept(data)
    except breaks.Refused:
        return None
    return data


def any_rows(rng, classes, states):
    """Rows of any codes, with exits seldom or often, marked or not."""
    leaving = rng.choice([0.05, 0.2, 0.5])
    marking = rng.choice([0.1, 0.5, 0.9])
    marking_exits = rng.choice([0, 0.1, 0.5, 1])
    rows = []
    for _ in range(1, states):
        row = []
        for _ in range(classes):
            if rng.random() < leaving:
                row.append(128 * (rng.random() < marking_exits))
            else:
                row.append(128 * (rng.random() < marking) + 2 * rng.randint(1, states - 1))
        rows.append(row)
    return rows


def last_class_rows(rng, table):
    """Rows that are steady by their make: state 2 + c is that of a mark on class c, with nothing read since. Reading d
    there, the scan exits where (d, c) is a sure pair, and otherwise marks again. Some of these exits do not happen: the
    scan marks again, or waits in a last state, which exits by its own or marks again. Where every class makes a sure
    pair with c, the code that marks on c may exit at once."""
    classes = table.classes
    sure = table.sure_pairs()
    waiting = classes + 2
    holding = rng.choice([0, 0.2, 0.5])
    at_once = rng.choice([0, 0.3])
    quiet = rng.choice([0, 0.2])
    closed = {c for c in range(classes) if all((d, c) in sure for d in range(classes))}

    def marked(c):
        """A code that marks on c, and exits only where that does no harm."""
        return 128 if c in closed and rng.random() < at_once else 128 + 2 * (2 + c)

    first = [2 if rng.random() < quiet else marked(c) for c in range(classes)]
    rows = [first]
    for c in range(classes):
        row = []
        for d in range(classes):
            if (d, c) not in sure:
                row.append(marked(d))
            elif rng.random() < holding:
                row.append(rng.choice([marked(d), 2 * waiting]))
            else:
                row.append(0)
        rows.append(row)
    rows.append([rng.choice([0, 2 * waiting, marked(d)]) for d in range(classes)])
    return rows


def mended(rng, table, rows):
    """Rows in which each code that exits with an unsure mark goes on instead; None where that takes too long."""
    rows = [list(row) for row in rows]
    states = len(rows) + 1
    for _ in range(12):
        made = with_rows(table, rows)
        if made is None:
            return None
        accepted = breaks.accept(made)
        places = finds.unsure_exits(accepted)
        if not places:
            return rows
        first = accepted.backward_code_place(1, 0)
        for place in places:
            state, char_class = divmod(place - first, accepted.classes)
            rows[state][char_class] = 128 * rng.randint(0, 1) + 2 * rng.randint(1, states - 1)
    return None


def spoilt(rng, rows):
    """Rows of which one code or a few are made exits, marked or not, or lose or get a mark."""
    rows = [list(row) for row in rows]
    for _ in range(rng.choice([1, 1, 1, 2, 4])):
        row = rng.choice(rows)
        char_class = rng.randrange(len(row))
        row[char_class] = rng.choice([0, 0, 128, row[char_class] ^ 128])
    return rows


def redrawn(rng, table):
    """The bytes of an accepted table with other backward rows, of a kind that chance tells, and another doBackup; its
    own bytes where that cannot be."""
    accepted = breaks.accept(table)
    classes = accepted.classes
    kind = rng.choice(["any", "last class", "last class", "last class spoilt", "mended", "mended", "mended spoilt"])
    if classes > 20 and kind != "any":
        kind = rng.choice(["any", kind]) if classes <= 61 else "any"
    if kind.startswith("last class"):
        rows = last_class_rows(rng, accepted)
    else:
        rows = any_rows(rng, classes, rng.randint(3, 9) if rng.random() < 0.95 else 64)
        if kind.startswith("mended"):
            rows = mended(rng, table, rows) or rows
    if kind.endswith("spoilt"):
        rows = spoilt(rng, rows)
    gap = rng.randbytes(rng.choice([0, 0, 1, 2, 7]))
    past = rng.randbytes(rng.choice([0, 0, 0, 1, 30]))
    made = with_rows(table, rows, gap, past)
    return with_backup(rng, table if made is None else made)


def with_backup(rng, table, size=40):
    """An accepted table with another doBackup: below 0, 0, within a text of a size, at its end, above it. As it was
    where doBackup is part of something else that would be wrong then."""
    backup = rng.choice([-32768, -1, -rng.randint(1, 300), 0, 0, 0, 1, rng.randint(0, size), size, 32767])
    made = table[:12] + tables.word(backup) + table[14:]
    try:
        breaks.accept(made)
    except breaks.Refused:
        return table
    return made
