"""A short self-test of breaks.py: the cases that the documents work out, and some at the limits.

    python3 second/test_breaks.py
"""

import itertools
import os

import breaks
import compare
import edges
import programs
import tables

PASSED = 0


def same(got, expected):
    """Asserts that two things are the same, and counts it."""
    global PASSED
    assert got == expected, "got %r, expected %r" % (got, expected)
    PASSED += 1


def refusal(function, *arguments):
    """Number, part and place of the refusal that a call meets; None where it meets none."""
    try:
        function(*arguments)
    except breaks.Refused as refused:
        return refused.number, refused.part, refused.place
    return None


def school_with(place, value):
    """The school table with another byte at a place."""
    table = bytearray(tables.school())
    table[place] = value
    return bytes(table)


def two_byte_table(entries, auxiliary):
    """A table for two-byte text with the school table's rows, and the auxiliary table at 324."""
    table = bytearray(tables.school() + auxiliary)
    table[1] = 1
    table[6:8] = tables.word(324)
    table[14:16] = tables.word(len(table))
    for value, entry in entries.items():
        table[16 + value] = entry & 255
    return bytes(table)


def at_once(lowest, layers, text):
    """Runs and walls under layers that are all asked at once, at each place where runs below meet."""
    def kept(place):
        """Whether no layer joins the runs that meet at a place."""
        return all(text[place - 1 if kind is breaks.Joint else place] != byte for kind, byte in layers)

    stops = [stop for _, stop in lowest.cutting(text) if stop == len(text) or kept(stop)]
    return list(zip([0] + stops, stops)), [wall for wall in lowest.walls(text) if wall == 0 or kept(wall)]


def layers_at_once(table):
    """Layers one over the other, in any order, do what all of them do at once."""
    text = b"re-cut -  it- then -- x -\n-y  - "
    kinds = [(breaks.Joint, 45), (breaks.Tail, 32), (breaks.Joint, 32), (breaks.Tail, 45), (breaks.Joint, 10)]
    cuttings = set()
    for size in range(6):
        for layers in itertools.permutations(kinds, size):
            rule = programs.stacked(table, layers)
            same((rule.cutting(text), rule.walls(text)), at_once(table, layers, text))
            cuttings.add(tuple(rule.cutting(text)))
    same(len(cuttings) >= 10, True)


def main():
    """All tests."""
    school = tables.school()
    same(len(school), 324)
    table = breaks.accept(school)
    same((table.states, table.classes), (6, 4))

    # Runs and the cut file.
    same(table.cutting(b"re-cut it"), [(0, 6), (6, 7), (7, 9)])
    same(programs.cut(school, b"re-cut it"), bytes.fromhex("00 00 00 06 00 06 00 07 00 07 00 09"))
    same(table.cutting(b"cut- it"), [(0, 3), (3, 4), (4, 5), (5, 7)])
    same(table.end(b"re-cut it", 3), 6)
    same(table.cutting(b""), [])
    same(programs.cut(school, b""), b"")
    same(programs.cut(school + b"past the length", b"cut- it"), programs.cut(school, b"cut- it"))

    # One byte of the school table made another.
    same(refusal(breaks.accept, school_with(310, 6)), (7, 3, 312))
    same(refusal(breaks.accept, school_with(310, 135)), (6, 3, 310))
    same(refusal(breaks.accept, school_with(310, 12)), (6, 3, 310))
    same(refusal(breaks.accept, school_with(310, 10)), None)
    same(refusal(breaks.accept, school_with(113, 4)), (5, 1, 113))
    same(refusal(breaks.accept, school_with(304, 128)), (7, 3, 304))
    same(refusal(breaks.accept, school_with(304, 0)), (7, 3, 304))
    same(refusal(breaks.accept, school_with(0, 127)), (2, 0, 0))
    same(refusal(breaks.accept, school_with(293, 1)), (4, 3, 292))
    same(refusal(breaks.accept, school_with(277, 13)), (4, 2, 276))
    same(refusal(breaks.accept, school[:271]), (1, 0, 0))
    same(refusal(breaks.accept, school[:323]), (1, 0, 14))
    same(refusal(breaks.accept, school_with(15, 67)), (4, 3, 294))  # length 323: the last code passes it

    # Characters of two bytes.
    text = b"\x81\x81\x81\x41"
    table = breaks.accept(two_byte_table({0x81: -1}, tables.word(0)))
    same(table.chars(text, 0), [(0, 2, 0), (2, 2, 0)])
    same(table.chars(text, 1), [(1, 2, 0), (3, 1, 1)])
    same(table.cutting(text), [(0, 2), (2, 4)])
    table = breaks.accept(two_byte_table({0x81: -1}, tables.word(1)))
    same(table.chars(b"\x81-\x81", 0), [(0, 2, 1), (2, 1, 0)])  # a first byte that ends the text is of class 0
    table = breaks.accept(two_byte_table({0x81: -3}, tables.word(-2) + tables.word(9) + tables.word(2)))
    same(table.chars(b"\x81-", 0), [(0, 2, 2)])
    table = breaks.accept(two_byte_table({0x81: -2}, tables.word(9) + tables.word(4) + bytes(200) + b"\3" * 56))
    same(table.chars(b"\x81\xc7\x81\xc8", 0), [(0, 2, 0), (2, 2, 3)])
    same(refusal(breaks.accept, two_byte_table({0x81: -3}, tables.word(-2) + bytes(3))), (5, 1, 16 + 0x81))
    same(refusal(breaks.accept, two_byte_table({0x81: -2}, tables.word(0) + tables.word(-325))), (5, 1, 16 + 0x81))

    # The most states and classes.
    state = tables.state_table(128, [[4] * 128] + [[128] * 128 for _ in range(62)])
    big = tables.header(128, 0, 0, 16, 0, 272, 272, 0, 272 + len(state)) + bytes(128) + bytes(range(128)) + state
    table = breaks.accept(big)
    same((table.states, table.classes), (64, 128))
    same(table.cutting(b"ab\xff"), [(0, 1), (1, 2), (2, 3)])

    # Texts that are too long, places that are not there, and what `cut` makes of them.
    table = breaks.accept(school)
    same(refusal(table.cutting, bytes(16384)), (9, 4, 16384))
    same(refusal(table.end, bytes(20000), 20000), (9, 4, 20000))
    same(refusal(table.end, b"ab", 2), (10, 4, 2))
    same(len(table.cutting(bytes(16383))), 16383)
    same(programs.cut(school, bytes(20000)), b"refused 9 part 4 place 16384\n")
    same(programs.cut(school[:100], bytes(20000)), b"refused 1 part 0 place 0\n")
    same(programs.cut(b"", b"ab"), b"refused 1 part 0 place 0\n")
    same(programs.cut(tables.big_file(100000), b"cut- it"), programs.cut(school, b"cut- it"))

    # The line rule.
    same(breaks.line_cutting(b"one\rtwo\r\r\nthree"), [(0, 4), (4, 8), (8, 9), (9, 15)])
    same(breaks.line_end(b"one\rtwo", 4), 7)
    same(breaks.line_cutting(b""), [])

    # Sure pairs and walls.
    same(len(table.sure_pairs()), 9)
    same(table.sure_pairs(), {(0, 0), (0, 1), (0, 2), (0, 3), (1, 0), (1, 3), (3, 0), (3, 1), (3, 2)})
    same(table.walls(b"re-cut it"), [0, 6, 7])
    same(table.walls(b"cut- it"), [0, 5])
    same([place for place in range(9) if table.wall(b"re-cut it", place)], [0, 6, 7])
    same([place for place in range(7) if table.wall(b"cut- it", place)], [0, 5])
    same(table.run(b"re-cut it"), 6)
    same(table.walls(b""), [])
    for name, sure_table, number in edges.sure():
        same((name, len(breaks.accept(sure_table).sure_pairs())), (name, number))
    # Each two-byte character is an other, so that there is a wall at each character place and nowhere else.
    alone = breaks.accept(two_byte_table({0x81: -1}, tables.word(0)))
    same(alone.walls(text), [0, 2])
    same(alone.wall(text, 1), False)
    same(alone.walls(text[1:]), [0, 2])  # counted from place 0 of the text that is asked about

    # The layers.
    joint = breaks.Joint(table, 45)
    same(joint.cutting(b"cut- it"), [(0, 3), (3, 5), (5, 7)])
    same(joint.walls(b"cut- it"), [0, 5])
    same(joint.run(b"- it"), 2)
    same(joint.cutting(b"a--b-"), [(0, 1), (1, 5)])
    same(joint.end(b"a--b-", 2), 5)  # hyphen, then b- by the table: b and its hyphen, joined on
    tail = breaks.Tail(table, 32)
    same(tail.cutting(b"re-cut it"), [(0, 7), (7, 9)])
    same(tail.walls(b"re-cut it"), [0, 7])
    same(tail.run(b"re-cut it"), 7)
    same(tail.walls(b" a"), [0, 1])  # place 0 is a wall whatever byte follows
    same(breaks.Tail(joint, 32).cutting(b"a - b"), [(0, 2), (2, 4), (4, 5)])
    same(breaks.Joint(tail, 45).cutting(b"a - b"), [(0, 2), (2, 4), (4, 5)])
    same(breaks.Joint(tail, 32).cutting(b"a - b"), [(0, 5)])
    same(breaks.Joint(tail, 32).walls(b"a - b"), [0])
    layers_at_once(table)

    # Lines, and layers over them.
    line = breaks.Line()
    lines = b"one\rtwo\r\r\nthree"
    same(line.cutting(lines), breaks.line_cutting(lines))
    same(line.walls(lines), [0, 4, 8, 9])
    same(line.walls(b"one\r"), [0])
    same((line.run(b"\n\ra"), line.run(b"a"), line.end(lines, 8)), (2, 1, 9))
    same(breaks.Tail(line, 10).cutting(lines), [(0, 4), (4, 8), (8, 15)])
    same(breaks.Tail(line, 10).walls(lines), [0, 4, 8])
    same(breaks.Joint(line, 13).cutting(lines), [(0, 15)])
    same(breaks.Joint(line, 13).walls(lines), [0])

    # What `wall` refuses.
    for rule in (table, joint, tail, line, breaks.Tail(joint, 32), breaks.Joint(line, 13)):
        same(rule.wall(b"ab", 0), True)
        same(refusal(rule.wall, b"ab", 2), (10, 4, 2))
        same(refusal(rule.wall, b"", 0), (10, 4, 0))
        same(refusal(rule.wall, bytes(16384), 0), (9, 4, 16384))
        same(refusal(rule.wall, bytes(20000), 20000), (9, 4, 20000))
        same(refusal(rule.end, b"ab", 2), (10, 4, 2))
        same(refusal(rule.end, bytes(16384), 16384), (9, 4, 16384))
        same(refusal(rule.run, b""), (10, 4, 0))
        same(refusal(rule.cutting, bytes(16384)), (9, 4, 16384))
        same((rule.cutting(b""), rule.walls(b"")), ([], []))

    # `inspect` and `walls`.
    same(programs.inspect(school), b"states 6 classes 4 sure 9\nsteady\n")
    same(programs.inspect(b""), b"refused 1 part 0 place 0\n")
    same(programs.inspect(tables.big_file(100000)), programs.inspect(school))
    same(programs.walls(school, b"rule table\nre-cut it"), b"runs 6 7 9\nwalls 0 6 7\n")
    same(programs.walls(school, b"rule table\ncut- it"), b"runs 3 4 5 7\nwalls 0 5\n")
    same(programs.walls(school, b"rule table joint 45\ncut- it"), b"runs 3 5 7\nwalls 0 5\n")
    same(programs.walls(school, b"rule table tail 32\nre-cut it"), b"runs 7 9\nwalls 0 7\n")
    same(programs.walls(b"", b"rule line\n" + lines), b"runs 4 8 9 15\nwalls 0 4 8 9\n")
    same(programs.walls(b"", b"rule line tail 10 joint 13\n" + lines), b"runs 15\nwalls 0\n")
    same(programs.walls(school, b"rule table joint 45 tail 32 tail 105\ncut- it"), b"runs 3 7\nwalls 0\n")
    same(programs.walls(school, b"rule table joint 45 joint 45 joint 45\ncut- it"), b"runs 3 5 7\nwalls 0 5\n")
    same(programs.walls(school, b"rule table joint 116 joint 32 tail 99\nre-cut it"), b"runs 9\nwalls 0\n")
    same(programs.walls(school, b"rule table tail 120 joint 120 tail 99 joint 9\nre-cut it"),
         b"runs 6 7 9\nwalls 0 6 7\n")
    same(programs.walls(b"", b"rule line tail 10 tail 116 joint 101\n" + lines), b"runs 8 15\nwalls 0 8\n")
    same([len(line) for line in compare.MANY_LAYERS[:3]], [63] * 3)
    for line in compare.MANY_LAYERS:
        same(programs.walls(school, line + b"\n"), b"runs\nwalls\n")
    same(programs.walls(school, b"rule table\n"), b"runs\nwalls\n")
    same(programs.walls(school, b"rule table\n\n"), b"runs 1\nwalls 0\n")
    same(programs.walls(school, b"rule table\n" + bytes(20000)), b"refused 9 part 4 place 16384\n")
    same(programs.walls(b"", b"rule line\n" + bytes(16384)), b"refused 9 part 4 place 16384\n")
    same(programs.walls(school[:271], b"rule table\n" + bytes(20000)), b"refused 1 part 0 place 0\n")
    same(len(programs.walls(school, b"rule table\n" + bytes(16383)).split()), 2 + 2 * 16383)
    for stdin in compare.NO_RULE:
        same(programs.walls(school, stdin), b"no rule\n")
        same(programs.walls(b"", stdin), b"no rule\n")
    same(programs.named(b"rule table joint 0 tail 255"), (b"table", [(breaks.Joint, 0), (breaks.Tail, 255)]))

    # The edges of all rules, with the verdicts that edges.py states.
    for name, table, verdict in edges.edges():
        same((name, refusal(breaks.accept, table)), (name, verdict))

    # The sample.
    sample = os.path.join(os.path.dirname(os.path.abspath(__file__)), "..", "sample", "table")
    with open(sample, "rb") as file:
        same(file.read(), school)

    print("%d passed, 0 failed" % PASSED)


if __name__ == "__main__":
    main()
