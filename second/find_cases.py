"""What `find` is compared with: fixed cases, and random texts and places for a table (docs/FIND.md)."""

import backward
import breaks
import edges
import finds
import programs
import tables
import texts

PAGE = b"re-cut it, cut- it; a well-kept  page "

# Arguments that are no place, and some that are but look odd.
ODD = [b"x", b"", b" ", b"-1", b"+1", b"1.5", b"-0", b"1e1", b"0x1", b" 1", b"1 ", b"1\n", b"1,000", b"1_0", b"--",
       b"-", b"1-", b"\xd9\xa4", b"4/", b"4:", b"\t1", b"one", b"--help", b"1" * 25, b"9" * 20, b"18446744073709551615",
       b"18446744073709551616", b"18446744073709551619", b"36893488147419103232", b"184467440737095516150",
       b"4294967296", b"65536", b"32768", b"16383", b"16384", b"00", b"007", b"0" * 19 + b"1", b"0" * 25,
       b"0" * 60 + b"3", b"018446744073709551615", b"0" * 30 + b"18446744073709551616", b"x" * 3000, b"1" * 3000, b"%d",
       b"%s"]


def all_places(text, past=2):
    """Arguments: every place of a text, and so many past its end."""
    return [b"%d" % place for place in range(len(text) + past)]


def fixed_find(comparison):
    """What `find` is tried with in every comparison."""
    school = tables.school()
    faulty = tables.big_file(324, 271)
    unsteady = edges.with_byte(school, 286, 0)
    two = edges.two_byte({0x81: -1, 0x82: -2}, edges.words(1, 4) + bytes([1, 0, 3, 2] * 64))

    def case(name, table, text, arguments, **more):
        """One case."""
        comparison.find(name, table, text, arguments, **more)

    case("the example", school, b"re-cut it", [b"3", b"8"], expected=b"start 0 end 6\nstart 7 end 9\n")
    case("an unsteady table", unsteady, b"re-cut", [b"3"], expected=b"start 3 end 6\n")
    case("no arguments", school, PAGE, [], expected=b"")
    # An argument is bytes, whether or not they are text in some encoding. By itself, so that it hides nothing else.
    case("bytes that are no UTF-8", school, b"re-cut it", [b"3", b"\xff", b"8"],
         expected=b"start 0 end 6\n\xff: not a place\nstart 7 end 9\n")
    case("no arguments, refused table", faulty, PAGE, [])
    case("empty text", school, b"", [b"0", b"1", b"x", b""])
    for name, table in (("school table", school), ("unsteady table", unsteady), ("refused table", faulty),
                        ("missing table", None), ("empty table", b""), ("big file", tables.big_file(100000))):
        case("odd arguments, " + name, table, PAGE, ODD + [b"3"])
        case("all places, " + name, table, PAGE, all_places(PAGE))

    # doBackup on both sides of a place.
    for backup in (-32768, -1, 0, 1, 2, 3, 4, 5, 255, 256, 32767):
        text = b"re-cut it - re-cut"
        case("doBackup %d" % backup, edges.with_word(unsteady, 12, backup), text, all_places(text))

    # Characters of two bytes: stretches of first bytes, one before the end, and places amid a character.
    for text in (b"\x81\x81\x81\x41", b"\x81", b"\x81\x81", b"a\x81\x81\x81", b"\x82" * 9, b"\x82" * 10,
                 b"-\x81 \x82-\x82", b"a\x81-\x81\x81 \x82- \x82\x82-b\x82 \x81",
                 b"re-cut it" + b"\x81\x82" * 12 + b"\x81", edges.TEXT * 2):
        for name, table in (("", two), (" unsteady", edges.with_byte(two, 286, 0)),
                            (" begins on letters", edges.edit(two, (284, bytes([0, 0, 0, 0])))),
                            (" begins at once", edges.edit(two, (280, bytes([128, 128, 128, 128]))))):
            case("two-byte text" + name, table, text, all_places(text))

    # Long texts.
    for size in (16382, 16383, 16384, 16385, 20000, 70000):
        for name, text in (("page", (PAGE * (size // len(PAGE) + 1))[:size]), ("one run", b"a" * size),
                           ("first bytes", b"\x81" * size)):
            arguments = [b"0", b"1", b"8191", b"16381", b"16382", b"16383", b"16384", b"x", b"70000"]
            case("%s of %d bytes" % (name, size), two, text, arguments)
    case("refused table, long text", faulty, bytes(20000), [b"0"])
    case("text in pieces", school, PAGE * 30, [b"0", b"500", b"1139", b"1140"], pieces=True)
    case("too long text in pieces", school, PAGE * 500, [b"0", b"16383", b"y"], pieces=True)

    # Tables at the edges.
    for number, (name, table, verdict) in enumerate(edges.edges()):
        if verdict is None or number % 4 == 0:
            case("edge: " + name, table, edges.TEXT, all_places(edges.TEXT))
    for name, table, _ in edges.steady() + edges.sure():
        case("steady: " + name, table, PAGE, all_places(PAGE))


def random_find(comparison, rng, name, table, accepted):
    """Compares `find` on a table, accepted or not, with random texts: with all places of a short one, and at times with
    some places of one that is not."""
    if accepted is None:
        text = texts.random_text(rng, table)
        comparison.find(name, table, text, rng.sample(ODD, 3) + [b"%d" % rng.randint(0, 30) for _ in range(3)])
        return
    size = rng.choice([0, 1, 2, rng.randint(3, 12), rng.randint(3, 60), rng.randint(3, 60), rng.randint(20, 100)])
    text = texts.text_of(rng, accepted, size)
    table = backward.with_backup(rng, table, max(size, 1))
    arguments = all_places(text, rng.randint(1, 3))
    for _ in range(rng.choice([0, 0, 1, 3])):
        arguments.insert(rng.randint(0, len(arguments)), rng.choice(ODD))
    comparison.find(name + " all places", table, text, arguments)
    if rng.random() < 0.4:
        text = texts.random_text(rng, table)
        size = min(len(text), 16384)
        near = [0, size - 1, size, rng.randint(0, size), rng.randint(0, size), rng.randint(0, size)]
        comparison.find(name + " some places", table, text, [b"%d" % max(0, place) for place in near])


def steady_fault(table_bytes, text, arguments):
    """Holds find of finds.py against the cutting where a table is steady. None where the table is refused or not steady
    or where nothing is asked; "" where find is right; else what is wrong."""
    try:
        table = breaks.accept(table_bytes[:programs.TABLE_MOST])
        over = [run for run in table.cutting(text) for _ in range(*run)]
    except breaks.Refused:
        return None
    places = [place for place in map(programs.number_of, arguments) if place is not None and place < len(text)]
    if not places or len(text) > 1000 or not finds.is_steady(table):
        return None
    for place in places:
        if finds.find(table, text, place) != over[place]:
            return "find at %d is not the run of the cutting" % place
    return ""
