"""Writes second/pages anew: kept pages, each a folder with the files `table`, `text`, `cut`, `inspect` and more.

    python3 second/keep.py

The pages come from the fixed descriptions below; `cut` is what programs.py says the program `cut` writes for the text,
and `inspect` what it says of the program `inspect`. The file `arguments` has places, one to a line, and `find` what the
program `find` writes for them and the text. Some pages have two files more: `stdin`, a first line and the text, and
`walls`, what the program `walls` writes for it. Some have `calls`, the standard input of a session over the text, and
`session`, what the program `session` writes for it.
"""

import os
import shutil

import programs
import tables

PAGES = os.path.join(os.path.dirname(os.path.abspath(__file__)), "pages")

PROSE = b"""\
The bell-maker of the lower town kept two books. In the first he wrote what each bell was to weigh, who had asked for
it and on which day the mould was broken; in the second, which he showed to nobody, he wrote how it had sounded.  "A
bell," he used to say, "is a well-meant promise: you hear at once whether it was kept."

Years later his grand-daughter found the second book under a loose board. Its pages held no words at all - only rows of
small marks, half-circles and dots, 3 or 4 to a line. She read them aloud, one after another, tapping on the window-pane
with a spoon; and at the nineteenth mark the dog got up, went to the door, and waited for the noon-day meal.
"""


# Hyphens and blanks that meet in each way, and an LF between others.
BOTH = b"re-cut -  it- then -- x -\n-y  - "

LINES = b"one\rtwo\r\r\nthree -\r\n\r-four-"


def signed(number):
    """A number from -128 to 255 as a byte."""
    return number & 255


def two_byte(first_bytes, auxiliary, rest=b""):
    """A table for two-byte text with the school table's rows.

    first_bytes gives byte values their negative entries; auxiliary is the auxiliary table's bytes, at place 324, and
    rest what follows them.
    """
    entries = tables.school_classes()
    for value, entry in first_bytes.items():
        entries[value] = signed(entry)
    length = 324 + len(auxiliary) + len(rest)
    return (tables.header(128, 1, 0, 16, 324, 272, 292, 0, length) + bytes(entries)
            + tables.state_table(4, tables.SCHOOL_BACKWARD) + tables.state_table(4, tables.SCHOOL_FORWARD)
            + auxiliary + rest)


def row(letters=(), hyphens=(), blanks=()):
    """A row table: the classes of second bytes, other where nothing is said."""
    entries = bytearray(256)
    for char_class, values in ((1, letters), (2, hyphens), (3, blanks)):
        for value in values:
            entries[value] = char_class
    return bytes(entries)


def words(*numbers):
    """Words one after another."""
    return b"".join(tables.word(number) for number in numbers)


def edited(table, place, *values):
    """A table with other bytes from a place on."""
    return table[:place] + bytes(values) + table[place + len(values):]


def pages():
    """All kept pages: name, table and text, and for some the first line for `walls`."""
    school = tables.school()

    # All first bytes have k = 1 or 3, and all two-byte characters are letters.
    odd_class = two_byte({0x81: -1, 0x82: -3}, words(1))
    # The first-byte class table is 4 bytes into the auxiliary table: 81 letter, 82 hyphen, 83 blank, 84 other.
    odd_table = two_byte({0x81: -1, 0x82: -3, 0x83: -5, 0x84: -7}, words(-4, 0, 1, 2, 3, 0))
    # Two row tables. 01 has its own; that of 02 begins before the auxiliary table, at the class table's fourth entry.
    even_row = two_byte({0x01: -2, 0x02: -4}, words(0, 6, 16 + 3 - 324),
                        row(letters=range(0x41, 0x5B), hyphens=[0x2D], blanks=[0x20, 0xA0]))
    # Both kinds in one table, with one-byte characters among them.
    mixed = two_byte({0x81: -1, 0x82: -3, 0xE0: -2, 0xE1: -6}, words(-8, 12, 0, 268, 1, 3),
                     row(letters=range(0x80, 0x100)) + row(letters=[0x81], hyphens=[0x82], blanks=[0xE0, 0xE1]))
    # 81 is a first byte, and its characters are cut one by one.
    alone = two_byte({0x81: -1}, words(0))

    return [
        ("school-re-cut-it", school, b"re-cut it", b"rule table"),
        ("school-cut-it", school, b"cut- it", b"rule table"),
        ("school-cut-it-joint", school, b"cut- it", b"rule table joint 45"),
        ("school-re-cut-it-tail", school, b"re-cut it", b"rule table tail 32"),
        ("school-joint-over-tail", school, BOTH, b"rule table tail 32 joint 45"),
        ("school-tail-over-joint", school, BOTH, b"rule table joint 45 tail 32"),
        ("school-two-joints", school, BOTH, b"rule table joint 45 joint 10"),
        # 3 7: the runs meet at 3, 4 and 5, and at 4 and 5 a layer joins them.
        ("school-three-layers", school, b"cut- it", b"rule table joint 45 tail 32 tail 105"),
        ("school-five-layers", school, BOTH, b"rule table tail 120 joint 10 tail 121 joint 45 tail 116"),
        ("line", school, LINES, b"rule line"),
        ("line-two-tails", school, LINES, b"rule line tail 10 tail 45"),
        # 64 bytes with the LF.
        ("line-many-layers", school, LINES, b"rule line tail 10 joint 101 joint 45 tail 98 joint 255 tail 116"),
        ("school-prose", school, PROSE),
        ("school-empty", school, b""),
        ("school-one-byte", school, b"-"),
        ("two-odd-class", odd_class, b"ab\x81 \x82-c \x81\x81\x82\x82-\x81x.\x81"),
        ("two-odd-table", odd_table, b"\x81a\x82-\x81b\x82-\x82-\x83x\x83y \x84z\x84\x81\x81\x84!ab\x82\x82c"),
        ("two-even-row", even_row, b"ab\x01Ac\x01-D\x01-\x01 \x01\xa0 \x01\x01\x02A\x02*b\x02\x1d\x02\x02x\x01"),
        ("two-mixed", mixed,
         b"a\x81 b\xe0\x90\xe1\x81\xe1\x82c\xe1\x82\xe1\xe0 \x82q\xe1\xe1\xe0 d-\x81\x81 \xe0a\xe0", b"rule table"),
        # The layers look at bytes: 81 also as a second byte, and 45 and 32 as second bytes too.
        ("two-layers", alone, b"\x81\x81\x81-b\x81 \x81\x81 \x81\x81-\x81-\x81 a-\x81",
         b"rule table joint 45 tail 129"),
        ("two-four-layers", alone, b"\x81\x81\x81-b\x81 \x81\x81 \x81\x81-\x81-\x81 a-\x81",
         b"rule table tail 97 joint 45 tail 98 joint 129"),
        ("two-four-bytes", alone, b"\x81\x81\x81\x41", b"rule table"),
        ("two-first-at-end", odd_class, b"a\x81", b"rule table"),
        # Its steady check refuses it: find at 3 gives 3-6.
        ("school-unsteady", edited(school, 286, 0), b"re-cut"),
        ("refused-1", school[:271], b"re-cut it"),
        ("refused-2", edited(school, 0, 127), b"re-cut it"),
        ("refused-3", edited(school, 10, 1, 63), b"re-cut it"),  # 319: six bytes from there pass the length of 324
        ("refused-4", edited(school, 303, 29), b"re-cut it"),  # the last word of the forward list
        ("refused-5", edited(school, 113, 4), b"re-cut it"),
        ("refused-6", edited(school, 310, 12), b"re-cut it"),
        ("refused-7", edited(school, 310, 6), b"re-cut it"),
    ]


# Sessions over some of the pages.
SESSIONS = {
    "school-re-cut-it": b"rule table\npin 7\nput 3 32\nread 0\n",
    "school-cut-it": b"rule table joint 45\nlook 4\npin 6\ntry 3 97\nput 3 97\nunpin 5\nfetch 2\nunpin 5\n",
    "school-prose": b"rule table tail 32\npin 100\npin 300\nread 1\nput 110 32\nread 0\nread 1\nhanded 7 look 0\nlook\n"
                    b"put 99 97\nput 300 45\nfetch 60\nread 1",
    "school-empty": b"rule table\nlook 0\nfetch 0\nread 0\npin 0\nunpin 0\nput 0 0\ntry 0 0\nhanded 0 look 0\n",
    "line": b"rule line tail 10\npin 20\npin 8\nput 7 10\nput 7 13\nread 0\nread 1\nlook 19\n",
    "two-layers": b"rule table joint 45 tail 129\nlook 3\npin 9\nput 2 32\nput 0 97\nread 0\nfetch 3\n",
    "two-mixed": b"rule table\npin 40\npin 10\nput 0 129\nput 0 97\nread 0\nread 1\n",
    "refused-7": b"rule table\nlook 0\n",
}


def main():
    """Writes the pages."""
    if os.path.isdir(PAGES):
        shutil.rmtree(PAGES)
    made = pages()
    for name, table, text, *line in made:
        parts = {"table": table, "text": text, "cut": programs.cut(table, text), "inspect": programs.inspect(table)}
        places = sorted({0, 1, len(text) // 3, len(text) // 2, max(0, len(text) - 1), len(text)})
        arguments = [b"%d" % place for place in places]
        parts["arguments"] = b"".join(argument + b"\n" for argument in arguments)
        parts["find"] = programs.find(table, text, arguments)
        if name in SESSIONS:
            parts["calls"] = SESSIONS[name]
            parts["session"] = programs.session(table, text, SESSIONS[name])
        if line:
            parts["stdin"] = line[0] + b"\n" + text
            parts["walls"] = programs.walls(table, parts["stdin"])
        folder = os.path.join(PAGES, name)
        os.makedirs(folder)
        for part, data in parts.items():
            with open(os.path.join(folder, part), "wb") as file:
                file.write(data)
    print("%d pages written" % len(made))


if __name__ == "__main__":
    main()
