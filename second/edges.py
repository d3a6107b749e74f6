"""Fixed tables at the edges of each rule of docs/FORMAT.md and docs/REFUSALS.md, on both sides of them.

edges() lists (name, table, verdict): the verdict is stated here by hand, None where the table is accepted and
(number, part, place) where it is refused. TEXT is a text that all of them can be tried with. sure() lists accepted
tables (name, table, number) for docs/RULES.md, with the number of their sure pairs, stated by hand as well; steady()
lists accepted tables (name, table, verdict) for docs/FIND.md, with the verdict of the steady check. small_backward() is
every backward table of a small make, with no verdict: what is compared there is compared with no case in mind.
"""

import itertools

import tables
from tables import word

TEXT = b"re-cut it \x81a\x81-\x82\x82 x-\x81y\xff\xffz\x81"

# Most tables here are made from the school table, which has its backward table at 272 and its forward table at 292.
# Where the first-byte entries of the two-byte tables below are.
ENTRY_81 = 16 + 0x81
ENTRY_82 = 16 + 0x82


def words(*numbers):
    """Words one after another."""
    return b"".join(word(number) for number in numbers)


def edit(table, *edits):
    """A table with other bytes; each edit is a place and the bytes from there on."""
    table = bytearray(table)
    for place, new in edits:
        assert place + len(new) <= len(table)
        table[place:place + len(new)] = new
    return bytes(table)


def with_byte(table, place, value):
    """A table with another byte."""
    return edit(table, (place, bytes([value & 255])))


def with_word(table, place, number):
    """A table with another word."""
    return edit(table, (place, word(number)))


def with_length(table, length):
    """A table with another length."""
    return with_word(table, 14, length)


def of_parts(parts, flags2=0, version=0):
    """A table of parts, one after another from place 16 on: pairs of a name and bytes.

    The names that count are class, aux, backward and forward; with no backward part the two state tables are the same.
    """
    at = {"aux": 0}
    body = b""
    for name, part in parts:
        at[name] = 16 + len(body)
        body += part
    return tables.header(128, flags2, version, at["class"], at["aux"], at.get("backward", at["forward"]),
                         at["forward"], 0, 16 + len(body)) + body


def classes_with(entries):
    """The school table's class table with other entries."""
    out = tables.school_classes()
    for value, entry in entries.items():
        out[value] = entry & 255
    return bytes(out)


SCHOOL = tables.school()
CLASSES = classes_with({})
BACKWARD = tables.state_table(4, tables.SCHOOL_BACKWARD)
FORWARD = tables.state_table(4, tables.SCHOOL_FORWARD)


def two_byte(entries, auxiliary):
    """The school table made one for two-byte text, the auxiliary table at 324."""
    return of_parts([("class", classes_with(entries)), ("backward", BACKWARD), ("forward", FORWARD),
                     ("aux", auxiliary)], flags2=1)


def plain(classes, rows, entries=bytes(256)):
    """A one-byte table whose two state tables are one, at 272."""
    return of_parts([("class", bytes(entries)), ("forward", tables.state_table(classes, rows))])


def big(parts, flags2=0):
    """A table of 32,767 bytes: the parts given come last, after the school table's and as many 0 as fit."""
    own = [name for name, _ in parts]
    first = [(name, part) for name, part in (("class", CLASSES), ("backward", BACKWARD), ("forward", FORWARD))
             if name not in own]
    gap = 32767 - 16 - sum(len(part) for _, part in first + parts)
    return of_parts(first + [("gap", bytes(gap))] + parts, flags2=flags2)


def sizes():
    """Sizes, length and flags."""
    # The smallest table of all: class table, auxiliary table and both state tables are all at 16, with 123 classes.
    state = tables.state_table(123, [[4] * 123, [2, 4, 2] * 41])
    smallest = tables.header(128, 1, 0, 16, 16, 16, 16, 0, 272) + state + bytes(256 - len(state))
    return [
        ("no bytes", b"", (1, 0, 0)),
        ("one byte", b"\x80", (1, 0, 0)),
        ("272 bytes", smallest, None),
        ("271 bytes", smallest[:271], (1, 0, 0)),
        ("271 bytes, length 271", with_length(smallest, 271)[:271], (1, 0, 0)),
        ("272 bytes, length 271", with_length(smallest, 271), (1, 0, 14)),
        ("272 bytes, length 273", with_length(smallest, 273), (1, 0, 14)),
        ("273 bytes, length 272", smallest + b"\xff", None),
        ("length 0", with_length(SCHOOL, 0), (1, 0, 14)),
        ("length -1", with_length(SCHOOL, -1), (1, 0, 14)),
        ("length -32768", with_length(SCHOOL, -32768), (1, 0, 14)),
        ("length one above", with_length(SCHOOL, 325), (1, 0, 14)),
        ("bytes past length", SCHOOL + bytes(range(256)), None),
        ("flags1 127", with_byte(SCHOOL, 0, 127), (2, 0, 0)),
        ("flags1 0", with_byte(SCHOOL, 0, 0), (2, 0, 0)),
        ("flags1 255", with_byte(SCHOOL, 0, 255), None),
        ("flags2 1 without first bytes", with_byte(SCHOOL, 1, 1), None),
        ("flags2 128", with_byte(two_byte({0x81: -1}, word(1)), 1, 128), None),
        ("flags2 2", with_byte(two_byte({0x81: -1}, word(1)), 1, 2), None),
        ("flags2 0 with first bytes", with_byte(two_byte({0x81: -1}, word(1)), 1, 0), (5, 1, ENTRY_81)),
        ("version and doBackup", edit(SCHOOL, (2, b"\xff\xff"), (12, b"\x80\x01")), None),
    ]


def offsets():
    """The four offsets."""
    class_last = of_parts([("backward", BACKWARD), ("forward", FORWARD), ("class", CLASSES)])
    list_last = SCHOOL + words(0, 6, 7)
    list_last = with_length(list_last, 330)
    odd = two_byte({0x81: -1}, word(1))
    return [
        ("class table last", class_last, None),
        ("class table one too far", with_word(class_last, 4, 324 - 255), (3, 0, 4)),
        ("class table passes, length one less", with_length(class_last, 323), (3, 0, 4)),
        ("class table before", with_word(SCHOOL, 4, -1), (3, 0, 4)),
        ("class table far before", with_word(SCHOOL, 4, -32768), (3, 0, 4)),
        ("class table at 32511", big([("class", CLASSES)]), None),
        ("class table at 32512", with_word(big([]), 4, 32512), (3, 0, 4)),
        ("class table at 32767", with_word(big([]), 4, 32767), (3, 0, 4)),
        ("class table an odd place on", of_parts([("gap", b"\xff"), ("class", CLASSES), ("backward", BACKWARD),
                                                  ("forward", FORWARD)]), None),
        ("forward before", with_word(SCHOOL, 10, -1), (3, 0, 10)),
        ("forward list at the end", with_word(list_last, 10, 324), (4, 3, 326)),
        ("forward list past the end", with_word(list_last, 10, 325), (3, 0, 10)),
        ("forward at 32761", with_word(big([]), 10, 32761), (4, 3, 32763)),
        ("forward at 32762", with_word(big([]), 10, 32762), (3, 0, 10)),
        ("forward at 32767", with_word(big([]), 10, 32767), (3, 0, 10)),
        ("backward before", with_word(SCHOOL, 8, -1), (3, 0, 8)),
        ("backward list at the end", with_word(list_last, 8, 324), (4, 2, 328)),
        ("backward list past the end", with_word(list_last, 8, 325), (3, 0, 8)),
        ("backward at 32767", with_word(big([]), 8, 32767), (3, 0, 8)),
        ("both state tables one", with_word(SCHOOL, 8, 292), None),
        ("auxiliary word at the end", odd, None),
        ("auxiliary word past the end", with_word(odd, 6, 325), (3, 0, 6)),
        ("auxiliary table before", with_word(odd, 6, -1), (3, 0, 6)),
        ("auxiliary table at length", with_word(odd, 6, 326), (3, 0, 6)),
        ("auxiliary table at 32765", big([("aux", word(0))], flags2=1), None),
        ("auxiliary table at 32766", with_word(big([("aux", word(0))], flags2=1), 6, 32766), (3, 0, 6)),
        ("auxiliary table at 32767", with_word(big([("aux", word(0))], flags2=1), 6, 32767), (3, 0, 6)),
        ("auxiliary table before, one-byte text", with_word(SCHOOL, 6, -1), None),
        ("auxiliary table past the end, one-byte text", with_word(SCHOOL, 6, 32767), None),
    ]


def lists():
    """The rules of the lists."""
    backward_last = of_parts([("class", CLASSES), ("forward", FORWARD), ("backward", BACKWARD)])  # at 304
    one_class = plain(1, [[4], [128]])
    far_list = big([("forward", words(0, 128, 132) + bytes(60))])
    return [
        ("forward word 0 is 1", with_word(SCHOOL, 292, 1), (4, 3, 292)),
        ("forward word 0 is 256", with_word(SCHOOL, 292, 256), (4, 3, 292)),
        ("forward word 1 odd", with_word(SCHOOL, 294, 13), (4, 3, 294)),
        ("forward word 1 is 4", with_word(SCHOOL, 294, 4), (4, 3, 294)),
        ("forward word 1 is 130", with_word(SCHOOL, 294, 130), (4, 3, 294)),
        ("forward word 1 is -12", with_word(SCHOOL, 294, -12), (4, 3, 294)),
        ("forward word 1 is 12 + 256", with_word(SCHOOL, 294, 268), (4, 3, 294)),
        ("no class", with_word(SCHOOL, 296, 12), (4, 3, 296)),
        ("less than no class", with_word(SCHOOL, 296, 11), (4, 3, 296)),
        ("129 classes said", with_word(SCHOOL, 296, 12 + 129), (4, 3, 296)),
        ("128 classes said", with_word(SCHOOL, 296, 12 + 128), (4, 3, 294)),
        ("forward word 2 is -32768", with_word(SCHOOL, 296, -32768), (4, 3, 296)),
        ("2 states", plain(4, [[2] * 4]), (4, 3, 274)),
        ("3 states", plain(4, [[4] * 4, [128] * 4], CLASSES), None),
        ("64 states", plain(4, [[4] * 4] + [[128] * 4] * 62, CLASSES), None),
        ("65 states", plain(4, [[4] * 4] + [[128] * 4] * 63, CLASSES), (4, 3, 274)),
        ("1 class", one_class, None),
        ("128 classes", plain(128, [[4] * 128, [128] * 128], bytes(128) + bytes(range(128))), None),
        ("129 classes", plain(129, [[4] * 129, [128] * 129], bytes(256)), (4, 3, 276)),
        ("64 states, 128 classes",
         plain(128, [[126] * 128] + [[128] * 128] * 62, bytes(128) + bytes(range(128))), None),
        ("1 class, last code left off", with_length(one_class, 279), (4, 3, 274)),
        ("forward rows pass by one", with_length(SCHOOL, 323), (4, 3, 294)),
        ("forward rows pass, last word wrong", with_word(with_length(SCHOOL, 323), 302, 0), (4, 3, 294)),
        ("forward rows pass 32767", far_list, (4, 3, 32703)),
        ("forward word 3", with_word(SCHOOL, 298, 21), (4, 3, 298)),
        ("forward word 5", with_word(SCHOOL, 302, 27), (4, 3, 302)),
        ("forward word 5 and 256 more", with_word(SCHOOL, 302, 28 + 256), (4, 3, 302)),
        ("forward words 3 and 5", with_word(with_word(SCHOOL, 298, 0), 302, 0), (4, 3, 298)),
        ("backward word 0", with_word(SCHOOL, 272, -1), (4, 2, 272)),
        ("backward word 1 odd", with_word(SCHOOL, 274, 9), (4, 2, 274)),
        ("backward word 1 is 4", with_word(SCHOOL, 274, 4), (4, 2, 274)),
        ("backward word 1 is 10", with_word(SCHOOL, 274, 10), (4, 2, 276)),
        ("backward word 1 is 130", with_word(SCHOOL, 274, 130), (4, 2, 274)),
        ("one class more backward", with_word(SCHOOL, 276, 13), (4, 2, 276)),
        ("one class less backward", with_word(SCHOOL, 276, 11), (4, 2, 276)),
        ("backward word 3", with_word(SCHOOL, 278, 17), (4, 2, 278)),
        ("backward last", backward_last, None),
        ("backward rows pass by one", with_length(backward_last, 323), (4, 2, 306)),
        ("forward word 5, backward word 0", with_word(with_word(SCHOOL, 302, 0), 272, 1), (4, 3, 302)),
    ]


def entries():
    """Classes of one-byte characters."""
    return [
        ("entry C - 1", with_byte(SCHOOL, 216, 3), None),
        ("entry C", with_byte(SCHOOL, 216, 4), (5, 1, 216)),
        ("entry 127", with_byte(SCHOOL, 216, 127), (5, 1, 216)),
        ("entry -1, one-byte text", with_byte(SCHOOL, 216, -1), (5, 1, 216)),
        ("entry -128, one-byte text", with_byte(SCHOOL, 216, -128), (5, 1, 216)),
        ("entry of 0", with_byte(SCHOOL, 16, 4), (5, 1, 16)),
        ("entry of 255", with_byte(SCHOOL, 271, 4), (5, 1, 271)),
        ("two wrong entries", with_byte(with_byte(SCHOOL, 250, 9), 30, 4), (5, 1, 30)),
        ("entry C, two-byte text", two_byte({0x41: 4}, word(0)), (5, 1, 16 + 0x41)),
    ]


def odd_entries():
    """First bytes with k odd."""
    k_127 = two_byte({0x81: -127}, word(-2) + bytes([9]) * 126 + word(3))
    two_k = two_byte({0x81: -1, 0x82: -3}, words(-2, 1, 2))
    # The word for k = 127 would be at 32765 + 32768 + 126, which is 123 in 16 bits.
    wrapping = big([("aux", word(-32768))], flags2=1)
    wrapping = with_byte(wrapping, ENTRY_81, -127)
    # The auxiliary table at 2, its first word the version; so the first-byte class table is at 4.
    in_header = edit(SCHOOL, (1, b"\1"), (2, word(-2)), (6, word(2)))
    return [
        ("w is C - 1", two_byte({0x81: -1}, word(3)), None),
        ("w is C", two_byte({0x81: -1}, word(4)), (5, 1, ENTRY_81)),
        ("w is 256", two_byte({0x81: -5}, word(256)), (5, 1, ENTRY_81)),
        ("w is 32767", two_byte({0x81: -1}, word(32767)), (5, 1, ENTRY_81)),
        ("w is C, nobody asks", two_byte({}, word(4)), None),
        ("w is -32768, nobody asks", two_byte({}, word(-32768)), None),
        ("w is -1", two_byte({0x81: -1}, word(-1) + bytes(4)), (5, 1, ENTRY_81)),
        ("w is -2", two_byte({0x81: -1}, words(-2, 1)), None),
        ("w is -2, word passes by one", with_length(two_byte({0x81: -1}, words(-2, 1)), 327), (5, 1, ENTRY_81)),
        ("w is -2, word past the end", two_byte({0x81: -1}, words(-2)), (5, 1, ENTRY_81)),
        ("w is -3", two_byte({0x81: -1}, word(-3) + b"\xff" + word(2)), None),
        ("k is 127", k_127, None),
        ("k is 127, word passes by one", with_length(k_127, len(k_127) - 1), (5, 1, ENTRY_81)),
        ("two k", two_k, None),
        ("two k, the second passes by one", with_length(two_k, len(two_k) - 1), (5, 1, ENTRY_82)),
        ("word is C - 1", two_byte({0x81: -3}, words(-2, 99, 3)), None),
        ("word is C", two_byte({0x81: -3}, words(-2, 0, 4)), (5, 1, ENTRY_81)),
        ("word is 257", two_byte({0x81: -3}, words(-2, 0, 257)), (5, 1, ENTRY_81)),
        ("word is -1", two_byte({0x81: -3}, words(-2, 0, -1)), (5, 1, ENTRY_81)),
        ("word is doBackup", with_byte(in_header, ENTRY_81, -9), None),
        ("word is doBackup, which is C", with_word(with_byte(in_header, ENTRY_81, -9), 12, 4), (5, 1, ENTRY_81)),
        ("word is the length", with_byte(in_header, ENTRY_81, -11), (5, 1, ENTRY_81)),
        ("w is -32768", two_byte({0x81: -1}, words(-32768, 0)), (5, 1, ENTRY_81)),
        ("w is -32768, far up", wrapping, (5, 1, ENTRY_81)),
        ("auxiliary table is the forward list", with_byte(with_byte(with_word(SCHOOL, 6, 292), 1, 1), ENTRY_81, -1),
         None),
    ]


def even_entries():
    """First bytes with k even."""
    row = bytes(range(4)) * 64
    after = two_byte({0x81: -2}, words(99, 4) + row)
    # The row table before the auxiliary table, which comes last: 16 + 256, then the row.
    parts = [("backward", BACKWARD), ("forward", FORWARD)]
    before = of_parts([("class", classes_with({0x81: -2})), ("row", row)] + parts + [("aux", words(99, 272 - 580))],
                      flags2=1)
    before_128 = of_parts([("class", classes_with({0x81: -128})), ("row", row)] + parts
                          + [("aux", b"\xff" * 128 + word(272 - 580))], flags2=1)
    # 128 classes, header bytes below 128, so that a row table may begin at place 1.
    state = tables.state_table(128, [[4] * 128, [128] * 128])
    low = of_parts([("class", bytes(255) + b"\xfe"), ("forward", state), ("gap", bytes(234)), ("aux", words(0, 0))],
                   flags2=1)
    low_aux = len(low) - 4
    assert low_aux == 768 and all(value < 128 for value in low[1:16])
    far = big([("aux", words(0, 0) + bytes(300))], flags2=1)
    far = with_byte(far, ENTRY_81, -2)
    far_aux = 32767 - 304
    shared = two_byte({0x81: -2, 0x82: -4}, words(99, 6, 6) + row)
    overlapping = two_byte({0x81: -2, 0x82: -4}, words(99, 6, 7) + row + b"\2")
    return [
        ("row table last", after, None),
        ("row table passes by one", with_length(after, len(after) - 1), (5, 1, ENTRY_81)),
        ("row table one on", with_word(after, 326, 5), (5, 1, ENTRY_81)),
        ("row table before", before, None),
        ("k is 2, word passes by one", with_length(before, len(before) - 1), (5, 1, ENTRY_81)),
        ("k is 2, word past the end", with_length(before, len(before) - 2), (5, 1, ENTRY_81)),
        ("k is 128", before_128, None),
        ("k is 128, word passes by one", with_length(before_128, len(before_128) - 1), (5, 1, ENTRY_81)),
        ("row table at place 1", with_word(low, low_aux + 2, 1 - low_aux), None),
        ("row table at place 0", with_word(low, low_aux + 2, -low_aux), (5, 1, 271)),
        ("row table at place -1", with_word(low, low_aux + 2, -1 - low_aux), (5, 1, 271)),
        ("row table at place -256", with_word(low, low_aux + 2, -256 - low_aux), (5, 1, 271)),
        ("row table at place -1000", with_word(low, low_aux + 2, -1000 - low_aux), (5, 1, 271)),
        ("row offset -32768", with_word(low, low_aux + 2, -32768), (5, 1, 271)),
        ("row offset 32767", with_word(low, low_aux + 2, 32767), (5, 1, 271)),
        ("row table ends at 32767", with_word(far, far_aux + 2, 48), None),
        ("row table ends at 32768", with_word(far, far_aux + 2, 49), (5, 1, ENTRY_81)),
        ("row table at 32766", with_word(far, far_aux + 2, 303), (5, 1, ENTRY_81)),
        ("row table past 32767", with_word(far, far_aux + 2, 32767), (5, 1, ENTRY_81)),
        ("first row entry C", with_byte(after, 328, 4), (5, 1, ENTRY_81)),
        ("last row entry C", with_byte(after, len(after) - 1, 4), (5, 1, ENTRY_81)),
        ("row entry -1", with_byte(after, 400, -1), (5, 1, ENTRY_81)),
        ("row entry -128", with_byte(after, 400, -128), (5, 1, ENTRY_81)),
        ("two k, one row table", shared, None),
        ("two k, overlapping row tables", overlapping, None),
        ("two k, the second row table wrong", with_byte(overlapping, len(overlapping) - 1, 4), (5, 1, ENTRY_82)),
        ("k even, w is not looked at", with_word(after, 324, -32768), None),
    ]


def codes():
    """Codes that are odd or name a state that is not there."""
    return [
        ("first forward code odd", with_byte(SCHOOL, 304, 11), (6, 3, 304)),
        ("last forward code names S", with_byte(SCHOOL, 323, 12), (6, 3, 323)),
        ("last forward code marks and names S", with_byte(SCHOOL, 323, 140), (6, 3, 323)),
        ("last forward code names S - 1", with_byte(SCHOOL, 323, 138), None),
        ("last forward code odd", with_byte(SCHOOL, 323, 129), (6, 3, 323)),
        ("forward code 255", with_byte(SCHOOL, 313, 255), (6, 3, 313)),
        ("forward code names 63", with_byte(SCHOOL, 313, 126), (6, 3, 313)),
        ("forward code names 63 of 64", plain(1, [[126]] + [[128]] * 62), None),
        ("forward code 127 with 64 states", plain(1, [[127]] + [[128]] * 62), (6, 3, 400)),
        ("first backward code names S", with_byte(SCHOOL, 280, 8), (6, 2, 280)),
        ("last backward code names S", with_byte(SCHOOL, 291, 136), (6, 2, 291)),
        ("last backward code names S - 1", with_byte(SCHOOL, 291, 134), None),
        ("last backward code odd", with_byte(SCHOOL, 291, 7), (6, 2, 291)),
        ("both wrong", with_byte(with_byte(SCHOOL, 280, 8), 323, 12), (6, 3, 323)),
        ("two forward codes wrong", with_byte(with_byte(SCHOOL, 309, 5), 320, 12), (6, 3, 309)),
    ]


def non_advancing():
    """Exits with no mark set after the first character, and such as do no harm."""
    first = 272 + 12  # of plain tables with 6 states: their first code
    return [
        ("exit at start", with_byte(SCHOOL, 304, 0), (7, 3, 304)),
        ("marked exit at start", with_byte(SCHOOL, 304, 128), (7, 3, 304)),
        ("marked exit at start, last class", with_byte(SCHOOL, 307, 128), (7, 3, 307)),
        ("exit after one", with_byte(SCHOOL, 308, 0), (7, 3, 308)),
        ("first code marks", with_byte(SCHOOL, 305, 132), None),
        ("first code marks, exit after it",
         with_byte(edit(SCHOOL, (304, bytes([138, 132, 138, 136]))), 308, 0), (7, 3, 308)),
        ("hyphen with no mark", with_byte(SCHOOL, 310, 6), (7, 3, 312)),
        ("hyphen goes elsewhere", with_byte(SCHOOL, 310, 10), None),
        ("quiet way of four, first marks", plain(1, [[138], [0], [4], [6], [8]]), (7, 3, first + 1)),
        ("quiet way of four", plain(1, [[10], [0], [4], [6], [8]]), (7, 3, first + 1)),
        ("a mark on the way", plain(1, [[10], [0], [4], [134], [8]]), None),
        ("a mark at the end of the way", plain(1, [[10], [128], [4], [6], [8]]), None),
        ("no exit at all", plain(1, [[10], [2], [4], [6], [8]]), None),
        ("bad state that nothing leads to", plain(1, [[4], [128], [0], [0], [0]]), None),
        ("bad state led to by a bad one only", plain(1, [[4], [128], [8], [0], [0]]), None),
        ("the nearer exit has the later place",
         plain(2, [[10, 10], [0, 128], [4, 4], [6, 6], [0, 8]]), (7, 3, first + 2)),
        ("two exits in one row", plain(2, [[10, 10], [128, 128], [4, 4], [6, 6], [0, 0]]), (7, 3, first + 8)),
        ("state reached with a mark", plain(2, [[4, 4], [134, 134], [0, 128], [128, 128], [128, 128]]), None),
        ("state reached with a mark and without",
         plain(2, [[4, 6], [134, 134], [0, 128], [128, 128], [128, 128]]), (7, 3, first + 4)),
        ("back to start and out by a mark", plain(2, [[2, 4], [128, 130], [2, 2], [2, 2], [2, 2]]), None),
        ("back to start, which exits by a mark", plain(2, [[128, 4], [2, 130], [2, 2], [2, 2], [2, 2]]), (7, 3, first)),
        ("class that no character has",
         plain(5, [[4, 4, 4, 4, 0]] + [[128] * 5] * 4, CLASSES), (7, 3, first + 4)),
        ("a code wrong past the exit", with_byte(with_byte(SCHOOL, 304, 0), 323, 12), (6, 3, 323)),
        ("a backward code wrong", with_byte(with_byte(SCHOOL, 304, 0), 291, 7), (6, 2, 291)),
    ]


def stairs():
    """A table with a fault of each kind at once, then without the first of them, then without the first two..."""
    base = two_byte({0x81: -1}, word(1))
    faults = [
        (14, word(len(base) + 1), (1, 0, 14)),
        (0, b"\x7f", (2, 0, 0)),
        (4, word(-1), (3, 0, 4)),
        (10, word(-1), (3, 0, 10)),
        (8, word(-1), (3, 0, 8)),
        (6, word(-1), (3, 0, 6)),
        (292, word(1), (4, 3, 292)),
        (294, word(13), (4, 3, 294)),
        (296, word(12), (4, 3, 296)),
        (298, word(0), (4, 3, 298)),
        (302, word(0), (4, 3, 302)),
        (272, word(1), (4, 2, 272)),
        (274, word(9), (4, 2, 274)),
        (276, word(13), (4, 2, 276)),
        (278, word(0), (4, 2, 278)),
        (100, b"\x04", (5, 1, 100)),
        (324, word(4), (5, 1, ENTRY_81)),
        (200, b"\x04", (5, 1, 200)),
        (320, b"\x01", (6, 3, 320)),
        (322, b"\x0c", (6, 3, 322)),
        (285, b"\x01", (6, 2, 285)),
        (307, b"\x80", (7, 3, 307)),
        (308, b"\x00", (7, 3, 308)),
    ]
    out = []
    for number in range(len(faults) + 1):
        left = faults[number:]
        out.append(("%d faults" % len(left), edit(base, *[(place, new) for place, new, _ in left]),
                    left[0][2] if left else None))
    return out


def sure():
    """Tables and the number of their sure pairs."""
    halves = bytes(128) + bytes([1]) * 128
    stairs_up = [[4, 4]] + [[128 + 2 * (state + 1), 128] for state in range(2, 63)]
    return [
        ("school table", SCHOOL, 9),
        ("school table for two-byte text", two_byte({0x81: -1, 0x82: -2}, words(1, 4) + bytes(256)), 9),
        ("one class, each character a run", plain(1, [[4], [128]]), 1),
        ("one class, no exit", plain(1, [[4], [4]]), 0),
        ("one class, a mark and no exit", plain(1, [[4], [132]]), 0),
        ("one class, runs of two", plain(1, [[4], [6], [128]]), 0),
        ("a state that is not reached would spoil the pair", plain(1, [[4], [128], [6]]), 1),
        # After class 0 comes state 2 from start alone, and class 0 does not exit from it.
        ("start spoils a pair", plain(2, [[4, 6], [134, 128], [128, 128]], halves), 3),
        ("a row that no text has spoils a pair", plain(2, [[4, 6], [128, 128], [6, 128]]), 2),
        ("marked exits after class 0", plain(2, [[4, 4], [134, 128], [0, 128]], halves), 2),
        ("an exit without a mark", plain(2, [[4, 4], [134, 128], [0, 0]], halves), 1),
        ("back to start", plain(2, [[4, 4], [130, 128]], halves), 1),
        ("many steps", plain(2, stairs_up + [[128, 128]], halves), 2),
        ("many steps to an exit without a mark", plain(2, stairs_up + [[128, 0]], halves), 1),
        ("all pairs of 128 classes",
         plain(128, [[4] * 128] + [[128] * 128 for _ in range(62)], [value & 127 for value in range(256)]), 16384),
        ("all pairs of 128 classes but the last",
         plain(128, [[4] * 127 + [6], [128] * 128, [128] * 127 + [132]], [value & 127 for value in range(256)]), 16383),
    ]


def steady():
    """Tables and what the steady check says of them: None where they are steady.

    The school table's backward codes are at 280 (state 1), 284 (state 2, always with a mark on what was read last) and
    288 (state 3, with no mark).
    """
    # All pairs are sure but (1, 1), and no character of a text has class 1. The backward codes are at 292 and 294, and
    # with three rows at 294, 296 and 298.
    forward = tables.state_table(2, [[4, 6], [128, 128], [128, 132]])

    def small(*rows):
        """A table with these backward rows."""
        return of_parts([("class", bytes(256)), ("forward", forward), ("backward", tables.state_table(2, rows))])

    def stairs_of(first, last, pair=((4,), (6,), (128,))):
        """A table of one class, whose pair (0, 0) is not sure unless other forward rows are given. Of its 63 backward
        codes the first and the last are told, and each between leads to the next; the last is at 473."""
        between = [[2 * (state + 1)] for state in range(2, 63)]
        return of_parts([("class", bytes(256)), ("forward", tables.state_table(1, pair)),
                         ("backward", tables.state_table(1, [[first]] + between + [[last]]))])

    many_classes = [value & 127 for value in range(256)]
    letter_hyphen = with_byte(SCHOOL, 286, 0)
    return [
        ("school table", SCHOOL, None),
        ("letter, hyphen, exit", letter_hyphen, (8, 2, 286)),
        # What the backward scan does not look at: doBackup, flags2, and bytes past length.
        ("unsteady, doBackup above every place", with_word(letter_hyphen, 12, 32767), (8, 2, 286)),
        ("unsteady, doBackup below 0", with_word(letter_hyphen, 12, -1), (8, 2, 286)),
        ("unsteady, bytes past length", letter_hyphen + bytes(20), (8, 2, 286)),
        ("steady, two-byte text", two_byte({0x81: -1, 0x82: -2}, words(1, 4) + bytes(256)), None),
        ("unsteady, two-byte text", with_byte(two_byte({0x81: -1, 0x82: -2}, words(1, 4) + bytes(256)), 286, 0),
         (8, 2, 286)),
        # The backward table's 20 bytes are the last: the code that is at 286 in the school table is 14 bytes into it.
        ("steady, as far behind as can be", big([("backward", BACKWARD)]), None),
        ("unsteady, as far behind as can be", with_byte(big([("backward", BACKWARD)]), 32761, 0), (8, 2, 32761)),
        ("other before anything, exit", with_byte(SCHOOL, 284, 0), None),
        ("letter before letter, exit", with_byte(SCHOOL, 285, 0), (8, 2, 285)),
        ("two such exits", edit(SCHOOL, (285, bytes(2))), (8, 2, 285)),
        ("exit at once with no mark", edit(SCHOOL, (280, bytes(4))), None),
        ("exit at once with a mark on other", with_byte(SCHOOL, 280, 128), (8, 2, 280)),
        ("exit at once with a mark on a letter", with_byte(SCHOOL, 281, 128), (8, 2, 281)),
        ("marking exit after a mark", with_byte(SCHOOL, 286, 128), (8, 2, 286)),
        ("exit after blanks alone", with_byte(SCHOOL, 291, 0), None),
        ("a sure mark, exit later", edit(SCHOOL, (287, b"\6"), (291, b"\0")), None),
        ("a mark on a blank", with_byte(SCHOOL, 283, 132), (8, 2, 287)),
        ("a mark on a blank, no exit", edit(SCHOOL, (283, b"\x84"), (287, b"\x84")), None),
        ("an unsure mark, exit later", edit(SCHOOL, (286, b"\6"), (291, b"\0")), (8, 2, 291)),
        ("an unsure mark, then a marking exit", edit(SCHOOL, (286, b"\6"), (291, b"\x80")), (8, 2, 291)),
        ("an unsure mark, then marks alone", edit(SCHOOL, (286, b"\6")), None),
        ("both state tables one", with_word(SCHOOL, 8, 292), (8, 2, 308)),
        ("one class, each character a run", plain(1, [[4], [128]]), None),
        ("one class, runs of two", plain(1, [[4], [6], [128]]), (8, 2, 282)),
        ("a bad state that nothing leads to", plain(1, [[4], [4], [128]]), None),
        ("a mark that all classes make sure, exit at once", small([128, 132], [0, 132]), None),
        ("a class that no character has", small([128, 132], [0, 0]), (8, 2, 295)),
        ("a mark that one class makes unsure, exit at once", small([128, 128], [0, 0]), (8, 2, 293)),
        ("an unsure mark is kept, exit by an earlier code", small([128, 132], [0, 4]), (8, 2, 294)),
        ("an unsure mark is replaced by the exit's own", small([128, 132], [128, 4]), None),
        ("an unsure mark and no exit", small([132, 132], [4, 4]), None),
        # The exit at 299 comes with the second character, that at 297 with the third: a mark on class 1 of its own.
        ("the first by its place comes later", small([6, 134], [0, 128], [4, 0]), (8, 2, 297)),
        ("the later one does no harm", small([6, 134], [0, 0], [4, 0]), (8, 2, 299)),
        # From state 3 an unsure mark leads to state 2, which marks again whatever comes.
        ("an unsure mark is replaced on the way", small([4, 134], [134, 134], [0, 4]), None),
        ("an unsure mark is replaced but before one class", small([4, 134], [134, 0], [0, 4]), (8, 2, 297)),
        ("many steps after an unsure mark", stairs_of(132, 0), (8, 2, 473)),
        ("many steps with no mark", stairs_of(4, 0), None),
        ("many steps to a mark of the exit", stairs_of(4, 128), (8, 2, 473)),
        ("many steps round and round", stairs_of(132, 2), None),
        ("many steps after a sure mark", stairs_of(132, 0, pair=((4,), (128,), (128,))), None),
        # Each backward exit of these marks; the first has all pairs sure, the other all but (127, 127).
        ("128 classes, all marks sure", plain(128, [[4] * 128] + [[128] * 128 for _ in range(62)], many_classes), None),
        ("128 classes, one mark unsure",
         plain(128, [[4] * 127 + [6], [128] * 128, [128] * 127 + [132]], many_classes), (8, 2, 535)),
    ]


def small_backward():
    """Every table with two backward rows of one class or of two, a list of tables. With one class, the pair (0, 0) is
    sure in half of them; with two, (0, 1) is not sure and the others are."""
    codes = [mark + 2 * state for mark in (0, 128) for state in range(3)]
    out = []
    for classes, forward in ((1, [[4], [128]]), (1, [[4], [6], [128]]), (2, [[4, 6], [128, 134], [128, 128]])):
        entries = bytes(value % classes for value in range(256))
        for found in itertools.product(codes, repeat=2 * classes):
            out.append(of_parts([("class", entries), ("forward", tables.state_table(classes, forward)),
                                 ("backward", tables.state_table(classes, [found[:classes], found[classes:]]))]))
    return out


def edges():
    """All edges: a list of (name, table, verdict)."""
    return (sizes() + offsets() + lists() + entries() + odd_entries() + even_entries() + codes() + non_advancing()
            + stairs())
