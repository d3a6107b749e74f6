"""A short self-test of finds.py, books.py and of what programs.py makes of them: the cases that the documents work out,
and the program held against itself on random tables, texts and calls.

    python3 second/test_books.py
"""

import itertools
import random

import backward
import books
import breaks
import edges
import finds
import programs
import tables
import test_breaks
import texts
from test_breaks import refusal, same, school_with

SCHOOL = tables.school()


def lines(*parts):
    """Lines, each closed by LF."""
    return b"".join(part + b"\n" for part in parts)


def opened(rule, text, *pins):
    """A plain book of a rule over a text, with pins at walls of it."""
    book = books.PlainBook(rule)
    book.open(text)
    for place in pins:
        same(book.pin(len(text), place)[0], place)
    return book


def steady_examples():
    """The steady check."""
    school = breaks.accept(SCHOOL)
    same(refusal(finds.try_steady, school), None)
    same(refusal(finds.try_steady, breaks.accept(school_with(286, 0))), (8, 2, 286))
    for name, table, verdict in edges.steady():
        same((name, refusal(finds.try_steady, breaks.accept(table))), (name, verdict))
    same(programs.inspect(SCHOOL), lines(b"states 6 classes 4 sure 9", b"steady"))
    same(programs.inspect(school_with(286, 0)), lines(b"states 6 classes 4 sure 9", b"refused 8 part 2 place 286"))
    same(programs.inspect(school_with(310, 6)), lines(b"refused 7 part 3 place 312"))


def exits_of_rows(table, size):
    """The places of the backward codes by which a row of so many classes, or the beginning of one, brings the scan to
    exit with an unsure last mark: each row is read and judged by itself, in the words of docs/FIND.md."""
    found = set()
    sure = table.sure_pairs()
    for row in itertools.product(range(table.classes), repeat=size):
        state, last = 1, None
        for at, char_class in enumerate(row):
            place = table.backward_code_place(state, char_class)
            marks, state = table.backward_code(state, char_class)
            if marks:
                last = at
            if state == 0:
                if last == at:
                    unsure = any((before, char_class) not in sure for before in range(table.classes))
                else:
                    unsure = last is not None and (row[last + 1], row[last]) not in sure
                if unsure:
                    found.add(place)
                break
    return found


def steady_against_rows():
    """The steady check against all rows that are not long. Of a small table no exit needs a longer row than 10: there
    are two states, and five things to know of the last mark."""
    verdicts = set()
    for bytes_of_table in edges.small_backward():
        table = breaks.accept(bytes_of_table)
        places = exits_of_rows(table, 10)
        same(finds.unsure_exits(table), places)
        verdicts.add(min(places, default=None))
    # The codes are at 289 and 290 for one class with no sure pair, and at 292 to 295 for two classes. Each is told of
    # some table; where the only pair of one class is sure, none is.
    same(verdicts, {None, 289, 290, 292, 293, 294, 295})
    few = 0
    for rng, table in accepted_tables(200, "rows"):
        if table.classes <= 4:
            few += 1
            same(exits_of_rows(table, 5) <= finds.unsure_exits(table), True)
    same(few >= 20, True)


def find_examples():
    """Find, and the program `find`."""
    school = breaks.accept(SCHOOL)
    same(finds.find(school, b"re-cut it", 3), (0, 6))
    same((finds.beginning(school, b"re-cut it", 8), finds.find(school, b"re-cut it", 8)), (7, (7, 9)))
    unsteady = breaks.accept(school_with(286, 0))
    same(finds.find(unsteady, b"re-cut", 3), (3, 6))
    same(unsteady.cutting(b"re-cut"), [(0, 6)])

    # doBackup: the place is below it, or not.
    for backup, found in ((-1, (3, 6)), (0, (3, 6)), (3, (3, 6)), (4, (0, 6)), (32767, (0, 6)), (-32768, (3, 6))):
        table = edges.with_word(school_with(286, 0), 12, backup)
        same(finds.find(breaks.accept(table), b"re-cut", 3), found)

    # Characters are counted from the text's start; the one that covers the place is read first.
    alone = breaks.accept(edges.two_byte({0x81: -1}, edges.words(0)))
    same([finds.find(alone, b"\x81\x81\x81\x41\x81", place) for place in range(5)],
         [(0, 2), (0, 2), (2, 4), (2, 4), (4, 5)])

    same(refusal(finds.find, school, b"ab", 2), (10, 4, 2))
    same(refusal(finds.find, school, b"", 0), (10, 4, 0))
    same(refusal(finds.find, school, bytes(16384), 20000), (9, 4, 16384))

    same(programs.find(SCHOOL, b"re-cut it", [b"3", b"8"]), lines(b"start 0 end 6", b"start 7 end 9"))
    same(programs.find(SCHOOL, b"re-cut it", []), b"")
    same(programs.find(SCHOOL, b"ab", [b"x", b"", b"-1", b"+1", b"1.5", b" 1", b"2", b"007", b"1"]),
         lines(b"x: not a place", b": not a place", b"-1: not a place", b"+1: not a place", b"1.5: not a place",
               b" 1: not a place", b"refused 10 part 4 place 2", b"refused 10 part 4 place 7", b"start 0 end 2"))
    same(programs.find(SCHOOL, b"ab", [b"18446744073709551615", b"18446744073709551616", b"0" * 40 + b"1", b"9" * 25]),
         lines(b"refused 10 part 4 place 18446744073709551615", b"18446744073709551616: not a place",
               b"start 0 end 2", b"9" * 25 + b": not a place"))
    same(programs.find(SCHOOL, bytes(20000), [b"0", b"x", b"16384"]),
         lines(b"refused 9 part 4 place 16384", b"x: not a place", b"refused 9 part 4 place 16384"))
    same(programs.find(b"", b"ab", [b"0", b"x"]), lines(b"refused 1 part 0 place 0"))


def book_examples():
    """The plain book."""
    school = breaks.accept(SCHOOL)
    book = opened(school, b"re-cut it")
    same((book.look(9, 3), book.look(9, 6), book.look(9, 8)), ((0, 0, 6), (1, 6, 7), (2, 7, 9)))
    same((book.fetch(9, 0), book.fetch(9, 2)), ((0, 6), (7, 9)))
    same((book.pin(9, 5), book.pin(9, 8), book.pin(9, 7)), ((0, 0), (7, 2), (7, 2)))
    same((book.read(9, 0), book.read(9, 1)), ((0, 0), (7, 2)))
    same((book.unpin(9, 7), book.places), (2, [0]))

    # The pins that a put drops, and those that it moves.
    book = opened(school, b"a b", 1, 2)
    same((book.put(3, 1, 120), book.text, book.places), ((0, 3, -2, 2), b"axb", []))
    book = opened(school, b"a b", 1)
    same((book.put(3, 0, 45), book.text, book.places), ((0, 2, 0, 1), b"- b", []))
    book = opened(school, b"re-cut it", 7)
    same((book.put(9, 3, 32), book.read(9, 0)), ((0, 6, 3, 0), (7, 5)))

    # Refusals, and their order.
    book = opened(school, b"a b", 1)
    for call, numbers in ((book.look, (9,)), (book.fetch, (9,)), (book.read, (9,)), (book.pin, (9,)),
                          (book.unpin, (9,)), (book.try_, (9, 0)), (book.put, (9, 0))):
        same(refusal(call, 2, *numbers), (12, 4, 2))
        same(refusal(call, 3, *numbers), (11 if call in (book.fetch, book.read) else 10, 4, 9))
    same(refusal(book.unpin, 3, 2), (15, 4, 2))
    same((refusal(book.fetch, 3, 3), refusal(book.read, 3, 1)), ((11, 4, 3), (11, 4, 1)))
    many = opened(school, b"." * 70, *range(64))
    same(refusal(many.pin, 70, 64), (14, 4, 64))
    same((many.pin(70, 63), len(many.places)), ((63, 63), 64))
    same((many.unpin(70, 0), many.pin(70, 64)), (0, (64, 64)))
    same(refusal(many.open, bytes(16384)), (9, 4, 16384))
    same((many.text, len(many.places)), (b"." * 70, 64))
    empty = opened(school, b"")
    same((refusal(empty.look, 0, 0), refusal(empty.fetch, 0, 0), refusal(empty.pin, 0, 0)),
         ((10, 4, 0), (11, 4, 0), (10, 4, 0)))


def session_examples():
    """The program `session`."""
    same(programs.session(SCHOOL, b"re-cut it", lines(b"rule table", b"pin 7", b"put 3 32", b"read 0")),
         lines(b"opened 9", b"place 7 number 2", b"from 0 to 6 difference +3 dropped 0", b"place 7 number 5",
               b"text 72652d207574206974", b"pins 1"))
    same(programs.session(SCHOOL, b"a b", lines(b"rule table", b"pin 1", b"pin 2", b"try 1 120", b"put 1 120")),
         lines(b"opened 3", b"place 1 number 1", b"place 2 number 2", b"from 0 to 3 difference -2 dropped 2",
               b"from 0 to 3 difference -2 dropped 2", b"text 617862", b"pins 0"))
    same(programs.session(SCHOOL, b"a b", lines(b"rule table", b"pin 1", b"put 0 45")),
         lines(b"opened 3", b"place 1 number 1", b"from 0 to 2 difference 0 dropped 1", b"text 2d2062", b"pins 0"))
    same(programs.session(SCHOOL, b"a b", b"rule table tail 32\nlook 1\nfetch 1\nunpin 0\n\nlook 1 \nlook 0000"),
         lines(b"opened 3", b"run 0 start 0 end 2", b"start 2 end 3", b"refused 15 part 4 place 0",
               b"line 5: not a call", b"line 6: not a call", b"run 0 start 0 end 2", b"text 612062", b"pins 0"))
    same(programs.session(b"", b"a\rb", lines(b"rule line", b"handed 3 pin 2", b"handed 4 pin 9", b"handed 0 fetch 7",
                                              b"handed 65535 look 0", b"handed 65536 look 0", b"handed 3", b"handed",
                                              b"handed 3 handed 3 look 0", b"put 0 256", b"unpin 2")),
         lines(b"opened 3", b"place 2 number 1", b"refused 12 part 4 place 4", b"refused 12 part 4 place 0",
               b"refused 12 part 4 place 65535", b"line 6: not a call", b"line 7: not a call", b"line 8: not a call",
               b"line 9: not a call", b"line 10: not a call", b"number 1", b"text 610d62", b"pins 0"))
    same(programs.session(b"", b"", b"rule line"), lines(b"opened 0", b"text", b"pins 0"))
    same(programs.session(b"", b"", b""), lines(b"line 1: not a rule"))
    same(programs.session(b"", bytes(20000), b"\nrule line\n"), lines(b"line 1: not a rule"))
    same(programs.session(b"", bytes(20000), b"rule table\n"), lines(b"refused 1 part 0 place 0"))
    same(programs.session(b"", bytes(20000), b"rule line\nx"), lines(b"refused 9 part 4 place 16384"))


def accepted_tables(count, seed):
    """Random accepted tables with their bytes, steady and unsteady, with many sure pairs and with few."""
    number = 0
    while number < count:
        rng = random.Random("%s/%d" % (seed, number))
        table = tables.walled(rng)
        if number % 2:
            table = bytes(tables.sound(rng).data)
        number += 1
        yield rng, breaks.accept(backward.redrawn(rng, table))


def find_against_cutting():
    """On a steady table find gives the run of the whole cutting; on any table it gives a run over the place."""
    steady = differing = 0
    for rng, table in accepted_tables(300, "find"):
        is_steady = finds.is_steady(table)
        for _ in range(2):
            text = texts.text_of(rng, table, rng.randint(1, 60))
            over = [run for run in table.cutting(text) for _ in range(*run)]
            found = [finds.find(table, text, place) for place in range(len(text))]
            assert all(start <= place < stop for place, (start, stop) in enumerate(found))
            if is_steady:
                same(found, over)
                walls = table.walls(text)
                same([place for place in range(len(text)) if finds.beginning(table, text, place) not in walls], [])
            differing += found != over
        steady += is_steady
    same((steady >= 80, differing >= 40), (True, True))


def book_against_itself():
    """What put and try answer, on random tables and lines with layers."""
    for rng, table in accepted_tables(160, "book"):
        if rng.random() < 0.25:
            lowest, text = breaks.Line(), texts.line_text(rng)[:60] or b"\r"
        else:
            lowest, text = table, texts.text_of(rng, table, rng.randint(1, 60))
        book = opened(programs.stacked(lowest, texts.random_layers(rng, lowest, text)), text)
        for _ in range(12):
            size = len(book.text)
            book.pin(size, rng.randrange(size))
            old, pins, numbers = book.text, book.places, [book.read(size, which) for which in range(len(book.places))]
            place, byte = rng.randrange(size), rng.choice([32, 45, 97, 13, rng.choice(old), rng.randint(0, 255)])
            tried = book.try_(size, place, byte)
            same((book.text, book.places, refusal(book.try_, size + 1, place, byte)), (old, pins, (12, 4, size + 1)))
            same((book.put(size, place, byte), book.text), (tried, old[:place] + bytes([byte]) + old[place + 1:]))
            window(book, old, numbers, place, tried)


def window(book, old, numbers, place, answer):
    """Holds a put's answer against the old and the new text: the window's ends, the runs around it, and the pins."""
    start, stop, difference, dropped = answer
    old_walls, new_walls = book.rule.walls(old), book.rule.walls(book.text)
    both = [wall for wall in range(len(old)) if wall in old_walls and wall in new_walls] + [len(old)]
    same((start <= place < stop, start in both, stop in both), (True, True, True))
    same([wall for wall in both if start < wall < stop], [])

    old_runs, new_runs = book.rule.cutting(old), book.rule.cutting(book.text)
    same(len(new_runs) - len(old_runs), difference)
    same([run for run in enumerate(old_runs) if run[1][1] <= start],
         [run for run in enumerate(new_runs) if run[1][1] <= start])
    same([(number + difference, run) for number, run in enumerate(old_runs) if run[0] >= stop],
         [(number, run) for number, run in enumerate(new_runs) if run[0] >= stop])

    kept = [(pin, number + (difference if pin >= stop else 0)) for pin, number in numbers if pin in new_walls]
    same([book.read(len(old), which) for which in range(len(book.places))], kept)
    same(len(numbers) - len(kept), dropped)


def main():
    """All tests."""
    steady_examples()
    steady_against_rows()
    find_examples()
    book_examples()
    session_examples()
    find_against_cutting()
    book_against_itself()
    print("%d passed, 0 failed" % test_breaks.PASSED)


if __name__ == "__main__":
    main()
