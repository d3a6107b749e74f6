"""The programs of docs/PROGRAMS.md: what each of them writes, from the bytes that it reads.

    python3 second/programs.py cut              does what the program `cut` does, in the current folder
    python3 second/programs.py inspect          does what the program `inspect` does
    python3 second/programs.py find PLACE ...   does what the program `find` does
    python3 second/programs.py walls            does what the program `walls` does
    python3 second/programs.py session          does what the program `session` does
    python3 second/programs.py show TABLE TEXT  tells people what the table does with the text
"""

import os
import sys

import books
import finds
from breaks import BACKWARD, CLASS_TABLE, FORWARD, HEADER, TEXT, TEXT_MOST, Joint, Line, Refused, Tail, accept

TABLE_MOST = 32767  # the most bytes that are read of a table
NUMBER_MOST = 18446744073709551615  # the greatest number that is read


def number_of(digits):
    """The number that some bytes are in decimal: digits and nothing else, up to NUMBER_MOST. None where they are no
    such number."""
    if not digits or any(digit not in b"0123456789" for digit in digits):
        return None
    number = 0
    for digit in digits:
        number = 10 * number + digit - 48
        if number > NUMBER_MOST:
            return None
    return number


def refusal_line(refused):
    """The line of a refusal, closed by LF."""
    return refused.line().encode("ascii") + b"\n"


# cut and inspect


def cut_file(runs):
    """The cut file of some runs: for each its start and its end, in two bytes each, high byte first."""
    out = bytearray()
    for start, stop in runs:
        out += bytes([start // 256, start % 256, stop // 256, stop % 256])
    return bytes(out)


def cut(table_bytes, text_bytes):
    """What the program `cut` writes; the table is b"" where its file is missing."""
    table_bytes = table_bytes[:TABLE_MOST]
    text_bytes = text_bytes[:TEXT_MOST + 1]
    try:
        table = accept(table_bytes)
        return cut_file(table.cutting(text_bytes))
    except Refused as refused:
        return refusal_line(refused)


def inspect(table_bytes):
    """What the program `inspect` writes; the table is b"" where its file is missing."""
    try:
        table = accept(table_bytes[:TABLE_MOST])
    except Refused as refused:
        return refusal_line(refused)
    counts = table.states, table.classes, len(table.sure_pairs())
    return b"states %d classes %d sure %d\n" % counts + steady_line(table)


def steady_line(table):
    """What the steady check says of an accepted table, as a line."""
    try:
        finds.try_steady(table)
    except Refused as refused:
        return refusal_line(refused)
    return b"steady\n"


# find


def find(table_bytes, text_bytes, arguments):
    """What the program `find` writes; the arguments are bytes, and the table is b"" where its file is missing."""
    text = text_bytes[:TEXT_MOST + 1]
    try:
        table = accept(table_bytes[:TABLE_MOST])
    except Refused as refused:
        return refusal_line(refused)
    return b"".join(find_line(table, text, argument) for argument in arguments)


def find_line(table, text, argument):
    """The line for one argument."""
    place = number_of(argument)
    if place is None:
        return argument + b": not a place\n"
    try:
        return b"start %d end %d\n" % finds.find(table, text, place)
    except Refused as refused:
        return refusal_line(refused)


# First lines, and walls

LAYERS = {b"joint": Joint, b"tail": Tail}
BYTES = {b"%d" % value: value for value in range(256)}  # a byte in decimal, without leading zeros
RULE_MOST = 64  # the most bytes that a first line of `walls` has, its LF among them


def byte_of(digits):
    """The byte that some bytes are in decimal, zeros in front allowed; None where they are none."""
    number = number_of(digits)
    return number if number is not None and number <= 255 else None


def named(line, byte_read=BYTES.get):
    """What a first line, without its LF, names: b"table" or b"line", and a list of layers, lowest first, each its
    class and its byte. None where the line is of another make. byte_read tells which byte a word is, or None: in
    `walls` a byte has no zero in front, in `session` it is a number like any other."""
    words = line.split(b" ")
    if len(words) < 2 or len(words) % 2 == 1 or words[0] != b"rule" or words[1] not in (b"table", b"line"):
        return None
    layers = []
    for kind, digits in zip(words[2::2], words[3::2]):
        byte = byte_read(digits)
        if kind not in LAYERS or byte is None:
            return None
        layers.append((LAYERS[kind], byte))
    return words[1], layers


def stacked(rule, layers):
    """A rule with layers on it, lowest first."""
    for kind, byte in layers:
        rule = kind(rule, byte)
    return rule


def places(name, numbers):
    """A line that `walls` writes."""
    return b" ".join([name] + [b"%d" % number for number in numbers]) + b"\n"


def walls(table_bytes, stdin_bytes):
    """What the program `walls` writes; the table is b"" where its file is missing.

    The first line is judged before all else. The table counts only where the line names it.
    """
    line, closed, text = stdin_bytes.partition(b"\n")
    found = named(line) if closed and len(line) < RULE_MOST else None
    if found is None:
        return b"no rule\n"
    lowest, layers = found
    text = text[:TEXT_MOST + 1]
    try:
        rule = stacked(accept(table_bytes[:TABLE_MOST]) if lowest == b"table" else Line(), layers)
        return places(b"runs", [stop for _, stop in rule.cutting(text)]) + places(b"walls", rule.walls(text))
    except Refused as refused:
        return refusal_line(refused)


# session

HANDED_MOST = 65535  # the longest text that a call can be handed

# The calls: how many numbers each takes, the plain book's own call, and the line of its answer.
CALLS = {
    b"look": (1, books.PlainBook.look, b"run %d start %d end %d\n"),
    b"fetch": (1, books.PlainBook.fetch, b"start %d end %d\n"),
    b"read": (1, books.PlainBook.read, b"place %d number %d\n"),
    b"pin": (1, books.PlainBook.pin, b"place %d number %d\n"),
    b"unpin": (1, books.PlainBook.unpin, b"number %d\n"),
    b"put": (2, books.PlainBook.put, b"from %d to %d difference %s dropped %d\n"),
    b"try": (2, books.PlainBook.try_, b"from %d to %d difference %s dropped %d\n"),
}


def call_of(line):
    """The call that a line, without its LF, is: the length of the text handed in (None for the book's own), the call's
    word and its numbers. None where the line is no call."""
    words = line.split(b" ")
    handed = None
    if words[0] == b"handed":
        handed = number_of(words[1]) if len(words) > 1 else None
        if handed is None or handed > HANDED_MOST:
            return None
        words = words[2:]
    if not words or words[0] not in CALLS or len(words) != 1 + CALLS[words[0]][0]:
        return None
    numbers = [number_of(word) for word in words[1:]]
    if None in numbers or (len(numbers) == 2 and numbers[1] > 255):  # the second number is a byte
        return None
    return handed, words[0], numbers


def signed(number):
    """A number with its sign: +3, -2, 0."""
    return b"%+d" % number if number != 0 else b"0"


def call_line(book, handed, word, numbers):
    """The line of a call's answer or of its refusal."""
    _, call, made = CALLS[word]
    try:
        answer = call(book, len(book.text) if handed is None else handed, *numbers)
    except Refused as refused:
        return refusal_line(refused)
    if word == b"unpin":
        return made % answer
    if word in (b"put", b"try"):
        start, stop, difference, dropped = answer
        return made % (start, stop, signed(difference), dropped)
    return made % tuple(answer)


def session(table_bytes, text_bytes, stdin_bytes):
    """What the program `session` writes; the table and the text are b"" where their files are missing.

    The first line is judged before all else, then the table where it counts, then the text.
    """
    lines = stdin_bytes.split(b"\n")
    if lines[-1] == b"":
        lines.pop()  # what follows the last LF is no line
    found = named(lines[0], byte_of) if lines else None
    if found is None:
        return b"line 1: not a rule\n"
    lowest, layers = found
    try:
        book = books.PlainBook(stacked(accept(table_bytes[:TABLE_MOST]) if lowest == b"table" else Line(), layers))
        book.open(text_bytes[:TEXT_MOST + 1])
    except Refused as refused:
        return refusal_line(refused)

    out = [b"opened %d\n" % len(book.text)]
    for number, line in enumerate(lines[1:], 2):
        call = call_of(line)
        out.append(b"line %d: not a call\n" % number if call is None else call_line(book, *call))
    digits = book.text.hex().encode("ascii")
    out.append(b"text " + digits + b"\n" if digits else b"text\n")
    out.append(b"pins %d\n" % len(book.places))
    return b"".join(out)


# For people

WORDS = {
    (1, HEADER, 0): "fewer than 272 bytes are handed in",
    (1, HEADER, 14): "length is below 272 or above the number of bytes handed in",
    (2, HEADER, 0): "the top bit of flags1 is 0",
    (3, HEADER, 4): "the class table does not lie in the table",
    (3, HEADER, 10): "the forward table does not start in the table",
    (3, HEADER, 8): "the backward table does not start in the table",
    (3, HEADER, 6): "the auxiliary table does not start in the table",
    (4, FORWARD): "the forward list breaks its rule",
    (4, BACKWARD): "the backward list breaks its rule",
    (5, CLASS_TABLE): "the class under this entry of the class table is wrong",
    (6, FORWARD): "this forward code is odd or names a state that is not there",
    (6, BACKWARD): "this backward code is odd or names a state that is not there",
    (7, FORWARD): "the table is non-advancing: this code can end a run that has no byte",
    (8, BACKWARD): "the table is not steady: by this backward code find can begin where no wall is",
    (9, TEXT): "the text has more than 16,383 bytes",
    (10, TEXT): "the place asked for is not below the text's length",
}


def in_words(refused):
    """A refusal in words."""
    key = (refused.number, refused.part)
    words = WORDS.get(key + (refused.place,)) or WORDS[key]
    return "%s (%s)" % (words, refused.line())


def quoted(data):
    """Bytes in quotes; the quote, the backslash and all that does not print are escaped."""
    out = ""
    for value in data:
        if value in (34, 92):
            out += "\\" + chr(value)
        elif 32 <= value < 127:
            out += chr(value)
        else:
            out += "\\x%02x" % value
    return '"' + out + '"'


def shown(table_bytes, text_bytes):
    """The lines that `show` prints."""
    try:
        table = accept(table_bytes[:TABLE_MOST])
    except Refused as refused:
        return ["table refused: " + in_words(refused)]
    lines = ["table accepted: %d states, %d classes" % (table.states, table.classes)]
    try:
        finds.try_steady(table)
    except Refused as refused:
        lines.append(in_words(refused))
    try:
        runs = table.cutting(text_bytes)
    except Refused as refused:
        return lines + ["text refused: " + in_words(refused)]
    for number, (start, stop) in enumerate(runs, 1):
        lines.append("%d %d\u2013%d %s" % (number, start, stop, quoted(text_bytes[start:stop])))
    return lines


def file_bytes(name, most):
    """The bytes that are read of a file of the current folder, no more than some; none where it is missing."""
    try:
        with open(name, "rb") as file:
            return file.read(most)
    except FileNotFoundError:
        return b""


def written(arguments):
    """What the program that the arguments name writes, in the current folder; None where they name none."""
    program = arguments[0] if arguments else None
    if program not in ("cut", "inspect", "find", "walls", "session") or (len(arguments) > 1 and program != "find"):
        return None
    table = file_bytes("table", TABLE_MOST)
    stdin = sys.stdin.buffer
    if program == "cut":
        return cut(table, stdin.read(TEXT_MOST + 1))
    if program == "inspect":
        return inspect(table)
    if program == "find":
        return find(table, stdin.read(TEXT_MOST + 1), [os.fsencode(argument) for argument in arguments[1:]])
    if program == "walls":
        # A line that has no LF among so many bytes is of another make, whatever follows.
        line = stdin.readline(RULE_MOST)
        return walls(table, line + stdin.read(TEXT_MOST + 1))
    return session(table, file_bytes("text", TEXT_MOST + 1), stdin.read())


def show(table_name, text_name):
    """Shows people what a table does with a text; gives the status."""
    try:
        with open(table_name, "rb") as file:
            table_bytes = file.read()
        with open(text_name, "rb") as file:
            text_bytes = file.read()
    except OSError as error:
        print(error, file=sys.stderr)
        return 1
    try:
        for line in shown(table_bytes, text_bytes):
            sys.stdout.buffer.write(line.encode("utf-8") + b"\n")
        sys.stdout.buffer.flush()
    except BrokenPipeError:  # nobody reads on, as with `| head`
        os.dup2(os.open(os.devnull, os.O_WRONLY), 1)
    return 0


def main(arguments):
    """The command; gives its status."""
    if len(arguments) == 3 and arguments[0] == "show":
        return show(arguments[1], arguments[2])
    out = written(arguments)
    if out is None:
        print("usage: cut | inspect | find PLACE ... | walls | session | show TABLE TEXT", file=sys.stderr)
        return 2
    sys.stdout.buffer.write(out)
    sys.stdout.buffer.flush()
    return 0


if __name__ == "__main__":
    sys.exit(main(sys.argv[1:]))
