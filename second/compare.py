"""Compares the programs `cut`, `inspect`, `find`, `walls` and `session` with programs.py, byte for byte.

    python3 second/compare.py BIN_FOLDER [--seed N] [--cases N]

BIN_FOLDER holds the five programs. Each is run in a temporary folder with the file `table`, for `session` also `text`,
and with what belongs on its standard input and among its arguments. Compared are its standard output with what
programs.py says, and its status with 0: for the kept pages of second/pages, for fixed cases (those of edges.py,
find_cases.py and session_cases.py among them), and for as many random tables as `--cases` says, and a quarter as many
with many sure pairs. Most accepted ones get another backward table (backward.py), so that many are steady and many are
not. A random table is tried by `cut` with one text where it is refused and two where it is accepted, by `inspect`, by
`find` at all places of a text where it is accepted, and by `walls` with random layers: with two texts where it is
accepted, and at times where it is refused. Also there are random texts for the line rule. As many random sessions as
`--cases` says are made, a few of them over long texts.

On the way the answers of breaks.py itself are held against the law of docs/RULES.md, and those of finds.py against the
cutting where a table is steady. Where one of them is wrong, the documents or the second program are wrong, whatever the
programs do; that counts as failed too.

The seed is printed first; with the same seed and number the cases are the same. The last line is `N passed, M failed`,
and the status is 1 where M is not 0.
"""

import argparse
import itertools
import os
import random
import shutil
import subprocess
import sys
import tempfile
import time

import backward
import breaks
import edges
import find_cases
import programs
import session_cases
import tables
import texts
from find_cases import PAGE

HERE = os.path.dirname(os.path.abspath(__file__))
PAGES = os.path.join(HERE, "pages")
SAMPLE = os.path.join(HERE, "..", "sample", "page.txt")
TIME_LIMIT = 30  # seconds that one run may take
TOLD = 10  # this many differences are told in full and saved
SHORT = 60  # bytes of a text at which every place is asked for, and every wall is tried

# What each program writes for a table, standard input, arguments and the file `text`; b"" where a file is missing.
RECKONED = {
    "cut": lambda table, stdin, arguments, text: programs.cut(table, stdin),
    "inspect": lambda table, stdin, arguments, text: programs.inspect(table),
    "find": lambda table, stdin, arguments, text: programs.find(table, stdin, arguments),
    "walls": lambda table, stdin, arguments, text: programs.walls(table, stdin),
    "session": lambda table, stdin, arguments, text: programs.session(table, text, stdin),
}


class Comparison:
    """The programs under test, and what has come of them so far."""

    def __init__(self, binaries, folder):
        self.binaries = os.path.abspath(binaries)
        self.folder = folder
        self.files = {"table": None, "text": None}  # what the files are now; None where there is none
        self.passed = 0
        self.failed = 0
        self.answers = {}
        self.saved = None
        self.law_seen = set()

    def run(self, program, stdin, arguments=(), pieces=False):
        """Standard output and status of one run; the input comes in one go or in pieces with a pause between."""
        command = [os.path.join(self.binaries, program), *arguments]
        if not pieces:
            done = subprocess.run(command, cwd=self.folder, input=stdin, stdout=subprocess.PIPE,
                                  stderr=subprocess.DEVNULL, timeout=TIME_LIMIT)
            return done.stdout, done.returncode
        process = subprocess.Popen(command, cwd=self.folder, stdin=subprocess.PIPE, stdout=subprocess.PIPE,
                                   stderr=subprocess.DEVNULL)
        try:
            step = max(1, len(stdin) // 3)
            for start in range(0, len(stdin), step):
                process.stdin.write(stdin[start:start + step])
                process.stdin.flush()
                time.sleep(0.05)
        except BrokenPipeError:
            pass
        try:
            got, _ = process.communicate(timeout=TIME_LIMIT)
        except subprocess.TimeoutExpired:
            process.kill()
            process.communicate()
            raise
        return got, process.returncode

    def put(self, name, data):
        """Makes the file `table` or `text` what a case wants; a program does not change it."""
        if data == self.files[name]:
            return
        path = os.path.join(self.folder, name)
        if data is not None:
            with open(path, "wb") as file:
                file.write(data)
        else:
            os.remove(path)
        self.files[name] = data

    def changed(self, name):
        """Whether the file `table` or `text` is no longer what a case made it; it is put right then."""
        path = os.path.join(self.folder, name)
        found = None
        if os.path.exists(path):
            with open(path, "rb") as file:
                found = file.read()
        wanted, self.files[name] = self.files[name], found
        self.put(name, wanted)
        return found != wanted

    def case(self, program, name, table, stdin=b"", expected=None, pieces=False, arguments=(), text=None):
        """Runs one case of a program and counts it; the table and the text are None where their file is missing. The
        file `text` is there for `session` alone."""
        name = "%s, %s" % (program, name)
        case = {"table": table, "stdin": stdin, "text": text, "arguments": b"\n".join(arguments) or None}
        self.put("table", table)
        self.put("text", text)
        reckoned = RECKONED[program](table or b"", stdin, arguments, text or b"")
        if expected is None:
            expected = reckoned
        elif expected != reckoned:
            self.fail(name + ": what is expected and programs.py differ", case, expected, reckoned, 0)
            return
        self.count(program, expected)
        try:
            got, status = self.run(program, stdin, arguments, pieces)
        except subprocess.TimeoutExpired:
            self.fail(name + ": took more than %d seconds" % TIME_LIMIT, case, expected, b"", None)
            return
        if got != expected or status != 0:
            self.fail(name, case, expected, got, status)
        elif program == "session" and (self.changed("table") or self.changed("text")):
            self.fail(name + ": a file was changed", case, expected, got, status)
        else:
            self.passed += 1

    def find(self, name, table, text, arguments, expected=None, pieces=False):
        """One case of `find`; where the table is steady, finds.py itself is tried on it too."""
        self.case("find", name, table, text, expected, pieces, arguments)
        fault = find_cases.steady_fault(table or b"", text, arguments)
        if fault == "":
            self.passed += 1
            self.answers["find    holds on a steady table"] = self.answers.get("find    holds on a steady table", 0) + 1
        elif fault is not None:
            self.fail("FIND, by finds.py alone, %s: %s" % (name, fault), {"table": table, "stdin": text}, b"", b"",
                      None)

    def walls(self, name, table, stdin, expected=None, pieces=False):
        """One case of `walls`; where it has runs, breaks.py itself is tried on it once too."""
        self.case("walls", name, table, stdin, expected, pieces)
        if (table, stdin) not in self.law_seen:
            self.law_seen.add((table, stdin))
            self.law(name, table, stdin)

    def law(self, name, table, stdin):
        """Holds what breaks.py makes of an input of `walls` against the law, and counts it."""
        line, _, text = stdin.partition(b"\n")
        found = programs.named(line)
        if found is None or not 0 < len(text) <= breaks.TEXT_MOST:
            return
        try:
            lowest = breaks.accept((table or b"")[:programs.TABLE_MOST]) if found[0] == b"table" else breaks.Line()
        except breaks.Refused:
            return
        fault = law_fault(programs.stacked(lowest, found[1]), text, random.Random(len(stdin)))
        if fault is None:
            self.passed += 1
            self.answers["law    holds"] = self.answers.get("law    holds", 0) + 1
        else:
            self.fail("THE LAW, by breaks.py alone, %s: %s" % (name, fault), {"table": table, "stdin": stdin}, b"", b"",
                      None)

    def count(self, program, expected):
        """Counts the kinds of an answer: one for each line of `find` and `session`, else one."""
        lines = expected.split(b"\n")[:-1] if program in ("find", "session") else [expected]
        for line in lines:
            kind = "%-7s %s" % (program, kind_of(program, line))
            self.answers[kind] = self.answers.get(kind, 0) + 1

    def fail(self, name, case, expected, got, status):
        """Tells a difference, and saves it to a folder that it names."""
        self.failed += 1
        if self.failed > TOLD:
            return
        if self.saved is None:
            self.saved = tempfile.mkdtemp(prefix="breaks-differences-")
        folder = os.path.join(self.saved, str(self.failed))
        os.mkdir(folder)
        for part, data in (*case.items(), ("expected", expected), ("got", got)):
            if data is not None:
                with open(os.path.join(folder, part), "wb") as file:
                    file.write(data)
        print("DIFFERENT %s" % name)
        print("  saved to %s" % folder)
        print("  table of %s, standard input of %d bytes, %s"
              % ("no file" if case["table"] is None else "%d bytes" % len(case["table"]), len(case["stdin"]),
                 shortened(case["stdin"])))
        print("  expected %s" % answer(expected))
        print("  got      %s, status %s" % (answer(got), status))
        print(first_difference(expected, got))


def kind_of(program, output):
    """The kind of an output, or of a line of one: some words for the numbers that are told at the end."""
    if output.startswith(b"refused"):
        _, number, _, part, _, place = output.decode("ascii").split()
        return "refused %2s part %s" % (number, part) + (" place %2s" % place if part == "0" else "")
    if output == b"no rule\n":
        return "no rule"
    if program == "inspect":
        counts, verdict = output.split(b"\n")[:2]
        return "accepted, %s, %s" % ("no sure pair" if counts.endswith(b" sure 0") else "sure pairs",
                                     "steady" if verdict == b"steady" else "not steady")
    if program == "walls":
        found = output.split(b"\n")[1].count(b" ")
        return "accepted, %s" % ("several walls" if found > 1 else "one wall or none")
    if program == "find":
        return "a run" if output.startswith(b"start") else "not a place"
    if program == "session":
        return session_cases.kind_of(output)
    return "accepted, no run or one" if len(output) <= 4 else "accepted, several runs"


def shortened(data):
    """Bytes in quotes, no more than some."""
    return programs.quoted(data[:60]) + (" ..." if len(data) > 60 else "")


def answer(output):
    """An output for people."""
    if output.startswith((b"refused", b"no rule", b"states", b"runs", b"start", b"opened", b"line")) or len(output) % 4:
        return "%d bytes: %s" % (len(output), shortened(output))
    runs = ["%d-%d" % (int.from_bytes(output[place:place + 2], "big"),
                       int.from_bytes(output[place + 2:place + 4], "big")) for place in range(0, len(output), 4)]
    return "%d runs: %s%s" % (len(runs), " ".join(runs[:12]), " ..." if len(runs) > 12 else "")


def first_difference(expected, got):
    """Where two outputs first differ."""
    for place, (one, other) in enumerate(zip(expected, got)):
        if one != other:
            line = expected[:place].count(b"\n")
            return ("  first at byte %d: %d expected, %d got; its line, if lines are told: %s expected, %s got"
                    % (place, one, other, shortened(expected.split(b"\n")[line]), shortened(got.split(b"\n")[line])))
    if len(expected) != len(got):
        return "  %d bytes expected, %d got" % (len(expected), len(got))
    return "  the outputs are the same"


# The law


def law_fault(rule, text, rng):
    """What is wrong with the answers of a rule of breaks.py for a text; None where nothing is.

    A text that is not short is parted at a few walls only.
    """
    runs = rule.cutting(text)
    walls = rule.walls(text)
    if len(text) <= SHORT:
        if walls != [place for place in range(len(text)) if rule.wall(text, place)]:
            return "the walls are not the places at which a wall is told"
        if runs != breaks.cutting_by(lambda whole, place: place + rule.run(whole[place:]), text):
            return "the cutting is not the first run and the cutting of what remains"
    most = len(text) if len(text) <= SHORT else 8 if len(text) <= 1000 else 2
    for wall in sorted(rng.sample(walls, min(most, len(walls)))):
        if rule.cutting(text[:wall]) + moved(rule.cutting(text[wall:]), wall) != runs:
            return "other runs when the text is parted at %d" % wall
    if len(walls) >= 2:
        first, second = sorted(rng.sample(walls, 2))
        between = [run for run in runs if first <= run[0] and run[1] <= second]
        if moved(rule.cutting(text[first:second]), first) != between:
            return "other runs between the walls %d and %d" % (first, second)
    return None


def moved(runs, by):
    """Runs so many places on."""
    return [(start + by, stop + by) for start, stop in runs]


# Cases


def kept_pages(comparison):
    """Compares the kept pages: of each page what it has."""
    names = sorted(os.listdir(PAGES))
    for name in names:
        parts = {}
        for part in os.listdir(os.path.join(PAGES, name)):
            with open(os.path.join(PAGES, name, part), "rb") as file:
                parts[part] = file.read()
        if "cut" in parts:
            comparison.case("cut", "page " + name, parts["table"], parts["text"], parts["cut"])
        if "inspect" in parts:
            comparison.case("inspect", "page " + name, parts["table"], expected=parts["inspect"])
        if "find" in parts:
            comparison.find("page " + name, parts["table"], parts["text"], parts["arguments"].split(), parts["find"])
        if "session" in parts:
            comparison.case("session", "page " + name, parts["table"], parts["calls"], parts["session"],
                            text=parts["text"])
        if "walls" in parts:
            comparison.walls("page " + name, parts["table"], parts["stdin"], parts["walls"])
    print("%d kept pages" % len(names))


def limits_table():
    """A table at the limits: 64 states, 128 classes; each character of its text is a run."""
    rows = [[4] * 128] + [[128] * 128 for _ in range(62)]
    state = tables.state_table(128, rows)
    entries = bytes(value & 127 for value in range(256))
    return tables.header(128, 0, 0, 16, 0, 272, 272, 0, 272 + len(state)) + entries + state


def reread_table():
    """The school table made one that reads on after its mark: letters go on quietly until a blank, so that the run
    ends at its second letter and all that follows is read again."""
    rows = [[4, 4, 4, 4], [134, 134, 134, 134], [6, 6, 6, 0]]
    state = tables.state_table(4, rows)
    return (tables.header(128, 0, 0, 16, 0, 272, 272, 0, 272 + len(state)) + bytes(tables.school_classes()) + state)


def fixed_tables():
    """Tables that are the same in every comparison, but those of edges.py: a list of (name, table)."""
    out = [("missing table", None), ("empty table", b""), ("school table", tables.school()),
           ("limits", limits_table()), ("much read again", reread_table())]
    for size in (40000, 100000):
        for length in (None, 32767, 271, 273, -1, 325):
            out.append(("table file of %d bytes, length %s" % (size, length), tables.big_file(size, length)))
    # Bytes past length make no difference, and a length of 32767 is met by a file of 32767 bytes and by no shorter one.
    for size in (32766, 32767, 32768):
        out.append(("table file of %d bytes, length 32767" % size, tables.big_file(size, 32767)))
    return out


def fixed_cut(comparison):
    """What `cut` is tried with in every comparison."""
    school = tables.school()
    limits = limits_table()

    for name, table in fixed_tables():
        comparison.case("cut", name, table, PAGE)
    comparison.case("cut", "missing table, empty text", None, b"")
    comparison.case("cut", "missing table, long text", None, bytes(20000))
    for size in (16382, 16383, 16384, 16385, 16640, 32768, 65536, 70000):
        long_text = (PAGE * (size // len(PAGE) + 1))[:size]
        comparison.case("cut", "school table, text of %d bytes" % size, school, long_text)
        comparison.case("cut", "length 271, text of %d bytes" % size, tables.big_file(324, 271), long_text)
    comparison.case("cut", "most runs", limits, bytes(range(256)) * 63 + bytes(255))
    comparison.case("cut", "one run", school, b"a" * 16383)
    comparison.case("cut", "one run of blanks", school, b" " * 16383)
    comparison.case("cut", "one letter of two", school, b"ab" * 8191)
    comparison.case("cut", "text of NUL", school, bytes(300))
    comparison.case("cut", "all byte values", school, bytes(range(256)))
    comparison.case("cut", "much read again", reread_table(), b"x" * 700 + b" ")
    comparison.case("cut", "text in pieces", school, PAGE * 30, pieces=True)
    comparison.case("cut", "long text in pieces", school, (PAGE * 440)[:16383], pieces=True)
    comparison.case("cut", "too long text in pieces", school, PAGE * 500, pieces=True)
    for name, table, _ in edges.edges():
        comparison.case("cut", "edge: " + name, table, edges.TEXT)


def fixed_inspect(comparison):
    """What `inspect` is tried with in every comparison."""
    for name, table in fixed_tables():
        comparison.case("inspect", name, table)
    comparison.case("inspect", "bytes on standard input", tables.school(), b"rule table\n" + PAGE)
    for name, table, _ in edges.edges():
        comparison.case("inspect", "edge: " + name, table)
    # One line each is stated by hand, the other is what programs.py says.
    for name, table, number in edges.sure():
        counts = breaks.accept(table)
        first = b"states %d classes %d sure %d" % (counts.states, counts.classes, number)
        comparison.case("inspect", "sure: " + name, table, expected=first + b"\n" + programs.steady_line(counts))
    for name, table, verdict in edges.steady():
        first = programs.inspect(table).split(b"\n")[0]
        second = b"steady" if verdict is None else b"refused %d part %d place %d" % verdict
        comparison.case("inspect", "steady: " + name, table, expected=first + b"\n" + second + b"\n")
    for number, table in enumerate(edges.small_backward()):
        comparison.case("inspect", "small backward table %d" % number, table)


# First lines of another make, and what follows them.
NO_RULE = [
    # No line that is closed.
    b"", b"rule table", b"rule line", b"rule table joint 45", PAGE,
    # Other words, or other than one blank between them.
    b"\n", b"\nrule table\n", b" \n", b"rule\n", b"rule \n", b"table\n", b" rule table\n", b"rule table \n",
    b"rule line \n", b"rule  table\n", b"rule\ttable\n", b"rule_table\n", b"Rule table\n", b"RULE TABLE\n",
    b"rule Table\n", b"rule tabl\n", b"rule tables\n", b"rule lines\n", b"rule lin\n", b"rule none\n", b"rules line\n",
    b"rul table\n", b"ruletable\n", b"table rule\n", b"rule table line\n", b"rule line table\n",
    b"rule table rule line\n", b"rule table\r\n", b"rule line\r\n", b"rule table joint 45\r\n", b"rule table\rline\n",
    b"rule table\0\n", b"\0rule table\n", b"\xef\xbb\xbfrule table\n", b"rule \x74\xe4ble\n",
    # Layers without a byte, bytes without a layer, and other layers.
    b"rule joint 45\n", b"rule table joint\n", b"rule table joint \n", b"rule table tail\n", b"rule table 45\n",
    b"rule table 45 joint\n", b"rule table joint tail 45\n", b"rule table joint 45 tail\n",
    b"rule table joint 45 tail \n", b"rule table joint 45 32\n", b"rule table joint 45 \n",
    b"rule table  joint 45\n", b"rule table joint  45\n", b"rule table joint 45  tail 32\n",
    b"rule table joint\t45\n", b"rule table joint45\n", b"rule table joint 45tail 32\n",
    b"rule table joint 45,tail 32\n", b"rule table Joint 45\n", b"rule table TAIL 45\n", b"rule table joints 45\n",
    b"rule table tai 45\n", b"rule table layer 45\n", b"rule table table 45\n", b"rule line line 13\n",
    # No byte in decimal.
    b"rule table joint 256\n", b"rule table joint 257\n", b"rule table joint 260\n", b"rule table joint 300\n",
    b"rule table joint 301\n", b"rule table joint 999\n", b"rule table joint 1000\n", b"rule table joint 2550\n",
    b"rule table joint 65581\n", b"rule table joint 4294967341\n", b"rule table joint 18446744073709551661\n",
    b"rule table joint -1\n", b"rule table joint -45\n", b"rule table joint +45\n", b"rule table joint -0\n",
    b"rule table joint 0x2d\n", b"rule table joint 2d\n", b"rule table joint 45.\n", b"rule table joint 4 5\n",
    b"rule table joint 4_5\n", b"rule table joint -\n", b"rule table joint x\n", b"rule table joint '-'\n",
    b"rule table joint \xd9\xa4\n", b"rule line tail 256\n", b"rule table joint 45 tail 256\n",
    b"rule table joint 256 tail 32\n", b"rule table joint 45 tail x\n", b"rule table joint 4/\n",
    b"rule table joint 4:\n",
    # Leading zeros: the number is not told in decimal as numbers are told here.
    b"rule table joint 045\n", b"rule table joint 00\n", b"rule table tail 0032\n",
    # A layer after others that is none.
    b"rule table joint 45 tail 32 joint\n", b"rule table joint 45 tail 32 joint \n",
    b"rule table joint 45 tail 32 joint 256\n", b"rule table joint 45 tail 32 joint 045\n",
    b"rule table joint 45 tail 32  joint 45\n", b"rule table joint 45 tail 32 joint 45 \n",
    b"rule line tail 10 tail 10 tails 10\n", b"rule line tail 10 tail 10 tail 10 10\n",
    b"rule line joint 045 tail 10 tail 10\n", b"rule line tail 10 table joint 10 line\n",
    b"rule line" + b" tail 0" * 6 + b" tail 00\n", b"rule line" + b" tail 0" * 6 + b" tail\n",
    # Layers that pass the 64 bytes of a line with its LF: by one byte, and by many. (`session` takes such lines.)
    b"rule table" + b" joint 45" * 6 + b"\n", b"rule line" + b" joint 13" * 5 + b" joint 130\n",
    b"rule line" + b" tail 0" * 5 + b" joint 100 joint 100\n",
    b"rule table" + b" tail 0" * 4 + b" joint 0 joint 0 joint 145\n",
    b"rule line" + b" tail 0" * 8 + b"\n", b"rule table" + b" tail 0" * 8 + b"\n", b"rule line" + b" joint 13" * 6,
    b"rule table" + b" joint 45 tail 32" * 200 + b"\n",
    # Lines of enormous length, closed or not.
    b"x" * 20000 + b"\n", b"x" * 20000, b"rule table" + b" " * 100000 + b"\n", b"rule line tail 32" + bytes(70000),
    b"rule table joint " + b"1" * 16384 + b"\n", b"rule table" * 3000 + b"\n", b"rule table " * 8000,
]


# First lines with as many layers as they have room for. Those of the first three have 64 bytes with the LF.
MANY_LAYERS = [
    b"rule line" + b" joint 13" * 6, b"rule line" + b" tail 0" * 5 + b" joint 10 joint 100",
    b"rule table" + b" tail 0" * 4 + b" joint 0 joint 0 joint 45",
    b"rule line" + b" tail 0" * 7, b"rule table" + b" tail 0" * 7, b"rule table" + b" joint 9" * 5 + b" tail 9",
    b"rule line tail 10 joint 10 tail 45 joint 97 tail 13 joint 45",
    b"rule table tail 116 joint 45 tail 32 joint 44 tail 99",
]


def orders(*layers):
    """Layers of a first line in every order, as bytes to be put behind its rule."""
    return [b"".join(some) for some in itertools.permutations(layers)]


def many_layers(comparison):
    """What `walls` is tried with, with three layers and more."""
    school = tables.school()
    two = edges.two_byte({0x81: -1, 0x82: -2}, edges.words(1, 4) + bytes([1, 0, 3, 2] * 64))
    lines = b"one\rtwo\r\r\nthree - \r-\r \n\r"
    with open(SAMPLE, "rb") as file:
        sample = file.read()

    comparison.walls("the example with three layers", school, b"rule table joint 45 tail 32 tail 105\ncut- it",
                     expected=b"runs 3 7\nwalls 0\n")
    four = orders(b" tail 45", b" tail 44", b" joint 32", b" joint 45")
    for layers in orders(b" joint 45", b" tail 32", b" tail 97") + four:
        name = layers.decode("ascii")
        for text in (PAGE, b"  -a-  b- -c", b"a - , -a", b""):
            comparison.walls("school table," + name, school, b"rule table" + layers + b"\n" + text)
    for layers in orders(b" tail 10", b" joint 13", b" tail 45") + orders(b" tail 13", b" joint 32", b" tail 32"):
        comparison.walls("lines," + layers.decode("ascii"), None, b"rule line" + layers + b"\n" + lines)
    for layers in orders(b" joint 129", b" tail 130", b" joint 32") + orders(b" tail 129", b" tail 32", b" joint 45"):
        text = b"a\x81-\x81\x81 \x82- \x82\x82-b\x82 \x81"
        comparison.walls("two-byte text," + layers.decode("ascii"), two, b"rule table" + layers + b"\n" + text)
    for line in MANY_LAYERS:
        name = "%d layers" % (line.count(b" ") // 2)
        for text in (PAGE, lines, sample, b"", b"\0\0a\0-\0\0", edges.TEXT, (PAGE * 440)[:16383], PAGE * 500):
            comparison.walls(name, school, line + b"\n" + text)
        comparison.walls(name + ", refused table", tables.big_file(324, 271), line + b"\n" + PAGE)
    comparison.walls("a line of 64 bytes in pieces", school, MANY_LAYERS[2] + b"\n" + PAGE, pieces=True)


def fixed_walls(comparison):
    """What `walls` is tried with in every comparison."""
    school = tables.school()
    limits = limits_table()
    faulty = tables.big_file(324, 271)
    two = edges.two_byte({0x81: -1, 0x82: -2}, edges.words(1, 4) + bytes([1, 0, 3, 2] * 64))
    lines = b"one\rtwo\r\r\nthree - \r-\r \n\r"

    # Places and layers.
    for name, table in fixed_tables():
        comparison.walls(name, table, b"rule table joint 45\n" + PAGE)
    for layers in (b"", b" joint 45", b" tail 32", b" joint 45 joint 32", b" joint 45 tail 32", b" tail 32 joint 45",
                   b" tail 32 tail 45", b" joint 45 joint 45", b" tail 45 joint 45", b" joint 32 tail 32"):
        name = layers.decode("ascii") or " no layer"
        for text in (b"re-cut it", b"cut- it", PAGE, b"", b"-", b" ", b"a", b"--", b"-- --", b"  -a-  b- -c",
                     b"\n\n-\na", b"rule table\nx"):
            comparison.walls("school table," + name, school, b"rule table" + layers + b"\n" + text)
        for text in (b"\x81\x81\x81\x41", b"a\x81-\x81\x81 \x82- \x82\x82-b\x82 \x81", edges.TEXT):
            comparison.walls("two-byte text," + name, two, b"rule table" + layers + b"\n" + text)
        comparison.walls("lines," + name, school, b"rule line" + layers + b"\n" + lines)
    for layers in (b"", b" joint 13", b" tail 13", b" tail 10", b" joint 10", b" tail 10 joint 13",
                   b" joint 13 tail 10", b" tail 13 tail 10"):
        for text in (lines, b"", b"\r", b"\n", b"\r\r", b"\r\n", b"a\r\nb\r\n", b"\ra", b"a\r", b"no end"):
            comparison.walls("lines,%s" % layers.decode("ascii"), None, b"rule line" + layers + b"\n" + text)
    for byte in (0, 1, 9, 10, 11, 19, 20, 99, 100, 101, 109, 110, 127, 128, 199, 200, 249, 250, 254, 255):
        text = bytes([65, byte, 65, byte, byte, (byte + 1) % 256, 65, byte])
        comparison.walls("joint %d" % byte, school, b"rule table joint %d\n" % byte + text)
        comparison.walls("tail %d" % byte, school, b"rule table tail %d\n" % byte + text)
        comparison.walls("two layers with %d" % byte, school, b"rule table joint %d tail %d\n" % (byte, byte) + text)

    many_layers(comparison)

    # Long texts.
    for size in (16382, 16383, 16384, 16385, 32768, 70000):
        long_text = (PAGE * (size // len(PAGE) + 1))[:size]
        comparison.walls("text of %d bytes" % size, school, b"rule table tail 32 joint 45\n" + long_text)
        comparison.walls("faulty table, text of %d bytes" % size, faulty, b"rule table\n" + long_text)
        comparison.walls("lines, text of %d bytes" % size, faulty, b"rule line tail 10\n" + b"\r\n-" * (size // 3)
                         + bytes(size % 3))
    comparison.walls("most runs and walls", limits, b"rule table\n" + bytes(range(256)) * 63 + bytes(255))
    comparison.walls("all joined", limits, b"rule table joint 45\n" + b"-" * 16383)
    comparison.walls("all taken in", limits, b"rule table joint 7 tail 45\n" + b"-" * 16383)
    comparison.walls("all first bytes", two, b"rule table tail 130\n" + b"\x81" * 16383)
    comparison.walls("pairs", two, b"rule table joint 32\n" + (b"\x82\x81\x82\x82a- \x82 " * 2000)[:16383])
    comparison.walls("one run", school, b"rule table\n" + b"a" * 16383)
    comparison.walls("as many lines as bytes", None, b"rule line\n" + b"\r" * 16383)
    comparison.walls("all lines joined", None, b"rule line joint 13\n" + b"\r" * 16383)
    comparison.walls("much read again", reread_table(), b"rule table joint 120\n" + b"x" * 300 + b" ")

    # Input in pieces: the line in pieces, the text in pieces.
    comparison.walls("line in pieces", school, b"rule table joint 45 tail 32\na", pieces=True)
    comparison.walls("text in pieces", school, b"rule table joint 45\n" + PAGE * 30, pieces=True)
    comparison.walls("long text in pieces", school, b"rule table\n" + (PAGE * 440)[:16383], pieces=True)
    comparison.walls("too long text in pieces", school, b"rule line\n" + PAGE * 500, pieces=True)
    comparison.walls("no rule in pieces", school, b"rule table joint 45", pieces=True)

    # No rule: told before anything about the table or the text.
    for stdin in NO_RULE:
        after = b"re-cut it" if stdin.endswith(b"\n") else b""
        comparison.walls("no rule", school, stdin + after, expected=b"no rule\n")
    for line in (b"rule tables\n", b"\n", b"rule table joint 256\n"):
        comparison.walls("no rule, missing table", None, line + PAGE, expected=b"no rule\n")
        comparison.walls("no rule, faulty table", faulty, line + PAGE, expected=b"no rule\n")
        comparison.walls("no rule, long text", school, line + bytes(20000), expected=b"no rule\n")

    # The tables at the edges: those that are accepted, each with another kind of layers, and of the others a third.
    stacks = [b"", b" joint 45", b" tail 32", b" joint 129 joint 45", b" joint 45 tail 129", b" tail 32 joint 45",
              b" tail 32 tail 45", b" tail 129 joint 45 tail 97", b" joint 120 tail 45 joint 32 tail 130"]
    for number, (name, table, verdict) in enumerate(edges.edges()):
        if verdict is None or number % 3 == 0:
            layers = stacks[number % len(stacks)]
            comparison.walls("edge: " + name, table, b"rule table%s\n" % layers + edges.TEXT)
    for name, table, _ in edges.sure():
        comparison.walls("sure: " + name, table, b"rule table\n" + edges.TEXT * 2)


def fixed_cases(comparison):
    """Compares what is the same in every comparison."""
    before = comparison.passed + comparison.failed
    fixed_cut(comparison)
    fixed_inspect(comparison)
    fixed_walls(comparison)
    find_cases.fixed_find(comparison)
    session_cases.fixed_session(comparison)
    print("%d fixed cases" % (comparison.passed + comparison.failed - before))


def walls_case(comparison, rng, name, table, accepted, text):
    """Compares `walls` on a text with random layers over an accepted table."""
    layers = texts.random_layers(rng, accepted, text)
    comparison.walls(name, table, texts.first_line("table", layers) + text)


def random_cases(comparison, seed, cases):
    """Compares random tables with random texts."""
    accepted_tables = 0
    for number in range(cases):
        rng = random.Random("%d/%d" % (seed, number))
        table = tables.random_table(rng)
        name = "seed %d case %d" % (seed, number)
        try:
            accepted = breaks.accept(table[:programs.TABLE_MOST])
            tried = 2
            accepted_tables += 1
        except breaks.Refused:
            accepted = None
            tried = 1
        other = random.Random("%d/%d/backward" % (seed, number))
        if accepted is not None and other.random() < 0.7:
            table = backward.redrawn(other, table)
            accepted = breaks.accept(table)
        for which in range(tried):
            text = texts.random_text(rng, table)
            comparison.case("cut", "%s text %d" % (name, which + 1), table, text)
        comparison.case("inspect", name, table)

        # What follows has its own chances, so that the cases of `cut` do not hang on it.
        rng = random.Random("%d/%d/walls" % (seed, number))
        if accepted is not None:
            walls_case(comparison, rng, name + " text 2", table, accepted, text)
            walls_case(comparison, rng, name + " text 3", table, accepted, texts.random_text(rng, table))
        elif number % 3 == 0:
            layers = texts.random_layers(rng, breaks.Line(), text)
            comparison.walls(name, table, texts.first_line("table", layers) + text)
        if number % 3 == 0:
            text = texts.line_text(rng)
            layers = texts.random_layers(rng, breaks.Line(), text, joining=0.3)
            comparison.walls(name + " lines", table, texts.first_line("line", layers) + text)
        if accepted is not None or number % 5 == 0:
            find_cases.random_find(comparison, random.Random("%d/%d/find" % (seed, number)), name, table, accepted)
    print("%d random tables, %d of them accepted" % (cases, accepted_tables))

    for number in range(cases // 4):
        rng = random.Random("%d/%d/walled" % (seed, number))
        table = tables.walled(rng)
        if rng.random() < 0.85:
            table = backward.redrawn(rng, table)
        name = "seed %d walled %d" % (seed, number)
        accepted = breaks.accept(table)
        comparison.case("inspect", name, table)
        for which in range(2):
            text = texts.random_text(rng, table)
            walls_case(comparison, rng, "%s text %d" % (name, which + 1), table, accepted, text)
        find_cases.random_find(comparison, rng, name, table, accepted)
    print("%d random tables with many sure pairs" % (cases // 4))

    for number in range(cases):
        session_cases.random_session(comparison, random.Random("%d/%d/session" % (seed, number)),
                                     "seed %d session %d" % (seed, number), long_text=number % 40 == 39)
    print("%d random sessions" % cases)


def main():
    """The command; gives its status."""
    parser = argparse.ArgumentParser(description="compare the programs with programs.py")
    parser.add_argument("binaries", metavar="BIN_FOLDER")
    parser.add_argument("--seed", type=int, default=None)
    parser.add_argument("--cases", type=int, default=400)
    arguments = parser.parse_args()
    for program in RECKONED:
        path = os.path.join(arguments.binaries, program)
        if not (os.path.isfile(path) and os.access(path, os.X_OK)):
            parser.error("%s is not a program" % path)
    seed = arguments.seed if arguments.seed is not None else int(time.time() * 1000) % 1000000000
    print("seed %d" % seed, flush=True)

    started = time.time()
    folder = tempfile.mkdtemp(prefix="breaks-compare-")
    try:
        comparison = Comparison(arguments.binaries, folder)
        kept_pages(comparison)
        fixed_cases(comparison)
        random_cases(comparison, seed, arguments.cases)
    finally:
        shutil.rmtree(folder)

    for kind in sorted(comparison.answers):
        print("%5d %s" % (comparison.answers[kind], kind))
    print("%.1f seconds" % (time.time() - started))
    print("%d passed, %d failed" % (comparison.passed, comparison.failed))
    return 1 if comparison.failed else 0


if __name__ == "__main__":
    sys.exit(main())
