"""What `session` is compared with: fixed cases, and random lists of calls (docs/BOOKS.md, docs/PROGRAMS.md)."""

import backward
import breaks
import edges
import programs
import tables
import texts

PAGE = b"re-cut it, cut- it; a well-kept  page "
GREATEST = programs.NUMBER_MOST

# Lines that are no call, whatever the text.
NOT_CALLS = [
    b"", b" ", b"look", b"look ", b"look x", b"look -1", b"look +1", b"look 1 2", b"look  1", b" look 1", b"look 1 ",
    b"look 1\r", b"\rlook 1", b"LOOK 1", b"Look 1", b"looks 1", b"loo 1", b"look\t1", b"look1", b"look 1.0",
    b"look 0x1", b"look 1e0", b"look 1,0", b"look 1_0", b"look \xd9\xa4", b"look 1\0", b"\0", b"look 1 #", b"look -0",
    b"look 4/", b"look 4:", b"look 18446744073709551616", b"look 18446744073709551619", b"look 99999999999999999999",
    b"look " + b"1" * 25, b"look " + b"1" * 5000, b"x" * 5000, b"fetch", b"fetch ", b"fetch x", b"fetch 0 0",
    b"fetch 36893488147419103232", b"read", b"read x", b"read 0 0", b"pin", b"pin x", b"pin 0 0", b"unpin", b"unpin x",
    b"unpin 0 0", b"pins 0", b"un pin 0", b"put", b"put 0", b"put 0 ", b"put 0 256", b"put 0 999", b"put 0 1 2",
    b"put 0 x", b"put 0 -1", b"put  0 1", b"put 0  1", b"put x 0", b"put 0 65536", b"put 0 18446744073709551615",
    b"put 0 18446744073709551616", b"put 18446744073709551616 0", b"put 0 4294967296", b"put 0 0x41", b"put 0 a",
    b"try", b"try 0", b"try 0 256", b"try 0 1 2", b"try 0 x", b"try 0 511", b"rule table", b"rule line", b"open",
    b"text", b"opened 9", b"find 0", b"walls", b"joint 45", b"#look 1", b"look=1", b"handed", b"handed ", b"handed 3",
    b"handed 3 ", b"handed x look 0", b"handed -1 look 0", b"handed +3 look 0", b"handed 65536 look 0",
    b"handed 65539 look 0", b"handed 4294967296 look 0", b"handed 18446744073709551616 look 0", b"handed  3 look 0",
    b"handed 3  look 0", b" handed 3 look 0", b"handed 3 handed 3 look 0", b"handed 3 nothing 0", b"handed look 0",
    b"handed 3 look", b"handed 3 look x", b"handed 3 put 0 256", b"Handed 3 look 0", b"handed3 look 0",
    b"look 0 handed 3", b"handed 3 4 look 0", b"handed 3 rule line", b"handed 3.0 look 0",
    b"\xff", b"look \xff", b"look 1\xff", b"\xfelook 1", b"put 0 \x80", bytes(range(128, 256)),
]

# Calls whose numbers have zeros in front, and numbers at the limits.
ODD_CALLS = [
    b"look 00", b"look 0" + b"0" * 40, b"look " + b"0" * 25 + b"1", b"pin 007", b"put 0000 00065",
    b"try 0 000000000000000000000255", b"handed 00000003 look 0", b"handed 000000000000000000000065535 look 0",
    b"handed 65535 look 0", b"handed 0 look 0", b"handed 0 put 0 0", b"handed 65535 fetch 0",
    b"look 18446744073709551615", b"fetch 18446744073709551615", b"read 18446744073709551615",
    b"pin 18446744073709551615", b"unpin 18446744073709551615", b"try 18446744073709551615 0",
    b"put 18446744073709551615 255", b"put 4294967296 1", b"look 4294967296", b"fetch 4294967296", b"read 4294967296",
    b"pin 65536", b"unpin 65536", b"read 64", b"read 63", b"look " + b"0" * 30 + b"18446744073709551615",
    b"fetch 00000",
]

# First lines that name no rule.
NOT_RULES = [
    b"", b"\n", b"\nrule table\n", b" \n", b"rule\n", b"rule \n", b"table\n", b" rule table\n", b"rule table \n",
    b"rule line \n", b"rule  table\n", b"rule\ttable\n", b"Rule table\n", b"rule Table\n", b"rule tabl\n",
    b"rule tables\n", b"rule lines\n", b"rule none\n", b"ruletable\n", b"rule table line\n", b"rule line table\n",
    b"rule table\r\n", b"rule line\r\n", b"rule table\0\n", b"rule table joint\n", b"rule table joint \n",
    b"rule table tail", b"rule table 45\n", b"rule table joint tail 45\n", b"rule table joint 45 tail\n",
    b"rule table joint 45 32\n", b"rule table joint 45 \n", b"rule table  joint 45\n", b"rule table joint  45\n",
    b"rule table joint45\n", b"rule table Joint 45\n", b"rule table layer 45\n", b"rule table joint 256\n",
    b"rule table joint 999\n", b"rule table joint 65581\n", b"rule table joint 4294967341\n",
    b"rule table joint 18446744073709551661\n", b"rule table joint -1\n", b"rule table joint +45\n",
    b"rule table joint 0x2d\n", b"rule table joint 45.\n", b"rule table joint x\n", b"rule line tail 256\n",
    b"rule line tail 0256", b"rule table joint 45 tail x\n", b"look 0\n", b"pin 7", PAGE, b"x" * 20000,
    b"rule table" + b" " * 5000 + b"\n", b"rule table joint " + b"1" * 5000 + b"\n", b"handed 3 rule line\n",
    b"rule line\0", b"rule line\xff\n", b"\xff\n", b"rule table joint \x80\n",
]


def kind_of(line):
    """The kind of a line that `session` writes, for the numbers that are told at the end."""
    words = line.split(b" ")
    if line.endswith(b": not a call") or line == b"line 1: not a rule":
        return line.partition(b": ")[2].decode("ascii")
    if words[0] == b"from":
        return "from to, difference %s%s" % ("0" if words[5] == b"0" else words[5][:1].decode("ascii"),
                                             "" if words[7] == b"0" else ", pins dropped")
    if words[0] == b"pins":
        return "pins 64 at the end" if words[1] == b"64" else "pins at the end"
    return words[0].decode("ascii")


# Fixed cases


def lines(*parts):
    """Lines, each closed by LF."""
    return b"".join(part + b"\n" for part in parts)


def every_call(text):
    """Each call at each place or number of a text that is short, and past them; with tries of some bytes."""
    calls = []
    for number in range(len(text) + 2):
        calls += [b"look %d" % number, b"fetch %d" % number, b"pin %d" % number, b"read %d" % number]
        calls += [b"try %d %d" % (number, byte) for byte in (32, 45, 97, 13, 129)]
    for number in range(len(text) + 2):
        calls += [b"put %d %d" % (number, (32, 45, 97, 13, 129)[number % 5]), b"read 0", b"read 1"]
        calls += [b"unpin %d" % (number // 2)]
    return calls


def fixed_session(comparison):
    """What `session` is tried with in every comparison."""
    school = tables.school()
    faulty = tables.big_file(324, 271)
    two = edges.two_byte({0x81: -1, 0x82: -2}, edges.words(1, 4) + bytes([1, 0, 3, 2] * 64))

    def case(name, table, text, stdin, expected=None, pieces=False):
        """One case."""
        comparison.case("session", name, table, stdin, expected, pieces, text=text)

    case("the example", school, b"re-cut it", lines(b"rule table", b"pin 7", b"put 3 32", b"read 0"),
         lines(b"opened 9", b"place 7 number 2", b"from 0 to 6 difference +3 dropped 0", b"place 7 number 5",
               b"text 72652d207574206974", b"pins 1"))
    case("two pins dropped", school, b"a b", lines(b"rule table", b"pin 1", b"pin 2", b"put 1 120"))
    case("one pin dropped", school, b"a b", lines(b"rule table", b"pin 1", b"put 0 45"))
    for layers in (b"", b" joint 45", b" tail 32", b" joint 45 tail 32 joint 32 tail 45", b" tail 13 tail 10 joint 13"):
        for text in (b"re-cut it", b"cut- it", b"", b"-", b"a\r\rb\r\n"):
            case("every call", school, text, lines(b"rule table" + layers, *every_call(text)))
            case("every call, lines", None, text, lines(b"rule line" + layers, *every_call(text)))
        text = b"a\x81- \x82\x82\x81\x81b"
        case("every call, two-byte text", two, text, lines(b"rule table" + layers, *every_call(text)))

    # Calls that are none, odd ones, and the texts that they are handed.
    for text in (b"a b", b"", None, PAGE):
        case("no calls", school, text, lines(b"rule table", *NOT_CALLS))
        case("odd calls", school, text, lines(b"rule table", *ODD_CALLS))
        size = len(text or b"")
        for length in (0, 1, 2, 3, 4, size, size + 1, 255, 256, 16383, 16384, 65535, 65536):
            case("handed %d" % length, school, text,
                 lines(b"rule table", *(b"handed %d %s" % (length, call) for call in (
                     b"look 0", b"fetch 0", b"read 0", b"pin 2", b"unpin 2", b"try 0 45", b"put 1 120", b"look 99",
                     b"fetch 99", b"read 99", b"pin 99", b"unpin 99", b"unpin 1", b"try 99 0", b"put 99 0"))))
    case("last line not closed", school, b"a b", b"rule table\npin 1\nlook 2")
    case("empty last line", school, b"a b", b"rule table\nlook 2\n\n")
    case("rule alone, not closed", school, b"a b", b"rule table")
    case("rule alone", school, b"a b", b"rule table\n")
    case("rule alone, no text", None, None, b"rule line", lines(b"opened 0", b"text", b"pins 0"))

    # First lines. Zeros in front and long lines are a rule here, other than with `walls`.
    for stdin in NOT_RULES:
        after = b"look 0\n" if stdin.endswith(b"\n") else b""
        case("not a rule", school, b"a b", stdin + after, b"line 1: not a rule\n")
    for stdin in (b"rule tables\nlook 0\n", b"\n"):
        case("not a rule, refused table, long text", faulty, bytes(20000), stdin, b"line 1: not a rule\n")
        case("not a rule, no files", None, None, stdin, b"line 1: not a rule\n")
    case("zeros in front", school, b"a- - b",
         lines(b"rule table joint 045 tail 0000000000000000000000000032", b"look 0"))
    for count in (5, 6, 7, 20, 200):
        case("%d layers" % (2 * count), school, b"a- - b",
             lines(b"rule table" + b" joint 45 tail 32" * count, b"look 0", b"pin 5"))

    # Refused tables and texts, and files that are missing.
    for number, (name, table, verdict) in enumerate(edges.edges()):
        if verdict is None or number % 5 == 0:
            case("edge: " + name, table, edges.TEXT,
                 lines(b"rule table", b"look 3", b"pin 20", b"fetch 4", b"put 11 32", b"read 0"))
    for size in (16383, 16384, 16385, 70000):
        calls = (b"look 16382", b"pin 16382", b"put 8000 45", b"read 0", b"fetch 9000", b"look 16383", b"try 16382 32")
        text = (PAGE * (size // len(PAGE) + 1))[:size]
        case("text of %d bytes" % size, school, text, lines(b"rule table joint 45", *calls))
        case("lines, text of %d bytes" % size, faulty, text.replace(b";", b"\r"), lines(b"rule line", *calls))
        case("refused table, text of %d bytes" % size, faulty, text, lines(b"rule table", *calls))
    for table in (None, b"", faulty):
        case("refused table", table, b"a b", lines(b"rule table", b"look 0"))
        case("lines, whatever table", table, b"a b", lines(b"rule line", b"look 0"))
    case("table file of 100000 bytes", tables.big_file(100000), b"re-cut it", lines(b"rule table", b"look 7"))

    # 64 pins; many calls; input in pieces.
    pins = [b"pin %d" % place for place in range(70)]
    pins += [b"read 63", b"read 64", b"pin 63", b"pin 64", b"unpin 10", b"pin 69", b"pin 10", b"put 5 97", b"pin 10",
             b"put 6 97", b"pin 10", b"pin 11"]
    for text in (b"." * 70, b"." * 80):
        case("64 pins", school, text, lines(b"rule table", *pins))
    case("64 pins, lines", None, b"\r" * 80, lines(b"rule line", *pins))
    case("long lines", school, b"a b", lines(b"rule table", b"look " + b"0" * 100000 + b"2", b"look " + b"9" * 100000,
                                             b"x" * 300000, b"look 1"))
    case("3,000 calls", school, b"a b", lines(b"rule table", *([b"look 1", b"put 1 45", b"put 1 32"] * 1000)))
    case("in pieces", school, PAGE, lines(b"rule table tail 32", *every_call(b"1" * 9)), pieces=True)


# Random sessions


class Draft:
    """A text under calls: about what a book of it would know, so that calls can be chosen that are worth making."""

    def __init__(self, rule, text):
        self.rule = rule
        self.text = bytes(text)
        self.pins = []
        self.runs = self.walls = None
        self.look_again()

    def look_again(self):
        """Cuts the text anew."""
        self.walls = self.rule.walls(self.text)
        self.runs = len(self.rule.cutting(self.text))

    def pinned(self, place):
        """A pin call was made."""
        below = [wall for wall in self.walls if wall <= place]
        if place < len(self.text) and below and below[-1] not in self.pins and len(self.pins) < 64:
            self.pins.append(below[-1])

    def unpinned(self, place):
        """An unpin call was made."""
        if place in self.pins:
            self.pins.remove(place)

    def written(self, place, byte):
        """A put call was made."""
        if place < len(self.text):
            self.text = self.text[:place] + bytes([byte]) + self.text[place + 1:]
            if len(self.text) <= 1000:
                self.look_again()
            self.pins = [pin for pin in self.pins if pin in self.walls]


def any_place(rng, draft):
    """A place, mostly near a wall, near a pin, or anywhere; at times at the text's end or far past it."""
    size = len(draft.text)
    kind = rng.random()
    if kind < 0.35 and draft.walls:
        place = rng.choice(draft.walls) + rng.choice([-1, -1, 0, 0, 1])
    elif kind < 0.6 and draft.pins:
        place = rng.choice(draft.pins) + rng.choice([-2, -1, -1, 0, 0, 1])
    elif kind < 0.66:
        place = rng.choice([0, size - 1, size - 1, size, size + 1])
    elif kind < 0.68:
        place = rng.choice([16383, 65535, 65536, 4294967295, 4294967296, GREATEST])
    else:
        place = rng.randrange(size) if size else 0
    return max(0, place)


def any_byte(rng, draft, likely):
    """A byte that makes or breaks runs, mostly."""
    kind = rng.random()
    if kind < 0.7:
        return rng.choice(likely)
    return rng.choice(draft.text) if draft.text and kind < 0.9 else rng.randint(0, 255)


# How often the calls look, fetch, read, pin, unpin, put and try are made.
STYLES = {"mixed": [12, 9, 9, 18, 8, 22, 12], "pins": [4, 3, 8, 60, 6, 4, 6], "puts": [6, 5, 8, 12, 3, 50, 12]}


def one_call(rng, draft, likely, style):
    """A call, for a draft that learns of it; without what is handed."""
    word = rng.choices([b"look", b"fetch", b"read", b"pin", b"unpin", b"put", b"try"], STYLES[style])[0]
    if word == b"fetch":
        runs = draft.runs
        numbers = [max(0, rng.choice([0, 1, runs - 1, runs, runs + 1, GREATEST] + [rng.randint(0, runs)] * 2))]
    elif word == b"read":
        pins = len(draft.pins)
        numbers = [max(0, rng.choice([0, pins - 1, pins - 1, pins, pins + 1, rng.randint(0, pins), 63, 64]))]
    elif word == b"unpin":
        numbers = [rng.choice(draft.pins) if draft.pins and rng.random() < 0.75 else any_place(rng, draft)]
        draft.unpinned(numbers[0])
    elif word == b"pin":
        free = [wall for wall in draft.walls if wall not in draft.pins] if style == "pins" else []
        numbers = [rng.choice(free) if free and rng.random() < 0.8 else any_place(rng, draft)]
        draft.pinned(numbers[0])
    elif word == b"look":
        numbers = [any_place(rng, draft)]
    else:
        numbers = [any_place(rng, draft), any_byte(rng, draft, likely)]
        if word == b"put":
            draft.written(*numbers)
    zeros = b"0" * rng.choice([1, 2, 20]) if rng.random() < 0.02 else b""
    return word + b"".join(b" %s%d" % (zeros, number) for number in numbers)


def random_calls(rng, rule, text, count, likely, style):
    """Lines of calls, so many: some of them handed a text by its length, a few no calls."""
    draft = Draft(rule, text)
    size = len(text)
    handing = rng.choice([0, 0.05, 0.3])
    out = []
    for _ in range(count):
        kind = rng.random()
        if kind < 0.02:
            out.append(rng.choice(NOT_CALLS))
        elif kind < 0.03:
            out.append(rng.choice(ODD_CALLS))
        elif rng.random() < handing:
            length = rng.choice([size] * 5 + [size + 1, max(0, size - 1), 0, 65535, 65536, rng.randint(0, 65535)])
            # The draft learns only of what it is told; a refused call may make it guess wrong, which does no harm.
            out.append(b"handed %d %s" % (length, one_call(rng, draft, likely, style)))
        else:
            out.append(one_call(rng, draft, likely, style))
    return out


def session_table(rng):
    """The bytes of an accepted table for a session."""
    kind = rng.random()
    if kind < 0.3:
        return tables.school()
    if kind < 0.45:
        return edges.two_byte({0x81: -1, 0x82: -2, 0x83: -3},
                              edges.words(rng.randint(0, 3), 4) + bytes([1, 0, 3, 2] * 64))
    if kind < 0.8:
        return tables.walled(rng)
    return backward.redrawn(rng, bytes(tables.sound(rng).data))


def session_text(rng, accepted, size, few, style):
    """A text of a size: for its table, or of few bytes, so that there are many walls."""
    if accepted is not None and style != "pins" and rng.random() < 0.5:
        return texts.text_of(rng, accepted, size)
    return bytes(rng.choice(few) for _ in range(size))


def random_session(comparison, rng, name, long_text=False):
    """Compares a session: a random rule, layers, text and list of calls."""
    kind = rng.random()
    if kind < 0.06:
        damaged = tables.random_table(rng)
        stdin = lines(b"rule " + rng.choice([b"table", b"table", b"line", b"tables"]), b"look 0", b"pin 3", b"put 1 32")
        comparison.case("session", name, damaged, stdin, text=rng.choice([None, b"", PAGE, bytes(16384)]))
        return
    if kind < 0.28:
        table, accepted, lowest = None, None, "line"
        few = [13, 13, 10, 32, 45, 97]
    else:
        table, lowest = session_table(rng), "table"
        accepted = breaks.accept(table)
        few = rng.choice([b"ab -.", b"a b", b"..a- ", b"a-\x81\x82 "])
    size = rng.choice([0, 1, rng.randint(2, 30), rng.randint(2, 120), rng.randint(80, 400), rng.randint(100, 400)])
    count = rng.randint(10, rng.choice([40, 120, 200]))
    style = rng.choice(["mixed", "mixed", "pins", "puts"])
    if long_text:
        size, count = rng.choice([16383, 16383, 16383, 16384]), 10
    elif style == "pins" and rng.random() < 0.7:
        size, count = rng.randint(150, 400), rng.randint(120, 200)
    text = session_text(rng, accepted, size, few, style)
    if accepted is not None and texts.slow(accepted, text[:16383], most=100000 if long_text else 6000):
        text = text[:rng.randint(2, 60)]
    rule = breaks.Line() if accepted is None else accepted
    layers = []
    for _ in range(rng.choice([0, 0, 1, 1, 2])):
        layers += texts.random_layers(rng, programs.stacked(rule, layers), text[:400], joining=0.4)
    stacked = programs.stacked(rule, layers)
    first = [byte for byte in range(256) if accepted is not None and accepted.two_byte
             and breaks.signed_byte(accepted.data, accepted.class_at + byte) < 0]
    likely = [32, 45, 97, 13, 10] + list(few) + [byte for _, byte in layers] + first[:3] + first[-2:]
    calls = random_calls(rng, stacked, text[:16383], count, likely, style)
    stdin = texts.first_line(lowest, layers) + b"\n".join(calls) + (b"\n" if rng.random() < 0.8 else b"")
    if size == 0 and rng.random() < 0.3:
        text = None
    comparison.case("session", name, table, stdin, text=text)
