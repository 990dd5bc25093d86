"""Document 01's recipes, with items 1, 3 and 4 of document 02, read in Python, for tools/recipe-vectors, tools/bench-cases and tools/hostile. It
uses nothing of the product.

A step is done by arithmetic on words, what a line means is told of whole numbers: neither uses the other's rules, so that one can be held against
the other. At the end stands what these tools share beside that: random and damaged recipes, words for the program bench, and how a tool reads its
own words and starts a program.
"""
import collections
import io
import itertools
import os
import re
import sys

ROOT = os.path.dirname(os.path.dirname(os.path.realpath(__file__)))

# ---- limits and numbers

TEXT_MAX = 1024  # bytes that a program reads of its input
LINES_MAX = 32  # lines of a recipe
STEPS_MAX = 256  # the most steps of a recipe
PLACE_DIGITS = 10  # digits of a place that bench is asked to start from
BOXES_MAX = 64  # boxes of a rack
FILE_MAX = 16384  # bytes of a file of boxes
REGISTERS = 8  # of each kind
WIDTHS = (1, 2, 4)  # registers of a number
BITS = 32  # bits of a register
TOP = BITS - 1  # its highest bit
WORD = (1 << BITS) - 1  # the greatest value of a register, and the greatest step budget
READER_REFUSALS = 4, 6, 7, 8, 11, 12, 13, 14
BAD_WIDTH, NO_SUCH_NUMBER, ONTO_ITSELF, TOO_MANY_LINES, UNKNOWN_VERB, WRONG_FIELDS, NOT_A_DIGIT, NO_BYTE_10 = READER_REFUSALS
PAST_THE_END, TOO_MANY_BOXES = 10, 15
FLAGS = "XNZVC"
X, N, Z, V, C = 16, 8, 4, 2, 1
XC, ALL = X | C, X | N | Z | V | C
digits = "{:05b}".format  # of flags: a 0 or 1 for each, in their order

# ---- steps, all of them long, by word arithmetic


def seen(r, flags, zero=Z):
    """A result, and these flags with its N and Z; a result of 0 sets Z only where `zero` has it."""
    return r, flags | N * (r >> TOP) | (zero & Z) * (r == 0)


def added(d, s, x, zero):
    r = d + s + x & WORD
    return seen(r, XC * (d + s + x > WORD) | V * (((d ^ r) & (s ^ r)) >> TOP), zero)


def subtracted(d, s, x, zero):
    """By adding the complement: there a borrow is a carry that is missing."""
    r, flags = added(d, s ^ WORD, 1 - x, zero)
    return r, flags ^ XC


# Of each operation: its source as it is written, where D stands for a data register; its clock figure; its result and flags, from the destination d,
# the source s and the flags f. A shift by #1 costs 8 and 2 for the one place.
Operation = collections.namedtuple("Operation", "source clocks rule")
OPERATIONS = {
    "ADD": Operation("D", 8, lambda d, s, f: added(d, s, 0, Z)),
    "ADDX": Operation("D", 8, lambda d, s, f: added(d, s, f // X, f)),
    "SUB": Operation("D", 8, lambda d, s, f: subtracted(d, s, 0, Z)),
    "SUBX": Operation("D", 8, lambda d, s, f: subtracted(d, s, f // X, f)),
    "NEG": Operation("-", 6, lambda d, s, f: subtracted(0, d, 0, Z)),
    "NEGX": Operation("-", 6, lambda d, s, f: subtracted(0, d, f // X, f)),
    "CLR": Operation("-", 6, lambda d, s, f: seen(0, f & X)),
    "NOT": Operation("-", 6, lambda d, s, f: seen(d ^ WORD, f & X)),
    "ASR": Operation("#1", 8 + 2, lambda d, s, f: seen(d >> 1 | d >> TOP << TOP, XC * (d & 1))),
    "LSR": Operation("#1", 8 + 2, lambda d, s, f: seen(d >> 1, XC * (d & 1))),
    "ROXR": Operation("#1", 8 + 2, lambda d, s, f: seen(d >> 1 | f // X << TOP, XC * (d & 1))),
    "LSL": Operation("#1", 8 + 2, lambda d, s, f: seen(d << 1 & WORD, XC * (d >> TOP))),
    "ROXL": Operation("#1", 8 + 2, lambda d, s, f: seen(d << 1 & WORD | f // X, XC * (d >> TOP))),
}

# ---- lines, by whole numbers


def signed(number, m):
    return number - m if 2 * number >= m else number


def all_told(total, carry, exact, m):
    """A target's value, its flags and those promised: all. `exact` is what signed numbers give, before it is cut to their range."""
    r = total % m
    return r, XC * carry | N * (2 * r >= m) | Z * (r == 0) | V * (not -m <= 2 * exact < m), ALL


# Of each verb: how many numbers it takes; its steps at the first register and at each other; whether it goes from the highest register down; its
# target's value, the flags and which of them are promised, from the numbers a and b, X and m = 2^(32w). A verb of one number has it as a and b.
Verb = collections.namedtuple("Verb", "takes first other downward rule")
VERBS = {
    "clear": Verb(1, "CLR", "CLR", False, lambda a, b, x, m: (0, X * x, X)),
    "copy": Verb(2, "CLR ADD", "CLR ADD", False, lambda a, b, x, m: (a, 0, X)),
    "add": Verb(2, "ADD", "ADDX", False, lambda a, b, x, m: all_told(b + a, b + a >= m, signed(b, m) + signed(a, m), m)),
    "sub": Verb(2, "SUB", "SUBX", False, lambda a, b, x, m: all_told(b - a, b < a, signed(b, m) - signed(a, m), m)),
    "neg": Verb(1, "NEG", "NEGX", False, lambda a, b, x, m: all_told(-a, a != 0, -signed(a, m), m)),
    "not": Verb(1, "NOT", "NOT", False, lambda a, b, x, m: (m - 1 - a, X * x, X)),
    "halve": Verb(1, "ASR", "ROXR", True, lambda a, b, x, m: (signed(a, m) // 2 % m, X * (a % 2), X)),
    "down": Verb(1, "LSR", "ROXR", True, lambda a, b, x, m: (a // 2, X * (a % 2), X)),
    "up": Verb(1, "LSL", "ROXL", False, lambda a, b, x, m: (2 * a % m, X * (2 * a >= m), X)),
}


def numbers_of(registers, w):
    """A number's lowest register comes first."""
    return [sum(registers[k + i] << BITS * i for i in range(w)) for k in range(0, REGISTERS, w)]


def registers_of(numbers, w):
    return [number >> BITS * i & WORD for number in numbers for i in range(w)]


def line_done(line, w, numbers, flags):
    """The numbers behind a line, the flags, and those promised."""
    verb, a, b = line
    r, flags, promised = VERBS[verb].rule(numbers[a], numbers[b], flags // X, 1 << BITS * w)
    return numbers[:b] + [r] + numbers[b + 1 :], flags, promised


# ---- the reader


class Refused(Exception):
    """A text's: the number, the text line and the column there. A run's: the number and the place."""

    def __str__(self):
        return "\t".join(["refused", *map(str, self.args)]) + "\n"


def slip(row):
    """The number and the column of what is wrong with a line's writing, if anything is. Columns count the line's bytes from 1."""
    if not row.endswith(b"\n"):
        return NO_BYTE_10, len(row) + 1
    verb, *fields = row[:-1].split(b"\t")
    known = {word.encode(): VERBS[word].takes for word in VERBS}
    if verb not in known:
        return UNKNOWN_VERB, 1
    begins = [tab.end() + 1 for tab in re.finditer(rb"\t", row)]  # each field's column: one behind its tab
    if len(fields) < known[verb]:
        return WRONG_FIELDS, row.index(b"\n") + 1
    if len(fields) > known[verb]:
        return WRONG_FIELDS, begins[known[verb]]
    bad = [column for field, column in zip(fields, begins) if not re.fullmatch(rb"[0-9]", field)]
    return (NOT_A_DIGIT, bad[0]) if bad else None


def read_line(row, w, at):
    """A text line: its verb and numbers a and b, of which b is the target."""
    if found := slip(row):
        number, column = found
        raise Refused(number, at, column)
    verb, *fields = row.decode().split()
    a, b = int(fields[0]), int(fields[-1])
    if max(a, b) >= REGISTERS // w:
        raise Refused(NO_SUCH_NUMBER, at, 0)
    if verb == "copy" and a == b:
        raise Refused(ONTO_ITSELF, at, 0)
    return verb, a, b


def read(text):
    """The width and the lines of a text that is handed to a program."""
    head, *rows = io.BytesIO(text[:TEXT_MAX]).readlines() or [b""]
    widths = {b"width\t%d\n" % w: w for w in WIDTHS}
    if head not in widths:
        raise Refused(BAD_WIDTH, 1, 0)
    w, lines = widths[head], []
    for at, row in enumerate(rows, 2):
        if len(lines) == LINES_MAX:
            raise Refused(TOO_MANY_LINES, at, 0)
        lines.append(read_line(row, w, at))
    return w, lines


def fields_of(line):
    return [str(field) for field in line[: 1 + VERBS[line[0]].takes]]


def text_of(w, lines):
    rows = [["width", str(w)], *map(fields_of, lines)]
    return "".join("\t".join(row) + "\n" for row in rows).encode()


# ---- listings and runs

Step = collections.namedtuple("Step", "operation source to line")  # `to` is the register that it changes, `line` its text line
Asked = collections.namedtuple("Asked", "data address flags start budget")  # what a run is handed
Standing = collections.namedtuple("Standing", "place data flags clocks")  # where it is after some steps


def steps_of(w, line, at=0):
    """The steps of a line, which is the text's line `at`."""
    verb, a, b = line
    row, order = VERBS[verb], range(w)
    return [
        Step(operation, OPERATIONS[operation].source.replace("D", f"D{a * w + i}"), b * w + i, at)
        for k, i in enumerate(reversed(order) if row.downward else order)
        for operation in (row.other if k else row.first).split()
    ]


def listing(w, lines):
    return [step for at, line in enumerate(lines, 2) for step in steps_of(w, line, at)]


def bounds(w, lines):
    """The places before the first line and behind each."""
    return list(itertools.accumulate((len(steps_of(w, line)) for line in lines), initial=0))


def clocks_of(steps):
    return sum(OPERATIONS[step.operation].clocks for step in steps)


def stepped(standing, step):
    """How a run stands behind one step more."""
    data, to = standing.data, step.to
    source = data[int(step.source[1:])] if step.source.startswith("D") else 0
    r, flags = OPERATIONS[step.operation].rule(data[to], source, standing.flags)
    return Standing(standing.place + 1, data[:to] + [r] + data[to + 1 :], flags, standing.clocks + clocks_of([step]))


def run(steps, asked):
    """How the run stands before its first step and after each."""
    start = Standing(asked.start, asked.data, asked.flags, 0)
    return list(itertools.accumulate(steps[asked.start : asked.start + asked.budget], stepped, initial=start))


def printed(w, lines):
    """What the program recipe prints."""
    steps = listing(w, lines)
    rows = [f"{place}\t{step.operation}\tL\t{step.source}\tD{step.to}\t{step.line}\n" for place, step in enumerate(steps)]
    return "".join([f"width\t{w}\t{len(steps)}\n", *rows, f"clocks\t{clocks_of(steps)}\n"])


def plain_rows(w, lines, asked, first=0):
    """What the program bench prints with the word rows, from the standing `first` on."""
    steps = listing(w, lines)
    if asked.start > len(steps):
        return str(Refused(PAST_THE_END, asked.start))
    rows = ([str(s.place), *(f"{r:08X}" for r in s.data + asked.address), *digits(s.flags)] for s in run(steps, asked)[first:])
    return "".join("\t".join(row) + "\n" for row in rows)


def told(text, answer, *more):
    """What a program prints of a text: one of these, or the text's refusal."""
    try:
        return answer(*read(text), *more)
    except Refused as refused:
        return str(refused)


# ---- a rack of boxes: what the program bench prints with the word boxes=FILE

BOX_WORD = re.compile(rb"([DA])([0-7])=([0-9A-Fa-f]{1,8})|([XNZVC])=([01])|from=([0-9]{1,10})")
BOX_FORMS = b" is not understood: D0=HEX..D7=HEX, A0=HEX..A7=HEX, X= N= Z= V= C= 0 or 1, from=PLACE"
AGAIN = b" is a second word for the same thing: each is given once\n"
BOX_HEADING = "box  end         place  steps  clocks  X N Z V C"
GO_ON = "halted: go on with boxes=FILE, and steps=COUNT if you like, where FILE has these lines"
SHOWN = 60  # bytes of a bad line or word that are shown


class NotTaken(Exception):
    """What bench says of a file of boxes that it does not take, on standard error."""


def visible(word):
    """A word as bench shows it: a tab as >, and what can't be shown, or would be taken for a tab, as ?."""
    shown = (ord(">") if b == 9 else b if 32 <= b <= 126 and b != ord(">") else ord("?") for b in word[:SHOWN])
    return bytes(shown) + b".." * (len(word) > SHOWN)


def box_of(asked, line, where):
    """What a box's line asks for, beside what all boxes are asked."""
    box, things = asked._replace(data=list(asked.data), address=list(asked.address)), set()
    for word in re.findall(rb"[^ \t]+", line):
        found, thing = BOX_WORD.fullmatch(word), word.split(b"=")[0]
        if not found:
            raise NotTaken(where + visible(word) + BOX_FORMS + b"\n")
        if thing in things:
            raise NotTaken(where + visible(word) + AGAIN)
        things.add(thing)
        kind, r, value, flag, digit, place = found.groups()
        if kind:
            (box.data if kind == b"D" else box.address)[int(r)] = int(value, 16)
        elif flag:
            bit = 1 << FLAGS[::-1].index(flag.decode())
            box = box._replace(flags=box.flags & ~bit | bit * int(digit))
        else:
            box = box._replace(start=int(place))
    return box


def boxes_of(file, asked, name):
    """What each box of a file is asked. Nothing is asked of the words where there are too many lines."""
    if len(file) > FILE_MAX:
        raise NotTaken(b"bench: %s has more than %d bytes, which is %d lines of 255 with their line ends\n" % (name, FILE_MAX, BOXES_MAX))
    *lines, last = file.split(b"\n")
    lines += [last] * bool(last)
    if len(lines) > BOXES_MAX:
        raise Refused(TOO_MANY_BOXES)
    return [box_of(asked, line, b"bench: line %d of %s: " % (k, name)) for k, line in enumerate(lines, 1)]


def plural(n, what):
    return f"{n} {what}" + "s" * (n != 1)


def table_top(w, lines):
    """The first two lines of a table: the sizes, and which registers the numbers are."""
    names = [" ".join([f"{k} is", *(f"D{k * w + i}" for i in reversed(range(w)))]) for k in range(REGISTERS // w)]
    return f"width {w}, {plural(len(lines), 'line')}, {plural(len(listing(w, lines)), 'step')}", "numbers: " + ", ".join(names)


def settings(letter, registers):
    return [f"{letter}{r}={value:08X}" for r, value in enumerate(registers) if value]


def words_on(last, address):
    """The words to go on with from where a run stands."""
    flags = [f"{name}=1" for name, digit in zip(FLAGS, digits(last.flags)) if digit == "1"]
    return [f"from={last.place}", *settings("D", last.data), *settings("A", address), *flags]


def end_of(steps, asked, last):
    return f"Refused {PAST_THE_END}" if asked.start > len(steps) else "Finished" if last.place == len(steps) else "Budget"


def box_row(k, w, end, done, last):
    """The figures stand to the right below their headings, behind two blanks at least."""
    row = f"{k:3}  {end}"
    for name, figure in zip(["place", "steps", "clocks"], [last.place, done, last.clocks]):
        row += f"  {figure}".rjust(BOX_HEADING.index(name) + len(name) - len(row))
    numbers = [" ".join(f"{word:08X}" for word in reversed(last.data[low : low + w])) for low in range(0, REGISTERS, w)]
    return "  ".join([row, " ".join(digits(last.flags)), *numbers])


def rack(w, lines, boxes):
    """The whole table of a rack, each box a run of its own with the whole budget."""
    steps = listing(w, lines)
    runs = [(asked, run(steps, asked)) for asked in boxes]
    ends = [end_of(steps, asked, standings[-1]) for asked, standings in runs]
    sizes, numbers = table_top(w, lines)
    heading = "  ".join([BOX_HEADING, *(f"number {k}".ljust(9 * w - 1) for k in range(REGISTERS // w))]).rstrip()
    rows = [box_row(k, w, end, len(standings) - 1, standings[-1]) for k, (end, (_, standings)) in enumerate(zip(ends, runs), 1)]
    halted = ["", GO_ON, *(" ".join(words_on(standings[-1], asked.address)) for asked, standings in runs)] if "Budget" in ends else []
    text = [f"{sizes}, {len(boxes)} box{'es' * (len(boxes) != 1)}", numbers, "", heading, *rows, *halted]
    return "".join(line + "\n" for line in text)


def rack_told(w, lines, asked, name, file):
    """What bench prints of a recipe that is accepted, and says on standard error."""
    try:
        return rack(w, lines, boxes_of(file, asked, name)).encode(), b""
    except NotTaken as cause:
        return b"", cause.args[0]
    except Refused as refused:
        return str(refused).encode() + b"Cut the file in two: a rack has at most %d boxes.\n" % BOXES_MAX, b""


# ---- random recipes, and registers


def corner(rng, m):
    return rng.choice([0, 1, m // 2 - 1, m // 2, m - 2, m - 1])


def some_registers(rng, w):
    """All random, half corners, all corners; or whole numbers at their corners, so that carries run through every word."""
    kind = rng.randrange(4)
    if kind == 3:
        return registers_of([corner(rng, 1 << BITS * w) for _ in range(REGISTERS // w)], w)
    return [corner(rng, 1 << BITS) if rng.randrange(2) < kind else rng.getrandbits(BITS) for _ in range(REGISTERS)]


def some_recipe(rng):
    """A width and lines, mostly few; one recipe in twenty has all that it may have, one in four a single verb. No number is copied onto itself."""
    w = rng.choice(WIDTHS)
    low, high = rng.choices([(0, 3), (1, 12), (13, LINES_MAX - 1), (LINES_MAX, LINES_MAX)], [25, 58, 12, 5])[0]
    count, verbs = rng.randint(low, high), list(VERBS)
    verbs = verbs if rng.randrange(4) else [rng.choice(verbs)]
    lines = []
    while len(lines) < count:
        verb, a, b = rng.choice(verbs), rng.randrange(REGISTERS // w), rng.randrange(REGISTERS // w)
        if verb != "copy" or a != b:
            lines.append((verb, a, b if VERBS[verb].takes == 2 else a))
    return w, lines


FIELDS = [b"", b"", b"00", b"12", b"x", b"0\r", b"\r", b" 1", b"1 ", b"-1", b"D0", b"/", b":", b"\0", b"\xff", b"\xc3\xa9"]  # none is one digit
WORDS = [b"", b"mul", b"Add", b"negx", b"hal", b"add 0", b" up", b"width", b"sub\r", b"no\0t", b"\xc3\xa9"]  # none is a verb


def some_line(rng):
    """A line of a word, mostly a verb, and fields, half of the time as many as the verb takes, each as often a digit as not: several slips, one or
    none. It has no byte 10."""
    verb = rng.choice([*VERBS])
    word, count = rng.choice([*[verb.encode()] * 3, rng.choice(WORDS)]), rng.choice([VERBS[verb].takes, rng.randrange(5)])
    return b"\t".join([word, *(rng.choice([b"%d" % rng.randrange(10), rng.choice(FIELDS)]) for _ in range(count))])


def long_line(rng, before):
    """A line that ends about where a program stops to read, or behind it, if it comes behind so many bytes; with its byte 10 or without."""
    head = rng.choice([b"", b"x", b"neg\t", b"add\t0", b"add\t0\t", b"neg\t0\t", b"add\tx\t1\t", some_line(rng)])
    length = TEXT_MAX - before - len(head) + rng.choice([-2, -1, 0, 1, rng.randrange(TEXT_MAX)])
    return head + rng.choice([b"x", b"0", b"\t", b" ", b"\0", b"\xff"]) * length + rng.choice([b"", b"\n", b"\n"])


def hurt(rng, text):
    """With bytes put in, changed, taken out or doubled; cut; with a line that is well written and bad, or any line, or a long one; with that as the
    last, ended or not; with lines or bytes more; or any bytes."""
    at, byte = rng.randint(0, len(text)), rng.choice([rng.randbytes(1), *(bytes([b]) for b in b"\t\n\r 0123456789acdeghlnopstuvw\0\xff")])
    bad = rng.choice([b"neg\t9\n", b"add\t0\t8\n", b"sub\t4\t0\n", b"copy\t0\t0\n", b"copy\t1\t1\n", b"copy\t9\t9\n"])
    more = b"neg\t0\n" * (rng.choice([LINES_MAX, LINES_MAX + 1, TEXT_MAX]) + 1 - text.count(b"\n"))
    length = rng.choice([0, 1, 7, 8, 9, 20, TEXT_MAX - 1, TEXT_MAX, TEXT_MAX + 1, 70000, rng.randrange(2 * TEXT_MAX)])
    before, after, line = text[:at], text[at:], text.find(b"\n", at) + 1
    tail = bytes(rng.choices(b"\t\n0123456789 abcdefghijklmnopqrstuvwxyz", k=length))
    edits = [byte + after, byte + after[1:], after[1:], after[4:], after[: rng.randrange(40)] + after, b""]
    whole = [text[:line] + bad + text[line:], text + more, text + tail, (text + tail)[:length], rng.randbytes(length)]
    whole += [text[:line] + some_line(rng) + b"\n" + text[line:], text[:line] + some_line(rng), text[:line] + long_line(rng, line) + text[line:]]
    return rng.choices([before + rng.choice(edits), *whole], [8, 5, 5, 1, 1, 1, 5, 2, 2])[0]


def damaged(rng, text):
    for _ in range(rng.choice([1, 1, 1, 2, 5])):
        text = hurt(rng, text)
    return text


# ---- words for the program bench

WORD_BYTES = 1024  # of a longer word it says only that it is longer
BAD_WORDS = [
    "D8=1", "A8=0", "D9=1", "D0=", "D0", "=1", "", "=", "D=1", "D00=1", "D10=1", "d0=1", "B0=1", "D0=123456789", "A7=G", "D1= 1", "D1=0x1",
    "D1=-1", "X=2", "X=", "X=00", "x=1", "Y=1", "XN=1", "T=1", "from", "from=", "from=-1", "from=12345678901", "From=1", "from=A", "steps=",
    "steps=+1", f"steps={WORD + 1}", "steps=9999999999", "steps=00000000001", "step=1", "Rows", "rows=1", "row", "rowss", "-h", "D0=1=",
    "boxes", "boxes=", "Boxes=1", "box=1", "y" * WORD_BYTES, "y" * (WORD_BYTES + 1), "y" * 5000, "D0=" + "0" * 90, "caf\u00e9=1", "\u00e9=1", "D\u00b2=1",
]


def some_asked(rng, w, steps):
    """What bench is asked for a recipe of that many steps. In one of eight nothing is set."""
    far = rng.choice([STEPS_MAX, STEPS_MAX + 1, rng.randrange(10**PLACE_DIGITS)])
    start = rng.choice([0, 0, 0, rng.randint(0, steps), rng.randint(0, steps), steps, steps + 1, far])
    budget = rng.choice([WORD, WORD, WORD, rng.randint(0, steps), 0, 1, steps, WORD - 1])
    zeros = [0] * REGISTERS
    if not rng.randrange(8):
        return Asked(zeros, zeros, 0, start, budget)
    return Asked(some_registers(rng, w), rng.choice([zeros, some_registers(rng, 1)]), rng.randrange(ALL + 1), start, budget)


def spelt(rng, value):
    """Hexadecimal, digits of either case."""
    return "".join(rng.choice([c, c.lower()]) for c in f"{value:0{rng.randint(1, BITS // 4)}X}")


def words_for(rng, asked):
    """The words that ask for it, each once and in any order; what needs no word has one sometimes."""
    known = [(f"{kind}{r}", value, 0, spelt(rng, value)) for kind, row in zip("DA", asked) for r, value in enumerate(row)]
    known += [(name, digit, "0", digit) for name, digit in zip(FLAGS, digits(asked.flags))]
    numbers = ("from", asked.start, 0), ("steps", asked.budget, WORD)
    known += [(*number, f"{number[1]:0{rng.choice([1, 1, PLACE_DIGITS])}}") for number in numbers]
    words = [f"{name}={text}" for name, value, usual, text in known if value != usual or not rng.randrange(4)]
    rng.shuffle(words)
    return words


def some_box(rng, w, steps):
    """A line of a file of boxes: some of the words that it may have, blanks and tabs between, sometimes at its ends; or nothing at all."""
    words = [word for word in words_for(rng, some_asked(rng, w, steps)) if not word.startswith("steps=")]
    parts = [rng.choice([" ", " ", "\t", "  ", "\t ", " \t\t"]) + word for word in rng.sample(words, rng.choice([len(words), rng.randint(0, len(words))]))]
    return rng.choice(["", "".join(parts), "".join(parts).strip(), "".join(parts).strip(), "".join(parts) + rng.choice([" ", "\t"])]).encode()


def some_boxes(rng, w, steps):
    """A file of boxes: none, one, few, as many as there may be, or one more; the last line with its byte 10, or without."""
    count = rng.choice([0, 1, 2, 3, rng.randint(4, 12), BOXES_MAX, BOXES_MAX + 1])
    return b"\n".join(some_box(rng, w, steps) for _ in range(count)) + b"\n" * (count > 0 and rng.randrange(4) > 0)


# ---- a tool's words, and the programs that it starts


def stop(why):
    print(f"tools/{os.path.basename(sys.argv[0])}: {why}", file=sys.stderr)
    sys.exit(2)


def said(doc, *usual):
    """The tool's words, and the usual for those that are not said; where that is a number, the word is one. `--help` prints what the tool is."""
    words = sys.argv[1:]
    if "--help" in words:
        print(doc.strip())
        sys.exit(0)
    pairs = list(zip(words, usual))
    if len(pairs) < len(words) or not all(re.fullmatch("[0-9]{1,18}", word) for word, number in pairs if isinstance(number, int)):
        print("usage:", doc.split(":")[0], file=sys.stderr)
        sys.exit(2)
    return [type(value)(word) for word, value in pairs] + list(usual[len(words) :])


def command_of(program):
    """How ./run starts a program, which it has built: by its name, or a path to it."""
    path = os.path.abspath(program) if "/" in program else os.path.join(ROOT, "crates", program, "out", program)
    if not (os.path.isfile(path) and os.access(path, os.X_OK)):
        stop(f"{path} is not there to run; ./run {os.path.basename(program)} builds it")
    return [path]
