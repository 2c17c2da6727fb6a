#!/usr/bin/env python3
"""Writes cases of the bytes of calls, replies and changes: crates/text_cases/data/calls.

It knows the format alone, and nothing of the Rust code. A case is a line `KIND HEX -> ANSWER`: KIND is `call`, `reply` or
`change`, HEX is `-` for no bytes, and the answer is `whole` if one is encoded by all the bytes, `left N` if one is encoded
by the first of them and N are left, and `none` if no encoding begins the bytes.

    tools/encode_calls.py          writes the file
    tools/encode_calls.py --check  ends with status 1 if the file isn't what would be written

The format: a count is in groups of seven bits, the lowest first, each byte but the last with its top bit set, in the fewest
bytes. An integer is the count 2n, or -2n - 1 below 0. Texts and identifiers are a count and their bytes; a site is a byte,
an epoch four and other numbers of 64 bits eight bytes, the highest first; row numbers, the numbers of sort keys, and numbers
of 8 and 16 bits are counts. A struct is its fields, an enum a byte from 1 and its fields, an option 0, or 1 and its value, a
bool 0 or 1, a list its count and its members. What is beyond the limit of a type is no encoding, and neither is a row to be
inserted with a column among its terms.
"""

import sys
from pathlib import Path

FILE = Path(__file__).resolve().parent.parent / "crates/text_cases/data/calls"


class NoEncoding(Exception):
    """No encoding begins the bytes."""


def count_bytes(n):
    groups = []
    while n >= 128:
        groups.append(n % 128 + 128)
        n //= 128
    return bytes(groups + [n])


def lengthened(count):
    """The same count with a last group of zeros."""
    return count[:-1] + bytes([count[-1] + 128, 0])


def byte_at(data, at):
    if at >= len(data):
        raise NoEncoding
    return data[at], at + 1


def count_at(data, at, most):
    n, shift = 0, 1
    while True:
        group, at = byte_at(data, at)
        n += group % 128 * shift
        shift *= 128
        if group < 128:
            break
    if group == 0 and shift > 128 or n > most:
        raise NoEncoding
    return n, at


def bytes_at(data, at):
    length, at = count_at(data, at, 2**64 - 1)
    if at + length > len(data):
        raise NoEncoding
    return data[at : at + length], at + length


# ---- types: `pieces` gives a value's encoding in pieces, each a part of the format, its bytes, and bytes that make it none;
# `end` checks an encoding and gives its end


def within(part, pieces):
    """The pieces as those of a part. One that is shared is the same part wherever it is."""
    return [(parts if parts[:1] == ("shared",) else (part, *parts), data, bad) for parts, data, bad in pieces]


class Count:
    def __init__(self, bits):
        self.most = 2**bits - 1

    def pieces(self, n):
        encoded = count_bytes(n)
        return [((), encoded, [lengthened(encoded), count_bytes(self.most + 1)])]

    def end(self, data, at):
        return count_at(data, at, self.most)[1]


class Int:
    """An integer of 64 bits."""

    def pieces(self, n):
        return Count(64).pieces(2 * n if n >= 0 else -2 * n - 1)

    def end(self, data, at):
        return Count(64).end(data, at)


class Fixed:
    """A number of so many bytes, the highest first."""

    def __init__(self, size):
        self.size = size

    def pieces(self, n):
        return [((), n.to_bytes(self.size, "big"), [])]

    def end(self, data, at):
        if at + self.size > len(data):
            raise NoEncoding
        return at + self.size


class Byte:
    """A byte from the first to the last of a range, without some."""

    def __init__(self, first, last, without=()):
        self.first, self.last, self.without = first, last, without

    def pieces(self, n):
        below = [self.first - 1] if self.first > 0 else []
        return [((), bytes([n]), [bytes([bad]) for bad in [*below, self.last + 1, *self.without]])]

    def end(self, data, at):
        n, at = byte_at(data, at)
        if not self.first <= n <= self.last or n in self.without:
            raise NoEncoding
        return at


class Text:
    """Bytes of which `is_one` holds. `bad` are some of which it doesn't."""

    def __init__(self, is_one, bad):
        self.is_one, self.bad = is_one, bad

    def encoded(self, text):
        return count_bytes(len(text)) + text

    def pieces(self, text):
        text = text.encode()
        assert self.is_one(text)
        return [((), self.encoded(text), [lengthened(count_bytes(len(text))) + text, *map(self.encoded, self.bad)])]

    def end(self, data, at):
        text, at = bytes_at(data, at)
        if not self.is_one(text):
            raise NoEncoding
        return at


class Struct:
    def __init__(self, *fields):
        self.fields = fields

    def pieces(self, values):
        assert len(values) == len(self.fields), values
        parts = enumerate(zip(self.fields, values))
        return [piece for at, (field, value) in parts for piece in within(at, field.pieces(value))]

    def end(self, data, at):
        for field in self.fields:
            at = field.end(data, at)
        return at


class Enum:
    """Variants with their fields, numbered from 1; a value is a tuple of a variant's name and its fields. Some variants are
    left out at this place."""

    def __init__(self, without=(), **variants):
        self.names = list(variants)
        self.fields = [Struct(*fields) for fields in variants.values()]
        self.number = Byte(1, len(variants), [self.names.index(name) + 1 for name in without])

    def pieces(self, value):
        at = self.names.index(value[0])
        return within("number", self.number.pieces(at + 1)) + within(value[0], self.fields[at].pieces(value[1:]))

    def end(self, data, at):
        after = self.number.end(data, at)
        return self.fields[data[at] - 1].end(data, after)


class Shared:
    """A type of several calls, replies and changes, whose parts need be spoilt in one of them alone."""

    def __init__(self, name, item):
        self.name, self.item = name, item

    def pieces(self, value):
        return [(("shared", self.name, *parts), data, bad) for parts, data, bad in self.item.pieces(value)]

    def end(self, data, at):
        return self.item.end(data, at)


class OneOf(Enum):
    """Variants without fields; a value is a variant's name."""

    def __init__(self, *names):
        super().__init__(**{name: () for name in names})

    def pieces(self, value):
        return super().pieces((value,))


class Maybe:
    def __init__(self, item):
        self.item = item

    def pieces(self, value):
        flag = within("flag", Byte(0, 1).pieces(int(value is not None)))
        return flag if value is None else flag + within("some", self.item.pieces(value))

    def end(self, data, at):
        after = Byte(0, 1).end(data, at)
        return self.item.end(data, after) if data[at] == 1 else after


class ListOf:
    def __init__(self, item):
        self.item = item

    def pieces(self, values):
        members = [piece for value in values for piece in within("member", self.item.pieces(value))]
        return within("length", Count(64).pieces(len(values))) + members

    def end(self, data, at):
        length, at = count_at(data, at, 2**64 - 1)
        for _ in range(length):
            at = self.item.end(data, at)
        return at


def is_ident(text):
    letters = b"abcdefghijklmnopqrstuvwxyz"
    return 1 <= len(text) <= 24 and text[0] in letters and all(byte in letters + b"0123456789_" for byte in text)


def is_text(text):
    try:
        text.decode()
    except UnicodeDecodeError:
        return False
    return len(text) <= 255 and all(byte >= 0x20 and byte != 0x7F for byte in text)


# ---- the types of the format, with their fields in order

U8, U16, U32, U64 = Count(8), Count(16), Count(32), Fixed(8)
ROW_NUMBER = Count(64)
BOOL, SITE = Byte(0, 1), Byte(1, 16)
IDENT = Text(is_ident, [b"", b"1a", b"_a", b"aB", b"a-b", b"a" * 25])
TXT = Text(is_text, [b"x" * 256, b"\x1f", b"\x7f", b"\xff", b"\xc3", b"a\n"])
SWN = Struct(IDENT, SITE, IDENT, SITE)
NAME_TEXT = Struct(Maybe(IDENT), Maybe(SITE), IDENT, Maybe(SITE))
TXN = ENLIST = Struct(SITE, Fixed(4), U64)
MODE = OneOf("Read", "Write")
RESOURCE = Enum(Table=[SWN], Birth=[SWN], Program=[IDENT, IDENT], Synonyms=[IDENT])
DENIALS = (
    "NoTable NoColumn TwoColumns WrongType TableExists NoIndex IndexExists NoProgram ProgramExists WrongParams "
    "SynonymExists NoSynonym NoSite Overflow TooManyRows TableFull"
).split()
DENIAL = OneOf(*DENIALS)
VALUE = Enum(Int=[Int()], Text=[TXT])
ROW = ListOf(VALUE)
ROWS = ListOf(ROW)
NUMBERS = ListOf(ROW_NUMBER)
NUMBERED_ROWS = ListOf(Struct(ROW_NUMBER, ROW))
IDENTS = ListOf(IDENT)
KIND = OneOf("Int", "Text")
COL_DEFS = ListOf(Struct(IDENT, KIND))
INDEX_OFS = ListOf(Struct(IDENT, U8, TXN))
ENTRY = Struct(SWN, TXN, SITE, ListOf(Struct(IDENT, KIND, U64)), INDEX_OFS, U64)

# statements as they are written
COL_REF = Struct(Maybe(IDENT), IDENT)
OPS = ("Eq", "Ne", "Lt", "Le", "Gt", "Ge")
OP = OneOf(*OPS)
CMP = Struct(COL_REF, OP, Enum(Col=[COL_REF], Lit=[VALUE], Param=[IDENT]))
CLAUSES = ListOf(Struct(ListOf(CMP)))
ITEM = Enum(Col=[COL_REF], Count=[], Sum=[COL_REF], Min=[COL_REF], Max=[COL_REF])
KEY = Struct(Enum(Col=[COL_REF], Place=[U32]), BOOL)
SELECT = Struct(
    BOOL, Maybe(ListOf(ITEM)), ListOf(Struct(NAME_TEXT, Maybe(IDENT))), CLAUSES, ListOf(COL_REF), ListOf(KEY)
)
ARITH = OneOf("Add", "Sub", "Mul")
TERM = Enum(Col=[IDENT], Lit=[VALUE], Param=[IDENT])
SET = Struct(IDENT, Struct(TERM, Maybe(Struct(ARITH, TERM))))
DML = Enum(
    Select=[SELECT],
    Insert=[NAME_TEXT, ListOf(ListOf(TERM))],
    Update=[NAME_TEXT, ListOf(SET), CLAUSES],
    Delete=[NAME_TEXT, CLAUSES],
)

# bound statements, sections and programs
BOUND_CLAUSES = ListOf(ListOf(Struct(U16, OP, Enum(Place=[U16], Lit=[VALUE], Param=[U8]))))
BOUND_TERM = Enum(Place=[U16], Lit=[VALUE], Param=[U8])
ROW_TERM = Enum(without=["Place"], Place=[U16], Lit=[VALUE], Param=[U8])
BOUND_SETS = ListOf(Struct(U8, BOUND_TERM, Maybe(Struct(ARITH, BOUND_TERM))))
PLACES = ListOf(U16)
SECTION_KIND = Enum(
    Scan=[BOUND_CLAUSES, PLACES],
    Fetch=[BOUND_CLAUSES, PLACES, U8],
    Insert=[ListOf(ListOf(ROW_TERM))],
    Delete=[BOUND_CLAUSES],
    Update=[BOUND_SETS, BOUND_CLAUSES],
)
SECTION = Shared("section", Struct(SWN, TXN, SECTION_KIND))
SECTION_ID = Struct(SITE, IDENT, IDENT, U64, TXN, U8, U8)
PATH = Enum(Scan=[], Index=[IDENT, TXN])
PART = Struct(U8, SITE, Enum(Scan=[], Fetch=[U8, U8, U8, U16]))
PLAN = Struct(ListOf(PART), U64)
HEAD = Struct(U64, TXN, IDENTS, U8)
BODY = Shared("body", Struct(DML, ListOf(Struct(SWN, COL_DEFS)), PLAN))

CALL = Enum(
    Synonym=[IDENT, IDENT],
    SetSynonym=[IDENT, IDENT, Maybe(SWN)],
    Locate=[SWN, MODE],
    SetBirth=[SWN, Maybe(SITE)],
    Describe=[SWN, MODE],
    Run=[SECTION, ROW, Maybe(VALUE), U64],
    RunStored=[SECTION_ID, SWN, MODE, ROW, Maybe(VALUE), U64],
    MakeTable=[SWN, TXN, COL_DEFS, INDEX_OFS],
    PutRows=[SWN, ROWS],
    Dump=[SWN, U64],
    DropTable=[SWN],
    MakeIndex=[SWN, TXN, IDENT, U8],
    DropIndex=[SWN, TXN, IDENT],
    Program=[IDENT, IDENT, MODE],
    Step=[IDENT, IDENT, U8],
    SetProgram=[IDENT, IDENT, Maybe(HEAD)],
    SetStep=[IDENT, IDENT, U8, BODY],
    KeepSection=[SECTION_ID, SECTION],
)
REPLY = Enum(
    Name=[Maybe(SWN)],
    Done=[],
    Taken=[],
    Absent=[],
    Place=[Maybe(SITE)],
    Entry=[ENTRY],
    NotHere=[],
    Rows=[ROWS, BOOL],
    Changed=[U64],
    Refused=[DENIAL],
    Stale=[],
    Invalid=[],
    Head=[Maybe(HEAD)],
    Body=[BODY],
    Waited=[RESOURCE, ENLIST],
)
CHANGE = Enum(
    Synonym=[IDENT, IDENT, Maybe(SWN)],
    Birth=[SWN, Maybe(SITE)],
    Head=[IDENT, IDENT, Maybe(HEAD)],
    Body=[IDENT, IDENT, U8, BODY],
    Keep=[SECTION_ID, SECTION, PATH],
    MakeTable=[SWN, TXN, COL_DEFS, INDEX_OFS],
    PutRows=[SWN, ROWS],
    Remove=[SWN, NUMBERS],
    Replace=[SWN, NUMBERED_ROWS],
    DropTable=[SWN],
    MakeIndex=[SWN, TXN, IDENT, U8, TXN],
    DropIndex=[SWN, TXN, IDENT],
)

# ---- values

LONG, OTHER_LONG = "abcdefghijklmnopqrstuvwx", "z23456789012345678901_34"
T, FAR = ("ann", 1, "t", 2), (LONG, 16, OTHER_LONG, 9)
MADE, LAST_MADE = (1, 2, 3), (16, 2**32 - 1, 2**64 - 1)
ID = (2, "bob", "p", 1, MADE, 1, 2)
LAST_ID = (16, LONG, OTHER_LONG, 2**64 - 1, LAST_MADE, 255, 128)


def int_of(n):
    return ("Int", n)


def text_of(text):
    return ("Text", text)


MIXED_ROW = [int_of(300), text_of("ab"), int_of(-3), text_of("")]
EDGES = [int_of(n) for n in (0, -1, 63, -64, 64, -65, 2**63 - 1, -(2**63))] + [text_of("é''\u20ac"), text_of("x" * 255)]
COLUMNS = [("a", "Int"), (LONG, "Text")]
INDEXES = [("i", 0, MADE), (LONG, 255, LAST_MADE)]
ALL_ROWS = [[], [[]], [MIXED_ROW, EDGES], [[int_of(1)]] * 130]


def bound_cmp(left, op, right):
    return (left, op, right)


ALL_BOUND_CLAUSES = [
    [bound_cmp(0, "Eq", ("Lit", int_of(7)))],
    [],
    [bound_cmp(127, op, right) for op, right in zip(OPS, [("Place", 128), ("Param", 0), ("Lit", text_of("x"))] * 2)],
    [bound_cmp(65535, "Ge", ("Place", 65535)), bound_cmp(300, "Ne", ("Param", 255))],
]
TERM_ROWS = [[], [("Lit", int_of(-1)), ("Param", 0)], [("Param", 255), ("Lit", text_of("ab"))]]
BOUND_SET_LIST = [
    (0, ("Place", 1), None),
    (255, ("Lit", int_of(1)), ("Add", ("Param", 3))),
    (128, ("Param", 200), ("Sub", ("Place", 65535))),
    (2, ("Place", 128), ("Mul", ("Lit", text_of("")))),
]
KINDS = [
    ("Scan", ALL_BOUND_CLAUSES, [0, 1, 127, 128, 65535]),
    ("Fetch", ALL_BOUND_CLAUSES[:1], [0], 128),
    ("Insert", TERM_ROWS),
    ("Delete", ALL_BOUND_CLAUSES[2:]),
    ("Update", BOUND_SET_LIST, ALL_BOUND_CLAUSES[3:]),
]
EMPTY_KINDS = [("Scan", [], []), ("Fetch", [], [], 0), ("Insert", []), ("Delete", []), ("Update", [], [])]
SECTIONS = [(T, MADE, kind) for kind in KINDS] + [(FAR, LAST_MADE, kind) for kind in EMPTY_KINDS]

NAMES = [(None, None, "t", None), ("ann", None, "t", None), ("ann", 1, "t", 2), (None, None, LONG, 16)]
CLAUSE_LIST = [
    ([((None, "a"), "Eq", ("Lit", int_of(-5)))],),
    ([(("t", "a"), op, right) for op, right in zip(OPS, [("Col", ("u", "b")), ("Param", "k"), ("Lit", text_of("x"))] * 2)],),
    ([],),
]
ITEM_LIST = [("Col", ("t", "a")), ("Count",), ("Sum", (None, "b")), ("Min", ("t", "c")), ("Max", (None, LONG))]
KEY_LIST = [(("Col", (None, "a")), 0), (("Place", 1), 1), (("Col", ("t", "a")), 1), (("Place", 2**32 - 1), 0)]
SET_LIST = [
    ("a", (("Col", "b"), None)),
    ("b", (("Lit", int_of(1)), ("Add", ("Param", "k")))),
    ("c", (("Param", "k"), ("Sub", ("Col", "a")))),
    (LONG, (("Lit", text_of("x")), ("Mul", ("Lit", int_of(2**63 - 1))))),
]
DMLS = [
    ("Select", (0, None, [(NAMES[0], None)], [], [], [])),
    ("Select", (1, ITEM_LIST, [], [], [], [])),
    ("Select", (0, [], list(zip(NAMES, [None, "u", None, "v"])), [], [], [])),
    ("Select", (0, None, [], CLAUSE_LIST, [(None, "a"), ("t", "b")], [])),
    ("Select", (1, None, [], [], [], KEY_LIST)),
    ("Insert", NAMES[2], [[("Lit", int_of(1)), ("Param", "k")], [("Lit", text_of("ab"))], [("Col", "a")], []]),
    ("Insert", NAMES[0], []),
    ("Update", NAMES[1], SET_LIST, CLAUSE_LIST[:1]),
    ("Update", NAMES[0], [], []),
    ("Delete", NAMES[3], CLAUSE_LIST),
    ("Delete", NAMES[0], []),
]
PLANS = [
    ([(0, 1, ("Scan",)), (255, 16, ("Fetch", 1, 0, 255, 65535)), (1, 2, ("Fetch", 128, 2, 3, 128))], 2**62),
    ([(0, 3, ("Scan",))], 0),
    ([], 2**64 - 1),
]
TABLES = [[(T, COLUMNS), (FAR, [])], [(T, COLUMNS[:1])], []]
BODIES = [(statement, TABLES[at % 3], PLANS[at % 3]) for at, statement in enumerate(DMLS)]
HEADS = [(1, MADE, [], 1), (2**64 - 1, LAST_MADE, ["k", LONG], 255), (0, (3, 0, 0), ["a"] * 130, 0)]
ENTRIES = [
    (T, MADE, 2, [("a", "Int", 3), ("b", "Text", 2**64 - 1)], INDEXES, 65536),
    (FAR, LAST_MADE, 16, [], [], 0),
]
MODES = ["Read", "Write"]
NEW_TABLES = [(T, MADE, COLUMNS, INDEXES), (FAR, LAST_MADE, [], []), (T, MADE, COLUMNS[:1] * 130, [])]

# what Run and RunStored have beside their section: values, fetch, from; and RunStored in its place
STORED = [(ID, T, "Read"), (LAST_ID, FAR, "Write"), (ID, T, "Write")]
RUNS = [(MIXED_ROW, int_of(300), 0), ([], None, 2**64 - 1), (EDGES, text_of("ab"), 65536)]

CALLS = [
    [("Synonym", "ann", "s"), ("Synonym", LONG, OTHER_LONG)],
    [("SetSynonym", "ann", "s", T), ("SetSynonym", "ann", "s", None), ("SetSynonym", LONG, OTHER_LONG, FAR)],
    [("Locate", name, mode) for name in (T, FAR) for mode in MODES],
    [("SetBirth", T, 3), ("SetBirth", T, None), ("SetBirth", FAR, 16)],
    [("Describe", name, mode) for name in (T, FAR) for mode in MODES],
    [("Run", section, *RUNS[at % 3]) for at, section in enumerate(SECTIONS)],
    [("RunStored", *stored, *run) for stored, run in zip(STORED, RUNS)],
    [("MakeTable", *table) for table in NEW_TABLES],
    [("PutRows", T, rows) for rows in reversed(ALL_ROWS)],
    [("Dump", T, 0), ("Dump", FAR, 2**64 - 1)],
    [("DropTable", T), ("DropTable", FAR)],
    [("MakeIndex", T, MADE, "i", 0), ("MakeIndex", FAR, LAST_MADE, LONG, 255), ("MakeIndex", T, MADE, "i", 128)],
    [("DropIndex", T, MADE, "i"), ("DropIndex", FAR, LAST_MADE, LONG)],
    [("Program", "ann", "p", "Read"), ("Program", LONG, OTHER_LONG, "Write")],
    [("Step", "ann", "p", 1), ("Step", LONG, OTHER_LONG, 255), ("Step", "ann", "p", 128)],
    [("SetProgram", "ann", "p", head) for head in [*HEADS, None]],
    [("SetStep", "ann", "p", at + 1, body) for at, body in enumerate(BODIES)],
    [("KeepSection", ID, section) for section in SECTIONS] + [("KeepSection", LAST_ID, SECTIONS[1])],
]
RESOURCES = [("Table", T), ("Birth", FAR), ("Program", "ann", "p"), ("Synonyms", LONG)]
REPLIES = [
    [("Name", T), ("Name", None), ("Name", FAR)],
    [("Done",)],
    [("Taken",)],
    [("Absent",)],
    [("Place", 3), ("Place", None), ("Place", 16)],
    [("Entry", entry) for entry in ENTRIES],
    [("NotHere",)],
    [("Rows", rows, at % 2) for at, rows in enumerate([ALL_ROWS[2], ALL_ROWS[3], ALL_ROWS[0], ALL_ROWS[1]])],
    [("Changed", 0), ("Changed", 1), ("Changed", 2**64 - 1)],
    [("Refused", denial) for denial in DENIALS],
    [("Stale",)],
    [("Invalid",)],
    [("Head", head) for head in [*HEADS, None]],
    [("Body", body) for body in BODIES],
    [("Waited", what, holder) for what, holder in zip(RESOURCES, [MADE, LAST_MADE] * 2)],
]
CHANGES = [
    [("Synonym", "ann", "s", T), ("Synonym", "ann", "s", None), ("Synonym", LONG, OTHER_LONG, FAR)],
    [("Birth", T, 3), ("Birth", T, None), ("Birth", FAR, 16)],
    [("Head", "ann", "p", head) for head in [*HEADS, None]],
    [("Body", "ann", "p", at + 1, body) for at, body in enumerate(BODIES)],
    [("Keep", ID, section, ("Index", "i", MADE)) for section in SECTIONS]
    + [("Keep", LAST_ID, SECTIONS[1], ("Scan",)), ("Keep", ID, SECTIONS[0], ("Index", LONG, LAST_MADE))],
    [("MakeTable", *table) for table in NEW_TABLES],
    [("PutRows", T, rows) for rows in reversed(ALL_ROWS)],
    [("Remove", T, [0, 127, 128, 65535, 2**63, 2**64 - 1]), ("Remove", FAR, []), ("Remove", T, list(range(130)))],
    [("Replace", T, [(0, MIXED_ROW), (2**64 - 1, EDGES), (128, [])]), ("Replace", FAR, [])],
    [("DropTable", T), ("DropTable", FAR)],
    [("MakeIndex", T, MADE, "i", 0, LAST_MADE), ("MakeIndex", FAR, LAST_MADE, LONG, 255, MADE)],
    [("DropIndex", T, MADE, "i"), ("DropIndex", FAR, LAST_MADE, LONG)],
]

# ---- cases


def joined(pieces):
    return b"".join(data for _, data, _ in pieces)


def answer_to(kind, data):
    """What the bytes are, read by the types."""
    try:
        left = len(data) - kind.end(data, 0)
    except NoEncoding:
        return "none"
    return f"left {left}" if left else "whole"


def value_cases(kind, value):
    """The whole encoding, cut by its last byte, and followed by a further one or by all of it again."""
    data = joined(kind.pieces(value))
    yield data, "whole"
    yield data[:-1], "none"
    yield data + b"\x00", "left 1"
    if len(data) < 64:
        yield data + data, f"left {len(data)}"


def spoilt_cases(word, kind, values, spoilt):
    """Encodings with bytes that make them none, for each part that isn't spoilt yet, in the shortest value that has it."""
    for pieces in sorted(map(kind.pieces, values), key=lambda pieces: len(joined(pieces))):
        for at, (part, _, replacements) in enumerate(within(word, pieces)):
            if part not in spoilt:
                spoilt.add(part)
                for bad in replacements:
                    yield joined(pieces[:at]) + bad + joined(pieces[at + 1 :]), "none"


def kind_cases(word, kind, values, spoilt):
    """The cases of one kind of call, reply or change."""
    cases = [case for value in values for case in value_cases(kind, value)]
    return dict([*cases, *spoilt_cases(word, kind, values, spoilt)])


def lines_of(word, kind, groups, spoilt):
    assert [group[0][0] for group in groups] == kind.names
    yield f"# {word}: no byte, and numbers that are none."
    for data in [b"", b"\x00", bytes([len(groups) + 1]), b"\xff"]:
        yield case_line(word, kind, data, "none")
    for number, group in enumerate(groups, 1):
        yield ""
        yield f"# {word} {number}: {group[0][0]}."
        for data, answer in kind_cases(word, kind, group, spoilt).items():
            yield case_line(word, kind, data, answer)


def case_line(word, kind, data, answer):
    assert answer_to(kind, data) == answer, (word, data.hex(), answer, answer_to(kind, data))
    return f"{word} {data.hex() or '-'} -> {answer}"


def all_lines():
    yield "# Written by tools/encode_calls.py: the bytes of calls, replies and changes, and those that encode none."
    spoilt = set()
    for word, kind, groups in [("call", CALL, CALLS), ("reply", REPLY, REPLIES), ("change", CHANGE, CHANGES)]:
        yield ""
        yield from lines_of(word, kind, groups, spoilt)


def main(words):
    for value, encoded in [(int_of(300), "01d804"), (int_of(-3), "0105"), (text_of("ab"), "02026162")]:
        assert joined(VALUE.pieces(value)).hex() == encoded
    written = "".join(f"{line}\n" for line in all_lines())
    if words == ["--check"]:
        sys.exit(0 if FILE.exists() and FILE.read_text() == written else 1)
    FILE.write_text(written)


if __name__ == "__main__":
    main(sys.argv[1:])
