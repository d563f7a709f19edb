"""TOML 1.1 with the place of each key and value, read on past what is wrong.

The standard library's `tomllib` reads TOML 1.0, gives no places, and stops at the first fault. A policy has texts,
whole numbers, arrays and tables; other values (floats, booleans, dates) are known as such, and not looked into.
"""
import bisect
import enum
import re
from dataclasses import dataclass, field

# Characters that may not stand in a comment or in a text on one line.
CONTROL = r"\x00-\x08\x0a-\x1f\x7f"
# The same of a text on several lines, where a line may end.
CONTROL_OF_LINES = r"\x00-\x08\x0b-\x1f\x7f"

SPACE = re.compile(r"[ \t]*")
BLANK = re.compile(rf"(?:[ \t]|\r?\n|#[^{CONTROL}]*)*")
LINE_END = re.compile(r"[ \t]*(?=#|\r?\n|\Z)")
BARE_KEY = re.compile(r"[A-Za-z0-9_-]+")
# A date and a time may have a blank between them.
WORD = re.compile(r"[A-Za-z0-9_+.:-]+(?: [0-9][A-Za-z0-9_+.:-]*)?")
# Where reading goes on behind a fault: a line that begins as a header or as a pair does.
GOES_ON = re.compile(r"\n[ \t]*(?=\[|[A-Za-z0-9_\"'.-]+[ \t]*=)")

BASIC = re.compile(rf'"((?:[^"\\{CONTROL}]|\\.)*)"')
LITERAL = re.compile(rf"'([^'{CONTROL}]*)'")
BASIC_LINES = re.compile(
    rf'"""(?:\r?\n)?((?:[^"\\{CONTROL_OF_LINES}]|\r\n|\\.|"{{1,2}}(?!"))*"{{0,2}})"""(?!")', re.DOTALL
)
LITERAL_LINES = re.compile(rf"'''(?:\r?\n)?((?:[^'{CONTROL_OF_LINES}]|\r\n|'{{1,2}}(?!'))*'{{0,2}})'''(?!')")
ESCAPE = re.compile(
    r"\\(?:(?P<cut>[ \t]*\r?\n(?:[ \t]|\r?\n)*)|x(?P<x>[0-9A-Fa-f]{2})|u(?P<u>[0-9A-Fa-f]{4})|U(?P<U>[0-9A-Fa-f]{8})"
    r"|(?P<letter>[befnrt\"\\])|)"
)
LETTERS = {"b": "\b", "e": "\x1b", "f": "\f", "n": "\n", "r": "\r", "t": "\t", '"': '"', "\\": "\\"}

INTEGER = re.compile(
    r"[+-]?(?:0|[1-9](?:_?[0-9])*)|0x[0-9A-Fa-f](?:_?[0-9A-Fa-f])*|0o[0-7](?:_?[0-7])*|0b[01](?:_?[01])*"
)
FLOAT = re.compile(r"[+-]?(?:inf|nan|(?:0|[1-9](?:_?[0-9])*)(?:\.[0-9](?:_?[0-9])*)?(?:[eE][+-]?[0-9](?:_?[0-9])*)?)")
DATE = r"[0-9]{4}-(?:0[1-9]|1[0-2])-(?:0[1-9]|[12][0-9]|3[01])"
TIME = r"(?:[01][0-9]|2[0-3]):[0-5][0-9](?::(?:[0-5][0-9]|60)(?:\.[0-9]+)?)?"
DATE_OR_TIME = re.compile(rf"{TIME}|{DATE}(?:[Tt ]{TIME}(?:[Zz]|[+-](?:[01][0-9]|2[0-3]):[0-5][0-9])?)?")
SMALLEST, GREATEST = -(1 << 63), (1 << 63) - 1
# The most arrays and inline tables in one another.
DEEPEST = 80


class Origin(enum.Enum):
    """What made a value: a header that passed through it, a dotted key, a header of its own, or its text."""

    PASSED = enum.auto()
    DOTTED = enum.auto()
    HEADER = enum.auto()
    ARRAY_OF_HEADERS = enum.auto()
    VALUE = enum.auto()


class OtherValue(enum.Enum):
    """The content of a value that no policy has: a float, a boolean, a date or a time."""

    OTHER = enum.auto()


@dataclass
class Node:
    """A value, with the places in the text where its key and itself begin, and where it ends.

    That of a table is its header's. A damaged table lacks a line that couldn't be read.
    """

    content: int | str | list["Node"] | dict[str, "Node"] | OtherValue
    key_start: int
    start: int
    end: int
    origin: Origin = Origin.VALUE
    is_damaged: bool = False


@dataclass(frozen=True, order=True)
class Position:
    """A place for people: line and column from 1, in characters."""

    line: int
    column: int


@dataclass
class SyntaxFault(Exception):
    """What isn't TOML, and where in the text."""

    offset: int
    text: str


@dataclass
class Document:
    """A text, the table that it is, and what of it isn't TOML; the tables of headers that can't be read are stray."""

    text: str
    root: Node
    faults: list[SyntaxFault] = field(default_factory=list)
    stray: list[Node] = field(default_factory=list)

    def __post_init__(self):
        self.line_starts = [0, *(match.end() for match in re.finditer("\n", self.text))]

    def position(self, offset):
        """The line and column of a place in the text."""
        line = bisect.bisect_right(self.line_starts, offset)
        return Position(line, offset - self.line_starts[line - 1] + 1)

    def source(self, node):
        """What stands in the text for a value, on one line and cut to a size that can be printed."""
        text = " ".join(self.text[node.start : node.end].split())
        return text if len(text) <= 60 else text[:57] + "..."


def table_at(offset, end, origin):
    """An empty table."""
    return Node({}, offset, offset, end, origin)


def unescaped(raw, offset):
    """The text that escapes stand in."""

    def character(match):
        if match["letter"]:
            return LETTERS[match["letter"]]
        if match["cut"]:
            return ""
        digits = match["x"] or match["u"] or match["U"]
        code = int(digits, 16) if digits else GREATEST
        if code > 0x10FFFF or 0xD800 <= code < 0xE000:
            raise SyntaxFault(offset + match.start(), "a backslash that begins no escape")
        return chr(code)

    return ESCAPE.sub(character, raw)


def scalar(word, offset):
    """The content of a word without quotes."""
    if INTEGER.fullmatch(word):
        digits = word.replace("_", "")
        number = int(digits, 0 if digits[:2] in ("0x", "0o", "0b") else 10)
        if not SMALLEST <= number <= GREATEST:
            raise SyntaxFault(offset, f"{word} is no number of 64 bits")
        return number
    if word in ("true", "false") or FLOAT.fullmatch(word) or DATE_OR_TIME.fullmatch(word):
        return OtherValue.OTHER
    raise SyntaxFault(offset, f"{word} is no value; a text stands in quotes, and a number has no leading zero")


class Reader:
    """Reads a text from its front: `at` is how far it has come."""

    def __init__(self, text):
        self.text = text
        self.at = 0

    def skip(self, pattern):
        """Goes past what the pattern has, and says what that is; None where it doesn't have what stands there."""
        match = pattern.match(self.text, self.at)
        if match:
            self.at = match.end()
        return match

    def skip_text(self, text, meaning):
        """Goes past this text, which must stand there."""
        if not self.text.startswith(text, self.at):
            raise SyntaxFault(self.at, f"'{text}' is missing {meaning}")
        self.at += len(text)

    def string(self, basic, literal):
        """The text in quotes that begins here."""
        start = self.at
        is_basic = self.text[start] == '"'
        match = self.skip(basic if is_basic else literal)
        if match is None:
            raise SyntaxFault(start, "a text in quotes that has no end, or a control character in it")
        return unescaped(match[1], match.start(1)) if is_basic else match[1]

    def key_part(self):
        """A bare key, or one in quotes."""
        if self.text.startswith(('"', "'"), self.at):
            return self.string(BASIC, LITERAL)
        bare = self.skip(BARE_KEY)
        if bare is None:
            raise SyntaxFault(self.at, "a key is missing")
        return bare[0]

    def key(self):
        """The parts of a key, each with its place."""
        parts = []
        while True:
            self.skip(SPACE)
            start = self.at
            parts.append((self.key_part(), start))
            self.skip(SPACE)
            if not self.text.startswith(".", self.at):
                return parts
            self.at += 1

    def pair(self, depth):
        """A key, and its value."""
        key = self.key()
        self.skip_text("=", "behind a key")
        self.skip(SPACE)
        node = self.value(depth)
        node.key_start = key[-1][1]
        return key, node

    def value(self, depth=DEEPEST):
        """The value that begins here, with arrays and inline tables at most so deep."""
        start = self.at
        front = self.text[start : start + 1]
        if front in ("[", "{"):
            if depth == 0:
                raise SyntaxFault(start, f"more than {DEEPEST} arrays and tables in one another")
            content = self.array(depth - 1) if front == "[" else self.inline_table(depth - 1)
        elif self.text.startswith(('"""', "'''"), start):
            content = self.string(BASIC_LINES, LITERAL_LINES)
        elif front in ('"', "'") and front:
            content = self.string(BASIC, LITERAL)
        else:
            word = self.skip(WORD)
            if word is None:
                raise SyntaxFault(start, "a value is missing")
            content = scalar(word[0], start)
        return Node(content, start, start, self.at)

    def elements(self, closing):
        """Stands before each element up to the closing bracket, and goes past the commas and the bracket."""
        self.at += 1
        while True:
            self.skip(BLANK)
            if self.text.startswith(closing, self.at):
                self.at += 1
                return
            yield
            self.skip(BLANK)
            if not self.text.startswith(closing, self.at):
                self.skip_text(",", f"or '{closing}', behind an element")

    def array(self, depth):
        """The elements of an array."""
        return [self.value(depth) for _ in self.elements("]")]

    def inline_table(self, depth):
        """The pairs of a table in braces."""
        table = table_at(self.at, self.at, Origin.HEADER)
        for _ in self.elements("}"):
            put_pair(table, *self.pair(depth))
        return table.content


def put_new(table, key, offset, node):
    """Puts a value under a key that isn't there yet."""
    if key in table.content:
        raise SyntaxFault(offset, f"{key} stands here a second time")
    table.content[key] = node


def put_pair(table, key, node):
    """Puts a value under a key with dots, through tables that no header defined."""
    for part, offset in key[:-1]:
        inner = table.content.setdefault(part, table_at(offset, offset, Origin.DOTTED))
        if inner.origin not in (Origin.PASSED, Origin.DOTTED):
            raise SyntaxFault(offset, f"{part} is no table that a key with dots can add to")
        inner.origin = Origin.DOTTED
        table = inner
    put_new(table, *key[-1], node)


def table_of_header(root, key, is_array, end):
    """The table that a header opens: a new one, or one that other headers only passed through."""
    table = root
    for part, offset in key[:-1]:
        inner = table.content.setdefault(part, table_at(offset, end, Origin.PASSED))
        if inner.origin is Origin.VALUE:
            raise SyntaxFault(offset, f"{part} is no table that a header can pass through")
        table = inner.content[-1] if inner.origin is Origin.ARRAY_OF_HEADERS else inner
    name, offset = key[-1]
    found = table.content.get(name)
    new = table_at(offset, end, Origin.HEADER)
    if is_array and found and found.origin is Origin.ARRAY_OF_HEADERS:
        found.content.append(new)
    elif is_array:
        put_new(table, name, offset, Node([new], offset, offset, end, Origin.ARRAY_OF_HEADERS))
    elif found and found.origin is Origin.PASSED:
        found.origin = Origin.HEADER
        return found
    else:
        put_new(table, name, offset, new)
    return new


def read_header(reader, root):
    """The table of the header that begins here; its place is that of its first bracket."""
    start = reader.at
    brackets = 2 if reader.text.startswith("[[", start) else 1
    reader.at += brackets
    key = reader.key()
    reader.skip_text("]" * brackets, "behind a header")
    end = reader.at
    end_line(reader)
    table = table_of_header(root, key, brackets == 2, end)
    table.key_start = table.start = start
    table.end = end
    return table


def end_line(reader):
    """Goes past the rest of a line, which must be blank or a comment."""
    if reader.skip(LINE_END) is None:
        raise SyntaxFault(reader.at, "a line goes on where it should end")


def read_line(reader, root, table):
    """Reads a header or a pair, and gives the table that the next pair is of."""
    if reader.text.startswith("[", reader.at):
        return read_header(reader, root)
    key, node = reader.pair(DEEPEST)
    end_line(reader)
    put_pair(table, key, node)
    return table


def read_document(text):
    """The table that a text is, with all that isn't TOML in it.

    Behind a fault reading goes on at the next line that looks like a pair or a header.
    """
    reader = Reader(text)
    document = Document(text, table_at(0, 0, Origin.HEADER))
    table = document.root
    if text.startswith("\ufeff"):
        reader.at = 1
    while True:
        reader.skip(BLANK)
        start = reader.at
        if start == len(text):
            return document
        try:
            table = read_line(reader, document.root, table)
        except SyntaxFault as fault:
            document.faults.append(fault)
            if text.startswith("[", start):
                table = table_at(start, start, Origin.HEADER)
                document.stray.append(table)
            table.is_damaged = True
            onward = GOES_ON.search(text, start)
            reader.at = onward.end() if onward else len(text)
