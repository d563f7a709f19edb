"""The reader of TOML against the standard library's, and where it says that things stand."""
import datetime
import tomllib
import unittest

from policies import PolicyMaker
from running import EXAMPLES

from flowvisor_tool.toml_reader import DEEPEST, OtherValue, Position, read_document

COUNT = 1500
OTHERS = (bool, float, datetime.date, datetime.time)


def plain(node):
    """A value as the standard library's reader gives it."""
    match node.content:
        case dict():
            return {key: plain(item) for key, item in node.content.items()}
        case list():
            return [plain(item) for item in node.content]
    return node.content


def without_others(value):
    """A value of the standard library's reader, in which those that no policy has are all one."""
    match value:
        case dict():
            return {key: without_others(item) for key, item in value.items()}
        case list():
            return [without_others(item) for item in value]
    return OtherValue.OTHER if isinstance(value, OTHERS) else value


def nodes(node):
    """All values of a table."""
    yield node
    match node.content:
        case dict():
            for inner in node.content.values():
                yield from nodes(inner)
        case list():
            for inner in node.content:
                yield from nodes(inner)


def library_reading(text):
    """What the standard library's reader reads, or None where it refuses the text, or should for a number's size."""
    try:
        values = tomllib.loads(text)
    except tomllib.TOMLDecodeError:
        return None
    return values if fits(values) else None


def fits(value):
    """Whether all numbers have at most 64 bits."""
    match value:
        case dict():
            return all(map(fits, value.values()))
        case list():
            return all(map(fits, value))
        case int():
            return -(1 << 63) <= value < 1 << 63
    return True


class AgainstTheLibrary(unittest.TestCase):
    def test_values(self):
        read = 0
        for text in self.texts():
            wanted = library_reading(text)
            if wanted is not None:
                document = read_document(text)
                self.assertEqual(document.faults, [], text)
                self.assertEqual(plain(document.root), without_others(wanted), text)
                read += 1
        self.assertGreater(read, COUNT // 3)

    def test_places(self):
        """What stands where a value is said to stand is that value."""
        for text in self.texts():
            document = read_document(text)
            for node in nodes(document.root):
                source = document.text[node.start : node.end]
                again = library_reading("value = " + source)
                if source and not source.startswith("[[") and again is not None:
                    self.assertEqual(without_others(again["value"]), plain(node), text)

    def texts(self):
        maker = PolicyMaker(1)
        yield (EXAMPLES / "two-slices.toml").read_text()
        for _ in range(COUNT):
            # The library's reader takes the two bytes of a line's end in a text for one.
            yield maker.policy().decode().replace("\r\n", "\n")


class Edges(unittest.TestCase):
    def values(self, text):
        document = read_document(text)
        self.assertEqual(document.faults, [], text)
        return plain(document.root)

    def fault(self, text):
        (fault,) = read_document(text).faults
        return fault

    def test_what_is_newer_than_the_library(self):
        self.assertEqual(self.values('a = "\\x41\\e"'), {"a": "A\x1b"})
        self.assertEqual(self.values("a = {\n b = 1, # one\n c = 2,\n}"), {"a": {"b": 1, "c": 2}})
        self.assertEqual(self.values("a = 07:32"), {"a": OtherValue.OTHER})
        self.assertEqual(self.values("\ufeffa = 1"), {"a": 1})

    def test_quotes_in_texts_on_several_lines(self):
        self.assertEqual(self.values('a = """"b"""""'), {"a": '"b""'})
        self.assertEqual(self.values("a = ''''b'''''"), {"a": "'b''"})
        self.fault('a = """b""""""')

    def test_numbers(self):
        for word, number in (("-9223372036854775808", -(1 << 63)), ("0x7fff_ffff_ffff_ffff", (1 << 63) - 1), ("+0", 0)):
            self.assertEqual(self.values(f"a = {word}"), {"a": number})
        for word in ("9223372036854775808", "0x8000000000000000", "01", "1_", "_1", "1__0", "-0x1", "0X1", "1 2"):
            self.fault(f"a = {word}")

    def test_depth(self):
        self.values("a = " + "[" * DEEPEST + "]" * DEEPEST)
        self.fault("a = " + "[" * (DEEPEST + 1) + "]" * (DEEPEST + 1))
        self.fault("a = " + "[" * 1_000_000)

    def test_tables(self):
        for text in ("a = 1\na = 2", "[a]\n[a]", "[[a]]\n[a]", "[a]\n[[a]]", "a = []\n[[a]]", "a = {}\n[a.b]", "a.b = 1\n[a]"):
            self.fault(text)
        self.assertEqual(self.values("[a.b]\n[a]\nc = 1"), {"a": {"b": {}, "c": 1}})
        self.assertEqual(self.values("[[a]]\n[a.b]\n[[a]]"), {"a": [{"b": {}}, {}]})

    def test_reading_goes_on_behind_a_fault(self):
        document = read_document('a = "b\nc = 1\n[d\ne = 2\n[f]\ng = [1,\n2\nh = 3\ni = 4 5\nj = 6\n')
        self.assertEqual(plain(document.root), {"c": 1, "f": {"h": 3, "j": 6}})
        places = [document.position(fault.offset) for fault in document.faults]
        self.assertEqual(places, [Position(1, 5), Position(3, 3), Position(8, 1), Position(9, 5)])
        self.assertTrue(document.root.is_damaged)

    def test_columns_count_characters(self):
        document = read_document('"é" = [ "é", 1 ]\r\n')
        self.assertEqual(document.position(document.root.content["é"].content[1].start), Position(1, 14))
