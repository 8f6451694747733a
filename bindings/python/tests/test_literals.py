"""The literals of a script from an offset on, and all of them."""

import ctypes
import unittest

from support import calls_of, stumpgarret
from stumpgarret import Cut, Kind, Literal, Refusal, Text, cut, literals, read

PREFIXES = {"": Kind.STRING, "f": Kind.FSTRING, "b": Kind.BYTES, "r": Kind.RAW_STRING, "u": Kind.UNICODE}
PREFIXES |= {"fr": Kind.RAW_FSTRING, "rf": Kind.RAW_FSTRING, "br": Kind.RAW_BYTES, "rb": Kind.RAW_BYTES}
MOST = 1_048_576


def spellings(prefix):
    """A prefix with each letter in either case."""
    if not prefix:
        return [""]
    return [letter + rest for letter in (prefix[0], prefix[0].upper()) for rest in spellings(prefix[1:])]


class Listed(unittest.TestCase):
    def texts(self, script, offset=0):
        listing = literals(script, offset)
        return [script[literal.start : literal.end] for literal in listing.literals], listing.stop

    def test_numbers(self):
        listing = literals("x = ('VDD ' # it's\n\tRf'''{mv}''')", 5)
        first = Literal(Kind.STRING, False, 6, 4, 5, 11)
        second = Literal(Kind.RAW_FSTRING, True, 25, 4, 20, 32)
        self.assertEqual((listing.literals, listing.stop), ((first, second), 32))
        self.assertEqual(literals("x = ('VDD ' # it's\n\tRf'''{mv}''')", 20).literals, (second,))

    def test_offsets_count_bytes(self):
        self.assertEqual(literals("µ = 'µ'", 5).literals, (Literal(Kind.STRING, False, 6, 2, 5, 9),))
        self.assertEqual(literals("µ = 'µ'".encode(), 5).stop, 9)

    def test_prefixes(self):
        for prefix, kind in PREFIXES.items():
            for spelling in spellings(prefix):
                for quotes in ("'", '"', "'''", '"""'):
                    script = f"{spelling}{quotes}a{quotes}"
                    opening = len(spelling + quotes)
                    literal = Literal(kind, len(quotes) == 3, opening, 1, 0, len(script))
                    with self.subTest(script=script):
                        self.assertEqual(literals(script, 0).literals, (literal,))

    def test_what_ends_a_body(self):
        self.assertEqual(self.texts(r"r'\'' f"), ([r"r'\''"], 6))
        self.assertEqual(self.texts(r"'\\''a'"), ([r"'\\'", "'a'"], 7))
        self.assertEqual(self.texts("'\\\n'"), (["'\\\n'"], 4))
        self.assertEqual(self.texts("'''a''\n\\''''"), (["'''a''\n\\''''"], 12))
        self.assertEqual(self.texts("''\"\"''''''"), (["''", '""', "''''''"], 10))

    def test_what_is_passed_over(self):
        self.assertEqual(self.texts("'a' \t\n\n# '\n#\n 'b'#"), (["'a'", "'b'"], 18))
        for end in ("\r", "\f", "\v", "\\\n", "\u00a0", ";", "x"):
            with self.subTest(end=end):
                self.assertEqual(self.texts(f"'a' {end}'b'"), (["'a'"], 4))

    def test_a_carriage_return_in_a_comment(self):
        self.assertEqual(self.texts("'a'#\r'b'\n'c'"), (["'a'", "'c'"], 12))

    def test_refusals(self):
        rows = [
            ("'a' f'b\\", 0, 50, 4),
            ("'''''", 0, 50, 0),
            ("'a' U'b\n'", 0, 51, 4),
            ("ur'a'", 0, 52, 0),
            ("r 'a'", 0, 52, 0),
            ("'a'", 3, 52, 3),
            ("'a'", 2**32 - 1, 52, 2**32 - 1),
            ((MOST + 1) * "'", 1, 49, 0),
        ]
        for script, offset, number, place in rows:
            with self.subTest(script=script[:20]):
                with self.assertRaises(Refusal) as caught:
                    literals(script, offset)
                refusal = caught.exception
                self.assertEqual((refusal.number, refusal.literal, refusal.place), (number, 0, place))
                self.assertEqual((refusal.details, refusal.line, refusal.column), ((0, 0), 0, 0))
                self.assertIn(str(number), str(refusal))

    def test_the_most(self):
        self.assertEqual(literals("'" + (MOST - 2) * "a" + "'", 0).stop, MOST)

    def test_what_cannot_be_lent(self):
        for offset in (-1, 2**32):
            with self.assertRaisesRegex(ValueError, "the offset is .* 32 bits"):
                literals("''", offset)

    def test_what_is_listed_is_read(self):
        script = "print('VDD ' f'{mv / 12.5:.0f}')"
        answer = read(script, literals(script, 6).literals)
        self.assertEqual(answer.records[0], Text("VDD ", 6, 31, False))
        self.assertEqual((answer.records[1].expression, answer.records[1].place), ("mv / 12.5", 16))


class Room(unittest.TestCase):
    def calls(self, count):
        """How many numbers each call lent for so many literals."""
        with calls_of("literals") as calls:
            listing = literals(count * "'' ", 0)
        self.assertEqual((len(listing.literals), listing.stop), (count, 3 * count))
        self.assertEqual(listing.literals[-1].start, 3 * count - 3)
        return [arguments[4] for arguments in calls]

    def test_first_room_is_enough(self):
        self.assertEqual(self.calls(16), [96])

    def test_more(self):
        self.assertEqual(self.calls(17), [96, 102])
        self.assertEqual(self.calls(100_000), [96, 600_000])

    def test_what_is_lent(self):
        """The list in front and what follows as it was, or zeros throughout."""
        for offset, lent, first, listed in ((0, 13, 0, 12), (2, 13, 52, 0), (0, 11, 53, 0)):
            numbers, answer = (ctypes.c_uint32 * lent)(*lent * [7]), (ctypes.c_uint32 * 12)(*12 * [7])
            stumpgarret._function("literals")(b"'' f''", 6, offset, numbers, lent, answer)
            expected = [0, 0, 1, 0, 0, 2, 1, 0, 5, 0, 3, 6]
            rest = 7 if listed else 0
            self.assertEqual(list(numbers), expected[:listed] + (lent - listed) * [rest])
            self.assertEqual((answer[0], answer[9]), (first, 12 if first == 53 else 0))


class Whole(unittest.TestCase):
    def test_every_literal(self):
        script = "x = ('VDD', # it's\n Rf'{mv}' + if'a')"
        first = Literal(Kind.STRING, False, 6, 3, 5, 10)
        second = Literal(Kind.RAW_FSTRING, False, 23, 4, 20, 28)
        third = Literal(Kind.STRING, False, 34, 1, 33, 36)
        self.assertEqual(cut(script), Cut((first, second, third), 37, None))
        self.assertEqual(cut("µ = 'µ'").literals, (Literal(Kind.STRING, False, 6, 2, 5, 9),))
        self.assertEqual(cut(""), Cut((), 0, None))

    def test_what_it_ends_with(self):
        one = (Literal(Kind.STRING, False, 1, 1, 0, 3),)
        self.assertEqual(cut("'a', f\"\"\"b\"\""), Cut(one, 5, 50))
        self.assertEqual(cut("'a'\nb'b\n'c'"), Cut(one, 4, 51))

    def test_the_most(self):
        self.assertEqual(cut(MOST * b" "), Cut((), MOST, None))
        with self.assertRaises(Refusal) as caught:
            cut(MOST * b" " + b"'")
        self.assertEqual((caught.exception.number, caught.exception.place), (49, 0))

    def test_room(self):
        with calls_of("cut") as calls:
            self.assertEqual(len(cut(16 * "'';").literals), 16)
            self.assertEqual(cut(100_000 * "'';" + "'").to, 300_000)
        self.assertEqual([arguments[3] for arguments in calls], [96, 96, 600_000])

    def test_what_is_lent(self):
        """The list in front and what follows as it was, or zeros throughout."""
        for script, lent, expected in (
            (b"'';f''", 13, [0, 2, 6, 0]),
            (b"'';f'';'", 13, [0, 2, 7, 50]),
            (b"'';f''", 11, [53, 0, 0, 0, 0, 0, 0, 0, 0, 12]),
            ((MOST + 1) * b"'", 11, [49]),
        ):
            numbers, answer = (ctypes.c_uint32 * lent)(*lent * [7]), (ctypes.c_uint32 * 12)(*12 * [7])
            stumpgarret._function("cut")(script, len(script), numbers, lent, answer)
            listed = [] if expected[0] else [0, 0, 1, 0, 0, 2, 1, 0, 5, 0, 3, 6]
            rest = 0 if expected[0] else 7
            self.assertEqual(list(numbers), listed + (lent - len(listed)) * [rest])
            self.assertEqual(list(answer), expected + (12 - len(expected)) * [0])


if __name__ == "__main__":
    unittest.main()
