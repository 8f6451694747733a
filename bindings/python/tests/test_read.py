"""The call: readings and refusals by RULES 2 to 5 and 11, the room that is lent, and what cannot be lent."""

import ctypes
import os
import pathlib
import pickle
import tempfile
import unittest
from unittest import mock

from support import calls_of, load, load_function, stumpgarret
from stumpgarret import Answer, Bytes, Field, Kind, Literal, Reason, Refusal, Signs, Sort, Text, Unavailable, read

expected = load("crates/try_readings/expected.py")
expected.fill_cases()
NO_ROOM = 30, 31
OF_OTHER_CALLS = {
    *stumpgarret.OF_A_LIST,
    *stumpgarret.OF_A_WRITING,
    *stumpgarret.OF_A_COMPARISON,
    *stumpgarret.OF_NAMES,
    *stumpgarret.OF_A_REPLAY,
    *stumpgarret.OF_CUTS,
}


def script_of(pieces):
    return b"".join(times * piece for times, piece in pieces)


def flat(answer):
    """An answer's numbers, words and text, as the library would write them."""
    words, text = [], b""

    def put(kind, own, start, end, mark=0, parts=0, place=0):
        nonlocal text
        words.extend([kind, len(text), len(own), start, end, mark, parts, place])
        text += own

    def put_record(record):
        if isinstance(record, Bytes):
            put(4, record.value, record.start, record.end)
        elif isinstance(record, Text):
            put(1, record.text.encode(), record.start, record.end, int(record.u_mark))
        else:
            put_field(record)

    def put_field(field):
        has_spec = field.spec is not None
        conversion = ord(field.conversion or "\0")
        put(2, field.expression.encode(), field.start, field.end, conversion, int(has_spec), field.place)
        if has_spec:
            put(3, b"", field.start, field.end, parts=len(field.spec))
            for part in field.spec:
                put_record(part)

    for record in answer.records:
        put_record(record)
    numbers = [0, answer.sort, int(answer.u_mark), answer.start, answer.end, len(words) // 8, len(text), 0, answer.chars]
    return numbers, words, text


class Rows(unittest.TestCase):
    """Every row of crates/try_readings, which has every refusal."""

    def test_function(self):
        for numbers, pieces, answer, words, text in expected.cases:
            script = script_of(pieces)
            with self.subTest(numbers=numbers[:12], script=script[:80]):
                listed = (ctypes.c_uint32 * len(numbers))(*numbers)
                lent_words = (ctypes.c_uint32 * len(words))()
                lent_text = (ctypes.c_char * len(text))()
                twelve = (ctypes.c_uint32 * 12)()
                for lent in (lent_words, lent_text, twelve):
                    ctypes.memset(lent, expected.FILL_BYTE, ctypes.sizeof(lent))
                lent = listed, len(listed), lent_words, len(lent_words), lent_text, len(lent_text), twelve
                stumpgarret._function("read")(script, len(script), *lent)
                self.assertEqual(list(twelve), answer + [0] * (12 - len(answer)))
                self.assertEqual(list(lent_words), words)
                self.assertEqual(lent_text.raw, text)

    def test_read(self):
        met = set()
        for numbers, pieces, answer, words, text in expected.cases:
            if len(numbers) % 6 or answer[0] in NO_ROOM:
                continue
            literals = [Literal(*numbers[at : at + 6]) for at in range(0, len(numbers), 6)]
            with self.subTest(numbers=numbers[:12]):
                met.add(answer[0])
                self.compare(script_of(pieces), literals, answer, words, text)
        self.assertEqual(met, {0, *stumpgarret.REFUSALS} - {2, *NO_ROOM, *OF_OTHER_CALLS})

    def compare(self, script, literals, answer, words, text):
        if answer[0] == 0:
            count, length = answer[5:7]
            self.assertEqual(flat(read(script, literals)), (answer, words[: 8 * count], text[:length]))
            return
        with self.assertRaises(Refusal) as caught:
            read(script, literals)
        refusal = caught.exception
        numbers = [refusal.number, refusal.literal, refusal.place, *refusal.details]
        numbers += [refusal.opened, refusal.line, refusal.column, refusal.chars]
        self.assertEqual(numbers, answer)

    def test_numbers(self):
        self.assertEqual(set(stumpgarret.REFUSALS) - OF_OTHER_CALLS, expected.NUMBERS)


class Answers(unittest.TestCase):
    def test_joined(self):
        literals = [Literal(Kind.UNICODE, False, 2, 1, 10, 14), Literal(Kind.FSTRING, False, 7, 11, 15, 29)]
        answer = read("u'a' f'{é!r:>{w}}'", literals)
        field = Field("w", None, None, 15, 29, 25, Reason.NONE, Signs(None, None, None, 27))
        spec = Text(">", 15, 29, False), field
        records = Text("a", 10, 29, True), Field("é", "r", spec, 15, 29, 18, Reason.WRITTEN, Signs(None, 21, 23, 28))
        self.assertEqual(answer, Answer(Sort.JOINED, True, 10, 29, records, 11))

    def test_plain_and_bytes(self):
        self.assertEqual(read(b"\\x41", [Literal(0, False, 0, 4, 0, 6)]).records, (Text("A", 0, 6, False),))
        self.assertEqual(read(b"\\xff", [Literal(2, False, 0, 4, 0, 7)]).records, (Bytes(b"\xff", 0, 7),))

    def test_kinds_of_scripts(self):
        literals = [Literal(0, False, 0, 2, 0, 4)]
        for script in ("é", "é".encode(), bytearray("é".encode()), memoryview("é".encode())):
            self.assertEqual(read(script, literals).records[0].text, "é")

    def test_lone_surrogate(self):
        with self.assertRaises(Refusal) as caught:
            read("a\ud800", [Literal(0, False, 0, 4, 0, 6)])
        self.assertEqual((caught.exception.number, caught.exception.place), (6, 2))

    def test_refusal(self):
        with self.assertRaises(Refusal) as caught:
            read("{(]}", [Literal(1, False, 0, 4, 0, 7)])
        refusal = caught.exception
        self.assertEqual(refusal.name, "MismatchedDelimiter")
        text = "refused in literal 0 at 5, line 1 and column 4 of its body: 23 MismatchedDelimiter: ( is closed by ]"
        text += ", opened at 4"
        self.assertEqual(str(refusal), text)
        self.assertEqual(str(pickle.loads(pickle.dumps(refusal))), str(refusal))

    def test_opened(self):
        for body, place, opened in (("{f(a[0)}", 9, 7), ("{[a](b}", 9, 7), ("{('['}", 8, 4), ("{x)", 5, 0)):
            with self.assertRaises(Refusal) as caught:
                read(body, [Literal(1, False, 0, len(body), 0, len(body) + 3)])
            self.assertEqual((caught.exception.place, caught.exception.opened), (place, opened))

    def test_unclosed(self):
        for body, why in (
            ("{x!", "the literal ends right after a !"),
            ("{x!r b}", "neither } nor : follows a conversion"),
            ("{x=y}", "something not allowed follows a self-documenting ="),
            ("{x:y", "the literal ends inside a field"),
            ("{", "a { in no field is the last character"),
        ):
            with self.assertRaises(Refusal) as caught:
                read(body, [Literal(1, False, 0, len(body), 0, len(body) + 3)])
            self.assertEqual(caught.exception.meaning, f"20 UnclosedLbrace: {why}")
        self.assertEqual(set(stumpgarret.UNCLOSED), set(expected.REASONS))

    def test_line_and_column(self):
        body = "é\n\né{}"
        with self.assertRaises(Refusal) as caught:
            read(2 * body, [Literal(0, True, 0, 8, 0, 14), Literal(1, True, 8, 8, 20, 35)])
        refusal = caught.exception
        self.assertEqual((refusal.literal, refusal.place, refusal.line, refusal.column), (1, 32, 2, 3))
        self.assertRegex(str(refusal), "^refused in literal 1 at 32, line 3 and column 4 of its body: 22 ")
        self.assertEqual(refusal.position(10, 5), (12, 4))
        self.assertEqual(Refusal(25, 0, 4, (0, 0), 0, 2).position(10, 5), (10, 7))

    def test_characters(self):
        body = "é\n€{}"
        literals = [Literal(0, True, 0, 8, 0, 14), Literal(1, True, 8, 8, 20, 35)]
        with self.assertRaises(Refusal) as caught:
            read(2 * body, literals)
        self.assertEqual(caught.exception.chars, 5 + 5)
        self.assertEqual(read(2 * body, literals[:1]).chars, 5)
        self.assertEqual(pickle.loads(pickle.dumps(caught.exception)).chars, 10)

    def test_every_refusal_has_words(self):
        for number in stumpgarret.REFUSALS:
            at = " in literal 0 at 3.*"
            if number in OF_OTHER_CALLS - {*stumpgarret.OF_A_LIST}:
                at = f" at {stumpgarret.TELLS[number]} 0" if number in stumpgarret.TELLS else ""
            self.assertRegex(str(Refusal(number, 0, 3, (40, 41))), f"^refused{at}: {number} [^{{}}]+")
        self.assertRegex(str(Refusal(99, 0, 3, (0, 0))), ": 99 unknown to this module$")

    def test_numbers_too_large(self):
        for numbers in ((0, 0, 0, 0, 0, 2**32), (-1, 0, 0, 0, 0, 2)):
            with self.assertRaisesRegex(ValueError, "literal 0: (end|kind) is .* 32 bits"):
                read(b"", [Literal(*numbers)])


class Room(unittest.TestCase):
    def calls(self, body):
        """What is read of an f-string, and how many words and text bytes each call lent."""
        length = len(body.encode())
        with calls_of("read") as calls:
            records = read(body, [Literal(Kind.FSTRING, True, 0, length, 0, length + 7)]).records
        return records, [(arguments[5], arguments[7]) for arguments in calls]

    def test_one_call(self):
        for body in ("", "a", 31 * "{x}" + 993 * "a", "{y}" + 100_000 * "é"):
            _, lent = self.calls(body)
            size = len(body.encode())
            self.assertEqual(lent, [((size + 1) * 8, 2 * size)])

    def test_many_records(self):
        records, _ = self.calls(100 * "a{x}")
        self.assertEqual([record.text for record in records[::2]], 100 * ["a"])
        self.assertEqual([record.expression for record in records[1::2]], 100 * ["x"])
        (field,), _ = self.calls("{x:" + 100 * "{y=:a}" + "}")
        self.assertEqual(len(field.spec), 300)

    def test_much_text(self):
        records, _ = self.calls("{" + 1000 * "é" + "=}")
        self.assertEqual([records[0].text, records[1].expression], [1000 * "é" + "=", 1000 * "é"])

    def test_too_long(self):
        for size in (2**20 + 1, 2**32 - 1):
            with self.assertRaises(Refusal) as caught:
                read(b"", [Literal(0, False, 0, size, 0, 2**32 - 1)])
            self.assertEqual(caught.exception.number, 4)

    def test_no_second_call(self):
        function = mock.Mock(side_effect=lambda *arguments: ctypes.memmove(arguments[8], bytes([30, *47 * [0]]), 48))
        with mock.patch.object(stumpgarret, "_function", lambda name: function):
            with self.assertRaisesRegex(Refusal, "30 too few record places"):
                read(b"", [Literal(0, False, 0, 0, 0, 2)])
        self.assertEqual(function.call_count, 1)


class Loading(unittest.TestCase):
    """What is said of a library that cannot be used."""

    def said(self, content=None):
        with tempfile.TemporaryDirectory() as folder:
            path = pathlib.Path(folder, "lib.so")
            if content is not None:
                path.write_bytes(content)
            with mock.patch.dict(os.environ, STUMPGARRET_LIBRARY=str(path)):
                with self.assertRaises(Unavailable) as caught:
                    load_function("read")
            return str(caught.exception).replace(str(path), "PATH")

    def test_missing(self):
        self.assertRegex(self.said(), "the shared library is missing: there is no PATH. bindings/python/build makes it")

    def test_places(self):
        with mock.patch.dict(os.environ), mock.patch.object(os.path, "isfile", lambda path: False):
            for name in ("STUMPGARRET_LIBRARY", "STUMPGARRET_PROGRAM"):
                os.environ.pop(name, None)
            with self.assertRaisesRegex(Unavailable, "bindings/python/libstumpgarret.so and no .*/target/python/"):
                load_function("read")

    def test_no_library(self):
        self.assertEqual(self.said(b"!<arch>\n" + bytes(60)), "PATH is no shared library")

    def test_other_machine(self):
        head = b"\x7fELF\x02\x01\x01".ljust(18, b"\0")
        with mock.patch("platform.machine", lambda: "mips"):
            self.assertEqual(self.said(head + b"\x3e\0"), "PATH is for x86_64, and this Python runs on mips")
        with mock.patch("platform.machine", lambda: "x86_64"):
            self.assertEqual(self.said(head + b"\xf3\0"), "PATH is for ELF machine 243, and this Python runs on x86_64")
            self.assertRegex(self.said(head + b"\x3e\0"), "^PATH cannot be used: ")


if __name__ == "__main__":
    unittest.main()
