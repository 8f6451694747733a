"""Files of names: their index built and checked, readings and listings with them, and the command's."""

import collections
import ctypes
import hashlib
import json
import os
import pathlib
import random
import unicodedata
import unittest
from unittest import mock

import names_model
import test_command
import test_page
from support import calls_of, stumpgarret
from stumpgarret import Field, Literal, Names, Refusal, Text, fields, list_script, read, rows

PUBLISHED = pathlib.Path(stumpgarret.SYSTEM_NAMES)
MOST_LITERALS = 1024
RANDOM_FILES = 2000
# Pieces of scripts; none asks for a name.
PIECES = ["f'{x}'", "f'{a!r:>{w}}'", "rf'{y}\\n'", "f'{f\"{c=}\"}'", "f'{(]}'", "f'}'", "'", '"""', "# it's\n", "\\x41", "N{", "\n"]


def line(code, name):
    return f"{code};{name};So;0;ON;;;;;N;;;;;\n".encode()


SNOWMAN, SNAKE, COMET, SNOW = line("2603", "SNOWMAN"), line("01f40D", "SNAKE"), line("02604", "COMET"), line("2745", "SNOW")
CONTROL, SURROGATE = line("0000", "<control>"), line("D800", "<Non Private Use High Surrogate, First>")
SMALL = SNOWMAN + CONTROL + SNAKE + SURROGATE + COMET + SNOW
MALFORMED = [
    b"\n",
    SNOWMAN[:-1],
    SNAKE + SNOWMAN[:-1],
    SNAKE + b"\n" + SNOW,
    SNOWMAN.replace(b";", b",", 1),
    SNOWMAN.replace(b"So", b"So;"),
    line("2603", ""),
    line("603", "SNOWMAN"),
    line("0002603", "SNOWMAN"),
    line("260G", "SNOWMAN"),
    line("DFFF", "SNOWMAN"),
    line("110000", "SNOWMAN"),
    line("26 3", "<control>"),
    SNOWMAN + SNOWMAN + b"\n",
]


def entries(file):
    """Name, code and offset of each line with a name, by name, as a plain sort gives them."""
    at, found = 0, []
    for one in file.splitlines(keepends=True):
        code, name, *_ = one.split(b";")
        if not name.startswith(b"<"):
            found.append((name, int(code, 16), at))
        at += len(one)
    return sorted(found)


def offsets(file):
    return tuple(at for _, _, at in entries(file))


def literal(body, kind=0):
    return Literal(kind, False, 0, len(body.encode()), 0, len(body.encode()) + 3)


def read_body(body, names, kind=0):
    return read(body, [literal(body, kind)], names)


class Refuses(unittest.TestCase):
    def refuses(self, number, call, *arguments):
        with self.assertRaises(Refusal) as caught:
            call(*arguments)
        self.assertEqual(caught.exception.number, number)
        return caught.exception

    def wrong_type(self, said, call, *arguments):
        with self.assertRaises(TypeError) as caught:
            call(*arguments)
        self.assertEqual(str(caught.exception), said)


class Index(Refuses):
    def test_build(self):
        names = Names.build(SMALL)
        self.assertEqual((names.index, names.file), (offsets(SMALL), SMALL))
        self.assertEqual([SMALL[at:].split(b";")[1] for at in names.index], [b"COMET", b"SNAKE", b"SNOW", b"SNOWMAN"])
        for file in (b"", CONTROL, SURROGATE + CONTROL):
            self.assertEqual(Names.build(file).index, ())

    def test_kinds_of_files(self):
        for file in (SMALL, bytearray(SMALL), memoryview(SMALL)):
            self.assertEqual(Names.build(file).index, offsets(SMALL))
            self.assertEqual(Names.check(file, offsets(SMALL)).file, SMALL)

    def test_kept_bytes(self):
        """What is changed afterwards is not the file that was checked."""
        file = bytearray(SMALL)
        names = Names.build(file)
        file[:] = bytes(len(file))
        self.assertEqual(read_body(r"\N{SNOW}", names).records[0].text, "\u2745")

    def test_one_call(self):
        """Room for twenty bytes of a line with a name is enough."""
        least = b"0041;A;;;;;;;;;;;;;\n"
        for file, room in ((least, 1), (5 * CONTROL + least, (5 * len(CONTROL) + 20) // 20), (SMALL, len(SMALL) // 20)):
            with calls_of("names_build") as calls:
                self.assertEqual(Names.build(file).index, offsets(file))
            self.assertEqual([arguments[3] for arguments in calls], [room])

    def test_what_is_lent(self):
        """The index in front and what follows as it was, or zeros throughout."""
        index = [*offsets(SMALL)]
        twice = SNOW + SNOW
        for file, lent, number in ((SMALL, 4, 0), (SMALL, 6, 0), (SMALL, 3, 62), (SMALL, 0, 62), (b"\n", 2, 60), (twice, 2, 61)):
            numbers, answer = (ctypes.c_uint32 * lent)(*lent * [7]), (ctypes.c_uint32 * 12)(*12 * [7])
            stumpgarret._function("names_build")(file, len(file), numbers, lent, answer)
            self.assertEqual(list(numbers), lent * [0] if number else index + (lent - 4) * [7])
            self.assertEqual(list(answer), [number, 0 if number else 4, *10 * [0]])

    def test_refused(self):
        for file in MALFORMED:
            with self.subTest(file=file):
                refusal = self.refuses(60, Names.build, file)
                said = "a line of the file of names is malformed or not ended, or a name's code is no scalar value"
                self.assertEqual(str(refusal), f"refused: 60 line malformed: {said}")
                self.refuses(60, Names.check, file, [0])
        for file in (SNOW + SNOW, SNOW + SNAKE + line("2603", "SNOW")):
            refusal = self.refuses(61, Names.build, file)
            self.assertEqual(str(refusal), "refused: 61 name twice: a name stands twice in the file of names")
            self.refuses(61, Names.check, file, [])

    def test_check(self):
        good = [*offsets(SMALL)]
        for index in (good, tuple(good), iter(good), Names.build(SMALL).index):
            self.assertEqual(Names.check(SMALL, index).index, tuple(good))
        wrong = [[], good[1:], good[:-1], [*good, 0], good[::-1], 4 * [0], bytes(4)]
        for at in range(4):
            for number in (good[at] + 1, good[at - 1], len(SNOWMAN), 2**32 - 1):
                wrong.append([*good[:at], number, *good[at + 1 :]])
        for index in wrong:
            with self.subTest(index=index):
                refusal = self.refuses(63, Names.check, SMALL, index)
                self.assertRegex(str(refusal), "^refused: 63 wrong index: the index is not that of the file of names")
        self.assertEqual(Names.check(b"", []).index, ())
        self.refuses(63, Names.check, b"", [0])

    def test_wrong_use(self):
        for wrong in (None, 5, "2603", [1]):
            for call in (lambda file: Names.build(file), lambda file: Names.check(file, [])):
                self.wrong_type(f"a file's content is wanted, as bytes, not {type(wrong).__name__}", call, wrong)
        self.wrong_type("a list of offsets is wanted, not int", Names.check, SMALL, 5)
        with self.assertRaises(TypeError):
            Names.check(SMALL, ["0"])
        for wrong in (2**32, -1):
            with self.assertRaisesRegex(ValueError, "an offset of the index is no number of 32 bits"):
                Names.check(SMALL, [wrong])
        self.wrong_type("Names are made by Names.build or Names.check", Names)

    def test_no_other_changes(self):
        names = Names.build(SMALL)
        with self.assertRaises(AttributeError):
            names.index = ()
        with self.assertRaises(AttributeError):
            names.file = b""


class Readings(Refuses):
    def setUp(self):
        self.names = Names.build(SMALL)

    def test_names_of_the_file(self):
        body = r"\N{SNAKE}{x!r:>{w}}\N{SNOWMAN}"
        answer = read_body(body, self.names, 1)
        inner = Field("w", None, None, 0, len(body) + 3, 18, None, None)
        spec = Text(">", 0, len(body) + 3, False), inner
        field = Field("x", "r", spec, 0, len(body) + 3, 12, None, None)
        texts = [Text(text, 0, len(body) + 3, False) for text in "\U0001f40d\u2603"]
        self.assertEqual((answer.records, answer.chars), ((texts[0], field, texts[1]), len(body)))

    def test_no_check(self):
        with calls_of("names_check") as checks, calls_of("read_named") as named, calls_of("read") as plain:
            with calls_of("read_searched") as searched:
                read_body(r"\N{SNOW}", self.names)
        self.assertEqual([len(calls) for calls in (checks, named, plain, searched)], [0, 0, 0, 1])

    def test_not_held(self):
        for name in ("OHM SIGN", "snow", "SNOWMEN", "SNO", " SNOW", "COMET;So", "<control>", ""):
            refusal = self.refuses(13, read_body, f"\\N{{{name}}}", self.names)
            self.assertEqual((refusal.place, refusal.line, refusal.column), (4, 0, 3))
        self.assertEqual(read_body(r"\N{OHM SIGN}", None).records[0].text, "\u2126")
        self.refuses(13, read_body, r"\N{OHM SIGN}", Names.build(b""))

    def test_long(self):
        for length in (88, 89):
            name = length * "A"
            names = Names.build(line("2603", name))
            if length == 88:
                self.assertEqual(read_body(f"\\N{{{name}}}", names).records[0].text, "\u2603")
            else:
                self.refuses(11, read_body, f"\\N{{{name}}}", names)

    def test_wrong_use(self):
        for wrong in (SMALL, [0], (SMALL, [0]), "SNOW"):
            said = f"Names are wanted, not {type(wrong).__name__}"
            self.wrong_type(said, read, "", [literal("")], wrong)
            for call in (rows, list_script):
                self.wrong_type(said, call, "", wrong)
            self.wrong_type(said, fields, "", "a.py", wrong)


class Random(unittest.TestCase):
    """Random files and indexes against the model."""

    def called(self, name, *lent):
        answer = (ctypes.c_uint32 * 12)(*12 * [7])
        stumpgarret._function(name)(*lent, answer)
        return list(answer)

    def reading(self, name, body, file, index):
        """The answer, the words and the text of a string literal."""
        run = 0, 0, 0, len(body), 0, len(body) + 2
        listed, lent = (ctypes.c_uint32 * 6)(*run), (ctypes.c_uint32 * len(index))(*index)
        words, text = (ctypes.c_uint32 * 9)(*9 * [7]), (ctypes.c_char * 9)(*9 * b"\7")
        given = body, len(body), listed, 6, file, len(file), lent, len(lent), words, 9, text, 9
        return self.called(name, *given), list(words), text.raw

    def test_build_and_check(self):
        chance = random.Random(60)
        seen = collections.Counter()
        for _ in range(RANDOM_FILES):
            file = names_model.random_file(chance)
            room = chance.choice([9, 9, chance.randrange(9)])
            index = (ctypes.c_uint32 * room)(*room * [7])
            answer = self.called("names_build", file, len(file), index, room)
            built = names_model.build(file, room)
            number, numbers = (0, built) if isinstance(built, list) else (built, [])
            with self.subTest(file=file, room=room):
                self.assertEqual(answer, [number, len(numbers), *10 * [0]])
                self.assertEqual(list(index), room * [0] if number else numbers + (room - len(numbers)) * [7])
            seen["build", number] += 1
            lent = names_model.random_index(chance, file)
            answer = self.called("names_check", file, len(file), (ctypes.c_uint32 * len(lent))(*lent), len(lent))
            checked = names_model.check(file, lent)
            with self.subTest(file=file, lent=lent):
                accepted = isinstance(checked, list)
                self.assertEqual(answer, [0 if accepted else checked, len(lent) if accepted else 0, *10 * [0]])
            seen["check", answer[0]] += 1
        met = [("build", number) for number in (0, 60, 61, 62)] + [("check", number) for number in (0, 60, 61, 63)]
        self.assertGreater(min(seen[key] for key in met), RANDOM_FILES // 50, seen)

    def test_many_names(self):
        """A name that stands twice is told wherever its lines are, also where the index has no room or is wrong."""
        chance = random.Random(61)
        for count in (1, 2, 100, 4095, 4096, 4097, 9000):
            names = [b"%d" % number for number in range(count)]
            chance.shuffle(names)
            for more in ([], [names[0]], [names[-1]], [chance.choice(names)]):
                at = chance.randrange(count + 1)
                listed = names[:at] + more + names[at:]
                file = b"".join(b"2603;" + name + 13 * b";" + b"\n" for name in listed)
                built = names_model.index_of(file)
                for room in (len(listed), count - 1, 0):
                    index = (ctypes.c_uint32 * room)()
                    answer = self.called("names_build", file, len(file), index, room)
                    number = 61 if more else 62 if room < count else 0
                    self.assertEqual((answer[0], list(index)), (number, room * [0] if number else built))
                for lent, number in (([*range(1, count + 1)], 63), ([], 63), ([] if more else built, 0)):
                    numbers = (ctypes.c_uint32 * len(lent))(*lent)
                    answer = self.called("names_check", file, len(file), numbers, len(lent))
                    self.assertEqual(answer[0], 61 if more else number)

    def test_search(self):
        """By any index; where the check passes, a reading that checks gives the same, and else its number."""
        chance = random.Random(63)
        seen = collections.Counter()
        for _ in range(RANDOM_FILES):
            file = names_model.random_file(chance)
            index = names_model.random_index(chance, file)
            name = chance.choice([*names_model.NAMES, b"N", b""])
            body = b"\\N{" + name + b"}"
            if b"\xff" in name:
                continue
            code = names_model.searched(file, index, name)
            found = self.reading("read_searched", body, file, index)
            with self.subTest(file=file, index=index, name=name):
                refused = [13, 0, 4, 0, 0, 0, 0, 3, 3, 0, 0, 0]
                if code is None:
                    self.assertEqual(found, (refused, 9 * [0], bytes(9)))
                else:
                    text = chr(code).encode()
                    answer = [0, 0, 0, 0, len(body) + 2, 1, len(text), 0, len(body), 0, 0, 0]
                    record = [1, 0, len(text), 0, len(body) + 2, 0, 0, 0, 7]
                    self.assertEqual(found, (answer, record, text.ljust(9, b"\7")))
                checked = names_model.check(file, index)
                named = self.reading("read_named", body, file, index)
                if isinstance(checked, list):
                    self.assertEqual(named, found)
                    held = {one: code for one, code, _ in names_model.names_of(file)}
                    self.assertEqual(code, held.get(name))
                else:
                    self.assertEqual(named, ([checked, *11 * [0]], 9 * [0], bytes(9)))
                seen[code is None, isinstance(checked, list)] += 1
        self.assertGreater(min(seen[key] for key in ((0, 0), (0, 1), (1, 0), (1, 1))), RANDOM_FILES // 100, seen)


class Scripts(Refuses):
    def setUp(self):
        self.names = Names.build(SMALL)

    def test_complete(self):
        source = "f'\\N{SNOW}{a:.0f}'\r\nf'{b}\\N{SNAKE}'"
        self.assertEqual([field.expression for field in fields(source, names=self.names)], ["a", "b"])
        self.assertEqual([one.number for one in list_script(source).refused], [13, 13])
        self.assertEqual(len(rows(source, self.names).rows), 2)

    def test_not_held(self):
        found = list_script("f'\\N{SNOW}{a}' f'{b}\\N{OHM SIGN}' '\\N{NONE}' f'{c}'", self.names)
        self.assertEqual([field.expression for field in found.fields], ["a", "c"])
        self.assertEqual([(one.number, one.column) for one in found.refused], [(13, 24)])
        self.assertIn("13 name not held: the file of names does not have the name OHM SIGN;", found.refused[0].reason)

    def test_room(self):
        for count, lent in ((256, [2560]), (300, [2560, 3000])):
            with calls_of("fields_named") as calls:
                found = rows(f"f'''\\N{{SNOW}}{count * '{x}'}'''", self.names)
            self.assertEqual(([arguments[7] for arguments in calls], len(found.rows)), (lent, count))

    def test_too_long(self):
        self.refuses(49, rows, 1_048_577 * " ", self.names)
        self.assertEqual(list_script(1_048_577 * " ", self.names), list_script(1_048_577 * " "))

    def test_without_a_name(self):
        """A script that has no \\N is listed the same, with names and without."""
        chance = random.Random(9)
        complete = 0
        for names in (self.names, Names.build(b"")):
            for _ in range(500):
                source = "".join(chance.choice(PIECES) for _ in range(chance.randrange(12)))
                self.assertNotIn("\\N", source)
                found = list_script(source, names)
                self.assertEqual(found, list_script(source))
                self.assertEqual(rows(source, names), rows(source))
                complete += found.complete
        self.assertGreater(complete, 100)


@unittest.skipUnless(PUBLISHED.exists(), f"{PUBLISHED} is not there (Debian: unicode-data)")
class Published(Refuses):
    """Unicode's own file, as Debian has it."""

    @classmethod
    def setUpClass(cls):
        cls.file = PUBLISHED.read_bytes()
        cls.names = Names.build(cls.file)
        cls.entries = entries(cls.file)

    def test_index(self):
        self.assertEqual(self.names.index, offsets(self.file))
        self.assertGreater(len(self.names.index), 30_000)
        self.assertEqual(Names.check(self.file, self.names.index).index, self.names.index)
        self.refuses(63, Names.check, self.file, self.names.index[:-1])
        self.refuses(60, Names.build, self.file[:-1])
        self.refuses(61, Names.build, self.file + SNOWMAN)

    def test_every_name(self):
        """Each is found, and Python, where it has the name, gives it the same code."""
        known = 0
        for at in range(0, len(self.entries), MOST_LITERALS):
            script, run, codes = b"", [], ""
            for name, code, _ in self.entries[at : at + MOST_LITERALS]:
                body = b"\\N{" + name + b"}"
                run.append(Literal(0, False, len(script) + 1, len(body), len(script), len(script) + len(body) + 2))
                script += b"'" + body + b"'"
                codes += chr(code)
                try:
                    self.assertEqual(ord(unicodedata.lookup(name.decode())), code)
                    known += 1
                except KeyError:
                    pass
            self.assertEqual(read(script, run, self.names).records[0].text, codes)
        print(f"names: {len(self.entries)} found, {known} of them by Python with the same code")
        self.assertGreater(known, 30_000)

    def test_others(self):
        for name in ("SNOWMA", "SNOWMANS", "snowman", "<control>", "NULL", "CJK UNIFIED IDEOGRAPH-4E00", "HANGUL SYLLABLE GA"):
            self.refuses(13, read_body, f"\\N{{{name}}}", self.names)


class Command(test_command.Command):
    """The command with a file of names, the system's or another."""

    SOURCE = "f'{x}\\N{SNOW}'"
    LISTED = "a.py:1:4\tx\t\t\n"

    def setUp(self):
        super().setUp()
        self.enterContext(mock.patch.object(stumpgarret, "SYSTEM_NAMES", "system.txt"))

    def put(self, name, content):
        pathlib.Path(name).write_bytes(content)
        return name

    def said(self, path, number, name):
        return f"^stumpgarret: the file of names {path} is refused: {number} {name}: .*; --names FILE names another\n$"

    def test_system(self):
        status, out, err = self.run_on(a=self.SOURCE)
        self.assertEqual((status, out), (1, ""))
        self.assertRegex(err, "^a.py:1:9: refused: 13 name not held: ")
        self.put("system.txt", SMALL)
        self.assertEqual(self.run_on(a=self.SOURCE), (0, self.LISTED, ""))
        self.assertEqual(self.run_on(a="f'{x}\\N{OHM SIGN}'")[0], 1)

    def test_named(self):
        """Another file in place of the system's, which is not looked at."""
        self.put("system.txt", b"not a file of names")
        self.put("names.txt", SMALL)
        self.assertEqual(self.run_on("--names", "names.txt", a=self.SOURCE), (0, self.LISTED, ""))
        self.put("empty.txt", b"")
        self.assertEqual(self.run_on("--names", "empty.txt", a=self.SOURCE)[:2], (1, ""))

    def test_refused(self):
        """Whether it is named or the system's, it is told with its number, and there is no list by other names."""
        for content, number, name in ((SNOW[:-1], 60, "line malformed"), (SNOW + SNOW, 61, "name twice")):
            self.put("system.txt", content)
            for options, path in (([], "system.txt"), (["--names", "system.txt"], "system.txt")):
                for more in ([], ["--json"], ["--html", "page.html"]):
                    status, out, err = self.run_on(*options, *more, a=self.SOURCE, b="f'{y}'")
                    ends = [json.loads(line)["kind"] for line in out.splitlines()]
                    self.assertEqual((status, ends), (2, ["end"] if more == ["--json"] else []))
                    self.assertRegex(err, self.said(path, number, name))
            self.assertFalse(os.path.exists("page.html"))

    def test_unread(self):
        status, out, err = self.run_on("--names", "none\n.txt", a="f'{y}'")
        said = r"stumpgarret: the file of names none\n.txt cannot be read: No such file or directory" "\n"
        self.assertEqual((status, out, err), (2, "", said))
        self.assertEqual(self.run_on("--names", "", a="f'{y}'")[:2], (2, ""))
        os.mkdir("system.txt")
        said = "stumpgarret: the file of names system.txt cannot be read: Is a directory\n"
        self.assertEqual(self.run_on(a=self.SOURCE), (2, "", said))

    def test_when_it_is_read(self):
        """A named file at once; the system's once, when a script asks for a name, however that is coded."""
        self.put("names.txt", b"not a file of names")
        self.assertEqual(self.run_on("--names", "names.txt", a="f'{x}'")[:2], (2, ""))
        self.put("system.txt", b"not a file of names")
        self.assertEqual(self.run_on(a="f'{x}'"), (0, self.LISTED, ""))
        coded = b"# coding: raw_unicode_escape\nf'{x}\\u005cN{SNOW}'"
        self.assertEqual(self.run_on(a=coded)[:2], (2, ""))
        self.put("system.txt", SMALL)
        self.assertEqual(self.run_on(a=coded), (0, self.LISTED.replace("1:4", "2:4"), ""))
        for scripts, builds in (({"a": "f'{x}'"}, 0), ({"a": self.SOURCE, "b": self.SOURCE, "c": "f'{x}'"}, 1)):
            with calls_of("names_build") as built, calls_of("fields_named") as named, calls_of("fields") as plain:
                self.assertEqual(self.run_on(**scripts)[0], 0)
            self.assertEqual((len(built), len(named), len(plain)), (builds, 2 * builds, 1))

    @unittest.skipUnless(test_command.IS_3_11, "Python 3.11 has the grammar")
    def test_check(self):
        self.put("system.txt", line("2603", "SNOWMAN"))
        source = "f'{x:{w}\\N{SNOWMAN}}\\N{SNOWMAN}{y!r}'"
        status, out, err = self.run_on("--check", a=source)
        self.assertEqual((status, len(out.splitlines()), err), (0, 3, ""))
        status, out, err = self.run_on("--check", a="f'{x}\\N{snowman}'")
        self.assertEqual((status, out), (1, ""))
        self.assertRegex(err, "^a.py:1:9: refused: 13 .*\na.py:1: Python alone has f'{x}'\n$")


class Page(test_page.Command):
    def setUp(self):
        super().setUp()
        self.enterContext(mock.patch.object(stumpgarret, "SYSTEM_NAMES", "system.txt"))

    def names_said(self, *options, **given):
        page, _ = self.page(*options, **given)
        return [said for _, said in page.said if said.startswith("Names of characters")]

    def test_page(self):
        """It says of each script that asks for a name where that is taken from."""
        source = Command.SOURCE
        self.assertEqual(self.names_said(status=1, a=source), ["Names of characters: fourteen, of the library"])
        pathlib.Path("system.txt").write_bytes(SMALL)
        said = f", SHA-256 {hashlib.sha256(SMALL).hexdigest()}, {len(SMALL)} bytes"
        self.assertEqual(self.names_said(a=source, b="f'{x}'"), [f"Names of characters: system.txt{said}"])
        pathlib.Path("system.txt").rename("<&>.txt")
        named = self.names_said("--names", "<&>.txt", a=source, b=source)
        self.assertEqual(named, 2 * [f"Names of characters: <&>.txt{said}"])
        self.assertEqual(self.names_said(a="f'{x}'"), [])


if __name__ == "__main__":
    unittest.main()
