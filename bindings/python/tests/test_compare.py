"""Two revisions compared: `compare`, the call behind it against a model, and the command `stumpgarret compare`.

    python3 test_compare.py --all       200,000 pairs of answers, where each run of the tests takes a sample
"""

import collections
import contextlib
import ctypes
import dataclasses
import io
import itertools
import os
import pathlib
import random
import subprocess
import sys
import sysconfig
import tempfile
import tokenize
import unittest
from unittest import mock

from support import CLONE, stumpgarret

import by_python
import compare_model
import stumpgarret_compare
from stumpgarret import Answer, Bytes, Comparison, Field, Refusal, Sort, Text


def read(line):
    return stumpgarret.read(line, stumpgarret.literals(line, 0).literals)


def compare(old, new):
    return stumpgarret.compare(read(old), read(new))


class Compared(unittest.TestCase):
    def test_front_then_back(self):
        for old, new, expected in [
            ("f'a{x}b'", "f'a{y}b'", Comparison(1, 1, range(1, 2), range(1, 2))),
            ("f'{x}{x}'", "f'{x}'", Comparison(1, 0, range(1, 2), range(1, 1))),
            ("f'{x}{y}{x}'", "f'{x}{x}'", Comparison(1, 1, range(1, 2), range(1, 1))),
            ("f''", "f'{x}'", Comparison(0, 0, range(0, 0), range(0, 1))),
            ("f'{x:>{w}}{y}'", "f'{x:>{v}}{y}'", Comparison(0, 1, range(0, 1), range(0, 1))),
            ("f'{x!r}'", "f'{x!s}'", Comparison(0, 0, range(0, 1), range(0, 1))),
            ("f'{x}'", "f'{x:}'", Comparison(0, 0, range(0, 1), range(0, 1))),
        ]:
            with self.subTest(old=old, new=new):
                found = compare(old, new)
                self.assertEqual(found, expected)
                self.assertFalse(found.equal)

    def test_what_does_not_count(self):
        for old, new in [
            ("'ab'", "u'a' f'b'"),
            ("f'{x=}'", "f'x={x!r}'"),
            ("b'a'", "rb'a'"),
            ("f'\\x41{x}'", "rf'A' f'{x}'"),
        ]:
            with self.subTest(old=old, new=new):
                self.assertTrue(compare(old, new).equal)
        self.assertFalse(compare("'a'", "b'a'").equal)

    def test_edited(self):
        answer = read("f'VDD {mv:>6,} mV'")
        field = answer.records[1]
        wider = dataclasses.replace(field, spec=(dataclasses.replace(field.spec[0], text=">8,"),))
        edited = dataclasses.replace(answer, records=(answer.records[0], wider, answer.records[2]))
        self.assertEqual(stumpgarret.compare(answer, edited), Comparison(1, 1, range(1, 2), range(1, 2)))

    def test_refused(self):
        good = read("f'{x}'")
        for bad in [
            dataclasses.replace(good, sort=Sort.PLAIN),
            dataclasses.replace(good, sort=3),
            dataclasses.replace(good, records=(Text("\ud800", 0, 0, False),)),
            dataclasses.replace(good, records=(dataclasses.replace(good.records[0], conversion="q"),)),
            dataclasses.replace(good, records=(Bytes(b"a", 0, 0),)),
        ]:
            with self.subTest(bad=bad):
                for number, sides, which in (57, (bad, good), "first"), (58, (good, bad), "second"), (57, (bad, bad), "first"):
                    with self.assertRaises(Refusal) as caught:
                        stumpgarret.compare(*sides)
                    self.assertEqual(caught.exception.number, number)
                    self.assertIn(f"refused: {number} {which} answer not well formed: its", str(caught.exception))

    def test_wrong_types(self):
        with self.assertRaisesRegex(TypeError, "an Answer is wanted, not str"):
            stumpgarret.compare("a", read("f'{x}'"))
        with self.assertRaisesRegex(TypeError, "a Text, a Field or Bytes is wanted, not int"):
            stumpgarret.compare(dataclasses.replace(read("f'{x}'"), records=(1,)), read("f'{x}'"))


# Against a model

LENT = collections.namedtuple("LENT", "numbers words text")
FILL = 9


def lent(sort, records):
    """An answer of records as (kind, text, mode, parts), laid out by the rules."""
    words, text = [], b""
    for kind, own, mode, parts in records:
        words += [kind, len(text), len(own), 0, 0, mode, parts, 0]
        text += own
    return LENT([0, int(sort), 0, 0, 0, len(records), len(text), 0, 0, 0, 0, 0], words, text)


def records_of(answer):
    words = answer.words
    rows = (words[at : at + 8] for at in range(0, 8 * answer.numbers[5], 8))
    return [(kind, answer.text[offset : offset + size], mode, parts) for kind, offset, size, _, _, mode, parts, _ in rows]


def items_of(answer):
    """The records of each top-level item of an answer that was read."""
    items, owed = [], 0
    for record in records_of(answer):
        if not owed:
            items.append([])
        items[-1].append(record)
        owed = max(owed - 1, 0) + record[3]
    return items


def readings(count):
    """What the runs of f-strings of Python's library read as, and some others."""
    found = []
    for path in sorted(pathlib.Path(sysconfig.get_path("stdlib")).glob("*.py")):
        try:
            with tokenize.open(path) as file:
                text = file.read()
            runs = [*by_python.runs(text)]
        except (SyntaxError, UnicodeDecodeError, tokenize.TokenError):
            continue
        script = text.encode()
        for run in runs:
            if any(literal.kind in (1, 4) for literal in run) or len(found) % 7 == 0:
                answer, words, own = stumpgarret._call(script, stumpgarret._numbers(run), [])
                if not answer[0]:
                    found.append(LENT(answer, words, bytes(own)))
        if len(found) > count:
            break
    return found


CONVERSIONS = 0, 97, 114, 115


def edited(chance, answer, pool):
    """The same answer with an item left out, put in, moved or changed; or with a word, a number or a byte changed."""
    items = items_of(answer)
    sort = answer.numbers[1]
    way = chance.randrange(9)
    if way < 5 and sort == 1:
        if way == 0 and items:
            del items[chance.randrange(len(items))]
        elif way == 1:
            other = items_of(chance.choice(pool))
            items[chance.randrange(len(items) + 1) :][:0] = other
            items = [item for item in items if item[0][0] != 4]
        elif way == 2 and items:
            at = chance.randrange(len(items))
            items.insert(chance.randrange(len(items)), items.pop(at))
        elif items:
            item = chance.choice(items)
            at = chance.randrange(len(item))
            kind, own, mode, parts = item[at]
            if kind == 2 and way == 3:
                mode = chance.choice(CONVERSIONS)
            elif kind != 3:
                own = own[: len(own) // 2] + chance.choice([b"", b"x", "é".encode()]) if own.isascii() else own
            item[at] = kind, own, mode, parts
        return lent(sort, [*itertools.chain.from_iterable(items)])
    numbers, words, text = [*answer.numbers], [*answer.words], bytearray(answer.text)
    if way == 5 and words:
        words[chance.randrange(len(words))] = chance.choice([0, 1, 2, 3, 4, 5, 97, 114, 115, 2**32 - 1])
    elif way == 6 and text:
        text[chance.randrange(len(text))] = chance.choice(b"x\xff\x80")
    elif way == 7:
        numbers[chance.choice([0, 1, 5, 6])] = chance.choice([0, 1, 2, 3, len(words) // 8, len(text), 2**32 - 1])
    elif len(words) >= 8:
        # what does not count
        words[8 * chance.randrange(len(words) // 8) + chance.choice([3, 4, 7])] = chance.randrange(2**32)
    if chance.random() < 0.3:
        words += [chance.randrange(6) for _ in range(chance.randrange(9))]
        text += b"\xff" * chance.randrange(3)
    return LENT(numbers, words, bytes(text))


def array(numbers):
    return (ctypes.c_uint32 * len(numbers))(*numbers)


def ours(first, second, room):
    """The twelve numbers, and the list."""
    sides = [(array(words), len(words), text, len(text), array(numbers)) for numbers, words, text in (first, second)]
    numbers, answer = array([FILL] * room), array([FILL] * 12)
    stumpgarret._function("compare")(*itertools.chain.from_iterable(sides), numbers, room, answer)
    return [*answer], [*numbers]


def expected(first, second, room):
    numbers, listed = compare_model.compare(first, second, room)
    return numbers, [0] * room if listed is None else listed + [FILL] * (room - len(listed))


def try_pairs(case, chance, count, pool):
    """How many pairs gave each number."""
    tally = collections.Counter()
    for _ in range(count):
        first = chance.choice(pool)
        second = edited(chance, first, pool)
        while chance.random() < 0.3 and not second.numbers[0] and second.numbers[5] * 8 <= len(second.words):
            second = edited(chance, second, pool)
        if chance.random() < 0.1:
            first, second = second, chance.choice(pool)
        if chance.random() < 0.5:
            first, second = second, first
        needed = first.numbers[5] + second.numbers[5]
        room = chance.choice([0, 1, 2, min(needed, 99), 99])
        found = ours(first, second, room)
        case.assertEqual(found, expected(first, second, room), (first, second, room))
        tally[found[0][0] or ("equal" if not any(found[0][5:7]) else "differ")] += 1
    return dict(sorted(tally.items(), key=str))


class Sample(unittest.TestCase):
    def test_pairs(self):
        tally = try_pairs(self, random.Random(8), 3000, readings(400))
        print(f"compare: {sum(tally.values())} pairs, {tally}")
        self.assertEqual(set(tally), {"equal", "differ", 57, 58, 59})
        self.assertTrue(all(count > 50 for count in tally.values()), tally)


# The command

OLD = """\
print(f"VDD {mv:>6,} mV", x)
y = 'plain'
z = f"{a!r:>{w}} and {b=}"
q = b'\\xff' b'a'
t = f"\\N{DEGREE SIGN} {t:.1f}"
"""
NEW = """\
import os
print(f"VDD {mv:>8,} mV", x)
y = f'plain'
new = 'here\\n'
z = f"{a!s:>{w}} and {b=}"
q = b'\\xff' b'b'
t = f"\\N{DEGREE SIGN} {t:.2f}"
"""


class Command(unittest.TestCase):
    def setUp(self):
        folder = tempfile.TemporaryDirectory()
        self.addCleanup(folder.cleanup)
        self.addCleanup(os.chdir, os.getcwd())
        os.chdir(folder.name)
        pathlib.Path("old.py").write_text(OLD)
        pathlib.Path("new.py").write_text(NEW)

    def run_main(self, *arguments):
        with tempfile.TemporaryFile("w+") as out, contextlib.redirect_stdout(out):
            with contextlib.redirect_stderr(io.StringIO()) as err:
                status = stumpgarret.main(["compare", *arguments])
            out.seek(0)
            return status, out.read(), err.getvalue()

    def test_places(self):
        said = "--- old.py:1:7\n+++ new.py:2:7\n  1 equal item in front\n- {mv:>6,}\n+ {mv:>8,}\n  1 equal item behind\n"
        self.assertEqual(self.run_main("old.py:1", "new.py:2"), (1, said, ""))
        self.assertEqual(self.run_main("old.py:1:10", "new.py:2:7"), (1, said, ""))
        self.assertEqual(self.run_main("old.py:2", "new.py:3"), (0, "--- old.py:2:5\n+++ new.py:3:5\n  1 equal item\n", ""))
        said = "--- old.py:3:5\n+++ new.py:5:5\n- {a!r:>{w}}\n+ {a!s:>{w}}\n  2 equal items behind\n"
        self.assertEqual(self.run_main("old.py:3", "new.py:5"), (1, said, ""))
        said = "--- old.py:4:5\n+++ new.py:4:7\n- b'\\xffa'\n+ 'here\\n'\n"
        self.assertEqual(self.run_main("old.py:4", "new.py:4"), (1, said, ""))

    def test_scripts(self):
        said = """\
--- old.py:1:7
+++ new.py:2:7
  1 equal item in front
- {mv:>6,}
+ {mv:>8,}
  1 equal item behind
+++ new.py:4:7
+ 'here\\n'
--- old.py:3:5
+++ new.py:5:5
- {a!r:>{w}}
+ {a!s:>{w}}
  2 equal items behind
--- old.py:4:5
+++ new.py:6:5
- b'\\xffa'
+ b'\\xffb'
--- old.py:5:5
+++ new.py:7:5
  1 equal item in front
- {t:.1f}
+ {t:.2f}
"""
        self.assertEqual(self.run_main("old.py", "new.py"), (1, said, ""))
        self.assertEqual(self.run_main("old.py", "old.py"), (0, "", ""))
        pathlib.Path("none.py").write_text("x = 1\n")
        self.assertEqual(self.run_main("none.py", "none.py"), (0, "", ""))
        status, out, err = self.run_main("new.py", "none.py")
        self.assertEqual((status, err), (1, ""))
        self.assertEqual([line[:3] for line in out.splitlines() if line[:2] not in ("- ",)], ["---"] * 6)

    def test_as_written(self):
        """Fields and texts on one line, whatever they hold."""
        pathlib.Path("a.py").write_text("f'''{\n x!r:>{\n w}}\u2028'''")
        pathlib.Path("b.py").write_text("''")
        said = "--- a.py:1:1\n+++ b.py:1:1\n- {\\n x!r:>{\\n w}}\n- '\\u2028'\n+ ''\n"
        self.assertEqual(self.run_main("a.py", "b.py"), (1, said, ""))

    def test_names(self):
        """A field behind a name of a file is shown as it is written, too."""
        pathlib.Path("names.txt").write_text("2603;SNOWMAN;So;0;ON;;;;;N;;;;;\n")
        pathlib.Path("a.py").write_text("f'\\N{SNOWMAN}{x !r:>5}'")
        pathlib.Path("b.py").write_text("f'\u2603{x!r:>5}'")
        said = "--- a.py:1:1\n+++ b.py:1:1\n  1 equal item in front\n- {x !r:>5}\n+ {x!r:>5}\n"
        self.assertEqual(self.run_main("--names", "names.txt", "a.py:1", "b.py:1"), (1, said, ""))
        status, out, err = self.run_main("--names", "no.txt", "a.py", "b.py")
        self.assertEqual((status, out), (2, ""))
        self.assertIn("the file of names no.txt cannot be read", err)

    def test_refused(self):
        pathlib.Path("a.py").write_text("x = f'{(]}'\ny = f'{y}'\n")
        pathlib.Path("b.py").write_text("y = f'{z}'\n")
        status, out, err = self.run_main("a.py", "b.py")
        self.assertEqual((status, out), (2, "--- a.py:2:5\n+++ b.py:1:5\n- {y}\n+ {z}\n"))
        self.assertEqual(err, "a.py:1:10: 23 MismatchedDelimiter: ( is closed by ]\n")
        self.assertEqual(self.run_main("a.py:1", "b.py:1"), (2, "", err))
        pathlib.Path("c.py").write_text("y = f'{z}'\nx = 'a\n")
        status, out, err = self.run_main("b.py", "c.py")
        self.assertEqual((status, out, err), (2, "", "c.py:2:5: 51 newline in a literal of one quote\n"))

    def test_unusable(self):
        for arguments, said in [
            (("old.py:9", "new.py:1"), "old.py has 6 lines, and line 9 is none of them\n"),
            (("no.py", "new.py"), "no.py: No such file or directory\n"),
            (("old.py:1", "new.py:1"), "new.py:1: no string literal stands there\n"),
        ]:
            self.assertEqual(self.run_main(*arguments), (2, "", said))

    def test_standard_input(self):
        with mock.patch.object(sys, "stdin", mock.Mock(buffer=io.BytesIO(OLD.encode()))):
            status, out, err = self.run_main("-:1", "new.py:2")
        self.assertEqual((status, out.splitlines()[0], err), (1, "--- <stdin>:1:7", ""))

    def test_wrong_use(self):
        for arguments, said in [
            (("old.py",), "OLD and NEW are wanted"),
            (("old.py:1", "new.py"), "a line is wanted of both"),
            (("-", "-"), "cannot both be standard input"),
        ]:
            with contextlib.redirect_stderr(io.StringIO()) as err, self.assertRaises(SystemExit) as caught:
                stumpgarret.main(["compare", *arguments])
            self.assertEqual(caught.exception.code, 2)
            self.assertIn(said, err.getvalue())

    def test_help(self):
        with contextlib.redirect_stdout(io.StringIO()) as out, self.assertRaises(SystemExit) as caught:
            stumpgarret.main(["compare", "--help"])
        self.assertEqual(caught.exception.code, 0)
        self.assertRegex(out.getvalue(), r"That pairing is not proved, nor is\s+how the runs are found; each comparison is\.")

    def test_failures(self):
        for name, failure, expected in [
            ("_compare_scripts", KeyboardInterrupt, (130, "", "interrupted\n")),
            ("_compare_scripts", RuntimeError("so"), (2, "", "stumpgarret: RuntimeError: so\n")),
        ]:
            with mock.patch.object(stumpgarret_compare, name, side_effect=failure):
                self.assertEqual(self.run_main("old.py", "new.py"), expected)
        with mock.patch.object(stumpgarret, "_function", side_effect=stumpgarret.Unavailable("none")):
            self.assertEqual(self.run_main("old.py", "new.py"), (2, "", "none\n"))

    def test_standard_output(self):
        """A full disk and a closed standard output are one line, and status 2."""
        command = [sys.executable, "-B", stumpgarret.__file__, "compare"]
        for redirected, said in ((">/dev/full", "standard output: No space left on device\n"), (">&-", "standard output is closed\n")):
            arguments = ["sh", "-c", f'"$@" {redirected}', "sh", *command, "old.py", "new.py"]
            ended = subprocess.run(arguments, stderr=subprocess.PIPE)
            self.assertEqual((ended.returncode, ended.stderr.decode()), (2, said))


def main():
    tally = try_pairs(unittest.TestCase(), random.Random(58), 200_000, readings(5000))
    print(f"compare: {sum(tally.values())} pairs, {tally}")


if __name__ == "__main__":
    if sys.argv[1:] == ["--all"]:
        main()
    else:
        unittest.main()
