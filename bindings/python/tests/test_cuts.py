"""Long templates broken over lines: the planner, the check and the command, against Python's own `ast` and a search."""

import ast
import contextlib
import io
import itertools
import os
import pathlib
import random
import subprocess
import sys
import sysconfig
import tempfile
import tokenize
import unittest
import warnings
from unittest import mock

from support import TESTS

import stumpgarret
import stumpgarret_wrap

LIBRARY = pathlib.Path(sysconfig.get_path("stdlib"))


def number(body, limit, cuts):
    """The check's number, 0 if it passes."""
    try:
        stumpgarret.check_cuts(body, limit, cuts)
    except stumpgarret.Refusal as refusal:
        return refusal.number
    return 0


def pieces(body, cuts):
    return [body[begin:end] for begin, end in zip([0, *cuts], [*cuts, len(body)])]


def alone(body):
    """What one body reads as, without places; None if it is refused."""
    literal = stumpgarret.Literal(stumpgarret.Kind.FSTRING, False, 0, len(body), 0, len(body) + 3)
    try:
        return stumpgarret_wrap._shapes(stumpgarret.read(body, [literal]).records)
    except stumpgarret.Refusal:
        return None


def joined(readings):
    """Records one after the other; texts that touch are one."""
    records = []
    for record in itertools.chain(*readings):
        if records and isinstance(record, str) and isinstance(records[-1], str):
            records[-1] += record
        else:
            records.append(record)
    return records


def model(body, limit, cuts):
    """The number, by the request's four conditions."""
    if not all(low < high for low, high in zip([0, *cuts], [*cuts, len(body)])) and (cuts or body):
        return 64 if cuts else 0
    if any(len(piece) > limit for piece in pieces(body, cuts)):
        return 65
    readings = [alone(piece) for piece in pieces(body, cuts)]
    if None in readings:
        return 66
    return 0 if joined(readings) == alone(body) else 67


class Checks(unittest.TestCase):
    def test_numbers(self):
        for body, limit, cuts, expected in [
            (b"abcd", 2, [2], 0),
            (b"", 0, [], 0),
            (b"abcd", 9, [0], 64),
            (b"abcd", 9, [4], 64),
            (b"abcd", 9, [2, 2], 64),
            (b"ab}", 1, [2, 1], 64),
            (b"ab}", 1, [1], 65),
            (b"ab}", 2, [1], 66),
            (b"\\101", 4, [2], 67),
            (b"\\101", 4, [2, 3], 67),
            (b"\\18", 4, [2], 0),
            ("é".encode(), 4, [1], 66),
        ]:
            self.assertEqual(number(body, limit, cuts), expected, (body, limit, cuts))

    def test_each_condition_for_every_list_of_cuts(self):
        alphabet = [b"a", b"{", b"}", b"\\", b"0", b"7", b"n", "é".encode(), b"x"]
        bodies = [b"".join(letters) for size in range(5) for letters in itertools.product(alphabet, repeat=size)]
        bodies = random.Random(10).sample(bodies, 700) + [b"{x}a{y!r}", b"\\N{OHM SIGN}", b"\\1012", b"{{{x:{w}}}}", "aΩ測😀b".encode()]
        for body in bodies:
            inside = range(1, len(body))
            every = itertools.chain(*(itertools.combinations(inside, size) for size in range(min(len(body), 4))))
            lists = [list(cuts) for cuts in every]
            for limit in {1, 2, len(body)}:
                for cuts in lists:
                    self.assertEqual(number(body, limit, cuts), model(body, limit, cuts), (body, limit, cuts))

    def test_numbers_that_are_none(self):
        with self.assertRaises(ValueError):
            stumpgarret.check_cuts(b"abcd", 9, [2**32])
        with self.assertRaises(ValueError):
            stumpgarret.plan_cuts(b"abcd", -1)
        with self.assertRaises(TypeError):
            stumpgarret.plan_cuts(b"abcd", "9")
        with self.assertRaises(TypeError):
            stumpgarret.plan_cuts(7, 9)

    def test_words(self):
        with self.assertRaises(stumpgarret.Refusal) as caught:
            stumpgarret.check_cuts("{x}", 9, [1])
        self.assertEqual(str(caught.exception), "refused: 66 piece refused: a piece between cuts is refused by itself")


def by_search(body, limit):
    """The list of the request's promise among all that pass, or None."""
    inside = range(1, len(body))
    passing = [cuts for size in range(len(body) or 1) for cuts in itertools.combinations(inside, size) if not number(body, limit, cuts)]
    before = ()
    while True:
        if before in passing:
            return list(before)
        later = [cuts[len(before)] for cuts in passing if cuts[: len(before)] == before and len(cuts) > len(before)]
        if not later:
            return None
        before = (*before, max(later))


class Plans(unittest.TestCase):
    def test_the_one_list_that_a_search_finds(self):
        tokens = [b"a", b"{{", b"}}", b"{x}", b"\\n", b"\\101", b"\\{{", "é".encode(), b"{", b"\\"]
        chosen = random.Random(11)
        for _ in range(250):
            body = b"".join(chosen.choices(tokens, k=chosen.randrange(6)))[:11]
            for limit in range(6):
                self.assertEqual(stumpgarret.plan_cuts(body, limit), by_search(body, limit), (body, limit))

    def test_a_body_too_long_to_be_read_has_none(self):
        self.assertIsNone(stumpgarret.plan_cuts(b"a" * 1_048_577, 79))
        self.assertEqual(len(stumpgarret.plan_cuts(b"a" * 1_048_576, 79)), 13_273)


def templates(share):
    """Bodies of the f'..' of Python's own library, over 20 bytes and in one line."""
    files = sorted(LIBRARY.rglob("*.py"))
    for path in files[:: max(1, len(files) // share)]:
        try:
            with tokenize.open(path) as file:
                tokens = list(tokenize.generate_tokens(file.readline))
        except (SyntaxError, UnicodeDecodeError, tokenize.TokenError):
            continue
        for token in tokens:
            text = token.string
            if token.type == tokenize.STRING and text[:2] in ("f'", 'f"') and text[1:4] != text[1] * 3 and len(text) > 23 and "\n" not in text:
                yield text


class PythonsOwn(unittest.TestCase):
    """Every so many files of Python's library; with STUMPGARRET_TRY_ALL in the environment, all of them."""

    @unittest.skipIf(sys.version_info[:2] != (3, 11), "Python 3.11 is wanted")
    def test_pieces_side_by_side_are_the_same_f_string(self):
        share = 10**6 if "STUMPGARRET_TRY_ALL" in os.environ else 120
        seen = planned = 0
        for text in templates(share):
            quote, body = text[1], text[2:-1].encode()
            seen += 1
            for limit in (20, 33, 60):
                cuts = stumpgarret.plan_cuts(body, limit)
                if cuts is None:
                    continue
                planned += 1
                self.assertEqual(number(body, limit, cuts), 0, (text, limit))
                apart = "".join(f"f{quote}{piece.decode()}{quote} " for piece in pieces(body, cuts))
                with warnings.catch_warnings():
                    warnings.simplefilter("ignore")
                    self.assertEqual(ast.dump(ast.parse(apart)), ast.dump(ast.parse(text)), (text, limit))
        self.assertGreater(seen, 20)
        self.assertGreater(planned, seen)


def run(*arguments):
    """Status, standard output and standard error of the command, in this process."""
    out, err = io.StringIO(), io.StringIO()
    written = []
    with mock.patch.object(stumpgarret_wrap, "put", written.append), contextlib.redirect_stdout(out), contextlib.redirect_stderr(err):
        try:
            status = stumpgarret.main(["wrap", *arguments])
        except SystemExit as exit:
            status = exit.code
    return status, b"".join(written).decode(), err.getvalue()


class Command(unittest.TestCase):
    def setUp(self):
        folder = tempfile.TemporaryDirectory()
        self.addCleanup(folder.cleanup)
        self.folder = pathlib.Path(folder.name)

    def script(self, text, name="bench.py"):
        path = self.folder / name
        path.write_bytes(text.encode())
        return str(path)

    def test_in_brackets_it_is_aligned(self):
        path = self.script("print(f'rail {rail:<8} at {mv / 1000:.3f} V', end='')\n")
        lines = "      f'rail {rail:<8} at '\n      f'{mv / 1000:.3f} V'\n"
        self.assertEqual(run("--limit", "27", path + ":1:7"), (0, lines, ""))
        self.assertEqual(max(map(len, lines.split("\n"))), 27)

    def test_in_none_brackets_are_put_around(self):
        path = self.script("if x:\n    y = f'rail {rail:<8} at {mv / 1000:.3f} V'\n")
        lines = "(\n        f'rail {rail:<8} at '\n        f'{mv / 1000:.3f} V'\n    )\n"
        self.assertEqual(run("--limit", "29", path + ":2"), (0, lines, ""))

    def test_what_is_short_stays(self):
        path = self.script("x = ('a' f'{x}'\n     f'{y}')\n")
        self.assertEqual(run(path + ":1"), (0, "     'a'\n     f'{x}'\n     f'{y}'\n", ""))

    def test_why_it_cannot(self):
        for text, said in [
            ("x = f'{aaaaaaaaaaaaaaaaaaaa}'\n", "22 bytes that cannot be cut, such as a field, stand in it, and there is room for 9"),
            ("x = 'aaaaaaaaaaaaaaaaaaaaaa'\n", "this literal is too long, and only an f'..' is broken, not one with another prefix"),
            ("x = f'''a\nb'''\n", "this literal stands over several lines"),
            ("x = f'aaaaaaaaaaaaaaaaaa}'\n", "25 SingleRbrace: a single } stands in an f-string"),
        ]:
            path = self.script(text)
            status, out, err = run("--limit", "16", path + ":1")
            self.assertEqual((status, out), (1, ""), text)
            self.assertTrue(err.endswith(said + "\n"), err)
        self.assertEqual(run("--limit", "5", self.script("x = f'{abc}'\n") + ":1")[0], 1)

    def test_a_piece_that_would_end_with_its_own_quotes(self):
        path = self.script("x = f'''aaaaaaaaa'aaaaaaaaa'''\n")
        status, out, err = run("--limit", "21", path + ":1")
        self.assertEqual((status, out), (1, ""))
        self.assertIn("a piece ends with the quotes that close it", err)

    def test_check(self):
        old = self.script("print(f'rail {rail:<8} at {mv / 1000:.3f} V')\n", "old.py")
        lines = run("--limit", "27", old + ":1")[1]
        new = self.script(f"print(\n{lines})\n", "new.py")
        self.assertEqual(run("--limit", "27", "--check", old + ":1", new + ":2"), (0, "", ""))
        status, _, err = run("--limit", "26", "--check", old + ":1", new + ":2")
        self.assertEqual((status, err.endswith("ends at byte 27 of its line, behind 26\n")), (1, True), err)
        other = self.script(f"print(\n{lines.replace('V', 'W')})\n", "other.py")
        status, _, err = run("--check", old + ":1", other + ":2")
        self.assertEqual((status, "byte 34 differs" in err), (1, True), err)
        octal = self.script("x = f'\\101'\ny = (f'\\1' f'01')\n", "octal.py")
        status, _, err = run("--check", octal + ":1", octal + ":2")
        self.assertEqual((status, "67 readings differ" in err), (1, True), err)
        status, _, err = run("--check", new + ":2", old + ":1")
        self.assertEqual((status, "one f'..' is wanted here" in err), (2, True), err)

    def test_wrong_use(self):
        path = self.script("x = f'{y}'\n")
        self.assertEqual(run(path)[0], 2)
        self.assertEqual(run("--limit", "-1", path + ":1")[0], 2)
        self.assertEqual(run("--limit", "many", path + ":1")[0], 2)
        self.assertEqual(run(path + ":7")[0], 2)
        self.assertEqual(run(path + "x:1")[0], 2)
        self.assertEqual(run("--help")[0], 0)

    def test_the_command_itself(self):
        path = self.script("print(f'rail {rail:<8} at {mv / 1000:.3f} V')\n")
        command = [sys.executable, str(TESTS.parent / "stumpgarret.py"), "wrap", "--limit", "27", path + ":1"]
        ended = subprocess.run(command, capture_output=True, check=True)
        self.assertEqual(ended.stdout, b"      f'rail {rail:<8} at '\n      f'{mv / 1000:.3f} V'\n")


if __name__ == "__main__":
    unittest.main()
