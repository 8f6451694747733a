"""F-strings changed and written back, and what was tried against a model and against Python's own library.

    python3 test_written.py [--all]

A sample is tried as a test of the project; with --all, every f-string of Python's own library and two million records.
"""

import collections
import contextlib
import ctypes
import doctest
import io
import random
import re
import sys
import textwrap
import unittest

from by_python import encoded, runs
from support import CLONE, load, stumpgarret
from written_model import BYTES, FIELD, LITERAL, NUMBERS, SPEC, WORDS, joined, parts_from, read, spelled, write

from stumpgarret import Refusal, Template, TemplateField, Undecodable, literals, text_of

survey = load("oracle/survey")


def ours(words, text, reading, room):
    """The answer's numbers, and the buffer of so many bytes 7 afterwards."""
    lent, twelve = (ctypes.c_uint32 * len(words))(*words), (ctypes.c_uint32 * NUMBERS)(*reading)
    body, answer = (ctypes.c_char * room)(*[b"\7"] * room), (ctypes.c_uint32 * NUMBERS)(*[9] * NUMBERS)
    stumpgarret._function("write")(lent, len(lent), text, len(text), twelve, body, room, answer)
    return list(answer), body.raw


def models(words, text, reading, room):
    number, told, body = write(words, text, reading, room)
    if body is None:
        return [number, *[0] * 8, told, 0, 0], b"\0" * room
    return [0, told, *[0] * 10], body + b"\7" * (room - len(body))


# Texts and expressions of what the rules speak of, and what comes close.
PIECES = "{", "}", "\\", "(", ")", "[", "]", "'", '"', ":", "!", "=", "<", ">", "!=", "==", "x", "y.z", " ", "\n", "\0", "é", "\u00a0"
PLAIN = "x", "a + 1", "f(a, b=2)", "d['k:']", "'!'", "(lambda: 1)()", "[i for i in x if i != 2]", "x == y", "{1: 2}[1]", " x "


def some_text(chance):
    return "".join(chance.choice(PIECES) for _ in range(chance.choice((0, 1, 1, 2, 3, 5)))).encode()


def some_expression(chance):
    return chance.choice(PLAIN).encode() if chance.random() < 0.7 else some_text(chance)


def some_parts(chance, depth):
    parts = []
    for _ in range(chance.choice((0, 1, 1, 2, 3)) if depth else chance.choice((0, 1, 2, 4))):
        if chance.random() < 0.5:
            parts.append(some_text(chance) if depth != 1 or chance.random() < 0.4 else chance.choice((b">5", b".2f", b"\\n")))
        else:
            deeper = chance.random() < (0.5, 0.4, 0.1, 0)[depth]
            parts.append((some_expression(chance), chance.choice((0, 0, 115, 97, 114)), some_parts(chance, depth + 1) if deeper else None))
    return parts


def laid(parts, words, text):
    """The records of parts, with anything in what is left aside."""
    for part in parts:
        if isinstance(part, bytes):
            words += [LITERAL, len(text), len(part), 3, 4, 300, 0, 9]
            text += part
        else:
            expression, conversion, spec = part
            words += [FIELD, len(text), len(expression), 1, 2, conversion, int(spec is not None), 7]
            text += expression
            if spec is not None:
                words += [SPEC, len(text), 0, 5, 6, 0, len(spec), 8]
                laid(spec, words, text)


def some_lent(chance):
    """Words, text, numbers and room: well formed, or with a number or a byte changed."""
    words, text = [], bytearray()
    laid(some_parts(chance, 0), words, text)
    reading = [0, 1, 0, 0, 9, len(words) // WORDS, len(text), 0, 5, 1, 2, 3]
    words += [chance.choice((0, 1, 77))] * chance.choice((0, 0, 0, 1, 8))
    text += b"z" * chance.choice((0, 0, 0, 1))
    fault = chance.random()
    if fault < 0.25 and words:
        at = chance.randrange(len(words))
        words[at] = chance.choice((0, 1, 2, 3, BYTES, 5, words[at] + 1, max(words[at] - 1, 0), 115, 2**32 - 1))
    elif fault < 0.3:
        reading[chance.choice((0, 1, 5, 6))] = chance.choice((0, 1, 2, 3, 2**32 - 1))
    elif fault < 0.33 and text:
        text[chance.randrange(len(text))] = chance.choice((0x80, 0xC3, 0xFF, 0xED))
    elif fault < 0.35 and words:
        words.pop()
    elif fault < 0.36 and text:
        text.pop()
    return words, bytes(text), reading, chance.choice((0, 1, 7, len(text), 2 * len(text) + 9, 4 * (len(text) + len(words))))


def try_records(count, chance):
    seen = collections.Counter()
    for _ in range(count):
        lent = some_lent(chance)
        got, expected = ours(*lent), models(*lent)
        if got != expected:
            raise AssertionError(f"{lent}: {got} and not {expected}")
        seen[got[0][0]] += 1
    return seen


def try_library(paths):
    """Every f-string of scripts, as it is found: read, written, and read back alike; the body written again is the same."""
    seen = collections.Counter()
    for path in paths:
        try:
            text = text_of(path.read_bytes())
            found = list(runs(text))
        except (Undecodable, SyntaxError, ValueError):
            continue
        except Exception as error:  # what tokenize cannot cut
            if type(error).__name__ != "TokenError":
                raise
            continue
        script = encoded(text)
        for run in found:
            try:
                answer = stumpgarret.read(script, run)
            except Refusal:
                continue
            if answer.sort == stumpgarret.Sort.JOINED:
                try_answer(Template.of(answer), seen)
    return seen


def try_answer(template, seen):
    seen["joined answers"] += 1
    try:
        body = template.write()
    except Refusal as refusal:
        seen[refusal.number] += 1
        return
    answer, words, text = read(body.encode())
    records = [words[at : at + WORDS] for at in range(0, answer[5] * WORDS, WORDS)]
    again, _ = parts_from([(own[0], text[own[1] : own[1] + own[2]], own[5], own[6]) for own in records], 0, len(records))
    if joined(again) != joined(plain(template.parts)):
        raise AssertionError(f"{template} is read back as {again}")
    if spelled(again, "top").decode() != body:
        raise AssertionError(f"{body!r} is written again as {spelled(again, 'top')!r}")
    seen["written and read back"] += 1
    seen["literals"] += template.literal() is not None


def plain(parts):
    """A template's parts as the model has them."""
    return [
        part.encode()
        if isinstance(part, str)
        else (part.expression.encode(), ord(part.conversion or "\0"), None if part.spec is None else plain(part.spec))
        for part in parts
    ]


def template_of(body, prefix="f"):
    script = f"{prefix}'''{body}'''"
    return Template.of(stumpgarret.read(script, literals(script, 0).literals))


class Written(unittest.TestCase):
    def test_parts(self):
        template = template_of("a{{{x=}{y!r:>{w}}")
        x, y = TemplateField("x", "r"), TemplateField("y", "r", [">", TemplateField("w")])
        self.assertEqual(template.parts, ["a{x=", x, y])
        self.assertEqual([field.expression for field in template.fields()], ["x", "y", "w"])
        self.assertEqual(template.write(), "a{{x={x!r}{y!r:>{w}}")

    def test_fixed_spelling(self):
        for body, spelling in [
            ("", ""),
            (r"\x5c\x7b\x7d", r"\\{{}}"),
            (r"{x:\n>{w}\n\x7b\x5c}", "{x:\\n>{w}\n\\x7b\\\\}"),
            ("{x!s:}{x=:}", "{x!s:}x={x:}"),
            ("it's \"\"", "it's \"\""),
        ]:
            with self.subTest(body=body):
                self.assertEqual(template_of(body).write(), spelling)

    def test_edits(self):
        template = template_of("{mv:.0f} mV")
        (field,) = template.fields()
        field.spec = [".", TemplateField("digits"), "f"]
        field.conversion = "r"
        template.parts.append("!")
        self.assertEqual(template.literal(), "f'{mv!r:.{digits}f} mV!'")

    def test_quotes(self):
        for parts, literal in [
            (["it's"], "f\"it's\""),
            (["a\nb"], "f'''a\nb'''"),
            (["it's", TemplateField('a["b"]')], "f'''it's{a[\"b\"]}'''"),
            (["a\n'"], 'f"""a\n\'"""'),
            (["'''\"\"\""], None),
            (["a\r"], None),
            (["a\0"], None),
        ]:
            with self.subTest(parts=parts):
                self.assertEqual(Template(parts).literal(), literal)

    def test_a_literal_is_what_python_reads(self):
        x, w = 743.5, 9
        for body in (r"\x5c{x:>{w}}\n\t{{}}", r"{x!r:\t^{w}}", "{x=:{w}.1f}'\"", "{x:{'>'}{w}}"):
            self.assertEqual(eval(template_of(body).literal()), eval(f"f'''{body} '''")[:-1])

    def test_refusals(self):
        for parts, number in [
            ([TemplateField("{x}")], 55),
            ([TemplateField("x", None, ["}"])], 55),
            ([TemplateField("x", None, [TemplateField("y", None, [TemplateField("z")])])], 55),
            ([TemplateField(" ")], 55),
            (["x" * 1_048_577], 55),
            (["\ud800"], 54),
        ]:
            with self.subTest(parts=parts), self.assertRaises(Refusal) as caught:
                Template(parts).write()
            self.assertEqual((caught.exception.number, str(caught.exception)[:11]), (number, f"refused: {number}"))
        self.assertEqual(len(Template(["x" * 1_048_576]).write()), 1_048_576)

    def test_what_is_no_template(self):
        for parts, error in [([1], TypeError), ([TemplateField("x", "q")], ValueError), ([TemplateField("x", "")], ValueError)]:
            with self.subTest(parts=parts), self.assertRaises(error):
                Template(parts).write()
        for script in ("'a'", "b'a'"):
            with self.assertRaises(ValueError):
                Template.of(stumpgarret.read(script, literals(script, 0).literals))

    def test_records_against_the_model(self):
        seen = try_records(4_000, random.Random(6))
        self.assertLessEqual({0, 54, 55, 56}, set(seen))

    def test_library(self):
        seen = try_library(survey.library_paths()[::10])
        print("written:", ", ".join(f"{count} {name}" for name, count in seen.items()))
        self.assertGreater(seen["written and read back"], 100)
        self.assertEqual(seen[54] + seen[56], 0)

    def test_documented(self):
        (test,) = doctest.DocTestFinder(recurse=False).find(Template, "Template", globs={**vars(stumpgarret)})
        self.assertTrue(test.examples)
        self.assertEqual(doctest.DocTestRunner().run(test).failed, 0)

    def test_readme(self):
        """What README shows is run, and prints what the comment behind it says."""
        readme = (CLONE / "bindings/python/README.md").read_text(encoding="utf-8")
        section = readme.split("### F-strings changed and written back")[1]
        example = textwrap.dedent("\n".join(re.findall(r"^    .*$|^$", section.split("\nA part is")[0], re.MULTILINE)))
        printed = io.StringIO()
        with contextlib.redirect_stdout(printed):
            exec(example, {})
        self.assertEqual(printed.getvalue().rstrip("\n"), re.search(r"print\(.*\)  # (.*)", example)[1])


def main():
    print("records:", dict(try_records(2_000_000, random.Random(66))))
    print("library:", dict(try_library(survey.library_paths())))


if __name__ == "__main__":
    if sys.argv[1:] == ["--all"]:
        main()
    else:
        unittest.main()
