# Run with Python 3.11, `python3 crates/try_readings/expected.py`: writes the cases to `stdin` beside it and what must come out to `stdout`, and
# keeps what stands there behind them, the reference's list; `--reference STDIN STDOUT` at the end puts another one there (oracle/fixed).
# With `--check` it writes nothing and fails if one of them is not what it would write.
"""Readings, refusals and limits by docs/RULES.md. What each row expects is worked out from the rules by hand."""
import itertools
import os
import struct
import sys

FILL_WORD, FILL_BYTE = 0xA5A5A5A5, 0xA5
PREFIX = [0, 1, 1, 1, 2, 2, 1]
PLAIN, JOINED, BYTES = 0, 1, 2
NUMBERS = {1, 2, 3, 4, 5, 6, 7, 10, 11, 12, 13, 20, 21, 22, 23, 24, 25, 26, 27, 28, 30, 31}
# Why a brace counts as unclosed (RULES 11.20).
AFTER_BANG, AFTER_CONVERSION, AFTER_EQUALS, IN_FIELD, LAST_BRACE = REASONS = 1, 2, 3, 4, 5
MOST_LITERALS, MOST_BYTES = 1_024, 1_048_576
ROOM = 11, 5

# Each case: the list's numbers, the script's pieces, what is answered, the words and the text afterwards.
cases = []


# What is lent

def side_by_side(*literals, start=0):
    """Literals, each (kind, body) or (kind, body, flag), with nothing between them. The bodies lie in the script in order."""
    numbers, script = [], b""
    for kind, body, *flag in literals:
        end = start + PREFIX[kind] + (6 if flag == [1] else 2) + len(body.encode())
        numbers += [kind, *(flag or [0]), len(script), len(body.encode()), start, end]
        script += body.encode()
        start = end
    return numbers, [(1, script)]


def fstring(body):
    return side_by_side((1, body))


def bodies(lent):
    numbers, pieces = lent
    script = b"".join(times * piece for times, piece in pieces)
    return [script[offset:offset + length] for offset, length in zip(numbers[2::6], numbers[3::6])]


def characters(bodies):
    return sum(len(body.decode()) for body in bodies)


# Records: each is made from the list's numbers. `of` is the literal that a record belongs to.

def literal(text, u=0):
    """A top-level literal."""
    return lambda numbers: (1, text, numbers[4], numbers[-1], u, 0, 0)


def raw(text):
    return lambda numbers: (4, text, numbers[4], numbers[-1], 0, 0, 0)


def field(text, place, conversion="\0", parts=0, of=0):
    return lambda numbers: (2, text, *numbers[6 * of + 4:6 * of + 6], ord(conversion), parts, place)


def spec(parts, of=0):
    return lambda numbers: (3, "", *numbers[6 * of + 4:6 * of + 6], 0, parts, 0)


def part(text, of=0):
    """A literal in a spec."""
    return lambda numbers: (1, text, *numbers[6 * of + 4:6 * of + 6], 0, 0, 0)


# Rows

def reads(lent, sort, *records, room=ROOM):
    """An acceptance. `room` is how many words and text bytes are lent beyond those needed; None is as much as any list of so many bytes and
    literals needs (RULES 5.7)."""
    numbers, pieces = lent
    words, text = [], b""
    for kind, own, *rest in (record(numbers) for record in records):
        own = own if isinstance(own, bytes) else own.encode()
        words += [kind, len(text), len(own), *rest]
        text += own
    lent_bytes = sum(numbers[3::6])
    if room is None:
        room = 8 * (lent_bytes + len(numbers) // 6) - len(words), 2 * lent_bytes - len(text)
    answer = [0, sort, int(numbers[0] == 6), numbers[4], numbers[-1], len(records), len(text), 0, characters(bodies(lent))]
    cases.append((numbers, pieces, answer, words + [FILL_WORD] * room[0], text + bytes([FILL_BYTE] * room[1])))


def refuses(lent, number, place, a=0, b=0, opened=0, literal=0, at=None, room=ROOM):
    """A refusal. `opened` is the place just after the bracket that 23 names. `at` is the line and column: by default the first line, with a column
    for each byte of the body before the place. The characters that were read are those of the literals before and of the refused one up to the
    place; for want of room, all. `room` is how many words and text bytes are lent."""
    numbers, pieces = lent
    line, column, chars = 0, 0, 0
    if 10 <= number <= 28:
        kind, flag, _, _, start, _ = numbers[6 * literal:6 * literal + 6]
        taken = place - start - PREFIX[kind] - (3 if flag else 1)
        line, column = at or (0, taken)
        *before, own = bodies(lent)[:literal + 1]
        chars = characters([*before, own[:taken]])
    elif number in (30, 31):
        chars = characters(bodies(lent))
    cases.append((numbers, pieces, [number, literal, place, a, b, opened, line, column, chars], [0] * room[0], bytes(room[1])))


def counts(chars):
    """Of the last row: the characters that it counts."""
    assert cases[-1][2][8] == chars, cases[-1]


def small_readings():
    """The starred readings (RULES 5.11), in their order; then the examples of the program and near misses."""
    reads(fstring("{x!=y}"), JOINED, field("x!=y", 3))
    refuses(fstring("{x!r b}"), 20, 6, AFTER_CONVERSION)
    refuses(fstring("{x:{y:{z}}}"), 24, 8)
    reads(fstring("{x = }"), JOINED, literal("x = "), field("x ", 3, "r"))
    reads(fstring("{x=()}"), JOINED, literal("x()="), field("x()", 3, "r"))
    reads(fstring(""), JOINED)
    refuses(fstring("{(]}"), 23, 5, ord("("), ord("]"), 4)
    reads(fstring(r"{x:\n>{w}\n}"), JOINED, field("x", 3, parts=1), spec(3), part(r"\n>"), field("w", 9), part("\n"))
    reads(([0, 0, 1, 0, 0, 2, 1, 0, 5, 3, 3, 9], [(1, b'"" f"{x}"')]), JOINED, literal(""), field("x", 6, of=1))
    reads(side_by_side((2, r"\777")), BYTES, raw(b"\xff"))
    reads(side_by_side((0, r"\777")), PLAIN, literal(b"\xc7\xbf"))
    reads(fstring("a{x:>5}"), JOINED, literal("a"), field("x", 4, parts=1), spec(1), part(">5"))
    refuses(fstring("}"), 25, 3)
    reads(side_by_side((0, ""), (1, "{x}"), (0, "")), JOINED, literal(""), field("x", 5, of=1), literal(""))
    reads(fstring("{x=:}"), JOINED, literal("x="), field("x", 3, parts=1), spec(0))


def two_literals():
    """The second of two adjacent literals, as in docs/AUDIT.md; what a whole call carries."""
    script = b'print("VDD = 743 mV, code " f"{743 / 12.5:.0f}")'
    reads(([0, 0, 7, 19, 6, 27, 1, 0, 30, 16, 28, 47], [(1, script)]), JOINED,
          literal("VDD = 743 mV, code "), field("743 / 12.5", 31, parts=1, of=1), spec(1, of=1), part(".0f", of=1))
    reads(side_by_side((6, "a"), (0, "b")), PLAIN, literal("ab", u=1))
    reads(side_by_side((6, "a"), (1, "b{x}"), (3, r"\d")), JOINED, literal("ab", u=1), field("x", 8, of=1), literal(r"\d", u=1))
    reads(side_by_side((2, r"\x41"), (5, r"\x41")), BYTES, raw(r"A\x41"))
    reads(side_by_side((4, r"\{x!a}", 1)), JOINED, literal("\\"), field("x", 7, "a"))
    reads(side_by_side((1, "{x=!s}"), (1, "{y= :{z=}}")), JOINED,
          literal("x="), field("x", 3, "s"),
          literal("y= "), field("y", 12, parts=1, of=1), spec(3, of=1), part("z=", of=1), part("", of=1), field("z", 17, "r", of=1))


def entry_checks():
    good = side_by_side((0, "ab"), (1, "c"))
    numbers, script = good
    reads(good, JOINED, literal("abc"))

    def changed(at, number):
        return numbers[:at] + [number] + numbers[at + 1:], script

    refuses(([], []), 1, 0)
    refuses(([], script), 1, 0, room=(0, 0))
    for count in (1, 5, 7, 6 * MOST_LITERALS + 7):
        refuses(([0] * count, []), 2, 0)
    for at, number, bad in (
            (0, 7, 0), (6, 2**32 - 1, 1), (1, 2, 0), (7, 2**32 - 1, 1),  # kind, flag
            (2, 2, 0), (9, 2, 1), (8, 2**32 - 1, 1), (3, 2**32 - 1, 0),  # body outside the script
            (4, 5, 0), (5, 2, 0), (10, 9, 1),                            # start above end, no room for the body
            (10, 3, 1), (11, 6, 1)):                                     # start below the previous end, one place too few
        refuses(changed(at, number), 4, 0, literal=bad)
    reads(changed(11, 7), JOINED, literal("abc"))
    refuses(([0, 0, 0, 2, 0, 4, 0, 0, 0, 3, 4, 9], [(1, b"a\xff\xfe")]), 6, 2)
    refuses(([0, 0, 0, 1, 0, 3, 4, 1, 0, 3, 9, 20], [(1, b"a\xff\xfe")]), 6, 9 + 5 + 1, literal=1)
    refuses(([5, 0, 0, 3, 2, 8], [(1, b"\xe2\x82\xac"[:2] + b"a")]), 6, 5)
    refuses(side_by_side((2, "a"), (0, "\\"), start=9), 7, 9)
    refuses(side_by_side((1, "}"), (5, "a"), start=2**32 - 20), 7, 2**32 - 20)
    # each check over the whole list before the next
    refuses(([0, 0, 0, 1, 0, 3, 9, 0, 0, 1, 3, 6], [(1, b"\xff")]), 4, 0, literal=1)
    refuses(([2, 0, 0, 1, 0, 4, 0, 0, 1, 1, 4, 7], [(1, b"a\xff")]), 6, 5, literal=1)


def escapes():
    reads(side_by_side((0, r"\\\'\"\a\b\f\n\r\t\v\7\101\x42\u0394\U0001f600\ud800\N{OHM SIGN}\q"), (0, "\\\n")), PLAIN,
          literal("\\'\"\a\b\f\n\r\t\v\7AB\u0394\U0001f600\ufffd\u2126\\q"))
    reads(side_by_side((2, r"\x42\u0394\N{OHM SIGN}\400")), BYTES, raw(b"B\\u0394\\N{OHM SIGN}\0"))
    for body, taken in (("a\\", 2), (r"\N", 2), (r"\Nx", 2), (r"\N{DEGREE SIGN", 14)):
        refuses(side_by_side((0, body)), 10, 1 + taken)
    for body in (r"\x", r"\x4", r"\x4g", r"\u123", r"\U0011000", r"\U00110000", r"\Uffffffff"):
        refuses(side_by_side((6, body)), 11, 2 + 2)
    refuses(side_by_side((2, "aé")), 12, 2 + 3, at=(0, 2))
    refuses(side_by_side((5, "a"), (2, "\\\u20ac", 1)), 12, 5 + 4 + 4, literal=1, at=(0, 2))
    refuses(side_by_side((0, r"\N{degree sign}")), 13, 1 + 3)
    refuses(side_by_side((0, r"\N{" + "A" * 88 + "}")), 13, 1 + 3)
    refuses(side_by_side((0, r"\N{" + "A" * 89 + "}")), 11, 1 + 3 + 90)


def unclosed():
    for body, place, why in (
            ("{x!", 5, AFTER_BANG), ("{x=!", 6, AFTER_BANG), ("{x:{y!", 8, AFTER_BANG),
            ("{x!r", 6, AFTER_CONVERSION), ("{x!rs", 6, AFTER_CONVERSION), ("{x!s }", 6, AFTER_CONVERSION), ("{x=!a=", 7, AFTER_CONVERSION),
            ("{x=y}", 6, AFTER_EQUALS), ("{x= \t}", 7, AFTER_EQUALS), ("{x=(!r", 7, AFTER_EQUALS),
            ("{x", 4, IN_FIELD), ("a{(", 5, IN_FIELD), ("{(!", 5, IN_FIELD), ("{x=", 5, IN_FIELD), ("{x=  ", 7, IN_FIELD), ("{x:", 5, IN_FIELD),
            ("{x:!", 6, IN_FIELD), ("{x:{", 6, IN_FIELD), ("{x:{y}", 8, IN_FIELD), ("{x!r:>5", 9, IN_FIELD), ("{ {", 5, IN_FIELD),
            ("{", 3, LAST_BRACE), ("{{{", 5, LAST_BRACE), ("{x}{", 6, LAST_BRACE)):
        refuses(fstring(body), 20, place, why)
    refuses(fstring("{x=é"), 20, 7, AFTER_EQUALS, at=(0, 4))
    refuses(side_by_side((0, "{x!"), (4, "{x!", 1)), 20, 5 + 5 + 3, AFTER_BANG, literal=1)


def fields():
    refuses(fstring("{x!x}"), 21, 6)
    refuses(fstring("{x!é}"), 21, 7, at=(0, 4))
    for body, place in (("{}", 4), ("{ \t}", 6), ("{!r}", 4), ("{:}", 5), ("{ =}", 6)):
        refuses(fstring(body), 22, place)
    blanks()
    refuses(fstring("{ \t\n}"), 22, 7, at=(1, 1))
    for opener, closer in (("(", "]"), ("[", ")"), ("{", ")"), ("(", "}"), ("[", "}")):
        refuses(fstring("{x" + opener + closer), 23, 6, ord(opener), ord(closer), 5)
    refuses(side_by_side((0, "{"), (4, "{x:{y:{}", 1)), 24, 3 + 5 + 6, literal=1)
    refuses(fstring("a}b"), 25, 4)
    for closer in ")]":
        refuses(fstring("{x" + closer), 26, 5, ord(closer))
    for body, place in (("{'", 4), ("{'a\"", 6), ("{\\", 4), ("{x=\\", 6)):
        refuses(fstring(body), 27, place)
    brackets = lambda count: "(" * count + ")" * count
    reads(fstring("{" + brackets(64) + "}"), JOINED, field(brackets(64), 3))
    refuses(fstring("{" + brackets(65) + "}"), 28, 2 + 1 + 65)
    reads(fstring("{'" + "(" * 65 + "'}"), JOINED, field("'" + "(" * 65 + "'", 3))


def blanks():
    """RULES 4.8: an expression of White_Space alone is refused as an empty one is; U+180E, U+200B and the like are no blanks."""
    two = 0x85, 0xA0
    three = 0x1680, *range(0x2000, 0x200B), 0x2028, 0x2029, 0x202F, 0x205F, 0x3000
    for place, codes in ((6, two), (7, three)):
        for code in codes:
            refuses(fstring("{" + chr(code) + "}"), 22, place, at=(0, 3))
    refuses(fstring("{\t\n\v\f\r \u0085\u00a0\u1680\u2000\u200a\u2028\u2029\u202f\u205f\u3000}"), 22, 2 + 1 + 6 + 2 * 2 + 8 * 3 + 1, at=(1, 15))
    # after the `!`, before what follows it is looked at; at the `}`, after the spec was read; in a field of a spec
    refuses(fstring("{\u00a0!r}"), 22, 6, at=(0, 3))
    refuses(fstring("{\u00a0!x}"), 22, 6, at=(0, 3))
    refuses(fstring("{\u3000:>5}"), 22, 10, at=(0, 6))
    refuses(fstring("{\u3000:{y!x}}"), 21, 11, at=(0, 7))
    refuses(fstring("{\u00a0=}"), 22, 7, at=(0, 4))
    refuses(fstring("{ \u2003= :}"), 22, 11, at=(0, 7))
    refuses(fstring("{x:{\u00a0}}"), 22, 9, at=(0, 6))
    refuses(side_by_side((1, "{x}"), (4, "{\u3000}", 1)), 22, 6 + 5 + 5, literal=1, at=(0, 3))
    # where the expression is not blank, and where blanks are not asked for
    reads(fstring("{\u00a0x\u3000}"), JOINED, field("\u00a0x\u3000", 3))
    reads(fstring("{\u00a0==}"), JOINED, field("\u00a0==", 3))
    reads(fstring("{\u00a0''!r}"), JOINED, field("\u00a0''", 3, "r"))
    reads(fstring("{x:\u00a0}"), JOINED, field("x", 3, parts=1), spec(1), part("\u00a0"))
    refuses(fstring("{x=\u00a0}"), 20, 7, AFTER_EQUALS, at=(0, 4))
    refuses(fstring("{x!\u00a0}"), 21, 7, at=(0, 4))
    for code in (0x08, 0x0E, 0x1C, 0x1D, 0x1E, 0x1F, 0x84, 0x86, 0x9F, 0xA1, 0x167F, 0x1681, 0x180E, 0x1FFF, 0x200B, 0x2027, 0x202A, 0x202E, 0x2030, 0x205E,
                 0x2060, 0x2FFF, 0x3001, 0xFEFF):
        reads(fstring("{" + chr(code) + "}"), JOINED, field(chr(code), 3))


def openers():
    """RULES 4.6: where the bracket that 23 names was opened."""
    for body, taken, a, b, opened in (
        ("{f(a[0)}", 7, "[", ")", 5),                       # the innermost
        ("{[a](b}", 7, "(", "}", 5),                        # not one that was closed
        ("{('['}", 6, "(", "}", 2),                         # nor one in quotes
        ("{x= (]}", 6, "(", "]", 5),                        # behind a self-documenting =
        ("{x:{(]}}", 6, "(", "]", 5),                       # in a spec's field
        ("{(}{x!r:{[)", 3, "(", "}", 2),                    # the first of two
        ("{" + "(" * 63 + "[)", 66, "[", ")", 65),          # the 64th
        ("{" + "(" * 64 + "]", 66, "(", "]", 65),
        ("{" + "(" * 63 + "[]" + ")" * 62 + "]", 129, "(", "]", 2),
    ):
        refuses(fstring(body), 23, 2 + taken, ord(a), ord(b), 2 + opened)
    refuses(side_by_side((1, "é{é(\n 😀]}", 1)), 23, 4 + 13, ord("("), ord("]"), 4 + 6, at=(1, 3))
    refuses(side_by_side((0, "ab"), (4, "{(}", 1)), 23, 9 + 3, ord("("), ord("}"), 9 + 2, literal=1)


def lines():
    """RULES 5.6: line and column from the opening of a literal's body."""
    refuses(side_by_side((1, "a\n}", 1)), 25, 4 + 3, at=(1, 1))
    refuses(side_by_side((1, "\n\né\n\U0001f600é{!}", 1)), 22, 4 + 13, at=(3, 4))
    refuses(side_by_side((1, "é\n{x!\n}", 1)), 21, 4 + 7, at=(2, 0))            # at a line's start
    refuses(side_by_side((1, "{x:{y:\n{z}}}", 1)), 24, 4 + 7, at=(1, 0))
    refuses(side_by_side((1, "a\r\n\r}", 1)), 25, 4 + 5, at=(1, 2))              # byte 13 ends no line
    refuses(side_by_side((0, "é\\\n\\x4")), 11, 1 + 6, at=(1, 2))                 # after backslash and newline
    refuses(side_by_side((0, "\\\n\\")), 10, 1 + 3, at=(1, 1))
    refuses(side_by_side((2, "\n\n\u20ac", 1)), 12, 4 + 5, at=(2, 1))
    refuses(side_by_side((1, "{'\n''"), (0, "\n")), 27, 2 + 5, at=(1, 2))
    refuses(side_by_side((1, "{x=\n"), (0, "")), 20, 2 + 4, AFTER_EQUALS, at=(1, 0))
    refuses(side_by_side((0, "\né\n"), (1, "é\n{", 1), (0, "\n\n}")), 20, 6 + 4 + 4, LAST_BRACE, literal=1, at=(1, 1))
    refuses(side_by_side((0, "\n\n"), (1, "a}")), 25, 4 + 2 + 2, literal=1, at=(0, 2))


def read_characters():
    """RULES 5.6, 5.7: how many characters were read, of any width; and with the room that is known beforehand there is an acceptance."""
    reads(side_by_side((0, "é\n"), (0, ""), (1, "€{x}\U0001f600", 1)), JOINED, literal("é\n€"), field("x", 7 + 4 + 4, of=2), literal("\U0001f600"))
    counts(2 + 0 + 5)
    reads(side_by_side((0, r"\U0001f600\u00e9")), PLAIN, literal("\U0001f600é"))     # an escape's characters, not what it stands for
    counts(16)
    refuses(side_by_side((0, "é\n"), (0, "€"), (1, "\U0001f600é}}{", 1), (0, "a")), 20, 5 + 5 + 4 + 9, LAST_BRACE, literal=2, at=(0, 5))
    counts(2 + 1 + 5)
    refuses(side_by_side((2, "ab"), (5, "é")), 12, 5 + 3 + 2, literal=1, at=(0, 1))
    counts(3)
    refuses(side_by_side((1, "é{x:{y:{z}}}")), 24, 2 + 8, at=(0, 7))                # before the {
    counts(7)
    refuses(side_by_side((0, "é"), (1, "\u20ac{x}")), 30, 0, 2, 6, room=(15, 6))
    counts(5)
    refuses(side_by_side((0, "é"), (1, "\u20ac{x}")), 31, 0, 2, 6, room=(16, 5))
    counts(5)
    refuses(side_by_side((0, "é"), (2, "é")), 7, 0)
    counts(0)
    reads(side_by_side((0, ""), (0, "")), PLAIN, literal(""), room=None)
    nested = [record for at in (6, 12) for record in (part("y="), part(""), field("y", at, parts=1), spec(1), part("a"))]
    reads(fstring("{x:{y=:a}{y=:a}}"), JOINED, field("x", 3, parts=1), spec(6), *nested, room=None)
    reads(fstring("{xxxxxxxx=}"), JOINED, literal("xxxxxxxx="), field("xxxxxxxx", 3, "r"), room=None)


def room():
    """Exactly enough and one too little; 30 before 31."""
    lent, needed = fstring("a{x:>5}"), (4, 4)
    records = literal("a"), field("x", 4, parts=1), spec(1), part(">5")
    reads(lent, JOINED, *records, room=(0, 0))
    reads(lent, JOINED, *records, room=(7, 0))
    for words, text, number in ((31, 4, 30), (32, 3, 31), (31, 3, 30), (0, 0, 30), (40, 0, 31), (0, 40, 30)):
        refuses(lent, number, 0, *needed, room=(words, text))
    reads(fstring(""), JOINED, room=(0, 0))
    refuses(side_by_side((2, "")), 30, 0, 1, 0, room=(7, 0))
    reads(side_by_side((2, "")), BYTES, raw(""), room=(0, 0))


def limits():
    """1,024 and 1,025 literals; bodies of 1,048,576 bytes and one more."""
    def many(count):
        return [number for at in range(count) for number in (0, 0, 0, 1, 3 * at, 3 * at + 3)], [(1, b"a")]
    reads(many(MOST_LITERALS), PLAIN, literal("a" * MOST_LITERALS))
    refuses(many(MOST_LITERALS + 1), 3, 0)

    def long(*sizes, kind=0):
        numbers, end = [], 0
        for size in sizes:
            numbers += [kind, 0, 0, size, end, end + size + 3]
            end += size + 3
        return numbers, [(MOST_BYTES + 1, b"a")]
    reads(long(MOST_BYTES), PLAIN, literal("a" * MOST_BYTES), room=(0, 0))
    reads(long(MOST_BYTES - 1, 1, kind=1), JOINED, literal("a" * MOST_BYTES), room=(3, 1))
    refuses(long(MOST_BYTES), 31, 0, 1, MOST_BYTES, room=(8, MOST_BYTES - 1))
    refuses(long(MOST_BYTES + 1), 5, 0)
    refuses(long(MOST_BYTES, 1, kind=1), 5, 0)


# The files

def encoded(numbers, pieces, words, text):
    lengths = struct.pack("<4I", len(numbers), len(pieces), len(words), len(text))
    listed = struct.pack(f"<{len(numbers)}I", *numbers)
    return lengths + listed + b"".join(struct.pack("<2I", times, len(piece)) + piece for times, piece in pieces)


def line(name, elements):
    runs = ((element, len(list(run))) for element, run in itertools.groupby(elements))
    return " ".join([name, *(str(element) if count == 1 else f"{count}*{element}" for element, count in runs)]) + "\n"


def files():
    stdin, stdout = struct.pack("<I", len(cases)), ""
    for numbers, pieces, answer, words, text in cases:
        stdin += encoded(numbers, pieces, words, text)
        stdout += line("answer", answer + [0] * (12 - len(answer))) + line("words", words) + line("text", text)
    return stdin, stdout.encode()


def fill_cases():
    for rows in (small_readings, two_literals, entry_checks, escapes, unclosed, fields, openers, lines, read_characters, room, limits):
        rows()
    met = {answer[0] for _, _, answer, _, _ in cases}
    assert met == NUMBERS | {0}, met
    assert {answer[3] for _, _, answer, _, _ in cases if answer[0] == 20} == set(REASONS)


def behind(stdin, stdout):
    """What stands in both files behind the first list. Three lines are written of a case."""
    count, at = struct.unpack_from("<I", stdin)[0], 4
    for _ in range(count):
        numbers, pieces = struct.unpack_from("<2I", stdin, at)
        at += 16 + 4 * numbers
        for _ in range(pieces):
            at += 8 + struct.unpack_from("<I", stdin, at + 4)[0]
    return [stdin[at:], b"".join(stdout.splitlines(keepends=True)[3 * count :])]


def main():
    check, reference = "--check" in sys.argv, sys.argv[-2:] if "--reference" in sys.argv else None
    beside = [os.path.join(os.path.dirname(os.path.abspath(__file__)), name) for name in ("stdin", "stdout")]
    fill_cases()
    kept = [open(path, "rb").read() for path in beside]
    rest = [open(path, "rb").read() for path in reference] if reference else behind(*kept)
    if not all(rest):
        sys.exit("expected.py: the reference's list is missing")
    for path, old, own, other in zip(beside, kept, files(), rest):
        if not check:
            open(path, "wb").write(own + other)
        elif old != own + other:
            sys.exit(f"expected.py: {path} is not what is expected")


if __name__ == "__main__":
    main()
