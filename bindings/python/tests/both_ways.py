"""The same calls by two ways: a library and the program that has it, or two libraries. What they leave in every buffer is to be
the same, byte for byte.

    python3 both_ways.py COUNT FIRST SECOND

FIRST and SECOND are a shared library or the program each. Called are the inputs of the fixed list, which crates/try_readings
replays, and then so many random ones, over every call of the header.
"""

import array
import collections
import ctypes
import random
import struct
import sys

from support import CLONE
import names_model
from stumpgarret_calls import CALLS, Library, Program

FILL = 0xA5
PREFIXES = {0: b"", 1: b"f", 2: b"b", 3: b"r", 4: b"rf", 5: b"rb", 6: b"u"}
PARTS = [b"VDD ", b"{mv}", b"{mv / 12.5:.0f}", b"{n!r}", b"{y=}", b"{a:>{w},}", b"{code:#06x}", b"{{", b"}}", b"\\n", "é".encode()]
PARTS += [b"\\N{DEGREE SIGN}", b"\\N{SNOWMAN}", b"{f(x)[1]}", b"{x:{a}{b}}", b"\\x41", b"1"]
SCRAPS = [b"'", b'"', b"'''", b"{", b"}", b"!", b":", b"=", b"\\", b"\\N{", b"(", b"]", b"#", b"\n", b" ", b"f'", b"b'", b"\xff", b"\0"]
SPECS = [b">", b"8", b",", b".3", b"f", b"#", b"0", b"x", b"+", b"z", b"e", b"%", b"<", b"{", "é".encode(), b"\0"]
ROWS = [b"1", b"-7", b"743", b"4294967296", b"-2147483648", b'"5"', b"x", b"", b",", b"\r\n", b"\r\n", b"\n"]
ROOMS = [0, 1, 7, 8, 40, 200, 1000]


class Chance(random.Random):
    """Random things to be lent; `made` makes a call by one of the ways, for what is lent on."""

    def __init__(self, seed, made):
        super().__init__(seed)
        self.made = made

    def some(self, pieces, most):
        return b"".join(self.choices(pieces, k=self.randrange(most)))

    def body(self):
        return self.some(PARTS if self.random() < 0.7 else PARTS + SCRAPS, 8)

    def literal(self):
        return PREFIXES[self.choice([0, 1, 1, 1, 1, 2, 3, 4, 5, 6])] + b"'" + self.body() + b"'"

    def script(self):
        return self.some([b"print(", b")", b"\n", b" ", b"# it's\n", self.literal(), self.literal(), self.some(SCRAPS, 3)], 12)

    def numbers(self, most=20):
        return packed(self.choice([self.randrange(9), self.getrandbits(32)]) for _ in range(self.randrange(most)))

    def literals(self):
        """A script of bodies, and the numbers of its literals, of which one may be wrong."""
        kinds, numbers, script, start = self.choice([[0, 1, 3, 4, 6], [1], [2, 5], [*PREFIXES]]), [], b"", self.randrange(3)
        for _ in range(self.randrange(4) + (self.random() < 0.9)):
            kind, body = self.choice(kinds), self.body()
            end = start + len(PREFIXES[kind]) + 2 + len(body)
            numbers += [kind, 0, len(script), len(body), start, end]
            script, start = script + body, end
        if numbers and self.random() < 0.2:
            numbers[self.randrange(len(numbers))] = self.choice([0, 1, 9, 2**32 - 1])
        return script, packed(numbers[: -1 if self.random() < 0.05 else None])

    def room(self, size):
        """So many elements of a size, or others, that hold something."""
        count = self.choice(ROOMS) * size
        return self.choice([bytes(count), bytes([FILL]) * count, self.randbytes(count)])

    def names(self):
        file = b"".join(
            self.choice(names_model.CODES[:4]) + b";" + self.choice(names_model.NAMES[:8]) + names_model.ENDS[0] for _ in range(self.randrange(5))
        )
        if self.random() < 0.2:
            file += self.some([*names_model.CODES, b";", *names_model.NAMES, *names_model.ENDS], 4)
        index = names_model.index_of(file)
        return file, packed(index) if isinstance(index, list) and self.random() < 0.8 else self.numbers(5)

    def reading(self):
        """Words, text and numbers as a reading leaves them, of which something may be changed."""
        script, literals = self.literals()
        _, _, words, text, reading = self.made("read", [script, literals, bytes(4 * 400), bytes(400)])
        lent = [bytearray(words), bytearray(text), bytearray(reading)]
        if self.random() < 0.3:
            one = self.choice(lent)
            one[self.randrange(len(one)) & -4] = self.randrange(6)
        return [*map(bytes, lent)]

    def lent(self, name):
        """What is lent to a call, a value for each of its letters."""
        if name in ("read", "signs", "read_named", "read_searched", "replay"):
            given = [*self.literals()]
            if name in ("read_named", "read_searched"):
                given += self.names()
            elif name == "replay":
                given += [self.some(ROWS, 9)]
        elif name in ("names_build", "names_check"):
            given = [*self.names()][: CALLS[name].count("b") + CALLS[name].count("n")]
        elif name == "fields_named":
            given = [self.script(), *self.names()]
        elif name == "spec":
            given = [self.some(SPECS, 6)]
        elif name == "compare":
            given = self.reading()
            given += given if self.random() < 0.2 else self.reading()
        elif name == "write":
            given = self.reading()
        else:
            given = [{"b": self.script, "n": self.numbers, "w": self.number, "r": self.twelve}[one]() for one in CALLS[name] if one in "bnwr"]
        room = iter([self.room(4 if one == "N" else 1) for one in CALLS[name] if one in "BN"])
        given = iter(given)
        return [next(room if one in "BN" else given) for one in CALLS[name]]

    def number(self):
        return self.choice([self.randrange(40), self.getrandbits(32)])

    def twelve(self):
        return packed(self.choice([0, 1, 2, self.getrandbits(32)]) for _ in range(12))


def packed(numbers):
    return array.array("I", numbers).tobytes()


def maker(path):
    """What makes a call by a library or a program, and gives what stands in each buffer afterwards, the answer last."""
    way = (Library if str(path).endswith(".so") else Program)(str(path))

    def made(name, lent):
        arguments, buffers = [], []
        for letter, value in zip(CALLS[name], lent):
            if letter == "w":
                arguments.append(value)
                buffers.append(value)
                continue
            element = ctypes.c_char if letter in "bB" else ctypes.c_uint32
            count = len(value) // ctypes.sizeof(element)
            buffers.append((element * count).from_buffer_copy(value))
            arguments += [buffers[-1]] if letter == "r" else [buffers[-1], count]
        answer = (ctypes.c_uint32 * 12)(*12 * [FILL])
        way.function(name)(*arguments, answer)
        return [value if isinstance(value, int) else bytes(value) for value in (*buffers, answer)]

    return made


def fixed():
    """What is lent for each input of the fixed list."""
    content, at = (CLONE / "crates/try_readings/stdin").read_bytes(), 0
    while at < len(content):
        (count,), at = struct.unpack_from("<I", content, at), at + 4
        for _ in range(count):
            numbers, pieces, words, text = struct.unpack_from("<4I", content, at)
            listed, at, script = content[at + 16 : at + 16 + 4 * numbers], at + 16 + 4 * numbers, b""
            for _ in range(pieces):
                times, length = struct.unpack_from("<2I", content, at)
                script, at = script + times * content[at + 8 : at + 8 + length], at + 8 + length
            yield [script, listed, bytes([FILL]) * 4 * words, bytes([FILL]) * text]


def compare(first, second, count, seed=40):
    """How often each call was answered, by what number, by two makers; ends at the first that is answered otherwise."""
    tally = collections.Counter()

    def both(name, lent):
        one, other = first(name, lent), second(name, lent)
        if one != other:
            raise SystemExit(f"both_ways: of {name} {lent} the first left {one} and the second {other}")
        tally[name, one[-1][0]] += 1

    for lent in fixed():
        both("read", lent)
    chance, names = Chance(seed, first), [*CALLS]
    for number in range(count):
        name = names[number % len(names)]
        both(name, chance.lent(name))
    return tally


def said(tally):
    by_call = collections.Counter()
    for (name, _), times in tally.items():
        by_call[name] += times
    least, kinds = min(by_call.values()), len(tally)
    return f"{sum(tally.values())} calls alike, at least {least} of each of {len(by_call)}, with {kinds} answers by call and number"


if __name__ == "__main__":
    print(said(compare(maker(sys.argv[2]), maker(sys.argv[3]), int(sys.argv[1]))))
