"""A lent file of names: a small model of crates/definition_names/specs/Names.antt, and random files for it."""

import itertools
import re

DIGITS = re.compile(rb"[0-9A-Fa-f]{4,6}")
NO_CODE = None
# Pieces of lines, of which the first of each kind are right.
CODES = [b"2603", b"01f40D", b"0041", b"10FFFF", b"0000", b"D800", b"110000", b"603", b"0002603", b"26 3", b""]
NAMES = [b"A", b"AB", b"ABA", b"B", b"SNOW", b"SNOWMAN", b"\xff", b"a", b"<A>", b"<control>", b""]
ENDS = [b";" * 13 + b"\n", b";" * 12 + b"x;\r\n", b";" * 12 + b"\n", b";" * 14 + b"\n", b"\n", b""]


def is_scalar(code):
    return code < 0xD800 or 0xE000 <= code < 0x110000


def names_of(file):
    """Name, code and offset of each line with a name; None if a line is malformed, or the last one is not ended."""
    *lines, rest = file.split(b"\n")
    if rest:
        return None
    found, at = [], 0
    for line in lines:
        digits, name, *others = [*line.split(b";"), b""][:3]
        if line.count(b";") != 14 or not DIGITS.fullmatch(digits) or not name:
            return None
        code = int(digits, 16)
        if not name.startswith(b"<"):
            if not is_scalar(code):
                return None
            found.append((name, code, at))
        at += len(line) + 1
    return found


def index_of(file):
    """The index, or the number of the file's refusal."""
    found = names_of(file)
    if found is None:
        return 60
    if len({name for name, _, _ in found}) < len(found):
        return 61
    return [at for _, _, at in sorted(found)]


def build(file, room):
    index = index_of(file)
    return 62 if isinstance(index, list) and len(index) > room else index


def check(file, lent):
    index = index_of(file)
    return 63 if isinstance(index, list) and index != lent else index


def name_at(file, at):
    begin = at + next((size for size in (4, 5) if file[at + size : at + size + 1] == b";"), 6) + 1
    return file[begin:].partition(b";")[0]


def code_at(file, at):
    code = 0
    for digit in file[at:].partition(b";")[0]:
        if not chr(digit) in "0123456789abcdefABCDEF" or code >= 0x100000:
            return NO_CODE
        code = code * 16 + int(chr(digit), 16)
    return code if is_scalar(code) else NO_CODE


def searched(file, index, name):
    """The code that a search by halves finds by any list of offsets."""
    low, high = 0, len(index)
    while low < high:
        mid = low + (high - low) // 2
        if name <= name_at(file, index[mid]):
            high = mid
        else:
            low = mid + 1
    found = low < len(index) and name_at(file, index[low]) == name
    return code_at(file, index[low]) if found else NO_CODE


def random_file(chance):
    """Mostly one that is well formed."""

    def pick(pieces, right):
        return chance.choice(pieces[:right] if chance.random() < 0.98 else pieces)

    lines = (pick(CODES, 5) + b";" + pick(NAMES, 10) + pick(ENDS, 2) for _ in itertools.count())
    return b"".join(itertools.islice(lines, chance.randrange(9)))


def random_index(chance, file):
    """The file's own, or with something wrong; of a refused file the offsets of its lines."""
    index = index_of(file)
    index = index if isinstance(index, list) else [at + 1 for at, byte in enumerate(file) if byte == 10][:6]
    for _ in range(chance.choice([0, 0, 1, 2])):
        at = chance.randrange(len(index) + 1)
        wrong = chance.choice([0, len(file), len(file) + 9, 2**32 - 1, chance.randrange(len(file) + 1)])
        index[at : at + chance.randrange(2)] = [wrong][: chance.randrange(2)]
    return index
