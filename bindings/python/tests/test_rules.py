"""docs/RULES.md: every example is run, every definition that is named stands in its file, and every section that is
cited anywhere is there."""

import ctypes
import json
import re
import sys
import unittest

from support import CLONE, stumpgarret
import stumpgarret_formatters

PAGE = CLONE / "docs" / "RULES.md"
# Each file of definitions, by its name.
SPECS = {path.name: path for path in CLONE.glob("crates/definition*/specs/*.antt") if path.name != "Lib.antt"}
SECTION = re.compile(r"### (\d+)\.(\d+) (.+)")
DEFINED = re.compile(r"Defined in `(\w+\.antt)`: ((?:`[^`]+`(?:, )?)+)")
SPAN = re.compile(r"`([^`]+)`")
CITED = re.compile(r"RULES (\d+(?:\.\d+)?)")
FROM, ROOM, AT = re.compile(r"from (\d+)"), re.compile(r"room for (\d+) (?:numbers|bytes)"), re.compile(r"at (\d+)")
CHANGED = re.compile(r"(word|number|byte) (\d+) as (\d+)")
LENT = re.compile(r"script '(.*)' list \[(.*)\](?: room (\d+) words, (\d+) bytes)?", re.DOTALL)
LENT_ANSWER = re.compile(r"sort (\d+) words \[(.*)\] text '(.*)'", re.DOTALL)
LIMIT, CUTS = re.compile(r"limit (\d+)"), re.compile(r"at \[(.*)\]")
LENT_FILE = re.compile(r"file '(.*)' index \[(.*)\]", re.DOTALL)
MARK = re.compile(r"<(?:(LF|CR|TAB|NUL)|([0-9A-F]{2})|U\+([0-9A-F]{4,6})|(\d+) times (.+?))>")
CHARACTERS = {"LF": "\n", "CR": "\r", "TAB": "\t", "NUL": "\0"}
FIRST_CHAPTER, REFUSALS, LAST_CHAPTER = 1, 11, 16
NOT_OURS = ".git", "target"
ROOM_FOR_ALL = 8192
FILL = 7


def plain(text):
    """The bytes that a cell of a table stands for."""

    def one(mark):
        name, byte, code, times, unit = mark.groups()
        if name:
            return CHARACTERS[name]
        if byte:
            return bytes([int(byte, 16)]).decode("utf-8", "surrogateescape")
        return chr(int(code, 16)) if code else int(times) * unit

    return MARK.sub(one, text).encode("utf-8", "surrogateescape")


def lent(of, count):
    """A buffer that is filled."""
    return (of * count).from_buffer_copy(count * FILL.to_bytes(ctypes.sizeof(of), sys.byteorder))


def numbers_of(count):
    return lent(ctypes.c_uint32, count)


# The calls: the answer, and what the buffers hold


def list_literals(script, offset=0, room=ROOM_FOR_ALL):
    numbers, answer = numbers_of(room), numbers_of(12)
    stumpgarret._function("literals")(script, len(script), offset, numbers, room, answer)
    return list(answer), list(numbers)


def cut_script(script, room=ROOM_FOR_ALL):
    numbers, answer = numbers_of(room), numbers_of(12)
    stumpgarret._function("cut")(script, len(script), numbers, room, answer)
    return list(answer), list(numbers)


def list_fields(script, room=ROOM_FOR_ALL):
    rows, answer = numbers_of(room), numbers_of(12)
    stumpgarret._function("fields")(script, len(script), rows, room, answer)
    return list(answer), list(rows)


def read(script, listed, room=None):
    words_room, text_room = room or (ROOM_FOR_ALL, ROOM_FOR_ALL)
    numbers, words, answer = (ctypes.c_uint32 * len(listed))(*listed), numbers_of(words_room), numbers_of(12)
    text = lent(ctypes.c_char, text_room)
    stumpgarret._function("read")(script, len(script), numbers, len(numbers), words, words_room, text, text_room, answer)
    return list(answer), list(words), text.raw


def signs(script, listed, room=ROOM_FOR_ALL):
    numbers, rows, answer = (ctypes.c_uint32 * len(listed))(*listed), numbers_of(room), numbers_of(12)
    stumpgarret._function("signs")(script, len(script), numbers, len(numbers), rows, room, answer)
    return list(answer), list(rows)


def build_index(file, room=ROOM_FOR_ALL):
    index, answer = numbers_of(room), numbers_of(12)
    stumpgarret._function("names_build")(file, len(file), index, room, answer)
    return list(answer), list(index)


def check_index(file, index):
    numbers, answer = (ctypes.c_uint32 * len(index))(*index), numbers_of(12)
    stumpgarret._function("names_check")(file, len(file), numbers, len(numbers), answer)
    return list(answer)


def read_named(script, listed, file, index):
    numbers, words, answer = (ctypes.c_uint32 * len(listed))(*listed), numbers_of(ROOM_FOR_ALL), numbers_of(12)
    text, offsets = lent(ctypes.c_char, ROOM_FOR_ALL), (ctypes.c_uint32 * len(index))(*index)
    given = script, len(script), numbers, len(numbers), file, len(file), offsets, len(offsets)
    stumpgarret._function("read_named")(*given, words, len(words), text, len(text), answer)
    return list(answer), list(words), text.raw


def tell_spec(spec):
    answer = numbers_of(12)
    stumpgarret._function("spec")(spec, len(spec), answer)
    return list(answer)


def replay(script, listed, trace, room=ROOM_FOR_ALL):
    numbers, words, answer = (ctypes.c_uint32 * len(listed))(*listed), numbers_of(ROOM_FOR_ALL), numbers_of(12)
    text, output = lent(ctypes.c_char, ROOM_FOR_ALL), lent(ctypes.c_char, room)
    given = script, len(script), numbers, len(numbers), trace, len(trace)
    stumpgarret._function("replay")(*given, words, len(words), text, len(text), output, room, answer)
    return list(answer), output.raw


def compare(first, second, room=ROOM_FOR_ALL):
    """Of two answers, each as its numbers, words and text."""
    numbers, answer = numbers_of(room), numbers_of(12)
    given = []
    for reading, words, text in (first, second):
        given += [(ctypes.c_uint32 * len(words))(*words), len(words), text, len(text), (ctypes.c_uint32 * 12)(*reading)]
    stumpgarret._function("compare")(*given, numbers, room, answer)
    return list(answer), list(numbers)




def write(words, text, reading, room=ROOM_FOR_ALL):
    lent_words, numbers, answer = (ctypes.c_uint32 * len(words))(*words), (ctypes.c_uint32 * 12)(*reading), numbers_of(12)
    body = lent(ctypes.c_char, room)
    stumpgarret._function("write")(lent_words, len(words), text, len(text), numbers, body, room, answer)
    return list(answer), body.raw


def check_cuts(cell, spans):
    body, cuts = plain(spans[0]), [int(cut) for cut in filter(None, CUTS.search(cell)[1].split(", "))]
    offsets, answer = (ctypes.c_uint32 * len(cuts))(*cuts), numbers_of(12)
    stumpgarret._function("cuts_check")(body, len(body), int(LIMIT.search(cell)[1]), offsets, len(cuts), answer)
    return numbers_shown(list(answer), 2)


def plan_cuts(cell, spans):
    """The numbers, of 74 ten, and the list afterwards."""
    body, room = plain(spans[0]), ROOM.search(cell)
    offsets, answer = numbers_of(int(room[1]) if room else 4), numbers_of(12)
    stumpgarret._function("cuts_plan")(body, len(body), int(LIMIT.search(cell)[1]), offsets, len(offsets), answer)
    return f"{numbers_shown(list(answer), 10 if answer[0] else 3)}; {in_words(list(offsets))}"


def literals_of(script):
    """The numbers of literals that stand side by side, and nothing else with them."""
    answer, numbers = list_literals(script)
    if answer[0] or answer[3] != len(script):
        raise ValueError(f"the source {script} is no run of literals: {answer}")
    return numbers[: 6 * answer[1]]


# What is shown of them


def groups(numbers, size, count):
    return [numbers[at : at + size] for at in range(0, size * count, size)]


def in_words(numbers):
    return " ".join(map(str, numbers))


def numbers_shown(answer, count):
    """The first so many; the others must be 0. Of 53 and 59 the tenth is shown too."""
    count = 10 if answer[0] in (53, 59) else count
    if any(answer[count:]):
        raise ValueError(f"more numbers than are shown: {answer}")
    return in_words(answer[:count])


def refusal(answer):
    number, literal, place, a, b, opened, *_ = answer
    at = f"refused: {number} at {place}" + (f" in literal {literal}" if literal else "")
    return at + details(a, b) + (f", opened {opened}" if opened else "")


def details(*numbers):
    return "".join(f", {number}" for number in numbers if number)


def records(answer, words):
    return refusal(answer) if answer[0] else "; ".join(map(in_words, groups(words, 8, answer[5]))) or "nothing"


def parts(answer, words, text):
    if answer[0]:
        return refusal(answer)
    following = iter(groups(words, 8, answer[5]))
    return ", ".join(part(record, following, text) for record in following) or "nothing"


def part(record, following, text):
    kind, offset, length, _, _, conversion, has_spec, place = record
    own = text[offset : offset + length]
    if kind == 4:
        return f"bytes {ascii(own)}"
    if kind == 1:
        return f"literal {ascii(own.decode())}"
    shown = f"field {ascii(own.decode())}" + (f"!{chr(conversion)}" if conversion else "") + f" at {place}"
    if has_spec:
        within = [part(next(following), following, text) for _ in range(next(following)[6])]
        shown += f" spec [{', '.join(within) or 'nothing'}]"
    return shown


def field(script, row):
    sort, _, place, number, a, b, opened, _, close, within = row
    shown = script[place - 1 : close].decode() + f" at {place}"
    if sort == 5:
        shown = f"{number} at {place}{details(a, b)}" + (f", opened {opened}" if opened else "")
    return shown + (f" in row {within}" if within else "")


def escaped(text):
    return "".join(f"\\u00{byte:02x}" if byte < 32 else "\\" * (byte in b'"\\') + chr(byte) for byte in text)


def lines(body):
    """By the rules for the lines of `read_body`, from what the call gives."""
    answer, words, text = read(body, [1, 0, 0, len(body), 0, len(body) + 3])
    if answer[0]:
        return '{{"refusal":{},"at":{},"a":{},"b":{}}}\n'.format(answer[0], *answer[2:5])
    said = []
    for kind, offset, length, _, _, conversion, count, place in groups(words, 8, answer[5]):
        own = escaped(text[offset : offset + length])
        said.append(
            {
                1: f'{{"kind":"literal","text":"{own}"}}\n',
                2: f'{{"kind":"field","text":"{own}","conversion":{conversion},"at":{place}}}\n',
                3: f'{{"kind":"spec","parts":{count}}}\n',
            }[kind]
        )
    return "".join(said)


# What each kind of table asks: the cell of the input, and the spans in it


def asked_source(shown):
    def ask(cell, spans):
        script = plain(spans[0])
        return shown(*read(script, literals_of(script)))

    return ask


def asked_lent(shown):
    def ask(cell, spans):
        script, listed, words, text = LENT.fullmatch(spans[0]).groups()
        room = None if words is None else (int(words), int(text))
        return shown(*read(plain(script), [int(number) for number in listed.split(",") if number], room))

    return ask


def asked_signs(shown):
    def ask(cell, spans):
        script = plain(spans[0])
        return shown(*signs(script, literals_of(script), room_of(cell)))

    return ask


def asked_literals(shown):
    def ask(cell, spans):
        return shown(*list_literals(plain(spans[0]), int(FROM.search(cell)[1]), room_of(cell)))

    return ask


def asked_script(shown):
    def ask(cell, spans):
        script = plain(spans[0])
        return shown(script, *list_fields(script, room_of(cell)))

    return ask


def asked_cut(cell, spans):
    answer, numbers = cut_script(plain(spans[0]), room_of(cell))
    return "; ".join([numbers_shown(answer, 4), *map(in_words, groups(numbers, 6, answer[1]))])


def classes(script):
    """The fields of a script with their classes, by the module."""
    entries = stumpgarret.list_script(script).entries
    return ", ".join(f"{one.expression} {one.class_.value}" if hasattr(one, "class_") else str(one.number) for one in entries)


def formatters(script):
    """What else formats, by the module, with places in bytes."""
    found = stumpgarret_formatters.formatters(script, stumpgarret.rows(script).rows)
    lines = [0, *(at + 1 for at, byte in enumerate(script) if byte == ord("\n"))]
    return ", ".join(f"{one.what} at {lines[one.line - 1] + one.column - 1}" for one in found) or "none"


def asked_file(cell, spans):
    answer, index = build_index(plain(spans[0] if spans else ""), room_of(cell))
    return refusal(answer) if answer[0] else in_words(index[: answer[1]]) or "nothing"


def asked_lent_file(cell, spans):
    file, index = LENT_FILE.fullmatch(spans[0]).groups()
    return numbers_shown(check_index(plain(file), [int(number) for number in index.split(",") if number]), 2)


def asked_named(cell, spans):
    """With the index that is built of the file, none if it is refused."""
    script, file = map(plain, spans)
    answer, index = build_index(file)
    return parts(*read_named(script, literals_of(script), file, index[: answer[1]]))


def asked_replay(shown):
    def ask(cell, spans):
        script, trace = map(plain, [*spans, ""][:2])
        return shown(*replay(script, literals_of(script), trace, room_of(SPAN.sub("", cell))))

    return ask


def asked_write(shown):
    """What was read, with the words, numbers and text bytes changed that the cell names."""

    def ask(cell, spans):
        script, said = plain(spans[0]), SPAN.sub("", cell)
        answer, words, text = read(script, literals_of(script))
        changed = {"word": words, "number": answer, "byte": bytearray(text)}
        for what, at, value in CHANGED.findall(said):
            changed[what][int(at)] = int(value)
        return shown(*write(words, bytes(changed["byte"]), answer, room_of(said)))

    return ask


def body_of(answer, body):
    if answer[0] == 56:
        return f"refused: 56 with {answer[9]} bytes needed"
    return f"refused: {answer[0]} with nothing told" if answer[0] else body[: answer[1]].decode() or "nothing"


def written(answer, output):
    if answer[0] in (68, 69):
        return f"refused: {answer[0]} of field {answer[9]}"
    if answer[0] in (70, 71, 72):
        return f"refused: {answer[0]} of row {answer[9]}"
    if answer[0] == 73:
        return f"refused: 73 with {answer[9]} bytes needed"
    return refusal(answer) if answer[0] else output[: answer[10]].decode() or "nothing"


def asked_compare(shown):
    def ask(cell, spans):
        return shown(*compare(*map(lent_answer, spans), room_of(SPAN.sub("", cell))))

    return ask


def lent_answer(span):
    """What a source reads as, refused or not; or an answer that is given by its sort, words and text."""
    given = LENT_ANSWER.fullmatch(span)
    if not given:
        script = plain(span)
        return read(script, literals_of(script))
    words, text = [int(word) for word in given[2].split()], plain(given[3])
    return [0, int(given[1]), 0, 0, 0, len(words) // 8, len(text), 0, 0, 0, 0, 0], words, text


def items(answer, numbers):
    if answer[0]:
        return f"refused: {answer[0]} of the {'second' if answer[0] == 58 else 'first'}"
    of_first, of_second = answer[5:7]
    first, second = numbers[:of_first], numbers[of_first : of_first + of_second]
    return "front {}; back {}; first {}; second {}".format(*answer[1:3], *(in_words(side) or "none" for side in (first, second)))


def room_of(cell):
    room = ROOM.search(cell)
    return int(room[1]) if room else ROOM_FOR_ALL


def view(cell, spans):
    script = plain(spans[0])
    answer, words, _ = read(script, literals_of(script))
    number = int(AT.search(SPAN.sub("", cell))[1])
    return in_words(groups(words, 8, answer[5])[number]) if number < answer[5] else "none"


def join(cell, spans):
    """The answers of two runs that stand in one script with a space between them, and of both as one list."""
    first, second = map(plain, spans)
    script = first + b" " + second
    both = literals_of(script)
    count = len(literals_of(first))
    return [records(*read(script, listed)[:2]) for listed in (both[:count], both[count:], both)]


def listed(answer, numbers):
    if answer[0]:
        return refusal(answer)
    return "; ".join([*map(in_words, groups(numbers, 6, answer[1])), f"stops at {answer[3]}"])


TABLES = {
    ("Source", "Parts"): asked_source(parts),
    ("Source", "Records"): asked_source(lambda answer, words, text: records(answer, words)),
    ("Source", "Numbers"): asked_source(lambda answer, words, text: numbers_shown(answer, 9)),
    ("Lent", "Parts"): asked_lent(parts),
    ("Lent", "Buffers"): asked_lent(lambda answer, words, text: f"{in_words(words)}; {in_words(text)}"),
    ("View", "Record"): view,
    ("Join", "First", "Second", "Both"): join,
    ("Signs", "Rows"): asked_signs(lambda answer, rows: "; ".join(map(in_words, groups(rows, 10, answer[5])))),
    ("Signs", "Numbers"): asked_signs(lambda answer, rows: numbers_shown(answer, 9)),
    ("Literals", "List"): asked_literals(listed),
    ("Literals", "Numbers"): asked_literals(lambda answer, numbers: numbers_shown(answer, 4)),
    ("Cut", "Numbers and list"): asked_cut,
    ("Script", "Numbers"): asked_script(lambda script, answer, rows: numbers_shown(answer, 5)),
    ("Script", "Rows"): asked_script(lambda script, answer, rows: "; ".join(map(in_words, groups(rows, 10, answer[1])))),
    ("Script", "Fields"): asked_script(
        lambda script, answer, rows: ", ".join(field(script, row) for row in groups(rows, 10, answer[1]))
    ),
    ("Script", "Classes"): lambda cell, spans: classes(plain(spans[0])),
    ("Script", "Formatters"): lambda cell, spans: formatters(plain(spans[0])),
    ("File", "Index"): asked_file,
    ("Lent file", "Numbers"): asked_lent_file,
    ("Named", "Parts"): asked_named,
    ("Spec", "Numbers"): lambda cell, spans: numbers_shown(tell_spec(plain(spans[0])), 12),
    ("Replay", "Lines"): asked_replay(written),
    ("Replay", "Numbers"): asked_replay(lambda answer, output: numbers_shown(answer, 11)),
    ("Compare", "Items"): asked_compare(items),
    ("Compare", "Numbers"): asked_compare(lambda answer, numbers: numbers_shown(answer, 7)),
    ("Written", "Body"): asked_write(body_of),
    ("Written", "Numbers"): asked_write(lambda answer, body: numbers_shown(answer, 10)),
    ("Written", "Buffer"): asked_write(lambda answer, body: in_words(body)),
    ("Cuts", "Numbers"): check_cuts,
    ("Plan", "Numbers and list"): plan_cuts,
    ("Body", "Line"): lambda cell, spans: lines(plain(spans[0])).rstrip("\n"),
}
ASKING = {headings[0] for headings in TABLES}


class Section:
    def __init__(self, chapter, number, title):
        self.chapter, self.number, self.title = chapter, number, title
        self.lines = []

    @property
    def name(self):
        return f"{self.chapter}.{self.number}"

    @property
    def text(self):
        return " ".join(self.lines)

    @property
    def defined(self):
        """Each definition that is named, with its file."""
        return [(file, name) for file, names in DEFINED.findall(self.text) for name in SPAN.findall(names)]

    def tables(self):
        """The headings and rows of each table, cell by cell."""
        table = []
        for line in [*self.lines, ""]:
            if line.startswith("|"):
                table.append(line.strip("|\n ").split(" | "))
            elif table:
                yield tuple(table[0]), table[2:]
                table = []

    def examples(self):
        for headings, rows in self.tables():
            if headings[0] in ASKING:
                yield from ((headings, *row) for row in rows)


def sections(text):
    found = []
    for line in text.splitlines():
        heading = SECTION.fullmatch(line)
        if heading:
            found.append(Section(int(heading[1]), int(heading[2]), heading[3]))
        elif found and not line.startswith("## "):
            found[-1].lines.append(line)
    return found


PAGE_TEXT = PAGE.read_text(encoding="utf-8")
SECTIONS = sections(PAGE_TEXT)
RULES = [section for section in SECTIONS if section.chapter != FIRST_CHAPTER]
LOOKED_UP = {section.number: section for section in SECTIONS if section.chapter == REFUSALS}


def definition(file):
    return SPECS[file].read_text(encoding="utf-8")


class Examples(unittest.TestCase):
    def test_every_example(self):
        count = 0
        for section in SECTIONS:
            for headings, cell, *expected in section.examples():
                with self.subTest(section=section.name, example=cell):
                    given = TABLES[headings](cell, SPAN.findall(cell))
                    wanted = [plain(SPAN.fullmatch(one.strip())[1]).decode() for one in expected]
                    self.assertEqual([given] if isinstance(given, str) else given, wanted)
                    count += 1
        print(f"rules: {count} examples in {len(SECTIONS)} sections")

    def test_each_rule_has_one(self):
        for section in RULES:
            self.assertTrue([*section.examples()], section.name)

    def test_programs(self):
        """What the page says of the programs is what their own tests ask and get."""
        for section, program in ((section, section.title.strip("`")) for section in SECTIONS if section.chapter == 10):
            folder = CLONE / "crates" / program
            body, said = ((folder / name).read_text() for name in ("stdin", "stdout"))
            self.assertIn(f"`{body}`", section.text)
            self.assertEqual([line.strip() for line in section.lines if line.startswith("    ")], said.splitlines())
            for line in said.splitlines():
                json.loads(line)
            if program == "read_body":
                self.assertEqual(lines(body.encode()), said)


class Definitions(unittest.TestCase):
    def test_each_is_there(self):
        for section in RULES:
            self.assertTrue(section.defined, section.name)
            for file, name in section.defined:
                there = re.compile(rf"^\s*(?:(?:abbrev|unfoldable) )?pub (?:record |data )?{re.escape(name)}(?= )", re.MULTILINE)
                self.assertRegex(definition(file), there, section.name)

    def test_each_file_is_named(self):
        self.assertEqual({file for section in RULES for file, _ in section.defined}, set(SPECS))

    def test_no_two_files_have_a_name(self):
        self.assertEqual(len(SPECS), sum(path.name != "Lib.antt" for path in CLONE.glob("crates/definition*/specs/*.antt")))

    def test_no_file_is_named_otherwise(self):
        """Each list of names is read, up to its full stop."""
        for section in RULES:
            lists = re.findall(r"Defined in .*?\.(?= |$)", section.text)
            self.assertEqual(lists, [found[0] + "." for found in DEFINED.finditer(section.text)], section.name)
            self.assertEqual(section.text.count("Defined in"), len(lists), section.name)

    def test_held_names(self):
        held = re.findall(r'\("([A-Z -]+)", 0x([0-9A-F]{4})\)', definition("Escapes.antt"))
        shown = re.findall(r"^\| ([A-Z -]+) \| ([0-9A-F]{4}) \|$", PAGE_TEXT, re.MULTILINE)
        self.assertEqual(shown, held)
        self.assertEqual(len(held), 14)
        for name, code in held:
            script = f"'\\N{{{name}}}'".encode()
            self.assertEqual(parts(*read(script, literals_of(script))), f"literal {ascii(chr(int(code, 16)))}")

    def test_kinds(self):
        lengths = re.search(r"get_or \(((?:\d ∷ )+)\[\]\) kind", definition("Numbers.antt"))[1]
        shown = re.findall(r"^\| (\d) \| [\w `-]+ \| (\d) \|$", PAGE_TEXT, re.MULTILINE)
        self.assertEqual(shown, [(str(kind), length) for kind, length in enumerate(re.findall(r"\d", lengths))])


class Refusals(unittest.TestCase):
    def test_each_has_its_section(self):
        self.assertEqual({number: section.title for number, section in LOOKED_UP.items()}, names())
        shown = re.findall(r"^\| (\d+) \| ([^|]+) \|(?: [^|]*\|){3}$", PAGE_TEXT, re.MULTILINE)
        self.assertEqual({int(number): name for number, name in shown}, names())

    def test_numbers(self):
        """Each names its constant first, which has that number."""
        for number, section in LOOKED_UP.items():
            file, name = section.defined[0]
            self.assertEqual(file, "Numbers.antt")
            self.assertRegex(definition(file), re.compile(rf"^{name} = {number}$", re.MULTILINE))

    def test_examples_end_in_it(self):
        for number, section in LOOKED_UP.items():
            answers = "\n".join(answer for _, _, answer in section.examples())
            self.assertRegex(answers, rf"(?:`|: |, ){number} ", section.name)

    def test_what_to_change(self):
        for number, section in LOOKED_UP.items():
            self.assertRegex(section.text, "Change", section.name)

    def test_in_a_list(self):
        """What the table says does not come in a list of a script, the section says too."""
        rows = re.findall(r"^\| (\d+) \|(?: [^|]*\|){3} (yes)? ?\|$", PAGE_TEXT, re.MULTILINE)
        for number, comes in rows:
            never = "Not in a list of a script" in LOOKED_UP[int(number)].text
            self.assertEqual(never, not comes, number)


def sources():
    """Every text of the clone that may cite a section."""
    for top in CLONE.iterdir():
        if top.is_file():
            yield top
        elif top.name not in NOT_OURS:
            yield from (path for path in top.rglob("*") if path.is_file() and path.suffix != ".pyc")


def names():
    return {number: name for number, (name, _) in stumpgarret.REFUSALS.items()}


class Numbering(unittest.TestCase):
    def test_in_order(self):
        chapters = [int(number) for number in re.findall(r"^## (\d+)\. ", PAGE_TEXT, re.MULTILINE)]
        self.assertEqual(chapters, [*range(1, LAST_CHAPTER + 1)])
        for chapter in set(chapters) - {REFUSALS}:
            own = [section.number for section in SECTIONS if section.chapter == chapter]
            self.assertEqual(own, [*range(1, len(own) + 1)])

    def test_each_that_is_cited_is_there(self):
        there = {section.name for section in SECTIONS} | {str(section.chapter) for section in SECTIONS}
        cited = 0
        for path in sources():
            found = CITED.findall(path.read_text(encoding="utf-8", errors="replace"))
            self.assertLessEqual(set(found), there, str(path))
            cited += len(found)
        self.assertGreater(cited, 0)


if __name__ == "__main__":
    unittest.main()
