# Run with Python 3.11, `python3 crates/definition/rows.py`: writes the tables of computed rows to the rooms of definitions. With `--check` it writes nothing
# and fails if one of them is not what it would write.
"""What stands beside an input is Python's own answer: of its reader of literals, its UTF-8 decoder, its unicodedata and its tokenizer. Refusals, their places
and the few readings in which the rules differ from Python are data here, each under the rule that says it; the rules are those of docs/RULES.md. Nothing is
asked of the definition or the code. The claims over the tables stand in the modules beside them."""
import ast
import io
import itertools
import json
import os
import sys
import tokenize
import unicodedata
import warnings

CRATES = os.path.dirname(os.path.dirname(os.path.abspath(__file__)))
PREFIXES = ["", "f", "b", "r", "rf", "rb", "u"]  # RULES 2.2: the kinds
NAMES = [  # RULES 3.4: the held names; their codes are unicodedata's
    "DEGREE SIGN", "PLUS-MINUS SIGN", "SUPERSCRIPT TWO", "MICRO SIGN", "MULTIPLICATION SIGN", "DIVISION SIGN",
    "GREEK CAPITAL LETTER DELTA", "GREEK CAPITAL LETTER OMEGA", "GREEK SMALL LETTER MU", "OHM SIGN", "INFINITY",
    "ALMOST EQUAL TO", "LESS-THAN OR EQUAL TO", "GREATER-THAN OR EQUAL TO",
]
FORMS = "\\'\"abfnrtv01234567xuUN\n"  # what a backslash has a meaning with
PRINTED = "".join(map(chr, range(32, 127)))
REPLACED = "\ufffd".encode()


# WHAT PYTHON SAYS
def read(kind, body):
    """The value of a literal of a kind: its bytes. The body is text, and has no quote that would end it."""
    with warnings.catch_warnings():
        warnings.simplefilter("ignore")
        value = eval(PREFIXES[kind] + '"""' + body + '"""')
    return value if isinstance(value, bytes) else value.encode()


def is_refused(kind, body):
    try:
        read(kind, body)
        return False
    except SyntaxError:
        return True


def kind_of(source):
    """The kind of a literal, by what Python makes of its source, whose body is a. Python marks the small u alone; RULES 8.1 has either case for each letter."""
    source = source.replace("U", "u")
    node = ast.parse(source, mode="eval").body
    raw = len(eval(source[:-2] + "\\t" + source[-1])) == 2
    if isinstance(node, ast.JoinedStr):
        return 4 if raw else 1
    if isinstance(node.value, bytes):
        return 5 if raw else 2
    return 6 if node.kind == "u" else 3 if raw else 0


def formed(s):
    """The length of the longest well-formed prefix."""
    try:
        s.decode("utf-8")
        return len(s)
    except UnicodeDecodeError as e:
        return e.start


def strings(script):
    """The literals of a script in parentheses, by Python's tokenizer: (source, start) each."""
    source = "(" + script + "\n)"
    lines = list(itertools.accumulate([0] + [len(line) for line in source.splitlines(keepends=True)]))
    tokens = tokenize.generate_tokens(io.StringIO(source).readline)
    return [(t.string, lines[t.start[0] - 1] + t.start[1] - 1) for t in tokens if t.type == tokenize.STRING]


# AS THE DEFINITION WRITES IT
def numbers(ns):
    return " ∷ ".join([str(n) for n in ns] + ["[]"])


def octets(s):
    return " ∷ ".join(["0x%02X" % b for b in s] + ["[]"])


def written(s):
    """Bytes, or text, in UTF-8: as a text if they are printed ASCII, tabs and line ends."""
    s = s.encode() if isinstance(s, str) else s
    if s and all(32 <= b < 127 or b in b"\t\n\r" for b in s):
        escaped = s.decode().replace("\\", "\\\\").replace('"', '\\"').replace("\t", "\\t").replace("\n", "\\n").replace("\r", "\\r")
        return 'ascii "%s"' % escaped
    return octets(s)


def listed(rows):
    """A list of rows, in which a text that begins with `--` is a comment before the next row."""
    lines, joint = [], ""
    for one in rows:
        if one.startswith("--"):
            lines.append("    " + one)
        else:
            lines.append("    " + joint + one)
            joint = "∷ "
    return "\n".join(lines + ["    ∷ []"])


def table(comment, name, of, rows):
    return "\n-- %s\nunfoldable pub %s : List (%s)\n%s =\n%s\n" % (comment, name, of, name, listed(rows))


def row(*parts):
    return "(" + ", ".join(parts) + ")"


HEAD = """-- %s Made by crates/definition/rows.py. Assumes nothing.
use Prim.Native.Nat.{ℕ}
use mathlib.Core.List.{List, [], ◌∷◌}
use Rattle.definition.specs.Chars.{ascii}
"""


# ESCAPES: the text of a body by Python, and the refusals of RULES 3.2 to 3.4, 4.6, 4.7 and 11
def escapes():
    def text(kind, body, value=None):
        return row(str(kind), written(body), written(read(kind, body) if value is None else value))

    stays = "".join("\\" + c for c in PRINTED if c not in FORMS)
    control = "".join("\\" + chr(c) for c in [*range(1, 32), 127] if chr(c) not in "\n\r")
    texts = ["-- the simple ones, and a newline, which vanishes with its backslash"]
    texts += [text(0, "\\" + c) for c in "\\'\"abfnrtv\n"]
    texts += ["-- every other printed character keeps its backslash; so do the others of ASCII, in bytes u, U and N, and in text a character that is not ASCII"]
    texts += [text(0, stays), text(0, control), text(2, stays + "\\u\\U\\N"), text(0, "\\é")]
    texts += ["-- RULES 3.2: byte 13 is no line end, so it keeps its backslash, and so does byte 0, which Python does not read"]
    texts += [text(0, "\\\r\\\0", b"\\\r\\\0")]
    texts += ["-- one to three octal digits; in bytes the low eight bits"]
    texts += [text(0, "\\0"), text(0, "\\18"), text(0, "\\1018"), text(2, "\\67\\45\\23\\01"), text(0, "\\777"), text(2, "\\777\\400")]
    texts += ["-- every hex digit of either case; two, four and eight of them"]
    texts += [text(2, "\\x01\\x23\\x45\\x67\\x89\\xab\\xcd\\xef\\xAB\\xCD\\xEF"), text(0, "\\x419"), text(0, "\\u00410"), text(0, "\\U0001f6000")]
    texts += ["-- the codes beside the surrogates, and the last one"]
    texts += [text(0, "\\ud7ff"), text(0, "\\ue000"), text(0, "\\U0010ffff")]
    texts += ["-- RULES 3.3: a surrogate is U+FFFD"]
    texts += [text(0, "\\" + c, REPLACED) for c in ("ud800", "udbff", "udc00", "udfff", "U0000d800")]
    texts += ["-- the seven kinds: raw ones have no escapes, f-strings double braces, bytes know no u"]
    texts += [text(kind, "\\t{{\\u0041") for kind in range(7)]
    texts += ["-- a name, and what follows it"]
    texts += [text(0, "\\N{OHM SIGN}a"), text(1, "\\N{DIVISION SIGN}"), text(6, "\\N{GREATER-THAN OR EQUAL TO}")]
    texts += ["-- the last character of ASCII in bytes"]
    texts += [text(2, "\x7f"), text(5, "\x7f")]
    names = [row(written(name), "0x%04X" % ord(unicodedata.lookup(name))) for name in NAMES]
    for name in NAMES:
        assert read(0, "\\N{%s}" % name) == unicodedata.lookup(name).encode()

    def refused(kind, body, number, taken, by_python=True):
        assert is_refused(kind, body) == by_python, (kind, body)
        return row(str(kind), written(body), str(number), str(taken))

    refusals = ["-- 10: the body ends after a backslash; no `{` after N, placed there; no `}`, placed at the end"]
    refusals += [row("0", written("a\\"), "10", "2"), refused(0, "\\N", 10, 2), refused(0, "\\Nx", 10, 2), refused(0, "\\N{OHM SIGN", 10, 11)]
    refusals += ["-- 11, after the letter: a digit is missing, or is none; a code above 10FFFF"]
    refusals += [refused(0, "\\" + c, 11, 2) for c in ("x", "x4", "u004", "U0010fff", "U00110000")]
    refusals += [refused(0, "\\x4" + c, 11, 2) for c in "/:@G`g"]
    refusals += ["-- 11, after its `}`: a name over 88 bytes; one of 88 is looked for"]
    refusals += [refused(0, "\\N{%s}" % ("A" * 89), 11, 93), refused(0, "\\N{%s}" % ("A" * 88), 13, 3)]
    refusals += ["-- 13, after its `{`: compared byte for byte"]
    refusals += [refused(0, "\\N{ohm sign}", 13, 3, by_python=False), refused(6, "\\N{}", 13, 3)]
    refusals += ["-- 12, after it: in bytes a character that is not ASCII, and after a backslash"]
    refusals += [refused(2, "\x80", 12, 2), refused(5, "aé", 12, 3), refused(2, "a\\é", 12, 4), refused(2, "\\\x80", 12, 3)]
    refusals += ["-- 27, after the last character taken: a backslash in a field, and a body that ends in a quoted run"]
    refusals += [refused(1, "{a\\}", 27, 3), refused(1, "{a['b]}", 27, 7)]
    refusals += ["-- 28, after it: the 65th bracket"]
    refusals += [row("1", written("{" + "(" * 65 + ")" * 65 + "}"), "28", "66")]
    return HEAD % "What Python reads for an escape, and what is refused." + table(
        "a kind, a body, its text", "texts", "ℕ × List ℕ × List ℕ", texts) + table(
        "the held names and their codes", "held_rows", "List ℕ × ℕ", names) + table(
        "a kind, a body, its refusal's number and the bytes taken at its place", "refusals", "ℕ × List ℕ × ℕ × ℕ", refusals)


# CHARACTERS, by Python's UTF-8
def characters():
    codes = [0, 0x41, 0x7F, 0x80, 0xE9, 0x7FF, 0x800, 0xFFF, 0x1000, 0x20AC, 0xCFFF, 0xD000, 0xD7FF, 0xE000, 0xFFFD, 0xFFFF,
             0x10000, 0x1F600, 0x3FFFF, 0x40000, 0xFFFFF, 0x100000, 0x10FFFF]
    rows = [row("0x%04X" % c, octets(chr(c).encode())) for c in codes]
    # beside the ranges of the table: what may not follow, nor begin
    ill = ["80", "BF", "C0 80", "C1 BF", "C2 7F", "C2 C0", "DF", "E0 9F BF", "E0 C0 80", "E1 7F 80", "E1 80 C0", "EC C0 80", "ED A0 80", "ED 80 7F", "EE 80",
           "EF BF C0", "F0 8F BF BF", "F0 90 80 C0", "F1 7F 80 80", "F3 BF C0 80", "F4 90 80 80", "F4 8F BF 7F", "F5 80 80 80", "FF"]
    ill = [b"a\xc3\xa9" + bytes.fromhex(text) + b"b" for text in ill]
    assert all(formed(s) < len(s) for s in ill)
    none = [row(octets(s), str(formed(s))) for s in ill]
    head = (HEAD % "Characters and what is none, by Python's UTF-8.").replace("use Rattle.definition.specs.Chars.{ascii}\n", "")
    return head + table("a code and its bytes", "encoded", "ℕ × List ℕ", rows) + table(
        "bytes that are not UTF-8, and the length of their longest well-formed prefix", "ill_formed", "List ℕ × ℕ", none)


# WHOLE CALLS: the nine numbers of RULES 5.1 and 5.6
def calls():
    prefix = [0, 1, 1, 1, 2, 2, 1]  # RULES 2.2

    def opening(kind, flag):  # RULES 2.3
        return prefix[kind] + (3 if flag else 1)

    def call(script, literals, answer, words=64, text=200):
        script = script.encode() if isinstance(script, str) else script
        return row(written(script), numbers(sum(literals, [])), str(words), str(text), numbers(answer))

    def one(kind, body, flag=0, start=0):
        size = len(body.encode() if isinstance(body, str) else body)
        return [kind, flag, 0, size, start, start + opening(kind, flag) + size + (3 if flag else 1)]

    def refused(number, literal=0, place=0, a=0, b=0, opened=0, line=0, column=0, chars=0):
        return [number, literal, place, a, b, opened, line, column, chars]

    rows = ["-- RULES 5.1: sort, u mark, start, end, records, text, and the characters, of each kind"]
    for kind, body in enumerate(["é", "é", "a", "\\t", "\\t", "\\t", "é"]):
        value = ast.parse(PREFIXES[kind] + '"' + body + '"', mode="eval").body
        joined = isinstance(value, ast.JoinedStr)
        sort = 1 if joined else 2 if isinstance(value.value, bytes) else 0
        mark = int(not joined and value.kind == "u")
        size = len(read(kind, body))
        end = 3 + opening(kind, 0) + len(body.encode()) + 1
        rows.append(call(body, [one(kind, body, start=3)], [0, sort, mark, 3, end, 1, size, 0, len(body)]))
    rows += ["-- an f-string of no text has no record, and 64 brackets may be open"]
    rows += [call("", [one(1, "")], [0, 1, 0, 0, 3, 0, 0, 0, 0])]
    many = "{" + "(" * 64 + ")" * 64 + "}"
    rows += [call(many, [one(1, many)], [0, 1, 0, 0, 3 + len(many), 1, 128, 0, len(many)])]
    rows += ["-- 1 and 2: place 0"]
    rows += [call("a", [], refused(1)), call("a", [one(0, "a"), [0]], refused(2)), call("a", [[0, 0, 0, 1, 0]], refused(2))]
    rows += ["-- 4 of the first bad literal, place 0: kind, flag, body outside the script, start above end, start below the end before, no room up to its end"]
    good = [0, 0, 0, 1, 0, 3]
    for bad in ([7, 0, 0, 1, 3, 9], [0, 2, 0, 1, 3, 9], [0, 0, 1, 1, 3, 9], [0, 0, 0, 0, 9, 8], [0, 0, 0, 1, 2, 9], [0, 0, 0, 1, 3, 4], [4, 1, 0, 1, 3, 8]):
        rows.append(call("a", [good, bad], refused(4, 1)))
    rows += ["-- and what is not bad: the same at its limit"]
    rows += [call("a", [good, [6, 0, 0, 1, 3, 6]], [0, 0, 0, 0, 6, 1, 2, 0, 2]), call("a", [good, [0, 0, 1, 0, 3, 4]], [0, 0, 0, 0, 4, 1, 1, 0, 1])]
    rows += [call("a", [good, [4, 1, 0, 1, 3, 9]], [0, 1, 0, 0, 9, 1, 2, 0, 2])]
    rows += ["-- 6 of the first such literal, after the longest well-formed prefix: of each kind and flag, whose opening is its prefix and one or three quotes"]
    for flag in (0, 1):
        for kind in range(7):
            rows.append(call(b"a\xff", [one(kind, b"a\xff", flag, 5)], refused(6, 0, 5 + opening(kind, flag) + 1)))
    rows += [call(b"a\xc3", [one(0, "a"), [0, 0, 1, 1, 3, 6]], refused(6, 1, 4))]
    rows += ["-- 7 at the first start, before any refusal of a body"]
    rows += [call("a\\", [[kind, 0, 0, 1, 5, 9], [other, 0, 0, 2, 9, 14]], refused(7, 0, 5)) for kind, other in ((2, 0), (0, 5), (5, 1), (6, 2))]
    rows += ["-- 10 to 28 of the second literal, of three quotes from 30 on, after a line end and two bytes of é: number, bytes taken, details"]
    for number, body, kind, taken, a, b, opened in (
            (10, "\\", 0, 1, 0, 0, 0), (11, "\\x4", 0, 2, 0, 0, 0), (13, "\\N{A}", 0, 3, 0, 0, 0), (20, "{x=y}", 1, 4, 3, 0, 0),
            (21, "{x!é}", 1, 5, 0, 0, 0), (22, "{ }", 1, 3, 0, 0, 0), (22, "{!r}", 1, 2, 0, 0, 0), (23, "{[é)", 1, 5, 91, 41, 2),
            (24, "{x:{y:{", 1, 6, 0, 0, 0), (25, "}", 1, 1, 0, 0, 0), (26, "{a]", 1, 3, 93, 0, 0), (27, "{x\\", 1, 3, 0, 0, 0),
            (28, "{" + "[" * 65, 1, 66, 0, 0, 0)):
        whole = "\né" + body
        passed = len(body.encode()[:taken].decode())
        place = 30 + opening(kind, 1) + 3
        second = [kind, 1, 1, len(whole.encode()), 30, 200]
        rows.append(call("a" + whole, [good, second], refused(number, 1, place + taken, a, b, opened and place + opened, 1, 1 + passed, 1 + 2 + passed)))
    rows += ["-- 12, in bytes"]
    rows += [call("a\né", [[2, 0, 0, 1, 0, 4], [2, 1, 1, 3, 30, 50]], refused(12, 1, 37, 0, 0, 0, 1, 1, 3))]
    rows += ["-- 30 before 31, literal and place 0: records and text bytes needed, and all characters; with just that room it is accepted"]
    pair = [[0, 0, 0, 2, 3, 7], [1, 0, 2, 3, 7, 13]]
    for words, text, number in ((15, 0, 30), (15, 3, 30), (16, 2, 31)):
        rows.append(call("é{x}", pair, refused(number, 0, 0, 2, 3, chars=4), words, text))
    rows += [call("é{x}", pair, [0, 1, 0, 3, 13, 2, 3, 0, 4], 16, 3)]
    return HEAD % "The numbers of whole calls." + table(
        "a script, the numbers of its literals, the words and the text bytes that are lent, and the answer's numbers", "calls",
        "List ℕ × List ℕ × ℕ × ℕ × List ℕ", rows)


# EVERY PRINTED CHARACTER IN A PLACE: what comes of it, by the rules; groups of bytes, and what comes of all others
def around(*places):
    rows = []
    for place in places:
        if isinstance(place, str):
            rows.append(place)
            continue
        *front, before, after, other, groups = place
        listed_groups = " ∷ ".join(["(%s, %d)" % (written(chars), n) for chars, n in groups] + ["[]"])
        rows.append(row(*map(str, front), written(before), written(after), str(other), listed_groups))
    return rows


def fields():
    brackets = [("([", 23), (")]", 26), ("'\"\\", 27)]
    rows = around(
        "-- RULES 4.1: in text, and after a brace",
        (1, "", "", 0, [("{", 20), ("}", 25), ("\\", 10)]),
        (1, "{", "", 20, [("{", 0), ("}!", 22), (")]", 26), ("'\"\\", 27)]),
        (1, "}", "", 25, [("}", 0)]),
        "-- RULES 4.3: in a field, and there before a `=`",
        (1, "{x", "}", 0, brackets + [("!", 21), ("{", 20), ("}", 25)]),
        (1, "{x", "=y}", 20, brackets + [("!=><:", 0), ("}", 25)]),
        "-- RULES 4.4: after a `!`, and after a conversion",
        (1, "{x!", "}", 21, [("sar=", 0)]),
        (1, "{x!r", "}", 20, [(":", 0), ("}", 25)]),
        "-- RULES 4.5: after a self-documenting `=`",
        (1, "{x=", "}", 20, brackets + [(" =:", 0), ("!", 21), ("}", 25)]),
        "-- RULES 4.6: in a bracket",
        (1, "{(", ")}", 0, [("([{]}", 23), (")", 26), ("'\"\\", 27)]),
        "-- RULES 4.9: in a spec",
        (1, "{x:", "}", 0, [("{", 22), ("}", 25)]),
        "-- RULES 3.3, 3.4: as a hex digit, and after N",
        (0, "\\x4", "", 11, [("0123456789abcdefABCDEF", 0)]),
        (0, "\\N", "}", 10, [("{", 13)]),
    )
    return HEAD % "Every printed character of ASCII in the places of a body: its refusal's number, 0 for none." + table(
        "a kind, what stands before the character and after it, the number for most, and groups with another", "places",
        "ℕ × List ℕ × List ℕ × ℕ × List (List ℕ × ℕ)", rows)


# A FILE OF NAMES, by unicodedata
def names():
    # every digit of either case, and four to six of them
    spelled = ["0123", "4567", "89ab", "89AC", "cdef", "CDEE", "01F40d", "1f600"]
    held = [(digits, unicodedata.name(chr(int(digits, 16)))) for digits in spelled]
    lines = [written("%s;%s" % line) for line in held]
    asked = [row(written(name), "0x%04X" % ord(unicodedata.lookup(name))) for _, name in held]
    codes = []
    for digits in ["0000", "D7FF", "D800", "dfff", "E000", "FFFF", "10ffff", "110000", "FFFFFF"]:
        scalar = int(digits, 16) <= sys.maxunicode and unicodedata.category(chr(int(digits, 16))) != "Cs"
        codes.append(row(written(digits + ";A"), numbers([0, 1] if scalar else [60])))
    codes += [row(written("004%s;A" % c), numbers([60])) for c in "/:@G`g"]
    return HEAD % "A file of names and their codes, by Python's unicodedata." + table(
        "lines by their first two fields", "file_rows", "List ℕ", lines) + table(
        "names and their codes", "asked_rows", "List ℕ × ℕ", asked) + table(
        "a line, and the numbers of an index built: 60 for a name's code that is no scalar, and for a digit that is none", "code_rows", "List ℕ × List ℕ", codes)


# THE LITERALS OF A SCRIPT, by Python's tokenizer
def literals():
    def six(source, start):
        quotes = source.lstrip("fFbBrRuU")
        letters = len(source) - len(quotes)
        flag = int(quotes[:3] in ("'''", '"""'))
        many = 3 if flag else 1
        kind = kind_of(source[:letters] + "'a'")
        return [kind, flag, start + letters + many, len(source) - letters - 2 * many, start, start + len(source)]

    def run(script, found, stop):
        answer = [0, len(found), found[-1][5], stop]
        return row(written(script), numbers(answer), numbers(sum(found, [])))

    def by_python(script):
        return run(script, [six(*one) for one in strings(script)], len(script))

    spellings = ["".join(p) for n in (1, 2) for p in itertools.product("fFbBrRuU", repeat=n)]
    prefixes, none = [], []
    for p in spellings:
        try:
            ast.parse(p + "'a'", mode="eval")
            prefixes.append(p)
        except SyntaxError:
            none.append(p)
    rows = ["-- every prefix that Python has"]
    rows += [by_python(" ".join(p + "'a'" for p in prefixes[i:i + 4])) for i in range(0, len(prefixes), 4)]
    rows += ["-- one and three quotes of either kind, none within; a backslash takes the next character with it, in raw ones too"]
    rows += [by_python(s) for s in ("'' \"\"'''a'b''c''' \"\"\"'a\"b\"\"\"", "'a\\'b' r'\\'' '\\\\'\"\\\n\"", "'''a\nb''\\'''' '#'")]
    rows += ["-- spaces, tabs, newlines and comments between them"]
    rows += [by_python(s) for s in ("'a' \t\n 'b'", "'a'#'b'\n#\n\n'c' # \"", "'a'\n")]
    rows += ["-- RULES 8.3: nothing else is passed over; a carriage return, a form feed, a vertical tab, a no-break space end the run"]
    first = [0, 0, 1, 1, 0, 3]
    rows += [run("'a' %s'b'" % c, [first], 4) for c in ("\r", "\f", "\v", "\xa0", "\\", "+", ",", "\0", "!")]
    rows += ["-- RULES 8.2, 8.3: byte 13 is no line end, neither in a literal nor in a comment"]
    rows += [run("'a\rb'", [[0, 0, 1, 3, 0, 5]], 5), run("'a'#\r'b'\n'c'", [first, [0, 0, 10, 1, 9, 12]], 12)]
    rows += ["-- RULES 8.1: no other letters are a prefix, 52"]
    rows += [row(written(p + "'a'"), numbers([52, 0, 0]), "[]") for p in none]
    letters = "fFbBrRuU"
    places = around(
        "-- RULES 8.3: between two literals: how many there are, or a refusal's number",
        ("'a'", "'c'", 1, [(" \t\n'" + letters, 2), ('"', 50)]),
        ("'a' ", "\n'c'", 1, [(" \t\n#", 2), ("'\"", 51)]),
        "-- RULES 8.1: before a literal",
        ("", "'a'", 52, [(letters + "'", 1), ('"', 50)]),
        "-- RULES 8.2: in a literal of one quote, and of three",
        ("'", "'", 1, [("'\\", 50), ("\n", 51)]),
        (3 * "'", 3 * "'", 1, [("'\\", 50)]),
        ('"', '"', 1, [('"\\', 50), ("\n", 51)]),
    )
    words = "".join(map(chr, filter(lambda c: chr(c).isalnum() or c == ord("_"), range(128))))
    assert len(words) == 63
    cuts = around(
        "-- RULES 9.1: before `f''`: the kind of the first literal, 7 for none; a prefix counts after no ASCII letter, digit or underscore",
        ("", "f''", 1, [("rR", 4), (words.translate({ord("r"): None, ord("R"): None}) + "'", 0), ('"#', 7)]),
        "-- in a comment: it ends before byte 10 or 13",
        ("#", "f''", 7, [("\n\r", 1)]),
    )
    return HEAD % "The literals of small scripts, by Python's tokenizer." + table(
        "a script, the answer's numbers and the list", "runs", "List ℕ × List ℕ × List ℕ", rows) + table(
        "every byte of ASCII in a place: what stands before and after it, what most bytes give, and groups of bytes that give another", "places",
        "List ℕ × List ℕ × ℕ × List (List ℕ × ℕ)", places) + table(
        "the same of the cut", "cut_places", "List ℕ × List ℕ × ℕ × List (List ℕ × ℕ)", cuts)


# THE LINES OF THE PROGRAMS: what RFC 8259 makes of a byte, and Python's decimals
def lines():
    escapes = []
    for b in [*range(32), 0x20, 0x21, 0x22, 0x23, 0x5B, 0x5C, 0x5D, 0x7E, 0x7F]:
        # RULES 10.1: the form; that it stands for the byte is the RFC's, by Python's json
        text = "\\" + chr(b) if chr(b) in '"\\' else "\\u%04x" % b if b < 32 else chr(b)
        assert json.loads('"%s"' % text) == chr(b)
        escapes.append(row(str(b), written(text)))
    escapes += [row(str(b), octets([b])) for b in (0x80, 0xFF)]
    decimals = [row(str(n), written(str(n))) for n in (0, 1, 9, 10, 11, 19, 20, 99, 100, 101, 1023, 987654321)]
    return HEAD % "Bytes in the text of a line, and numbers, by Python's json and decimals." + table(
        "a byte, and how it is written", "escape_rows", "ℕ × List ℕ", escapes) + table("a number, and its digits", "decimal_rows", "ℕ × List ℕ", decimals)


FILES = {
    "definition/proofs/Computed/EscapeRows.antt": escapes,
    "definition/proofs/Computed/CharRows.antt": characters,
    "definition/proofs/Computed/CallRows.antt": calls,
    "definition/proofs/Computed/PlaceRows.antt": fields,
    "definition_names/proofs/NameRows.antt": names,
    "definition_scripts/proofs/Computed/LiteralRows.antt": literals,
    "definition_lines/proofs/LineRows.antt": lines,
}


def main(argv):
    if sys.version_info[:2] != (3, 11):
        print("rows: left out, Python 3.11 is asked and this is another")
        return
    other = []
    for name, make in FILES.items():
        path, text = os.path.join(CRATES, name), make()
        if argv[1:] == ["--check"]:
            with open(path, encoding="utf-8") as file:
                if file.read() != text:
                    other.append(name)
        else:
            with open(path, "w", encoding="utf-8") as file:
                file.write(text)
    if other:
        sys.exit("rows.py: not what it would write: " + ", ".join(other))
    print("rows: %d tables of computed rows are as Python answers" % len(FILES))


if __name__ == "__main__":
    main(sys.argv)
