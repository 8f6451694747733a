# Run with Python 3.11, `python3 crates/try_leaves/expected.py`: writes the vectors to `stdin` beside it and what must come out to `stdout`.
# With `--check` it writes nothing and fails if one of them is not what it would write.
"""By Python's own UTF-8 decoder and unicodedata, and by the rules for escapes (RULES 3). Python's reading of literals is asked too."""
import ast
import itertools
import os
import sys
import unicodedata
import warnings

NO_CODE = 0x110000
NAMES = [
    "DEGREE SIGN", "PLUS-MINUS SIGN", "SUPERSCRIPT TWO", "MICRO SIGN", "MULTIPLICATION SIGN", "DIVISION SIGN",
    "GREEK CAPITAL LETTER DELTA", "GREEK CAPITAL LETTER OMEGA", "GREEK SMALL LETTER MU", "OHM SIGN", "INFINITY",
    "ALMOST EQUAL TO", "LESS-THAN OR EQUAL TO", "GREATER-THAN OR EQUAL TO",
]
SIMPLE = dict(zip("\\'\"abfnrtv", "\\'\"\a\b\f\n\r\t\v"))


def decoded(b):
    """The text of some bytes; None if they are not UTF-8."""
    try:
        return b.decode("utf-8")
    except UnicodeDecodeError:
        return None


def step(s, i):
    """The code of the character at i, and where the next begins; a byte that begins none is taken alone."""
    for n in range(1, 5):
        text = decoded(s[i:i + n]) if i + n <= len(s) else None
        if text is not None and len(text) == 1:
            return ord(text), i + n
    return 0xFFFD, i + 1


def formed(s):
    """The length of the longest well-formed prefix."""
    try:
        s.decode("utf-8")
        return len(s)
    except UnicodeDecodeError as e:
        return e.start


def heads(s):
    """How many bytes may begin a character."""
    return sum(not 0x80 <= b <= 0xBF for b in s)


def after(b):
    """What may follow a first byte: how many bytes, and the second's range."""
    if decoded(bytes([b])) is not None:
        return 0, 0, 0
    for n in range(1, 4):
        seconds = [x for x in range(256) if len(decoded(bytes([b, x] + [0x80] * (n - 1))) or "") == 1]
        if seconds:
            assert seconds == list(range(seconds[0], seconds[-1] + 1))
            return n, seconds[0], seconds[-1]
    return None


def classes():
    """Rows are numbered from 1, and a new one begins where what follows changes."""
    rows, last, of = 0, None, []
    for b in range(256):
        now = after(b)
        if now is not None and now != last:
            rows += 1
        of.append(0 if now is None else rows)
        last = now
    return of


def chars(s):
    out, i = [], 0
    while i < len(s):
        c, j = step(s, i)
        out += [c, c, j]
        i = j
    return out + [NO_CODE]


def escape(kind, s, i):
    """RULES 3.2 to 3.4: the answer and its numbers."""
    in_bytes = kind in (2, 5)
    if i >= len(s):
        return "refused", 10, i
    code, j = step(s, i)
    c = chr(code)
    if c in SIMPLE:
        return "code", ord(SIMPLE[c]), j
    if c in "01234567":
        k = j
        while k < len(s) and k - i < 3 and s[k] in b"01234567":
            k += 1
        return "code", int(s[i:k], 8), k
    digits = {"x": 2, "u": 0 if in_bytes else 4, "U": 0 if in_bytes else 8}.get(c, 0)
    if digits:
        text = s[j:j + digits]
        if len(text) < digits or any(b not in b"0123456789abcdefABCDEF" for b in text):
            return "refused", 11, j
        v = int(text, 16)
        if v > 0x10FFFF:
            return "refused", 11, j
        return "code", 0xFFFD if 0xD800 <= v <= 0xDFFF else v, j + digits
    if c == "N" and not in_bytes:
        if s[j:j + 1] != b"{":
            return "refused", 10, j
        end = s.find(b"}", j + 1)
        if end < 0:
            return "refused", 10, len(s)
        name = s[j + 1:end]
        if len(name) > 88:
            return "refused", 11, end + 1
        if name not in [n.encode() for n in NAMES]:
            return "refused", 13, j + 1
        return "code", ord(unicodedata.lookup(name.decode())), end + 1
    if c == "\n":
        return "gone", j
    if in_bytes and code >= 0x80:
        return "refused", 12, j
    return "kept", j


def python_agrees(kind, s, answer):
    """Where Python takes the literal too, it reads the same, but for surrogates; where it refuses it, so do we."""
    body = decoded(s if answer[0] == "refused" else s[:answer[-1]])
    if body is None or body[:1] in ("", "\0", "\r") or kind not in (0, 2):
        return
    literal = ("b" if kind == 2 else "") + '"""\\' + body + ' """'
    with warnings.catch_warnings():
        warnings.simplefilter("ignore")
        try:
            value = ast.literal_eval(literal)
        except (SyntaxError, ValueError):
            assert answer[0] == "refused", (kind, s, answer)
            return
    if answer[0] == "refused":
        assert answer[1] in (12, 13), (kind, s, answer)
        return
    first = value[:1] if kind == 0 else value[:1].decode("latin-1")
    if answer[0] == "code":
        surrogate = kind == 0 and 0xD800 <= ord(first) <= 0xDFFF
        assert surrogate and answer[1] == 0xFFFD or ord(first) == (answer[1] if kind == 0 else answer[1] % 256), (kind, s, answer)
    elif answer[0] == "kept":
        assert first == "\\", (kind, s, answer)


def sequences():
    """Bytes at the edges of the table's ranges, and one past them."""
    first = [0x00, 0x41, 0x7F, 0x80, 0xBF, 0xC0, 0xC1, 0xC2, 0xDF, 0xE0, 0xE1, 0xEC, 0xED, 0xEE, 0xEF, 0xF0, 0xF1, 0xF3, 0xF4, 0xF5, 0xFF]
    second = [0x41, 0x7F, 0x80, 0x8F, 0x90, 0x9F, 0xA0, 0xBF, 0xC0]
    later = [0x7F, 0x80, 0xBF, 0xC0]
    yield b""
    yield from (bytes([b]) for b in first)
    yield from (bytes(t) for t in itertools.product(first, second))
    yield from (bytes(t) for t in itertools.product([b for b in first if b >= 0xDF], second, later))
    yield from (bytes(t) for t in itertools.product([b for b in first if b >= 0xEF], second, [0x80, 0xC0], later))
    yield "plain, é, \u07ff\u0800\ud7ff\ue000\uffff\U00010000\U0010ffff, and ASCII again".encode()


def escapes():
    """Kind, bytes after the backslash."""
    for kind in range(7):
        yield kind, b""
    for kind in (0, 2):
        for c in range(128):
            yield kind, bytes([c])
            yield kind, bytes([c]) + b"!!"
    for kind in (0, 1, 2, 5, 6):
        for text in ("é", "\x80", "ÿ1", "\u07ff", "\ufffd", "😀x"):
            yield kind, text.encode()
        yield kind, b"\x80"
    for kind in (0, 2):
        for text in ("00", "07", "08", "70", "77", "78", "000", "377", "378", "400", "777", "7777", "1é", "12é", "18", "0/", "0:"):
            yield kind, text.encode()
        for d in "0123456789abcdefABCDEF/:@G`gé":
            yield kind, ("x" + d).encode()
            yield kind, ("x" + d + "0").encode()
            yield kind, ("x0" + d + "0").encode()
        for text in (
            "u0041", "uD7FF", "ud800", "uDFFF", "uE000", "uffff", "u004", "u00g1", "u004é", "u", "U0000004",
            "U00000041", "U0000d7ff", "U0000D800", "U0000dfff", "U0000E000", "U00010000", "U0010ffff", "U00110000", "Uffffffff",
            "U000000g1", "U", "N", "N{", "N}", "N{}", "N{INFINITY", "Né{INFINITY}", "N INFINITY",
        ):
            yield kind, text.encode()
    for kind in (0, 2):
        for name in NAMES:
            yield kind, ("N{" + name + "}").encode()
    for name in NAMES:
        for other in (name.lower(), name[:-1], name + "S", " " + name, name[1:]):
            yield 0, ("N{" + other + "}tail").encode()
    for n in (87, 88, 89, 90):
        yield 0, b"N{" + b"A" * n + b"}"
        yield 0, b"N{" + b"A" * n
    yield 0, ("N{" + "é" * 44 + "}").encode()
    yield 0, ("N{" + "é" * 44 + "A}").encode()


def blocks():
    """Longer than a block of 64 bytes: characters over its ends and cut at the end, and one byte that is another."""
    for c in "\u00e9\u0800\u20ac\ud7ff\U00010000\U0010ffff":
        for n in range(4):
            yield ("a" * n + c * 50).encode()[:100]
    text = ("\u00e9\u20ac\U00010000a" * 10).encode()
    for at in range(58, 72):
        for other in (0x41, 0x80, 0xC1, 0xE0, 0xF4):
            yield text[:at] + bytes([other]) + text[at + 1:]
    for n in range(8):
        yield b"a" * n + (text * 3)[:250 - 2 * n]


def main():
    here = os.path.dirname(os.path.abspath(__file__))
    vectors, lines = bytearray(), []

    def add(sort, kind, at, s, words):
        vectors.extend(sort.encode() + bytes([kind, at, len(s)]) + s)
        lines.append(" ".join(str(w) for w in words))

    for b, k in enumerate(classes()):
        add("b", 0, 0, bytes([b]), ("class", k))
    for s in itertools.chain(sequences(), blocks()):
        add("c", 0, 0, s, ("formed", formed(s), len(s[:formed(s)].decode()), heads(s), *chars(s)))
    for kind, s in escapes():
        answer = escape(kind, s, 0)
        python_agrees(kind, s, answer)
        add("e", kind, 0, s, answer)
        if len(s) < 12:
            before = "é\\".encode()
            add("e", kind, len(before), before + s, escape(kind, before + s, len(before)))
    assert len(vectors) < 65536
    text = "".join(line + "\n" for line in lines).encode("ascii")
    for name, content in ("stdin", bytes(vectors)), ("stdout", text):
        path = os.path.join(here, name)
        if "--check" not in sys.argv[1:]:
            with open(path, "wb") as f:
                f.write(content)
        elif open(path, "rb").read() != content:
            sys.exit(path + " is not what expected.py gives")


main()
