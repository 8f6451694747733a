"""The cut of a script into gaps and literals: a small model of it, and the statements that it must meet."""

import re

PREFIXES = [b"f", b"b", b"r", b"u", b"fr", b"rf", b"br", b"rb"]
QUOTES = b"'''", b'"""', b"'", b'"'
WORD = re.compile(rb"[A-Za-z0-9_]")
NEXT = re.compile(
    rb"#[^\n\r]*|(?P<prefix>(?<![A-Za-z0-9_])(?:%s))?(?P<quotes>%s)" % (b"|".join(PREFIXES), b"|".join(QUOTES)),
    re.IGNORECASE,
)
IN_WORD = re.compile(rb"[A-Za-z0-9_\x80-\xff]")
KEYWORDS = (
    b"and as assert await case del elif else except for from if in is match not or raise return while with yield".split()
)
STANDS = re.compile(rb"|(?:[0-9].*)?(?:%s)" % b"|".join(KEYWORDS), re.DOTALL)
BODIES = {
    quotes: re.compile(rb"(?:\\.|(?!%s)[^\\%s])*" % (quotes, b"" if len(quotes) == 3 else rb"\n"), re.DOTALL)
    for quotes in QUOTES
}


def cut(script):
    """Start and end of each literal; and number and place of what ends the cut early, or None."""
    literals, at = [], 0
    while found := NEXT.search(script, at):
        at = found.end()
        quotes = found["quotes"]
        if quotes:
            at = BODIES[quotes].match(script, at).end()
            if not script.startswith(quotes, at):
                return literals, (51 if script.startswith(b"\n", at) else 50, found.start())
            at += len(quotes)
            literals.append((found.start(), at))
    return literals, None


def is_cut(script, literals, ending):
    """Whether the statements (a) to (e) of crates/definition_scripts/specs/IsCut.antt hold."""
    begin = 0
    for start, end in literals:
        if not (begins(script, begin, start) and closes(script, start) == (None, end)):
            return False
        begin = end
    if ending is None:
        return quotes_hidden(script, begin, len(script))
    number, place = ending
    return begins(script, begin, place) and closes(script, place) == (number, None)


def begins(script, begin, start):
    """(a), (b) and (d) of a literal at `start` after the gap from `begin` on."""
    prefix = prefix_at(script, start)
    if prefix is None or not quotes_hidden(script, begin, start) or hidden(script, begin, start):
        return False
    words = [w for w in (start - 1, start - 2) if w >= begin and prefix_at(script, w) == script[w:start].lower()]
    return apart(script, start) if prefix else not any(apart(script, w) for w in words)


def quotes_hidden(script, begin, end):
    return all(hidden(script, begin, at) for at in range(begin, end) if script[at] in b"'\"")


def hidden(script, begin, at):
    """Whether a `#` stands before a place in the same line of the gap from `begin` on."""
    return b"#" in re.split(rb"[\n\r]", script[begin:at])[-1]


def apart(script, at):
    return at == 0 or not WORD.match(script, at - 1)


def unknown_word(script, start):
    """Where the word begins that ends at a literal's start, if Python 3.11 does not let it stand there; else None."""
    begin = start
    while begin and IN_WORD.match(script, begin - 1):
        begin -= 1
    return None if STANDS.fullmatch(script[begin:start]) else begin


def prefix_at(script, at):
    """The prefix of what opens at a place, in small letters, empty for a bare quote; None if nothing opens there."""
    for prefix in (b"", *PREFIXES):
        after = at + len(prefix)
        if script[at:after].lower() == prefix and script[after : after + 1] in (b"'", b'"'):
            return prefix
    return None


def closes(script, start):
    """(c) and (e): where the literal that opens at `start` ends, or the number that says why it never does."""
    at = start + len(prefix_at(script, start))
    quote = script[at : at + 1]
    quotes = 3 * quote if script.startswith(3 * quote, at) else quote
    at += len(quotes)
    while at < len(script):
        if script.startswith(quotes, at):
            return None, at + len(quotes)
        if script[at] == 10 and len(quotes) == 1:
            return 51, None
        at += 2 if script[at] == 92 else 1
    return 50, None
