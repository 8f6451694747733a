"""What Python itself finds in a script: its literals, by tokenize."""

import io
import itertools
import re
import tokenize

from support import stumpgarret

OPENING = re.compile(rb"([A-Za-z]*)('''|\"\"\"|'|\")")
KINDS = dict(zip((b"", b"f", b"b", b"r", b"fr", b"br", b"u"), stumpgarret.Kind))
PASSED_OVER = {tokenize.NL, tokenize.COMMENT}


def strings(text):
    """The literals of a text, with their places in its UTF-8 bytes; and the type of each token that ends a run of them.

    Raises TokenError or IndentationError where the text cannot be cut into tokens."""
    lines = io.StringIO(text).readlines()
    places = [*itertools.accumulate((len(encoded(line)) for line in lines), initial=0)]
    for token in tokenize.generate_tokens(iter(lines).__next__):
        if token.type == tokenize.STRING:
            line, column = token.start
            yield literal(places[line - 1] + len(encoded(lines[line - 1][:column])), encoded(token.string))
        elif token.type == tokenize.ERRORTOKEN and is_wrong(token.string):
            raise tokenize.TokenError(token.string, token.start)
        elif token.type not in PASSED_OVER:
            yield token.type


def runs(text):
    """The runs of adjacent literals, which Python takes for one."""
    for are_literals, run in itertools.groupby(strings(text), lambda one: isinstance(one, stumpgarret.Literal)):
        if are_literals:
            yield [*run]


def literal(start, source):
    """The literal that stands at a place."""
    prefix, quotes = OPENING.match(source).groups()
    opening = len(prefix + quotes)
    kind = KINDS[bytes(sorted(prefix.lower()))]
    length = len(source) - opening - len(quotes)
    return stumpgarret.Literal(kind, len(quotes) == 3, start + opening, length, start, start + len(source))


def encoded(text):
    return text.encode("utf-8", "surrogatepass")


def is_wrong(string):
    """Whether an error token is an error: blanks before one, and rare characters of names, are not."""
    return string.strip(" \t\f") != "" and not ("_" + string).isidentifier()
