"""Scripts of the installed Python library, as Python 3.11 reads them, and their literals by its tokenize."""

import pathlib
import sys
import sysconfig
import tokenize

sys.path.insert(0, str(pathlib.Path(__file__).resolve().parent.parent / "bindings/python/tests"))
import by_python

if hasattr(tokenize, "FSTRING_START"):
    sys.exit("Python 3.11 is needed: later ones cut an f-string into several tokens")


def paths():
    return sorted(pathlib.Path(sysconfig.get_path("stdlib")).rglob("*.py"))


def scripts(paths):
    """The text of each, with the runs of its adjacent literals, up to where it is no Python."""
    for path in paths:
        try:
            with tokenize.open(path) as file:
                text = file.read()
        except (SyntaxError, UnicodeDecodeError):
            continue
        yield text, [*runs(text)]


def runs(text):
    """Each literal of a run as its six numbers, which count in the text's UTF-8 bytes."""
    try:
        for run in by_python.runs(text):
            yield [[int(number) for number in vars(literal).values()] for literal in run]
    except (tokenize.TokenError, IndentationError):
        return
