"""The code cells of a Jupyter notebook, each as a script.

What begins with `%` or `!` where a statement could begin is IPython's and not Python: such a line is left out, an empty line
in its place, and told. In a string, in brackets, or behind a backslash it is Python, and stays.
"""

from __future__ import annotations

import json
import re
from dataclasses import dataclass

import stumpgarret

# The cell magics whose cell is of another language; any other's is read as Python, so that no field is hidden by a name.
OF_OTHERS = set("! bash bigquery cmd cython html HTML javascript js julia latex markdown octave perl R ruby script sh".split())
OF_OTHERS |= set("sql svg SVG sx system".split())
WRITERS = "writefile", "file"
CELL_MAGIC = re.compile(r"\s*%%(!|[^\s!]*)([^\n]*)")
MET = re.compile(rb"#[^\n]*|\\\n|\n|[()\[\]{}]|['\"]")
NOT_PYTHON = re.compile(rb"[ \t]*[%!][^\n]*")
PREFIX = re.compile(rb"(?:^|[^A-Za-z0-9_])((?i:r|u|b|f|br|rb|fr|rf))$", re.DOTALL)
LONGEST_PREFIX = 2


@dataclass(frozen=True)
class Cell:
    """A code cell by its number among all cells, from 1; its Python; and the lines that are none, by number."""

    number: int
    source: str
    left_out: tuple[tuple[int, str], ...]


def is_one(content: bytes) -> bool:
    """Whether what is called otherwise, as standard input is, is a notebook: as a script it would have no field."""
    if not content.lstrip().startswith(b"{") or b'"nbformat"' not in content:
        return False
    try:
        return "cells" in json.loads(content)
    except (ValueError, RecursionError):
        return False


def cells(content: bytes) -> list[Cell]:
    """The code cells of a notebook. Raises `stumpgarret.Undecodable` for what is no notebook, or none of Python."""
    try:
        notebook = json.loads(content)
        found = [(number, _joined(cell["source"])) for number, cell in enumerate(_cells(notebook), 1) if _is_code(cell)]
        language = _language(notebook)
    except (ValueError, RecursionError) as error:
        raise stumpgarret.Undecodable(f"it is no notebook: {error}") from error
    except (KeyError, TypeError, AttributeError) as error:
        raise stumpgarret.Undecodable("it is no notebook: it has no cells of code with their source") from error
    if language.lower() not in ("python", "ipython"):
        raise stumpgarret.Undecodable(f"it is a notebook of {language}, and not of Python")
    return [_cell(number, source) for number, source in found]


def _cells(notebook: dict) -> list[dict]:
    """Those of format 4; those of format 3 stand in worksheets and have an `input`."""
    if "worksheets" in notebook:
        raise ValueError("its format is older than 4: save it anew")
    return list(notebook["cells"])


def _is_code(cell: dict) -> bool:
    return cell["cell_type"] == "code"


def _language(notebook: dict) -> str:
    known = notebook.get("metadata", {})
    return str(known.get("language_info", {}).get("name") or known.get("kernelspec", {}).get("language") or "python")


def _joined(source: str | list[str]) -> str:
    return source if isinstance(source, str) else "".join(source)


def _cell(number: int, source: str) -> Cell:
    source = source.replace("\r\n", "\n").replace("\r", "\n")
    magic = CELL_MAGIC.match(source)
    if magic and (magic[1] in OF_OTHERS or magic[1] in WRITERS and not magic[2].endswith(".py")):
        line = source[: magic.start(1)].count("\n") + 1
        return Cell(number, "", ((line, f"{magic[0].strip()}, the whole cell"),))
    return Cell(number, *_python(source.encode("utf-8", "surrogatepass")))


def _python(script: bytes) -> tuple[str, tuple[tuple[int, str], ...]]:
    """A script without the lines that are not Python, and these lines."""
    left_out = []
    at = depth = 0
    begins = True
    while at < len(script):
        odd = begins and NOT_PYTHON.match(script, at)
        if odd:
            line = script.count(b"\n", 0, at) + 1
            left_out.append((line, odd[0].decode("utf-8", "surrogatepass").strip()))
            script = script[:at] + script[odd.end() :]
        begins = False
        met = MET.search(script, at)
        if not met:
            break
        at = met.end()
        if met[0] == b"\n":
            begins = depth == 0
        elif met[0] in b"([{":
            depth += 1
        elif met[0] in b")]}":
            depth = max(0, depth - 1)
        elif met[0] in b"'\"":
            end = _literal_end(script, met.start())
            if end is None:
                break
            at = end
    return script.decode("utf-8", "surrogatepass"), tuple(left_out)


def _literal_end(script: bytes, quote: int) -> int | None:
    """Where the literal ends that a quote opens, None if it never does: then nothing behind it is listed, and that is told."""
    before = PREFIX.search(script[max(0, quote - LONGEST_PREFIX - 1) : quote])
    try:
        return stumpgarret.literals(script, quote - (len(before[1]) if before else 0)).literals[0].end
    except stumpgarret.Refusal:
        return None
