"""What `stumpgarret --rounds` lets pass: lists of what is accepted, each entry with its reason.

    bench.py:mv / 1000  # three digits are what the meter has

A line is a path, a colon, an expression as it is listed, or a line of the script without its comment, and behind a `#` the
reason. The path is as it is listed, or counts from the folder of the list; - is standard input, and a cell of a notebook has
the notebook's path.
"""

from __future__ import annotations

import os
import re
from collections.abc import Iterable, Iterator
from dataclasses import dataclass

from stumpgarret import STANDARD_INPUT, _one_line

ENTRY = re.compile(r"(?P<path>[^:#]+):\s*(?P<rest>[^#\s][^#]*#.*\S.*)")
WANTED = "path:expression  # reason"
SHOWN_STANDARD_INPUT = "<stdin>"


class Unusable(Exception):
    """A list that cannot be read, or a line of one that is no entry, in words."""


@dataclass(frozen=True)
class Entry:
    """What is accepted in a script: `rest` has a text, and behind a `#` the reason; and where that is written."""

    where: str
    path: str
    keys: frozenset[str]
    rest: str

    def reason(self, text: str) -> str | None:
        """That of a text, which may have a `#` itself; None if it is another."""
        behind = self.rest[len(text) :].lstrip()
        return behind[1:].strip() if self.rest.startswith(text) and behind.startswith("#") else None


class Allowed:
    """The entries of some lists, and which of them were met."""

    def __init__(self, entries: Iterable[Entry] = ()):
        self.entries = list(entries)
        self.listed = set()
        self.met = set()

    def reason(self, path: str, text: str) -> str | None:
        """Why a text of a script is accepted; None if it is not."""
        key, found = _key(path, os.curdir), None
        for entry in self.entries:
            reason = entry.reason(text.strip()) if key in entry.keys else None
            if reason is not None:
                self.met.add(entry.where)
                found = found or reason
        return found

    def saw(self, path: str) -> None:
        """A script that was listed."""
        self.listed.add(_key(path, os.curdir))

    def unmet(self) -> Iterator[tuple[str, str]]:
        """Where an entry stands that met nothing, and what is said of it. One whose script is there and was not listed is
        passed over."""
        for entry in self.entries:
            if entry.where in self.met:
                continue
            if entry.keys & self.listed:
                yield entry.where, f"nothing that rounds is met by {_one_line(entry.path)}:{_one_line(entry.rest)}"
            elif SHOWN_STANDARD_INPUT not in entry.keys and not any(map(os.path.exists, entry.keys)):
                yield entry.where, f"there is no script {_one_line(entry.path)}"


def allowed(paths: Iterable[str]) -> Allowed:
    """What the lists at some paths accept."""
    return Allowed(entry for path in paths for entry in _entries(path))


def _entries(path: str) -> Iterator[Entry]:
    shown = _one_line(path)
    try:
        with open(path, encoding="utf-8-sig") as file:
            lines = file.read().split("\n")
    except (OSError, UnicodeError) as error:
        raise Unusable(f"{shown}: {getattr(error, 'strerror', None) or error}") from error
    for number, line in enumerate(lines, 1):
        if not line.strip() or line.lstrip().startswith("#"):
            continue
        found = ENTRY.fullmatch(line)
        if not found:
            lacking = "a reason behind a #" if "#" not in line and ":" in line else WANTED
            raise Unusable(f"{shown}:{number}: {lacking} is wanted: {_one_line(line)}")
        own = found["path"].strip()
        keys = frozenset(_key(own, folder) for folder in (os.curdir, os.path.dirname(path)))
        yield Entry(f"{shown}:{number}", own, keys, found["rest"].strip())


def _key(path: str, folder: str) -> str:
    if path in (STANDARD_INPUT, SHOWN_STANDARD_INPUT):
        return SHOWN_STANDARD_INPUT
    return os.path.abspath(os.path.join(folder, path))
