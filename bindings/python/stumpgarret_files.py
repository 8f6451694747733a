"""Which scripts the command lists: those that are named, those below a folder, those of a list; and the table
`[tool.stumpgarret]` of a pyproject.toml.
"""

from __future__ import annotations

import fnmatch
import os
import stat
from collections.abc import Callable, Iterable, Iterator
from dataclasses import dataclass

from stumpgarret import STANDARD_INPUT

NOTEBOOK = ".ipynb"
ENDINGS = ".py", ".pyw", NOTEBOOK
# Folders of packages that are installed, and of what Python compiled. Hidden ones begin with a dot; a virtual environment has
# its own file.
LEFT_OUT = "__pycache__", "__pypackages__", "node_modules", "site-packages", "venv"
ENVIRONMENT = "pyvenv.cfg"
HERE = os.path.join(os.curdir, "")
PROJECT = "pyproject.toml"
TABLE = "stumpgarret"


class Unusable(Exception):
    """A pyproject.toml, or a list of scripts, that cannot be used, in words."""


@dataclass(frozen=True)
class Project:
    """What the table of a pyproject.toml says, and the folder that its paths count from."""

    folder: str = ""
    exclude: tuple[str, ...] = ()
    names: str | None = None
    allow: tuple[str, ...] = ()


def scripts(
    paths: Iterable[str], exclude: Iterable[tuple[str, str]], failed: Callable[[str, OSError], None]
) -> Iterator[str]:
    """The scripts of paths: a folder stands for those below it, in the order of their names, each once. What is named by
    itself is taken whatever its name. A pattern excludes by the folder that its paths count from."""
    exclude = list(exclude)
    below = set()
    for path in paths:
        if path == STANDARD_INPUT or not os.path.isdir(path):
            yield path
            continue
        for found in _below(path, exclude, failed):
            key = os.path.abspath(found)
            if key not in below:
                below.add(key)
                yield found


def _below(top: str, exclude: list[tuple[str, str]], failed: Callable[[str, OSError], None]) -> Iterator[str]:
    for folder, folders, files in os.walk(top, onerror=lambda error: failed(error.filename, error)):
        folders[:] = sorted(one for one in folders if not _is_left_out(os.path.join(folder, one), exclude))
        for name in sorted(files):
            path = os.path.join(folder, name)
            path = path[len(HERE) :] if path.startswith(HERE) else path
            if name.endswith(ENDINGS) and not _is_excluded(path, exclude) and _is_file(path):
                yield path


def _is_left_out(folder: str, exclude: list[tuple[str, str]]) -> bool:
    name = os.path.basename(folder)
    return (
        name.startswith(".")
        or name in LEFT_OUT
        or os.path.exists(os.path.join(folder, ENVIRONMENT))
        or _is_excluded(folder, exclude)
    )


def _is_excluded(path: str, exclude: list[tuple[str, str]]) -> bool:
    """By its name, or by its whole path from the folder that a pattern counts from."""
    name = os.path.basename(path)
    for base, pattern in exclude:
        pattern = pattern.rstrip("/")
        whole = os.path.relpath(path, base or os.curdir)
        if fnmatch.fnmatchcase(name, pattern) or fnmatch.fnmatchcase(whole, pattern):
            return True
    return False


def _is_file(path: str) -> bool:
    """Whether it is one that reading ends of; one that is not there is told when it is read."""
    try:
        return stat.S_ISREG(os.stat(path).st_mode)
    except OSError:
        return True


def listed(content: bytes) -> list[str]:
    """The paths of a list, a line each or, if it has a byte 0, parted by these."""
    parted = content.split(b"\0") if b"\0" in content else content.splitlines()
    return [os.fsdecode(one) for one in parted if one]


def project(start: str) -> Project:
    """The table of the nearest pyproject.toml that has one, from a folder upwards; one that says nothing if there is none."""
    folder = os.path.abspath(start)
    while True:
        path = os.path.join(folder, PROJECT)
        if os.path.isfile(path):
            found = _project(path, folder)
            if found:
                return found
        above = os.path.dirname(folder)
        if above == folder:
            return Project()
        folder = above


def _project(path: str, folder: str) -> Project | None:
    try:
        with open(path, "rb") as file:
            content = file.read()
    except OSError as error:
        raise Unusable(f"{path}: {error.strerror}") from error
    if TABLE.encode() not in content:
        return None
    try:
        import tomllib
    except ImportError:
        said = "its table [tool.stumpgarret] is read by Python 3.11 or later; --isolated leaves it out"
        raise Unusable(f"{path}: {said}") from None
    try:
        table = tomllib.loads(content.decode()).get("tool", {}).get(TABLE)
    except (ValueError, AttributeError) as error:
        raise Unusable(f"{path}: {error}") from error
    if table is None:
        return None
    if not isinstance(table, dict):
        raise Unusable(f"{path}: tool.{TABLE} is no table")
    known = {"exclude": (_texts, "a list of patterns"), "names": (_text, "a path"), "allow": (_texts, "a list of paths")}
    said = {}
    for key, value in table.items():
        if key not in known:
            raise Unusable(f"{path}: [tool.{TABLE}] has a key {key}, and knows {', '.join(known)}")
        read, wanted = known[key]
        said[key] = read(value)
        if said[key] is None:
            raise Unusable(f"{path}: {key} of [tool.{TABLE}] is to be {wanted}")
    if "names" in said:
        said["names"] = os.path.join(folder, said["names"])
    said["allow"] = tuple(os.path.join(folder, one) for one in said.get("allow", ()))
    return Project(folder, **said)


def _texts(value: object) -> tuple[str, ...] | None:
    return tuple(value) if isinstance(value, list) and all(isinstance(one, str) for one in value) else None


def _text(value: object) -> str | None:
    return value if isinstance(value, str) else None
