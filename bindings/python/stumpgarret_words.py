"""What the commands with a word share: `stumpgarret replay`, `compare`, `wrap` and `set-spec`.

Their options by one parser, a place such as bench.py:3:10, one line for whatever goes wrong and its exit status, and bytes to
standard output with nothing between.
"""

from __future__ import annotations

import argparse
import os
import re
import sys
from collections.abc import Callable

import stumpgarret

DONE, REFUSED, FAILED, INTERRUPTED = 0, 1, 2, 130
PLACE = re.compile(r"(?P<script>.+?):(?P<line>[0-9]+)(?::(?P<column>[0-9]+))?", re.DOTALL)
# For argparse what begins with - is an option, unless there is nothing else.
INPUT_WITH_A_PLACE = f"{stumpgarret.STANDARD_INPUT}:"


class UnusableNames(Exception):
    """A file of names that cannot be read, or that is refused."""


class Unusable(Exception):
    """A place, a script or a trace that cannot be used, in words."""


class Told(Exception):
    """A refusal, in words."""


def parser(prog: str, usage: str, description: str, epilog: str) -> argparse.ArgumentParser:
    """One whose texts stay as they are, and whose options are written out."""
    return argparse.ArgumentParser(
        prog=prog,
        usage=usage,
        description=description,
        epilog=epilog,
        formatter_class=argparse.RawDescriptionHelpFormatter,
        allow_abbrev=False,
    )


def parsed(of: argparse.ArgumentParser, arguments: list[str]) -> argparse.Namespace:
    """The arguments; those that are no option, in which - may have a place behind it, as `given`."""
    of.add_argument("given", nargs="*", metavar="PLACE", help=argparse.SUPPRESS)
    given = of.parse_args([f" {one}" if one.startswith(INPUT_WITH_A_PLACE) else one for one in arguments])
    given.given = [one[1:] if one.startswith(f" {INPUT_WITH_A_PLACE}") else one for one in given.given]
    return given


def place(of: argparse.ArgumentParser, text: str, wanted: str = "SCRIPT:LINE[:COLUMN]", such: str = "bench.py:3") -> re.Match:
    found = PLACE.fullmatch(text)
    if not found or "[" not in wanted and found["column"] is None:
        of.error(f"{wanted} is wanted, such as {such}, and this is {text}")
    return found


def status_of(command: Callable[[], int | None], refused: int = REFUSED) -> int:
    """The exit status of a command: its own, or that of what it raises, which is told."""
    try:
        return command() or DONE
    except Told as told:
        return complain(str(told), refused)
    except (Unusable, UnusableNames, stumpgarret.Unavailable, stumpgarret.Undecodable) as error:
        return complain(str(error), FAILED)
    except KeyboardInterrupt:
        return complain("interrupted", INTERRUPTED)
    except Exception as error:
        return complain(f"stumpgarret: {type(error).__name__}: {error}", FAILED)


def complain(said: str, status: int) -> int:
    if sys.stderr is not None:
        print(said.encode("utf-8", "backslashreplace").decode(), file=sys.stderr)
    return status


def output() -> int:
    if sys.stdout is None:
        raise Unusable("standard output is closed")
    sys.stdout.flush()
    return sys.stdout.fileno()


def put(content: bytes) -> None:
    """To standard output."""
    write(output(), content)


def write(out: int, content: bytes) -> None:
    """All of the bytes, with nothing between here and the file."""
    left = memoryview(content)
    try:
        while left:
            left = left[os.write(out, left) :]
    except OSError as error:
        raise Unusable(f"standard output: {error.strerror}") from error
