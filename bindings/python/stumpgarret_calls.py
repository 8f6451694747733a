"""How the library's calls are made: by ctypes where this machine can load the library, else over a pipe to a program that has
it, which is for x86-64 and runs under an emulator.

Both ways have one interface: `function(name)` gives what is called with the arguments of the C function stumpgarret_NAME. The
library is the one that STUMPGARRET_LIBRARY names, the program the one that STUMPGARRET_PROGRAM names; else either is looked for
beside this file and under target/python of the clone. For tests STUMPGARRET_MACHINE says what machine this is taken for: by any
other than x86_64 the library cannot be loaded, and the program needs an emulator.
"""

from __future__ import annotations

import atexit
import binascii
import ctypes
import functools
import hashlib
import os
import platform
import shutil
import signal
import struct
import subprocess
import sys
import threading
from collections.abc import Callable

from stumpgarret import Unavailable

# What each call is lent, a letter for each: b and n are bytes and numbers that it reads, B and N those that it writes to, each
# with its length; w is a number; r is the twelve numbers of a reading. Those of the answer come last in every call.
CALLS = {
    "read": "bnNB",
    "signs": "bnN",
    "literals": "bwN",
    "cut": "bN",
    "fields": "bN",
    "names_build": "bN",
    "names_check": "bn",
    "read_named": "bnbnNB",
    "read_searched": "bnbnNB",
    "fields_named": "bbnN",
    "spec": "b",
    "replay": "bnbNBB",
    "compare": "nbrnbrN",
    "write": "nbrB",
    "cuts_check": "bwn",
    "cuts_plan": "bwN",
}
ANSWER_NUMBERS = 12
MADE_FOR = "x86_64"
ELF_MACHINES = {62: MADE_FOR, 183: "aarch64"}
EMULATOR = "qemu-x86_64"
NATIVE = "stumpgarret_native"
MOST_AT_ONCE = 1 << 20
DYING_SECONDS = 5


def function(name: str) -> Callable[..., None]:
    """What makes a call, by its name without `stumpgarret_`."""
    way, path = found()
    return _opened(way, path).function(name)


def told() -> str:
    """What the calls are made by, for people."""
    try:
        way, path = found()
        with open(path, "rb") as file:
            return f"{way.NAME}: SHA-256 {hashlib.sha256(file.read()).hexdigest()}{way.told(path)}"
    except (OSError, Unavailable):
        return f"{Library.NAME}: missing"


def found() -> tuple[type, str]:
    """By which way the calls are made, and the path of what makes them."""
    here = os.path.dirname(os.path.abspath(__file__))
    places = here, os.path.normpath(os.path.join(here, "..", "..", "target", "python"))
    for way in (Library, Program):
        named = os.environ.get(way.VARIABLE)
        if named:
            return way, _there(way, [named])
    for place in places:
        for way in (Library, Program):
            path = os.path.join(place, way.FILE)
            if os.path.isfile(path) and (way is Program or _machine_of(path) == _machine()):
                return way, path
    return Library, _there(Library, [os.path.join(place, Library.FILE) for place in places])


def _there(way: type, paths: list[str]) -> str:
    for path in paths:
        if os.path.isfile(path):
            return os.path.abspath(path)
    raise Unavailable(
        f"{way.MISSING} is missing: there is no {' and no '.join(paths)}. "
        f"bindings/python/build makes it from the static library; {way.VARIABLE} may name it."
    )


def _machine() -> str:
    return os.environ.get("STUMPGARRET_MACHINE") or platform.machine()


def _machine_of(path: str) -> str:
    try:
        with open(path, "rb") as file:
            head = file.read(20)
    except OSError as error:
        raise Unavailable(f"{path} cannot be read: {error.strerror}") from error
    if len(head) < 20 or not head.startswith(b"\x7fELF"):
        raise Unavailable(f"{path} is no shared library")
    number = int.from_bytes(head[18:20], "little")
    return ELF_MACHINES.get(number, f"ELF machine {number}")


@functools.lru_cache(maxsize=None)
def _opened(way: type, path: str) -> Library | Program:
    return way(path)


class Library:
    """The calls by ctypes."""

    NAME, FILE, VARIABLE, MISSING = "library", "libstumpgarret.so", "STUMPGARRET_LIBRARY", "the shared library"

    def __init__(self, path: str):
        machine = _machine_of(path)
        if machine != _machine():
            raise Unavailable(f"{path} is for {machine}, and this Python runs on {_machine()}")
        self.path = path
        try:
            self.library = ctypes.CDLL(path)
        except OSError as error:
            raise Unavailable(f"{path} cannot be used: {error}") from error

    @staticmethod
    def told(path: str) -> str:
        native = os.path.exists(os.path.join(os.path.dirname(path), NATIVE)) or _machine_of(path) != MADE_FOR
        return f", compiled for {_machine_of(path)}; the kit's promise is for x86-64" if native else ""

    def function(self, name: str) -> Callable[..., None]:
        try:
            function = self.library["stumpgarret_" + name]
        except AttributeError as error:
            raise Unavailable(f"{self.path} cannot be used: {error}") from error
        text, numbers = [ctypes.c_char_p, ctypes.c_size_t], [ctypes.POINTER(ctypes.c_uint32), ctypes.c_size_t]
        types = {"b": text, "B": text, "n": numbers, "N": numbers, "w": [ctypes.c_uint32], "r": numbers[:1]}
        function.argtypes = [one for letter in CALLS[name] for one in types[letter]] + numbers[:1]
        function.restype = None
        return function


class Program:
    """The calls over a pipe to the program of bindings/pipe, which says what goes over it. It is started at the first call, in a
    process that is forked anew, and ends with this process. A call that it does not answer raises, and ends it; the next one
    starts it again."""

    NAME, FILE, VARIABLE, MISSING = "program", "stumpgarret-pipe", "STUMPGARRET_PROGRAM", "the program that has the library"

    def __init__(self, path: str):
        machine = _machine_of(path)
        self.path, self.command = path, [path]
        if machine != _machine():
            emulator = shutil.which(EMULATOR) if machine == MADE_FOR else None
            if emulator is None:
                without = f"{EMULATOR}, the emulator for it, is missing (Debian: qemu-user)"
                raise Unavailable(f"{path} is for {machine}, this machine is {_machine()}, and {without}")
            self.command = [os.path.abspath(emulator), path]
        if sys.byteorder != "little":
            raise Unavailable(f"{path} takes numbers with the lowest byte first, and this machine has them otherwise")
        self.lock, self.process = threading.Lock(), None
        atexit.register(self.end)
        os.register_at_fork(after_in_child=self._forget)

    @staticmethod
    def told(path: str) -> str:
        emulated = f", under {EMULATOR}" if _machine_of(path) != _machine() else ""
        return f", called over a pipe{emulated}"

    def function(self, name: str) -> Callable[..., None]:
        return functools.partial(self._call, name, CALLS[name])

    def _call(self, name: str, letters: str, *arguments: object) -> None:
        given, sizes, sent, written = iter(arguments), [], [], []
        for letter in letters:
            if letter == "w":
                sizes += [next(given), 0]
                continue
            buffer = next(given)
            count = ANSWER_NUMBERS if letter == "r" else next(given)
            size = count if letter in "bB" else 4 * count
            content = bytes(buffer)[:size].rstrip(b"\0")
            sizes += [count, len(content)]
            sent.append(content)
            if letter in "BN":
                written.append((buffer, size, len(content)))
        head = struct.pack(f"<16s8s{len(sizes)}Q", name.encode(), letters.encode(), *sizes)
        answer, parts = self._ask(b"".join([head, *sent]), [size for _, size, _ in written])
        ctypes.memmove(next(given), answer, len(answer))
        for (buffer, _, before), part in zip(written, parts):
            # What was not sent is zeros, on both ways.
            ctypes.memmove(buffer, part + bytes(max(0, before - len(part))), max(before, len(part)))

    def _ask(self, body: bytes, sizes: list[int]) -> tuple[bytes, list[bytes]]:
        """The twelve numbers of the answer, and what came back of each buffer of these sizes."""
        with self.lock:
            try:
                self.process = self.process or self._start()
                length, check = struct.pack("<Q", len(body)), struct.pack("<I", binascii.crc32(body))
                _write(self.process.stdin.fileno(), b"".join([length, _check(length), body, check]))
                return _answer(self._frame(), check, sizes)
            except (OSError, Malformed) as error:
                raise Unavailable(f"{self.path} {self._end(DYING_SECONDS)}: {error}") from error
            except BaseException:
                self._end(0)
                raise

    def _start(self) -> subprocess.Popen:
        pipes = dict.fromkeys(["stdin", "stdout", "stderr"], subprocess.PIPE)
        # In a session of its own an interrupt at a terminal is for this process alone.
        return subprocess.Popen(self.command, bufsize=0, cwd="/", start_new_session=True, **pipes)

    def _frame(self) -> bytes:
        """The body of the next frame."""
        head = self._read(12)
        if head[8:] != _check(head[:8]):
            raise Malformed("the check of its answer's length is wrong")
        body = self._read(int.from_bytes(head[:8], "little"))
        if self._read(4) != _check(body):
            raise Malformed("the check of its answer is wrong")
        return body

    def _read(self, size: int) -> bytes:
        content = bytearray()
        while len(content) < size:
            more = self.process.stdout.read(min(size - len(content), MOST_AT_ONCE))
            if not more:
                raise Malformed("it ended before its answer did")
            content += more
        return bytes(content)

    def end(self) -> None:
        """Ends the program, if it was started."""
        with self.lock:
            self._end(DYING_SECONDS)

    def _end(self, seconds: float) -> str:
        """Ends the program, at once if it does not end in time, and says how it ended."""
        process, self.process = self.process, None
        if process is None:
            return "cannot be run"
        process.stdin.close()
        try:
            process.wait(seconds)
        except subprocess.TimeoutExpired:
            process.kill()
        said = process.stderr.read().decode("utf-8", "replace").strip()
        status = process.wait()
        process.stdout.close()
        process.stderr.close()
        return f"gave no answer (status {status}{', ' if said else ''}{said})"

    def _forget(self) -> None:
        """In a process that was forked: the program is the other process's."""
        self.lock = threading.Lock()
        process, self.process = self.process, None
        if process is not None:
            process.returncode = 0
            for stream in (process.stdin, process.stdout, process.stderr):
                stream.close()


class Malformed(Exception):
    """An answer that is none."""


def _check(content: bytes) -> bytes:
    return struct.pack("<I", binascii.crc32(content))


def _write(pipe: int, content: bytes) -> None:
    """Writes all of it. That nobody reads is an error here, also in a process that a broken pipe would end."""
    blocked = signal.pthread_sigmask(signal.SIG_BLOCK, [signal.SIGPIPE])
    try:
        left = memoryview(content)
        while left:
            left = left[os.write(pipe, left) :]
    except BrokenPipeError:
        signal.sigtimedwait([signal.SIGPIPE], 0)
        raise
    finally:
        signal.pthread_sigmask(signal.SIG_SETMASK, blocked)


def _answer(body: bytes, check: bytes, sizes: list[int]) -> tuple[bytes, list[bytes]]:
    """The numbers and the parts of an answer to the call of this check."""
    at = 52 + 8 * len(sizes)
    if len(body) < at or body[:4] != check:
        raise Malformed("its answer is none to this call")
    lengths = struct.unpack_from(f"<{len(sizes)}Q", body, 52)
    if sum(lengths) != len(body) - at or any(length > size for length, size in zip(lengths, sizes)):
        raise Malformed("its answer is not of the size that was lent")
    parts = []
    for length in lengths:
        parts.append(body[at : at + length])
        at += length
    return body[4:52], parts
