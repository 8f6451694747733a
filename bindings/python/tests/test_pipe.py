"""The calls over a pipe: the program, frame by frame; the same answers as the library's; what is raised if it gives none.

STUMPGARRET_PROGRAM names the program, or it stands beside the library that STUMPGARRET_LIBRARY names.
"""

import binascii
import contextlib
import ctypes
import os
import pathlib
import re
import shutil
import signal
import struct
import subprocess
import sys
import tempfile
import threading
import time
import unittest
from unittest import mock

from support import CALLED, CLONE, EMULATED, stumpgarret
import both_ways
import stumpgarret_calls
from stumpgarret import Unavailable

LIBRARY = CALLED.get("STUMPGARRET_LIBRARY")
PROGRAM = CALLED.get("STUMPGARRET_PROGRAM") or str(pathlib.Path(LIBRARY).with_name("stumpgarret-pipe"))
EMULATOR = shutil.which("qemu-x86_64")
COMMAND = stumpgarret_calls.Program(PROGRAM).command
RANDOM_CALLS = 3000
SYSTEM = "/usr/local/bin:/usr/bin:/bin"
SPEC = b">8,.3f"
LISTED = "[one.spec for one in stumpgarret.fields(\"f'{x:3}'\")]"


def check(content):
    return struct.pack("<I", binascii.crc32(content))


def frame(body):
    length = struct.pack("<Q", len(body))
    return length + check(length) + body + check(body)


def body(name, letters, sizes, *sent):
    return struct.pack(f"<16s8s{len(sizes)}Q", name, letters, *sizes) + b"".join(sent)


def spec(given=SPEC):
    return body(b"spec", b"b", [len(given), len(given)], given)


def ran(given):
    """Status, output and words of the program, which is given these bytes."""
    ended = subprocess.run(COMMAND, input=given, capture_output=True)
    return ended.returncode, ended.stdout, ended.stderr.decode().removeprefix("stumpgarret-pipe: ").removesuffix("\n")


class Frames(unittest.TestCase):
    def answer(self):
        """The frame of the answer to the spec."""
        status, out, err = ran(frame(spec()))
        self.assertEqual((status, err), (0, ""))
        return out

    def test_until_the_end(self):
        """Nothing for nothing; an answer for each call, in order; status 0 at the end."""
        self.assertEqual(ran(b""), (0, b"", ""))
        self.assertEqual(ran(3 * frame(spec())), (0, 3 * self.answer(), ""))

    def test_answer(self):
        numbers = (ctypes.c_uint32 * 12)()
        stumpgarret._function("spec")(SPEC, len(SPEC), numbers)
        self.assertEqual(self.answer(), frame(check(spec()) + bytes(numbers)))

    def test_zeros(self):
        """Those at the end need not be sent, are taken where they are, and are not sent back."""
        whole = body(b"literals", b"bwN", [4, 4, 0, 0, 7, 28], b"f'\0'", bytes(28))
        short = body(b"literals", b"bwN", [4, 4, 0, 0, 7, 0], b"f'\0'")
        for given in (whole, short):
            status, out, _ = ran(frame(given))
            numbers = struct.unpack_from("<12I", out, 16)
            self.assertEqual((status, numbers[:2], out[12:16]), (0, (0, 1), check(given)))
            self.assertEqual(out[64:-4], struct.pack("<Q6I", 21, 1, 0, 2, 1, 0, 4)[:-3])

    def refused(self, given, words):
        """It ends with status 2 and these words, and what it answered before stands."""
        self.assertEqual(ran(given), (2, b"", words), given[:80])
        self.assertEqual(ran(frame(spec()) + given), (2, self.answer(), words))

    def test_end_inside(self):
        whole = frame(spec())
        for cut in (1, 8, 11, 12, 13, 35, len(whole) - 5, len(whole) - 1):
            self.refused(whole[:cut], "the input ends inside a frame")

    def test_wrong_check(self):
        whole = frame(spec())
        for at in range(12):
            self.refused(flipped(whole, at), "wrong check of a frame's length")
        for at in (12, 30, 40, len(whole) - 6, len(whole) - 1):
            self.refused(flipped(whole, at), "wrong check of a frame")

    def test_length(self):
        for given in (b"", b"spec", spec()[:23]):
            self.refused(frame(given), "a frame is too short")
        for given in (spec()[:24], spec()[:39]):
            self.refused(frame(given), "a frame is too short")
        for length in (2**34 + 1, 2**63, 2**64 - 1):
            head = struct.pack("<Q", length)
            self.refused(head + check(head), "a frame is too long")

    def test_unknown_call(self):
        for name in (b"", b"spe", b"specs", b"spec\0x", b"stumpgarret_spec"):
            self.refused(frame(body(name, b"b", [0, 0])), "unknown call")

    def test_lent_otherwise(self):
        for letters, sizes in ((b"", []), (b"n", [0, 0]), (b"bb", 4 * [0]), (b"B", [0, 0])):
            self.refused(frame(body(b"spec", letters, sizes)), "a call is lent otherwise than the library's")

    def test_counts(self):
        over = "a count is over its limit"
        self.refused(frame(body(b"spec", b"b", [2**33 + 1, 0])), over)
        self.refused(frame(body(b"fields", b"bN", [0, 0, 2**31 + 1, 0])), over)
        self.refused(frame(body(b"fields", b"bN", [0, 0, 2**62 + 1, 0])), over)
        self.refused(frame(body(b"literals", b"bwN", [0, 0, 2**32, 0, 0, 0])), over)
        for count in (0, 11, 13):
            self.refused(frame(body(b"write", b"nbrB", [0, 0, 0, 0, count, 0, 0, 0])), over)

    def test_sent(self):
        more = "more is sent than is lent, or than the frame has"
        self.refused(frame(body(b"spec", b"b", [1, 2], b"xx")), more)
        self.refused(frame(body(b"spec", b"b", [9, 9], b"x")), more)
        self.refused(frame(body(b"spec", b"b", [2**33, 2**63], b"x")), more)
        self.refused(frame(body(b"literals", b"bwN", [0, 0, 1, 1, 0, 0], b"x")), more)
        self.refused(frame(body(b"spec", b"b", [3, 2], b"xxx")), "a frame is too long for what it lends")

    def test_no_memory(self):
        """Of rooms that the limits allow, and the machine does not."""
        limit = ["sh", "-c", 'ulimit -v 4000000 && exec "$@"', "sh", *COMMAND]
        given = frame(body(b"fields", b"bN", [0, 0, 2**31, 0]))
        ended = subprocess.run(limit, input=given, capture_output=True)
        self.assertEqual((ended.returncode, ended.stdout, ended.stderr), (3, b"", b"stumpgarret-pipe: no memory\n"))

    def test_nobody_reads(self):
        read, write = os.pipe()
        os.close(read)
        ended = subprocess.run(COMMAND, input=frame(spec()), stdout=write, stderr=subprocess.DEVNULL)
        os.close(write)
        self.assertNotEqual(ended.returncode, 0)
        with open("/dev/full", "wb") as full:
            ended = subprocess.run(COMMAND, input=frame(spec()), stdout=full, stderr=subprocess.PIPE)
        self.assertEqual((ended.returncode, ended.stderr), (4, b"stumpgarret-pipe: the answer cannot be written\n"))


def flipped(content, at):
    return content[:at] + bytes([content[at] ^ 16]) + content[at + 1 :]


class Calls(unittest.TestCase):
    def test_header(self):
        """The table has each call of the header, lent as its arguments say, and the program has the same."""
        header = (CLONE / "bindings/include/stumpgarret.h").read_text()
        letters = {"const uint8_t *": "b", "const uint32_t *": "n", "uint8_t *": "B", "uint32_t *": "N", "uint32_t ": "w", "size_t ": ""}
        found = {}
        for name, arguments in re.findall(r"^void stumpgarret_(\w+)\(([^)]*)\);", header, re.M):
            *lent, answer = [" ".join(one.split()) for one in arguments.split(",")]
            self.assertEqual(answer, "uint32_t answer[STUMPGARRET_ANSWER_NUMBERS]")
            kinds = ["r" if one.endswith("[STUMPGARRET_ANSWER_NUMBERS]") else letters[re.sub(r"\w+$", "", one)] for one in lent]
            found[name] = "".join(kinds)
        self.assertEqual(found, stumpgarret_calls.CALLS)
        source = (CLONE / "bindings/pipe/pipe.c").read_text()
        self.assertEqual(dict(re.findall(r'^    CALL\((\w+), "(\w+)"', source, re.M)), found)

    @unittest.skipIf(LIBRARY is None, "the library is not loaded here")
    def test_both_ways(self):
        """Byte for byte; with as many calls as are wanted by `both_ways.py COUNT LIBRARY PROGRAM`."""
        tally = both_ways.compare(both_ways.maker(LIBRARY), both_ways.maker(PROGRAM), RANDOM_CALLS)
        for name in stumpgarret_calls.CALLS:
            self.assertIn((name, 0), tally)
        print(f"pipe: {both_ways.said(tally)}")

    @unittest.skipIf(LIBRARY is None or EMULATOR is None, "there is no emulator here, or no library to compare with")
    def test_emulated(self):
        with mock.patch.dict(os.environ, STUMPGARRET_MACHINE="aarch64"):
            emulated = both_ways.maker(PROGRAM)
        both_ways.compare(both_ways.maker(LIBRARY), emulated, RANDOM_CALLS // 10)


class Way(unittest.TestCase):
    """The module over the pipe."""

    def setUp(self):
        self.program = stumpgarret_calls.Program(PROGRAM)
        self.addCleanup(self.program.end)
        self.enterContext(mock.patch.object(stumpgarret, "_function", self.program.function))

    def test_started_once(self):
        with mock.patch.object(subprocess, "Popen", side_effect=subprocess.Popen) as started:
            for _ in range(3):
                self.assertEqual(stumpgarret.Spec.parse("8").width, 8)
        self.assertEqual(started.call_count, 1)

    def test_threads(self):
        """Each gets its own answer."""
        wrong = []

        def many(own):
            wrong.extend(width for _ in range(200) if (width := stumpgarret.Spec.parse(str(own)).width) != own)

        threads = [threading.Thread(target=many, args=[own]) for own in range(1, 9)]
        for thread in threads:
            thread.start()
        for thread in threads:
            thread.join()
        self.assertEqual(wrong, [])

    def test_forked(self):
        """A process that is forked starts its own, also while another thread waits for an answer; the other's stays."""
        self.assertEqual(stumpgarret.Spec.parse("8").width, 8)
        own = self.program.process.pid
        for held in (False, True):
            with self.program.lock if held else contextlib.nullcontext():
                child = os.fork()
                if not child:
                    os._exit(0 if stumpgarret.Spec.parse("9").width == 9 and self.program.process.pid != own else 1)
            self.assertEqual(os.waitpid(child, 0)[1], 0)
            self.assertEqual((stumpgarret.Spec.parse("7").width, self.program.process.pid), (7, own))

    def test_dead(self):
        """A call that gets no answer raises and says why; the next one starts it again."""
        stumpgarret.Spec.parse("8")
        for _ in range(2):
            os.kill(self.program.process.pid, signal.SIGKILL)
            with self.assertRaisesRegex(Unavailable, r"stumpgarret-pipe gave no answer \(status -9\): "):
                stumpgarret.fields("f'{x}'")
            self.assertEqual(len(stumpgarret.fields("f'{x}'")), 1)

    def test_its_words(self):
        """What the program says on standard error is told."""
        with mock.patch.dict(stumpgarret_calls.CALLS, spec="bB"), self.assertRaises(Unavailable) as caught:
            self.program.function("spec")(b"8", 1, (ctypes.c_char * 1)(), 1, (ctypes.c_uint32 * 12)())
        self.assertIn("gave no answer (status 2, stumpgarret-pipe: a call is lent otherwise than", str(caught.exception))

    def test_interrupted(self):
        """What an interrupted call was to get is not taken for the next one's."""
        with mock.patch.object(stumpgarret_calls.Program, "_frame", side_effect=KeyboardInterrupt), self.assertRaises(KeyboardInterrupt):
            stumpgarret.Spec.parse("8")
        self.assertEqual(stumpgarret.Spec.parse("9").width, 9)

    def test_large(self):
        """More than a pipe holds at once, both ways."""
        script = "f'" + 100_000 * "{x}" + "'"
        self.assertEqual(len(stumpgarret.rows(script).rows), 100_000)


class Answers(unittest.TestCase):
    """A program that answers otherwise is never believed."""

    def setUp(self):
        self.path = pathlib.Path(self.enterContext(tempfile.TemporaryDirectory()), "other")

    def raised(self, given):
        """What is raised if these bytes are answered."""
        self.path.write_bytes(given)
        program = stumpgarret_calls.Program(PROGRAM)
        program.command = ["sh", "-c", 'cat "$1"; exec cat > /dev/null', "sh", str(self.path)]
        self.addCleanup(program.end)
        with mock.patch.object(stumpgarret, "_function", program.function), self.assertRaises(Unavailable) as caught:
            stumpgarret.literals("''", 0)
        self.assertIsNone(program.process)
        return str(caught.exception).split("): ")[1]

    def test_answers(self):
        asked = body(b"literals", b"bwN", [2, 2, 0, 0, 96, 0], b"''")
        numbers, room = struct.pack("<12I", 0, 1, 0, 2, *8 * [0]), 4 * 96
        right = check(asked) + numbers
        none, size = "its answer is none to this call", "its answer is not of the size that was lent"
        for given, said in (
            (b"", "it ended before its answer did"),
            (frame(right)[:-1], "it ended before its answer did"),
            (flipped(frame(right), 0), "the check of its answer's length is wrong"),
            (flipped(frame(right), 20), "the check of its answer is wrong"),
            (frame(b""), none),
            (frame(right), none),
            (frame(check(b"another") + numbers + bytes(8)), none),
            (frame(right + struct.pack("<Q", 1)), size),
            (frame(right + bytes(9)), size),
            (frame(right + struct.pack("<Q", room + 1) + bytes(room + 1)), size),
        ):
            self.assertEqual(self.raised(given), said)


class Found(unittest.TestCase):
    """Which way is taken, and what is said if there is none."""

    def setUp(self):
        self.folder = pathlib.Path(self.enterContext(tempfile.TemporaryDirectory()))
        for module in (CLONE / "bindings/python").glob("stumpgarret*.py"):
            shutil.copy(module, self.folder)

    def ran(self, *files, program=f"print(stumpgarret_calls.told().partition(',')[2])\nprint({LISTED})", **variables):
        """Status, output and the last line of the errors of a process that has these files beside the module."""
        for name in ("libstumpgarret.so", "stumpgarret-pipe"):
            (self.folder / name).unlink(missing_ok=True)
        for file in files:
            shutil.copy(file, self.folder)
        command = [sys.executable, "-B", "-c", f"import stumpgarret, stumpgarret_calls\n{program}"]
        ended = subprocess.run(command, cwd=self.folder, env={"PATH": SYSTEM, **variables}, capture_output=True, text=True)
        return ended.returncode, ended.stdout, ended.stderr.splitlines()[-1:]

    def test_program(self):
        self.assertEqual(self.ran(PROGRAM), (0, f" called over a pipe{EMULATED * ', under qemu-x86_64'}\n['3']\n", []))

    @unittest.skipIf(LIBRARY is None, "the library is not loaded here")
    def test_library_first(self):
        self.assertEqual(self.ran(LIBRARY, PROGRAM), (0, "\n['3']\n", []))
        self.assertEqual(self.ran(LIBRARY, STUMPGARRET_PROGRAM=PROGRAM)[:2], (0, " called over a pipe\n['3']\n"))

    @unittest.skipIf(LIBRARY is None or EMULATOR is None, "there is no emulator here, or no library")
    def test_another_machine(self):
        """A library that cannot be loaded is passed over, if the program is there."""
        emulated = {"STUMPGARRET_MACHINE": "aarch64"}
        self.assertEqual(self.ran(LIBRARY, PROGRAM, **emulated), (0, " called over a pipe, under qemu-x86_64\n['3']\n", []))
        status, out, err = self.ran(LIBRARY, program=LISTED, **emulated)
        self.assertEqual((status, out), (1, ""))
        self.assertRegex(err[0], "libstumpgarret.so is for x86_64, and this Python runs on aarch64$")

    def test_no_emulator(self):
        variables = {"STUMPGARRET_MACHINE": "aarch64", "PATH": str(self.folder)}
        status, out, err = self.ran(PROGRAM, program=LISTED, **variables)
        said = "stumpgarret-pipe is for x86_64, this machine is aarch64, and qemu-x86_64, the emulator for it, is missing (Debian: qemu-user)"
        self.assertEqual((status, out, err[0].endswith(said)), (1, "", True), err)

    def test_nothing(self):
        status, out, err = self.ran(program=LISTED)
        self.assertRegex(err[0], "the shared library is missing: there is no .*/libstumpgarret.so and no .*; STUMPGARRET_LIBRARY may name it.$")
        status, out, err = self.ran(program=LISTED, STUMPGARRET_PROGRAM="/none")
        self.assertRegex(err[0], "the program that has the library is missing: there is no /none. .*; STUMPGARRET_PROGRAM may name it.$")

    def test_not_to_be_run(self):
        (self.folder / "other").write_bytes(pathlib.Path(PROGRAM).read_bytes()[:64])
        (self.folder / "other").chmod(0o755)
        status, out, err = self.ran(program=LISTED, STUMPGARRET_PROGRAM=str(self.folder / "other"))
        self.assertEqual((status, out), (1, ""))
        self.assertRegex(err[0], "other (cannot be run: |gave no answer )")

    def test_ended_with_it(self):
        """The program does not outlive the process, however it ends."""
        program = "print(stumpgarret.Spec.parse('8').width, stumpgarret_calls._opened(*stumpgarret_calls.found()).process.pid, flush=True)"
        for ending in ("", "\nimport os; os._exit(0)", "\nimport os, signal; os.kill(os.getpid(), signal.SIGKILL)"):
            _, out, _ = self.ran(PROGRAM, program=program + ending)
            width, pid = out.split()
            self.assertTrue(gone(int(pid)), ending)

    def test_command(self):
        """Of a program that dies between two scripts nothing is taken for complete."""
        for name in ("a.py", "b.py"):
            (self.folder / name).write_text("f'{x}'")
        program = """import os, signal, stumpgarret_command
listed = stumpgarret._list
def killed(*given):
    os.kill(stumpgarret_calls._opened(*stumpgarret_calls.found()).process.pid, signal.SIGKILL)
    stumpgarret._list = listed
    return listed(*given)
def first(*given):
    stumpgarret._list = killed
    return listed(*given)
stumpgarret._list = first
signal.signal(signal.SIGPIPE, signal.SIG_DFL)
raise SystemExit(stumpgarret_command.run(lambda: stumpgarret_command.main(["a.py", "b.py"])))"""
        status, out, err = self.ran(PROGRAM, program=program)
        self.assertEqual((status, out, err), (2, "a.py:1:4\tx\t\t\n", ["1 field in 2 scripts, not complete"]))


def gone(process):
    """Whether a process has ended, or does so within some seconds."""
    for _ in range(100):
        try:
            if pathlib.Path(f"/proc/{process}/stat").read_text().rpartition(")")[2].split()[0] == "Z":
                return True
        except FileNotFoundError:
            return True
        time.sleep(0.05)
    return False


if __name__ == "__main__":
    unittest.main()
