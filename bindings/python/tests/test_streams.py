"""The command as a process: the order of its lines, its exit status whatever happens, terminals and pipes."""

import os
import pathlib
import pty
import signal
import subprocess
import sys
import tempfile
import unittest
from unittest import mock

import test_command
from support import CALLED, CLONE
import stumpgarret_command

MODULE = CLONE / "bindings/python/stumpgarret.py"
COMMAND = [sys.executable, "-I", "-B", str(MODULE)]
LAST = "1 field in 1 script, complete\n"


class Process(unittest.TestCase):
    def setUp(self):
        self.folder = pathlib.Path(self.enterContext(tempfile.TemporaryDirectory()))
        (self.folder / "a.py").write_text("f'{x}'")
        (self.folder / "b.py").write_text("f'{y}'\nf'}'\nf'{z}'")

    def run_on(self, *words, command=COMMAND, variables={}, **given):
        given = {"stdout": subprocess.PIPE, "stderr": subprocess.PIPE, "stdin": subprocess.DEVNULL, **given}
        variables = {**os.environ, **variables}
        ran = subprocess.run([*command, *words], cwd=self.folder, text=True, env=variables, **given)
        return ran.returncode, ran.stdout, ran.stderr

    def shell(self, line):
        """Status and standard error of a line of the shell, in which $@ is the command."""
        return self.run_on(command=["sh", "-c", line, "sh", *COMMAND])[::2]


class Order(Process):
    def test_one_pipe(self):
        """What is told of a script stands behind what is listed of it, and before the next."""
        _, out, _ = self.run_on("b.py", "none.py", "a.py", stderr=subprocess.STDOUT)
        begins = ["b.py:1:4\ty", "b.py:3:4\tz", "b.py:2:4: refused: 25", "    Change: ", "none.py: No such", "a.py:1:4\tx", "3 fi"]
        self.assertEqual([line[: len(begin)] for line, begin in zip(out.splitlines(), begins, strict=True)], begins)


class Environment(Process):
    def test_modules_of_others(self):
        """What the caller's PYTHONPATH and folder have is not run in the tool's place, by the scripts of the clone too."""
        for name in ("json", "argparse", "stumpgarret_command", "sitecustomize"):
            (self.folder / f"{name}.py").write_text("raise SystemExit('run in the place of the tool')")
        with mock.patch.dict(os.environ, PYTHONPATH=str(self.folder), PYTHONHOME="/nowhere"):
            status, out, err = self.run_on("a.py")
            self.assertEqual((status, out, err), (0, "a.py:1:4\tx\t\t\n", LAST))
        for script in ("stumpgarret", "install"):
            self.assertIn(' -I -B "', (CLONE / script).read_text())

    def test_own_modules(self):
        """An isolated Python finds the modules beside the command, in each word and option."""
        (self.folder / "t.csv").write_bytes(b"1\r\n")
        self.assertEqual(self.run_on("replay", "a.py:1", "t.csv"), (0, "1\n", ""))
        self.assertEqual(self.run_on("--html", "p.html", "--sarif", "s.json", "a.py"), (0, "", LAST))


class Status(Process):
    def test_full(self):
        for words in ("a.py", "b.py", "--json a.py", "--help", "--version", "--explain 20"):
            status, err = self.shell(f'"$@" {words} > /dev/full')
            self.assertEqual((status, err), (2, "stumpgarret: standard output: No space left on device\n"), words)

    def test_full_meanwhile(self):
        """Where the list is longer than what is held back, too."""
        (self.folder / "long.py").write_text(10_000 * "f'{x}'\n")
        status, err = self.shell('"$@" long.py a.py none.py > /dev/full')
        self.assertEqual((status, err), (2, "stumpgarret: standard output: No space left on device\n"))

    def test_closed(self):
        for words in ("a.py", "--json a.py", "--version", "--explain 20"):
            self.assertEqual(self.shell(f'"$@" {words} >&-'), (2, "stumpgarret: standard output is closed\n"))
        self.assertEqual(self.shell('"$@" --html p.html a.py >&-'), (0, LAST))
        self.assertEqual(self.shell('"$@" - <&-'), (2, "<stdin>: it is closed\n0 fields in 1 script, not complete: 1 failure to read\n"))
        self.assertEqual(self.shell('"$@" a.py none.py 2>&-'), (2, ""))
        self.assertEqual(self.shell('"$@" b.py 2> /dev/full'), (2, ""))

    def test_interrupted(self):
        os.mkfifo(self.folder / "pipe")
        streams = {"stdout": subprocess.DEVNULL, "stderr": subprocess.PIPE}
        with subprocess.Popen([*COMMAND, "a.py", "pipe"], cwd=self.folder, text=True, **streams) as process:
            self.assertIn("pipe: nothing has come yet", process.stderr.readline())
            process.send_signal(signal.SIGINT)
            self.assertEqual((process.stderr.read(), process.wait()), ("interrupted\n", 130))

    def test_unforeseen(self):
        """Any other error is 2, and 1 means that something was refused, or found."""
        for error, said in ((RuntimeError("it\nis"), "RuntimeError: it\nis"), (RecursionError("deep"), "RecursionError: deep")):
            with mock.patch("sys.stderr") as err:
                status = stumpgarret_command.run(mock.Mock(side_effect=error))
            self.assertEqual((status, err.write.call_args_list[0].args[0]), (2, f"stumpgarret: {said}"))
        for code, status in ((None, 0), (0, 0), (2, 2), ("said", 2)):
            self.assertEqual(stumpgarret_command.run(mock.Mock(side_effect=SystemExit(code))), status)


class Waiting(Process):
    def test_fifo(self):
        """It is read, and a note says so if nothing comes."""
        os.mkfifo(self.folder / "pipe.py")
        streams = {"stdout": subprocess.PIPE, "stderr": subprocess.PIPE}
        with subprocess.Popen([*COMMAND, "pipe.py"], cwd=self.folder, text=True, **streams) as process:
            note = process.stderr.readline()
            self.assertEqual(note, "pipe.py: nothing has come yet, and it is read to its end (of a terminal: Ctrl-D)\n")
            (self.folder / "pipe.py").write_text("f'{x}'")
            self.assertEqual((process.stdout.read(), process.stderr.read()), ("pipe.py:1:4\tx\t\t\n", LAST))
            self.assertEqual(process.wait(), 0)

    def test_at_once(self):
        with (self.folder / "a.py").open() as given:
            self.assertEqual(self.run_on("/dev/stdin", stdin=given), (0, "/dev/stdin:1:4\tx\t\t\n", LAST))


class Terminal(Process):
    def on_terminal(self, *words, **variables):
        """What is shown on a terminal, and the exit status."""
        main, other = pty.openpty()
        process = subprocess.Popen(
            [*COMMAND, *words], cwd=self.folder, stdin=other, stdout=other, stderr=other, env={"TERM": "xterm", **variables}
        )
        os.close(other)
        shown = b""
        try:
            while True:
                shown += os.read(main, 1 << 16)
        except OSError:
            os.close(main)
        return process.wait(), shown.decode().replace("\r\n", "\n")

    def test_colours(self):
        variables = {"PATH": os.environ["PATH"], **CALLED}
        status, shown = self.on_terminal("b.py", **variables)
        self.assertEqual(status, 1)
        self.assertIn("\x1b[36mb.py:1:4\x1b[0m\ty\t\t\n", shown)
        self.assertIn("\x1b[36mb.py:2:4\x1b[0m: \x1b[31mrefused: 25 ", shown)
        self.assertIn("\x1b[31m2 fields in 1 script, not complete: 1 refusal\x1b[0m\n", shown)
        for other in ({"NO_COLOR": "1"}, {"TERM": "dumb"}):
            self.assertNotIn("\x1b", self.on_terminal("b.py", **{**variables, **other})[1])

    def test_count(self):
        """How many scripts are done is told on a terminal only, if it takes long."""
        with mock.patch("sys.stderr") as err, mock.patch("sys.stdout.isatty", return_value=False, create=True):
            err.isatty.return_value = True
            progress = stumpgarret_command._progress()
            progress.next = 0
            self.assertTrue(progress.wanted)
            progress.tell("1,024 scripts")
        self.assertEqual(err.write.call_args_list[0].args[0], "\r\x1b[Kstumpgarret: 1,024 scripts")
        with mock.patch("sys.stderr") as err:
            err.isatty.return_value = False
            stumpgarret_command._progress().tell("1,024 scripts")
        err.write.assert_not_called()


class Abbreviations(test_command.Command):
    def test_none(self):
        for option in ("--js", "--htm=a.html", "--name=a", "--wh", "--qui"):
            self.assertIn("unrecognized arguments: " + option, self.wrong_use(option, "a.py"))

    def test_quiet(self):
        pathlib.Path("a.py").write_text("f'{x}' f'}'")
        status, out, err = self.run_whole("--quiet", "a.py")
        self.assertEqual((status, out, err.count("\n")), (1, "a.py:1:4\tx\t\t\n", 2))
        pathlib.Path("a.py").write_text("f'{x}'")
        self.assertEqual(self.run_whole("--quiet", "a.py"), (0, "a.py:1:4\tx\t\t\n", ""))

    def test_last_line(self):
        pathlib.Path("a.py").write_text("f'{x}' f'}'")
        pathlib.Path("b.py").write_text("")
        for words, said in (
            (["a.py"], "1 field in 1 script, not complete: 1 refusal"),
            (["b.py"], "0 fields in 1 script, complete"),
            (["a.py", "b.py", "c.py"], "1 field in 3 scripts, not complete: 1 refusal, 1 failure to read"),
            (["--html", "none/p.html", "b.py"], "0 fields in 1 script, not complete"),
        ):
            self.assertEqual(self.run_whole(*words)[2].splitlines()[-1], said)


if __name__ == "__main__":
    unittest.main()
