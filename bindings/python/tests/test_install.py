"""./fields and ./install: built once, then run by any user, without the kit, from a clone that nobody may write to.

STUMPGARRET_STATIC names the static library. Where the tests run as root the other user is nobody, else the same one. With
STUMPGARRET_MACHINE all is done as on such a machine, over the pipe and under an emulator.
"""

import base64
import contextlib
import hashlib
import importlib.util
import os
import pathlib
import re
import shutil
import stat
import subprocess
import sys
import tempfile
import unittest
import zipfile

from support import CALLED, CLONE, EMULATED, stumpgarret
import stumpgarret_calls
import stumpgarret_rules

CALLS_AT_ONCE = 24
EMULATOR = ["qemu-x86_64"] if EMULATED else []
SYSTEM = "/usr/local/bin:/usr/bin:/bin"
OTHER_USER = ["runuser", "-u", "nobody", "--"] if os.geteuid() == 0 else []
# All that a call needs of a system, once the library is built.
NEEDED = ["bash", "dirname", "env", "find", "python3", "readlink", "sh", "sha256sum", "sort", "uname", "xargs", *EMULATOR]
BENCH_FIELDS = """\
examples/bench.py:2:28\tmv / 1000\t\t:.3f
examples/bench.py:4:10\t743 / 12.5\t\t:.0f
examples/bench.py:5:10\trail\t\t:<8
examples/bench.py:5:20\tmv=\t!r\t
examples/bench.py:5:26\tstatus\t!r\t:>{2 + len(status)}
examples/bench.py:5:37\t2 + len(status)\t\t
examples/bench.py:7:14\tat\t\t:>9,
examples/bench.py:7:31\tmv\t\t:>5
examples/bench.py:7:48\tcode\t\t:#06x
"""
BENCH_TOLD = "examples/bench.py:2:17: formats with %, which is not listed\n"
BENCH_LAST = f"{BENCH_TOLD}9 fields in 1 script, complete\n"
BENCH_REPLAY = "replay", "examples/bench.py:7", "examples/readings.csv"
BENCH_LINES = """\
        0 us  VDD   743 mV  code 0x003b
      125 us  VDD   741 mV  code 0x003b
      250 us  VDD    -3 mV  code 0x0000
    1,000 us  VDD  5003 mV  code 0x0190
1,048,576 us  VDD   743 mV  code 0xffff
"""
ONE_FIELD = "1 field in 1 script, complete\n"
SYSTEM_NAMES = pathlib.Path(stumpgarret.SYSTEM_NAMES)
PARTS = "LICENSE NOTICE CHANGELOG.md bindings crates crates.txt docs examples fields install prepare stumpgarret".split()
COMMIT = "0123456789abcdef0123456789abcdef01234567"
FILE = "stumpgarret-pipe" if EMULATED else "libstumpgarret.so"
FILE_HASH = hashlib.sha256((CLONE / "target/python" / FILE).read_bytes()).hexdigest()
SAID = f"program: SHA-256 {FILE_HASH}, called over a pipe, under qemu-x86_64" if EMULATED else f"library: SHA-256 {FILE_HASH}"
TAG = f"py3-none-linux_{stumpgarret_calls._machine()}"
VERSION = f"""\
stumpgarret {stumpgarret.__version__}, commit {COMMIT}
{SAID}
names of characters: {SYSTEM_NAMES if SYSTEM_NAMES.exists() else "fourteen, of the library"}
"""
RUN = "bin/stumpgarret", "lib/stumpgarret/stumpgarret-pipe"
NAMES = "2603;SNOWMAN;So;0;ON;;;;;N;;;;;\n"
# A stand-in for rt, which writes the static library in two halves.
RT = """#!/bin/sh
test "${PWD#"${PWD%/*/*}"}: $*" = "/crates/stumpgarret_c: lib" || exit 2
echo called >> ../../rt-calls
echo "crate definition: modules loaded=0 checked=9" >&2
echo "logic=proved functions=0" >&2
mkdir -p out
size=$(stat -c %s "$STUMPGARRET_STATIC")
head -c $((size / 2)) "$STUMPGARRET_STATIC" > out/libstumpgarret_c.a
sleep 1
tail -c +$((size / 2 + 1)) "$STUMPGARRET_STATIC" >> out/libstumpgarret_c.a
"""


def start(*command, user=(), cwd, **variables):
    streams = {"stdin": subprocess.DEVNULL, "stdout": subprocess.PIPE, "stderr": subprocess.PIPE}
    variables = {**CALLED, **variables}
    return subprocess.Popen([*user, "env", "-i", *command_line(variables), *command], cwd=cwd, text=True, **streams)


def command_line(variables):
    return [f"{name}={value}" for name, value in variables.items()]


def ended(process):
    out, err = process.communicate()
    return process.returncode, out, err


def run(*command, **given):
    return ended(start(*command, **given))


def state(folder):
    """Each file below a folder, with its time and size."""
    found = ((path, path.lstat()) for path in sorted(folder.rglob("*")))
    return [(str(path), seen.st_mtime_ns, seen.st_size) for path, seen in found if not path.is_dir()]


class Copy(unittest.TestCase):
    """Tests over a copy of the clone that is built."""

    @classmethod
    def setUpClass(cls):
        cls.work = pathlib.Path(cls.enterClassContext(tempfile.TemporaryDirectory()))
        cls.work.chmod(0o755)
        cls.built = cls.work / "built"
        (cls.built / "target/staticlib").mkdir(parents=True)
        for part in PARTS:
            if part == "crates":
                # without what rt keeps of each
                shutil.copytree(CLONE / part, cls.built / part, symlinks=True, ignore=shutil.ignore_patterns("out"))
            else:
                subprocess.run(["cp", "-a", CLONE / part, cls.built], check=True)
        (cls.built / ".git").mkdir()
        (cls.built / ".git/HEAD").write_text(f"{COMMIT}\n")
        shutil.copy(os.environ["STUMPGARRET_STATIC"], cls.built / "target/staticlib/libstumpgarret.a")
        subprocess.run(["cp", "-a", CLONE / "target/python", cls.built / "target"], check=True)
        sources = subprocess.run([cls.built / "bindings/python/sources"], check=True, capture_output=True, text=True).stdout
        (cls.built / "target/python/built-from").write_text(sources)
        subprocess.run(["chmod", "-R", "a+rX,a-w", cls.built], check=True)
        cls.few = cls.tools("few", *NEEDED)

    @classmethod
    def tools(cls, name, *needed):
        """A folder with links to these commands alone."""
        folder = cls.work / name
        folder.mkdir()
        for command in needed:
            (folder / command).symlink_to(shutil.which(command, path=SYSTEM) or shutil.which(command))
        return str(folder)

    @classmethod
    def tearDownClass(cls):
        subprocess.run(["chmod", "-R", "u+w", cls.work], check=True)

    def writable(self):
        """A copy of the copy, which its owner may write to, with all but the library."""
        clone = self.folder() / "clone"
        subprocess.run(["cp", "-a", self.built, clone], check=True)
        subprocess.run(["chmod", "-R", "u+w", clone], check=True)
        (clone / "target/python" / FILE).unlink()
        return clone

    def folder(self):
        folder = pathlib.Path(self.enterContext(tempfile.TemporaryDirectory(dir=self.work)))
        folder.chmod(0o755)
        return folder

    def with_rt(self):
        """Variables for a call that finds the stand-in for rt."""
        folder = self.folder()
        (folder / "rt").write_text(RT)
        (folder / "rt").chmod(0o755)
        given = {"STUMPGARRET_STATIC": os.environ["STUMPGARRET_STATIC"], "NAMES": "/dev/null"}
        return {"PATH": f"{folder}:{SYSTEM}", **given}


class Fields(Copy):
    def test_any_user_at_once(self):
        before = state(self.built)
        calls = [
            start("./fields", "examples/bench.py", user=OTHER_USER, cwd=self.built, PATH=self.few)
            for _ in range(CALLS_AT_ONCE)
        ]
        for call in calls:
            self.assertEqual(ended(call), (0, BENCH_FIELDS, BENCH_LAST))
        self.assertEqual(state(self.built), before)

    def test_words(self):
        for words, said, told in (
            (("fields", "--quiet", "examples/bench.py"), BENCH_FIELDS, BENCH_TOLD),
            (("--quiet", "examples/bench.py"), BENCH_FIELDS, BENCH_TOLD),
            (BENCH_REPLAY, BENCH_LINES, ""),
        ):
            call = run("./stumpgarret", *words, user=OTHER_USER, cwd=self.built, PATH=self.few)
            self.assertEqual(call, (0, said, told))
        call = run("./stumpgarret", "replay", "--template", "f'{x}'", "examples/readings.csv", cwd=self.built, PATH=self.few)
        self.assertEqual(call, (1, "", "examples/readings.csv: row 1: 71, 3 columns for 1 field\n"))

    def test_by_a_link(self):
        link = self.work / "link"
        link.symlink_to(self.built / "fields")
        self.assertEqual(run(link, "--version", cwd="/", PATH=self.few), (0, VERSION, ""))

    def test_names(self):
        """The machine's own file of names is read, under an emulator too, or the one that is named."""
        folder = self.folder()
        (folder / "a.py").write_text("f'{x}\\N{SNOWMAN}'")
        (folder / "names.txt").write_text(NAMES)
        call = run(self.built / "fields", "a.py", user=OTHER_USER, cwd=folder, PATH=self.few)
        self.assertEqual(call[:2], (0, "a.py:1:4\tx\t\t\n") if SYSTEM_NAMES.exists() else (1, ""))
        call = run(self.built / "fields", "--names", "names.txt", "a.py", user=OTHER_USER, cwd=folder, PATH=self.few)
        self.assertEqual(call, (0, "a.py:1:4\tx\t\t\n", ONE_FIELD))

    def test_built_once(self):
        """Of calls at once one builds; the others wait for it, and then there is a whole library."""
        clone, variables = self.writable(), self.with_rt()
        calls = [start("bindings/python/ready", cwd=clone, **variables) for _ in range(CALLS_AT_ONCE)]
        found = [*map(ended, calls)]
        self.assertEqual([status for status, _, _ in found], CALLS_AT_ONCE * [0])
        self.assertIn((0, "", "another call is building the library: waiting for it\n"), found)
        self.assertEqual((clone / "rt-calls").read_text(), "called\n")
        self.assertLessEqual({path.name for path in (clone / "target/python").glob(f"{FILE}*")}, {FILE})
        self.assertEqual(run("./fields", "examples/bench.py", cwd=clone, PATH=self.few), (0, BENCH_FIELDS, BENCH_LAST))

    def test_told(self):
        """Which of how many crates, and how long it may take."""
        needs = dict(line.split(":") for line in (CLONE / "crates.txt").read_text().replace(" staticlib:", ":").splitlines())
        crates, todo = set(), ["stumpgarret_c"]
        while todo:
            name = todo.pop()
            if name in needs and name not in crates:
                crates.add(name)
                todo += needs[name].split()
        n = len(crates)
        told = [f"proving and building the library, once: {n} crates, which may take 5 to 10 minutes in all"]
        told += [f"1 of {n} crates proved: definition", f"{n} of {n} crates proved, the library is built"]
        status, out, err = run("bindings/python/ready", cwd=self.writable(), **self.with_rt())
        self.assertEqual((status, out, err.splitlines()), (0, "", told))

    def test_built_again(self):
        """After a change of what a file has or is called, and only then: its time is not looked at."""
        clone, variables = self.writable(), self.with_rt()
        for change in (None, None, "crates.txt", None, "crates/strings/src/lib.rt", "bindings/python/build"):
            if change:
                with (clone / change).open("a") as file:
                    file.write("\n")
            self.assertEqual(run("bindings/python/ready", cwd=clone, **variables)[0], 0)
            for touched in ("crates.txt", "crates/strings/src/lib.rt", "bindings/python/build"):
                (clone / touched).touch()
            os.utime(clone / "crates.txt", (0, 0))
        self.assertEqual((clone / "rt-calls").read_text(), 4 * "called\n")
        (clone / "crates/strings/src/lib.rt").rename(clone / "crates/strings/src/other.rt")
        self.assertEqual(run("bindings/python/ready", cwd=clone, **variables)[0], 0)
        self.assertEqual((clone / "rt-calls").read_text(), 5 * "called\n")

    def test_touched(self):
        """Who has neither rt nor leave to write can call it after a touch, too."""
        clone = self.writable()
        self.assertEqual(run("bindings/python/ready", cwd=clone, **self.with_rt())[0], 0)
        (clone / "crates.txt").touch()
        with read_only(clone):
            call = run("./fields", "examples/bench.py", user=OTHER_USER, cwd=clone, PATH=self.few)
        self.assertEqual(call, (0, BENCH_FIELDS, BENCH_LAST))

    def test_changed_meanwhile(self):
        """A source that changed while the library was built counts as changed."""
        clone, variables = self.writable(), self.with_rt()
        rt = pathlib.Path(variables["PATH"].split(":")[0], "rt")
        rt.write_text(RT + "echo >> ../../crates.txt\n")
        for _ in range(2):
            self.assertEqual(run("bindings/python/ready", cwd=clone, **variables)[0], 0)
        self.assertEqual((clone / "rt-calls").read_text(), 2 * "called\n")

    def test_names_are_prepared(self):
        """What ./fields needs has the names of characters with it; it goes on if they cannot be had."""
        variables = {**self.with_rt(), "NAMES": "/none"}
        asked = self.installer(variables)
        begun = "installing Debian's unicode-data, which may take a minute\n"
        self.assertEqual(run("./prepare", "run", cwd=CLONE, **variables), (0, "", begun))
        self.assertEqual(asked.read_text(), "-q update\n-q install -y --no-install-recommends unicode-data\n")
        asked = self.installer(variables, status=1)
        said = "./prepare: Debian's unicode-data cannot be had: fourteen names of characters are known\n"
        self.assertEqual(run("./prepare", "run", cwd=CLONE, **variables), (0, "", begun + 2 * "raw lines\n" + said))
        self.assertEqual(run("./prepare", "run", cwd=CLONE, **{**variables, "NAMES": "/dev/null"}), (0, "", ""))

    def installer(self, variables, status=0):
        """Puts a stand-in for apt-get into the path, and gives the file that tells what it was asked; if it fails, then to install."""
        tools = pathlib.Path(variables["PATH"].split(":")[0])
        asked = tools / "asked"
        asked.unlink(missing_ok=True)
        (tools / "apt-get").write_text(f'#!/bin/sh\necho "$@" >> {asked}\necho raw lines\ncase $* in *install*) exit {status} ;; esac\n')
        (tools / "apt-get").chmod(0o755)
        return asked

    def test_prepared_on_another_machine(self):
        """There ./fields needs an emulator and a compiler for x86-64, and nothing else; a failure shows the installer's lines."""
        tools = pathlib.Path(self.tools(f"other-{self.id()}", "bash", "cat", "dirname", "mktemp", "python3", "rm", "uname"))
        (tools / "rt").symlink_to("/bin/true")
        variables = {"PATH": str(tools), "NAMES": "/dev/null", "STUMPGARRET_MACHINE": "aarch64"}
        packages = "gcc-x86-64-linux-gnu libc6-dev-amd64-cross qemu-user"
        begun = f"installing Debian's {packages}, which may take a minute\n"
        asked = self.installer(variables)
        self.assertEqual(run("./prepare", "run", cwd=CLONE, **variables), (0, "", begun))
        self.assertEqual(asked.read_text(), f"-q update\n-q install -y --no-install-recommends {packages}\n")
        self.installer(variables, status=7)
        self.assertEqual(run("./prepare", "run", cwd=CLONE, **variables), (7, "", begun + 2 * "raw lines\n"))

    def test_failed(self):
        """Nothing is left of a build that failed, and the next call tries again."""
        clone, variables = self.writable(), self.with_rt()
        rt = pathlib.Path(variables["PATH"].split(":")[0], "rt")
        rt.write_text("#!/bin/sh\necho it is not proved >&2\nexit 1\n")
        status, out, err = run("./fields", "examples/bench.py", cwd=clone, **variables)
        self.assertEqual((status, out), (2, ""))
        self.assertIn("it is not proved", err)
        self.assertEqual([*(clone / "target/python").glob(f"{FILE}*")], [])
        rt.write_text(RT)
        self.assertEqual(run("bindings/python/ready", cwd=clone, **variables)[0], 0)

    def test_not_built(self):
        """Who may not write, and would have to build, is told so."""
        clone = self.writable()
        tools = self.tools("tools", *NEEDED, "mkdir")
        said = f"{clone} is not built, or has changed since, and you may not write there: who may, runs ./fields once\n"
        with read_only(clone):
            call = run("./fields", "examples/bench.py", user=OTHER_USER, cwd=clone, PATH=tools)
        self.assertEqual(call, (2, "", said))


@contextlib.contextmanager
def read_only(folder):
    subprocess.run(["chmod", "-R", "a-w", folder], check=True)
    yield
    subprocess.run(["chmod", "-R", "u+w", folder], check=True)


class Install(Copy):
    @classmethod
    def setUpClass(cls):
        super().setUpClass()
        cls.prefix = cls.work / "a prefix"
        before = state(cls.built)
        cls.status, cls.out, cls.err = run("./install", "--prefix", cls.prefix, cwd=cls.built, PATH=SYSTEM)
        cls.unchanged = state(cls.built) == before
        cls.built.rename(cls.work / "away")
        cls.wheel = cls.prefix / f"share/stumpgarret/stumpgarret-{stumpgarret.__version__}-{TAG}.whl"
        cls.python = shutil.which("python3", path=SYSTEM)

    def test_files(self):
        self.assertEqual((self.status, self.err, self.unchanged), (0, "", True))
        modules = sorted(path.name for path in (CLONE / "bindings/python").glob("stumpgarret*.py"))
        modules += [FILE, "stumpgarret_commit", "stumpgarret_rules.md"]
        files = ["bin/stumpgarret", *(f"lib/stumpgarret/{name}" for name in modules), "lib/libstumpgarret.a"]
        files += ["include/stumpgarret.h", "lib/pkgconfig/stumpgarret.pc", "share/man/man1/stumpgarret.1"]
        files += [f"share/doc/stumpgarret/{name}" for name in ("LICENSE", "NOTICE", "CHANGELOG.md", "RULES.md", "AUDIT.md")]
        files += [str(self.wheel.relative_to(self.prefix))]
        said = self.out.splitlines()
        found = [str(path.relative_to(self.prefix)) for path in self.prefix.rglob("*") if path.is_file()]
        self.assertEqual(sorted(found), sorted([*files, "lib/stumpgarret/installed"]))
        for file in files:
            path = self.prefix / file
            self.assertEqual(stat.S_IMODE(path.stat().st_mode), 0o755 if file in RUN else 0o644, file)
            self.assertIn(str(path), said)
        self.assertEqual([*self.prefix.rglob("*.new")], [])
        self.assertEqual("a program that runs under qemu-x86_64 (Debian: qemu-user)" in self.out, EMULATED)

    def test_command(self):
        """It runs for another user, with the clone gone, in any folder, and by a link."""
        examples = self.work / "away"
        link = self.work / "command"
        link.symlink_to(self.prefix / "bin/stumpgarret")
        for command in (self.prefix / "bin/stumpgarret", link):
            call = run(command, "examples/bench.py", user=OTHER_USER, cwd=examples, PATH=self.few)
            self.assertEqual(call, (0, BENCH_FIELDS, BENCH_LAST))
            call = run(command, *BENCH_REPLAY, user=OTHER_USER, cwd=examples, PATH=self.few)
            self.assertEqual(call, (0, BENCH_LINES, ""))

    def test_names(self):
        command = self.prefix / "bin/stumpgarret"
        folder = self.folder()
        (folder / "a.py").write_text("f'{x}\\N{SNOWMAN}'")
        (folder / "names.txt").write_text(NAMES)
        (folder / "twice.txt").write_text(2 * NAMES)
        given = {"user": OTHER_USER, "cwd": folder, "PATH": self.few}
        self.assertEqual(run(command, "--version", **given), (0, VERSION, ""))
        call = run(command, "a.py", **given)
        self.assertEqual(call[:2], (0, "a.py:1:4\tx\t\t\n") if SYSTEM_NAMES.exists() else (1, ""))
        self.assertEqual(run(command, "--names", "names.txt", "a.py", **given), (0, "a.py:1:4\tx\t\t\n", ONE_FIELD))
        status, out, err = run(command, "--names", "twice.txt", "a.py", **given)
        self.assertEqual((status, out), (2, ""))
        self.assertIn("stumpgarret: the file of names twice.txt is refused: 61 name twice: ", err)

    def test_page(self):
        page = self.work / "pages/page.html"
        page.parent.mkdir()
        page.parent.chmod(0o777)
        words = "--html", page, "examples/bench.py"
        call = run(self.prefix / "bin/stumpgarret", *words, user=OTHER_USER, cwd=self.work / "away", PATH=self.few)
        self.assertEqual(call, (0, "", BENCH_LAST))
        self.assertIn("Complete: 9 fields, and these are all", page.read_text())

    def test_again(self):
        """Over what is installed already."""
        self.assertEqual(self.install("--prefix", self.prefix), (0, self.out, ""))

    def test_wrong_use(self):
        for words in (["--prefix"], ["--prefix", ""], ["--prefix="], ["there"], ["--prefix", "there", "and"]):
            status, _, err = run(CLONE / "install", *words, cwd=self.work, PATH=SYSTEM)
            self.assertEqual((status, err), (2, f"usage: {CLONE}/install [--uninstall | --native] [--prefix DIR]\n"))

    def install(self, *words, **variables):
        """Status, output and errors of ./install, which finds the clone again meanwhile."""
        (self.work / "away").rename(self.built)
        try:
            return run("./install", *words, cwd=self.built, **{"PATH": SYSTEM, **variables})
        finally:
            self.built.rename(self.work / "away")

    def test_help(self):
        status, out, err = self.install("--help")
        self.assertEqual((status, err), (0, ""))
        for said in ("./install [--native] [--prefix DIR]", "./install --uninstall [--prefix DIR]", "DIR is /usr/local if it is not given", "DESTDIR"):
            self.assertIn(said, out)
        self.assertNotIn("set -euo", out)

    def test_uninstall(self):
        """Nothing is left of it, and what others put there is."""
        prefix = self.folder() / "there"
        self.assertEqual(self.install(f"--prefix={prefix}")[0], 0)
        (prefix / "bin/other").write_text("")
        status, out, err = self.install("--uninstall", "--prefix", prefix)
        self.assertEqual((status, err), (0, ""))
        self.assertIn(f"{prefix}/bin/stumpgarret", out.splitlines())
        self.assertEqual([path for path in prefix.rglob("*") if path.is_file()], [prefix / "bin/other"])
        for gone in ("lib/stumpgarret", "lib/pkgconfig", "share/stumpgarret", "share/doc/stumpgarret"):
            self.assertFalse((prefix / gone).exists())
        said = f"./install: nothing is installed in {prefix}\n"
        self.assertEqual(self.install("--uninstall", "--prefix", prefix), (2, "", said))

    def test_destdir(self):
        """Files are written below it, and none of them names it."""
        stage = self.folder() / "stage"
        status, out, err = self.install("--prefix", "/opt/stumpgarret", DESTDIR=stage)
        self.assertEqual((status, err), (0, ""))
        self.assertFalse(pathlib.Path("/opt/stumpgarret").exists())
        for path in (stage / "opt/stumpgarret").rglob("*"):
            if path.is_file() and path.suffix not in (".whl", ".so", ".a"):
                self.assertNotIn(str(stage), path.read_text(errors="replace"), path)
        call = run(stage / "opt/stumpgarret/bin/stumpgarret", "--version", cwd="/", PATH=self.few)
        self.assertEqual(call, (0, VERSION, ""))
        self.assertEqual(self.install("--uninstall", "--prefix", "/opt/stumpgarret", DESTDIR=stage)[0], 0)
        self.assertEqual([path for path in stage.rglob("*") if path.is_file()], [])

    def test_explain(self):
        """The chapters and what to change are there without the clone."""
        command = self.prefix / "bin/stumpgarret"
        status, out, err = run(command, "--explain", "20", cwd="/", PATH=self.few)
        self.assertEqual((status, out[:25], err), (0, "### 11.20 UnclosedLbrace\n", ""))
        folder = self.folder()
        (folder / "a.py").write_text("f'}'")
        self.assertIn("    Change: write `}}` if", run(command, "a.py", cwd=folder, PATH=self.few)[2])

    def test_isolated(self):
        """Another's modules are not run in the place of the tool's, nor another home taken."""
        folder = self.folder()
        for name in ("json", "argparse"):
            (folder / f"{name}.py").write_text("raise SystemExit('run in the place of the tool')")
        variables = {"PATH": self.few, "PYTHONPATH": folder, "PYTHONHOME": "/nowhere"}
        call = run(self.prefix / "bin/stumpgarret", "--json", "--quiet", "examples/bench.py", cwd=self.work / "away", **variables)
        self.assertEqual((call[0], call[1].count("\n"), call[2]), (0, 11, BENCH_TOLD))

    @unittest.skipUnless(shutil.which("pkg-config", path=SYSTEM), "there is no pkg-config")
    def test_pkg_config(self):
        """It gives what a C program is compiled and linked with."""
        source, program = self.work / "by_name.c", self.work / "by_name"
        source.write_text('#include <stumpgarret.h>\nint main(void) { return !stumpgarret_read; }\n')
        variables = {"PATH": SYSTEM, "PKG_CONFIG_PATH": self.prefix / "lib/pkgconfig"}
        ask = ["pkg-config", "--cflags", "--libs", "stumpgarret"]
        status, flags, err = run(*ask, cwd="/", **variables)
        self.assertEqual((status, err), (0, ""))
        compiler = "x86_64-linux-gnu-gcc" if EMULATED else "gcc"
        line = f"{compiler} -static -o {program} {source} {flags.strip()}"
        subprocess.run(["sh", "-c", line], check=True)
        self.assertEqual(subprocess.run([*EMULATOR, program]).returncode, 0)
        self.assertEqual(run("pkg-config", "--modversion", "stumpgarret", cwd="/", **variables)[1].strip(), stumpgarret.__version__)

    def test_manual(self):
        """It has each option of the command, and no other, and nothing that groff warns of."""
        page = (CLONE / "docs/stumpgarret.1").read_text()
        options = set(re.findall(r"--[a-z-]+", page.replace("\\-", "-"))) - {"--lf", "--limit", "--in-place"}  # of replay, wrap and set-spec
        status, out, _ = run(self.prefix / "bin/stumpgarret", "--help", cwd="/", PATH=self.few)
        self.assertEqual(options, set(re.findall(r"^  (?:-h, )?(--[a-z-]+)", out, re.M)))
        self.assertIn(f"stumpgarret {stumpgarret.__version__}", page)
        if shutil.which("groff", path=SYSTEM):
            ran = subprocess.run(["groff", "-man", "-ww", "-z", self.prefix / "share/man/man1/stumpgarret.1"], capture_output=True)
            self.assertEqual((ran.returncode, ran.stderr), (0, b""))

    def test_c(self):
        """A C program finds header and library there."""
        source = self.work / "program.c"
        source.write_text('#include <stumpgarret.h>\nint main(void) { return !stumpgarret_read; }\n')
        compiler = "x86_64-linux-gnu-gcc" if EMULATED else "gcc"
        program = self.work / "program"
        places = [f"-I{self.prefix}/include", f"-L{self.prefix}/lib"]
        subprocess.run([compiler, "-static", *places, "-o", program, source, "-lstumpgarret"], check=True)
        self.assertEqual(subprocess.run([*EMULATOR, program]).returncode, 0)

    def test_record_of_the_wheel(self):
        with zipfile.ZipFile(self.wheel) as archive:
            self.assertIsNone(archive.testzip())
            info = f"stumpgarret-{stumpgarret.__version__}.dist-info"
            record = dict(line.split(",", 1) for line in archive.read(f"{info}/RECORD").decode().splitlines())
            self.assertEqual(sorted(record), sorted(archive.namelist()))
            self.assertEqual(record.pop(f"{info}/RECORD"), ",")
            for name, said in record.items():
                content = archive.read(name)
                digest = base64.urlsafe_b64encode(hashlib.sha256(content).digest()).decode().rstrip("=")
                self.assertEqual(said, f"sha256={digest},{len(content)}")
            self.assertIn(f"Version: {stumpgarret.__version__}\n", archive.read(f"{info}/METADATA").decode())
            self.assertIn(f"Tag: {TAG}\n", archive.read(f"{info}/WHEEL").decode())

    def test_wheel(self):
        """Installed by pip, if there is one, else unpacked, it is a module that has its library."""
        folder = self.work / "packages"
        if subprocess.run([sys.executable, "-m", "pip", "--version"], capture_output=True).returncode == 0:
            options = ["-q", "--no-index", "--no-deps", "--only-binary=:all:", "--platform", TAG.rpartition("-")[2], "--target", folder]
            variables = {**os.environ, "PIP_ROOT_USER_ACTION": "ignore"}
            subprocess.run([sys.executable, "-m", "pip", "install", *options, self.wheel], check=True, env=variables)
            self.assertIn("from stumpgarret import process", (folder / "bin/stumpgarret").read_text())
        else:
            zipfile.ZipFile(self.wheel).extractall(folder)
        program = "import stumpgarret as s; print(s.__file__, [field.spec for field in s.fields(\"f'{x:3}'\")])"
        call = run(self.python, "-B", "-c", program, cwd="/", PATH=self.few, PYTHONPATH=folder)
        self.assertEqual(call, (0, f"{folder}/stumpgarret.py ['3']\n", ""))
        program = "import stumpgarret; stumpgarret.process()"
        for words, said in ((["--version"], VERSION), (["--explain", "25"], stumpgarret_rules.chapters()[25])):
            call = run(self.python, "-B", "-c", program, *words, cwd="/", PATH=self.few, PYTHONPATH=folder)
            self.assertEqual(call, (0, said, ""))
        named = r"f'{x:3}\N{SNOWMAN}'"
        program = f"import stumpgarret as s; print(len(s.fields({named!r}, names=s.Names.build({NAMES.encode()!r}))))"
        call = run(self.python, "-B", "-c", program, cwd="/", PATH=self.few, PYTHONPATH=folder)
        self.assertEqual(call, (0, "1\n", ""))

    def test_import(self):
        """A Python that has modules under the prefix finds it."""
        there = self.work / "environment"
        subprocess.run([sys.executable, "-m", "venv", "--without-pip", there], check=True)
        path = f"{there}/bin:{SYSTEM}"
        status, _, _ = self.install("--prefix", there, PATH=path)
        program = "import stumpgarret; print(stumpgarret.__file__)"
        call = run("python3", "-B", "-c", program, cwd="/", PATH=path)
        self.assertEqual((status, call), (0, (0, f"{there}/lib/stumpgarret/stumpgarret.py\n", "")))


@unittest.skipIf(EMULATED or not shutil.which("qemu-x86_64", path=SYSTEM), "there is no emulator here, or no other machine to be tried on")
class Native(Copy):
    """./install --native as on another machine; this one's own library stands for the one that is compiled."""

    def setUp(self):
        self.clone, self.prefix = self.writable(), self.folder() / "there"
        self.variables = {**self.with_rt(), "STUMPGARRET_MACHINE": "aarch64", "STUMPGARRET_NATIVE_CALLS": "320"}

    def install(self, *words, compiled='cp "$STUMPGARRET_STATIC" "$1/libstumpgarret.a"', **variables):
        """Status, output and errors, with a stand-in for what compiles the library."""
        (self.clone / "bench").mkdir(exist_ok=True)
        (self.clone / "bench/host-library").write_text(f'#!/bin/sh\nmkdir -p "$1"\n{compiled}\n')
        (self.clone / "bench/host-library").chmod(0o755)
        return run("./install", *words, "--prefix", self.prefix, cwd=self.clone, **{**self.variables, **variables})

    def test_installed(self):
        """Its library is loaded, and version, page and wheel say what it is; what a later ./install does not have is gone."""
        status, out, err = self.install("--native")
        self.assertEqual(status, 0, err)
        self.assertIn("comparing it with the library for x86-64, which may take some minutes\n", err)
        self.assertRegex(out, "compared with the one for x86-64: [0-9]+ calls alike, at least 20 of each of .*\nWhat the kit promises is for x86-64.\n")
        lib = self.prefix / "lib/stumpgarret"
        self.assertTrue((lib / "stumpgarret_native").exists() and not (lib / "stumpgarret-pipe").exists())
        command, given = self.prefix / "bin/stumpgarret", {"cwd": self.clone, "PATH": self.few}
        self.assertEqual(run(command, "examples/bench.py", **given), (0, BENCH_FIELDS, BENCH_LAST))
        said = "compiled for x86_64; the kit's promise is for x86-64"
        self.assertIn(said, run(command, "--version", **given)[1])
        self.assertEqual(run(command, "--html", self.prefix / "page.html", "examples/bench.py", **given)[0], 0)
        self.assertIn("the kit&#x27;s promise is for x86-64", (self.prefix / "page.html").read_text())
        with zipfile.ZipFile(next((self.prefix / "share/stumpgarret").glob("*.whl"))) as archive:
            self.assertLessEqual({"libstumpgarret.so", "stumpgarret_native"}, {*archive.namelist()})
        self.assertEqual(self.install()[0], 0)
        for name, there in (("stumpgarret_native", False), ("libstumpgarret.so", False), ("stumpgarret-pipe", True)):
            self.assertEqual((lib / name).exists(), there, name)

    def test_other_answers(self):
        """A library that answers otherwise is not installed."""
        swapped = "--redefine-sym stumpgarret_cut=stumpgarret_fields --redefine-sym stumpgarret_fields=stumpgarret_cut"
        status, out, err = self.install("--native", compiled=f'objcopy {swapped} "$STUMPGARRET_STATIC" "$1/libstumpgarret.a"')
        self.assertEqual((status, out), (2, ""))
        self.assertRegex(err, "both_ways: of (cut|fields) .*\n.*/native: it does not answer as the library for x86-64 does\n$")
        self.assertEqual([*(self.clone / "target/python").glob("native*")], [])
        self.assertEqual([*self.prefix.rglob("*")], [])

    def test_not_compiled(self):
        status, out, err = self.install("--native", compiled="echo no such target; exit 1")
        self.assertEqual((status, out), (2, ""))
        self.assertTrue(err.endswith("compiling the library for this machine\nno such target\n"), err)

    def test_here(self):
        """It is for other machines."""
        said = "./install: --native is for other machines: this one is x86-64, which the library is for\n"
        self.assertEqual(self.install("--native", STUMPGARRET_MACHINE=""), (2, "", said))


@unittest.skipUnless(importlib.util.find_spec("ensurepip"), "this Python makes no environment with pip")
class Wheels(unittest.TestCase):
    """The wheel in a fresh environment, installed by pip: with the library, where this machine can load it, and with the program."""

    def test_wheels(self):
        work = pathlib.Path(self.enterContext(tempfile.TemporaryDirectory()))
        subprocess.run([sys.executable, "-m", "venv", work / "there"], check=True)
        for file in ("libstumpgarret.so", "stumpgarret-pipe"):
            called = CLONE / "target/python" / file
            if called.exists() and (file.endswith("-pipe") or not EMULATED):
                with self.subTest(file=file):
                    self.installed(work, called)

    def installed(self, work, called):
        own = {"PATH": f"{work}/there/bin:{SYSTEM}", "STUMPGARRET_MACHINE": ""}
        status, wheel, err = run(CLONE / "bindings/python/wheel", called, work / called.stem, cwd="/", **own)
        self.assertEqual((status, err), (0, ""))
        options = "-q", "--no-index", "--disable-pip-version-check", "--force-reinstall"
        self.assertEqual(run("python", "-m", "pip", "install", *options, wheel.strip(), cwd="/", **own), (0, "", ""))
        program = "import stumpgarret as s; print(s.__file__, [field.spec for field in s.fields(\"f'{x:3}'\")])"
        status, out, err = run("python", "-I", "-c", program, cwd="/", **own)
        self.assertEqual((status, err), (0, ""))
        self.assertRegex(out, rf"^{work}/there/lib/.*/stumpgarret.py \['3'\]\n$")
        call = run("stumpgarret", "examples/bench.py", cwd=CLONE, **own)
        self.assertEqual(call, (0, BENCH_FIELDS, BENCH_LAST))
        self.assertIn(hashlib.sha256(called.read_bytes()).hexdigest(), run("stumpgarret", "--version", cwd="/", **own)[1])
        if called.name == "stumpgarret-pipe":
            alone = {"PATH": f"{work}/there/bin", "STUMPGARRET_MACHINE": "riscv64"}
            status, out, err = run(f"{work}/there/bin/stumpgarret", "examples/bench.py", cwd=CLONE, **alone)
            self.assertEqual((status, out), (2, ""))
            self.assertIn("is for x86_64, this machine is riscv64, and qemu-x86_64, the emulator for it, is missing (Debian: qemu-user)\n", err)


if __name__ == "__main__":
    unittest.main()
