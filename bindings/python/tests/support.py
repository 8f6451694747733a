"""What the tests share: the module, and the calls that it makes.

STUMPGARRET_LIBRARY names the shared library or STUMPGARRET_PROGRAM the program that the tests are run over.
"""

import contextlib
import importlib.machinery
import importlib.util
import os
import pathlib
import platform
import sys
from unittest import mock

sys.dont_write_bytecode = True

TESTS = pathlib.Path(__file__).resolve().parent
CLONE = TESTS.parents[2]
sys.path.insert(0, str(TESTS.parent))

import stumpgarret


def load(path):
    """The module at a path of the clone, whatever its name ends with."""
    path = CLONE / path
    if str(path.parent) not in sys.path:
        sys.path.insert(0, str(path.parent))
    loader = importlib.machinery.SourceFileLoader(path.stem, str(path))
    module = importlib.util.module_from_spec(importlib.util.spec_from_loader(path.stem, loader))
    sys.modules[path.stem] = module
    loader.exec_module(module)
    return module


@contextlib.contextmanager
def calls_of(name):
    """Collects the arguments of each call of one of the library's functions."""
    function = stumpgarret._function
    seen = []

    def counted(*arguments):
        seen.append(arguments)
        function(name)(*arguments)

    with mock.patch.object(stumpgarret, "_function", lambda other: counted if other == name else function(other)):
        yield seen


load_function = stumpgarret._function.__wrapped__
# The variables of a process of its own that makes its calls as the tests do.
CALLED = {name: os.environ[name] for name in ("STUMPGARRET_LIBRARY", "STUMPGARRET_PROGRAM", "STUMPGARRET_MACHINE") if name in os.environ}
EMULATED = (CALLED.get("STUMPGARRET_MACHINE") or platform.machine()) != "x86_64"
