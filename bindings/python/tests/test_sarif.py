"""The file of --sarif: held against what the schema of SARIF 2.1.0 requires, allows and knows by name."""

import json
import pathlib
import unittest

import test_command
from support import stumpgarret
import stumpgarret_sarif

# Of each object of the published schema that the file has: the keys that it requires, and those of the others that are used
# here. None of these objects takes a key that the schema does not name.
OBJECTS = {
    "log": ({"version", "runs"}, {"$schema"}),
    "run": ({"tool"}, {"columnKind", "invocations", "results"}),
    "tool": ({"driver"}, set()),
    "driver": ({"name"}, {"semanticVersion", "version", "rules"}),
    "rule": ({"id"}, {"name", "shortDescription", "defaultConfiguration", "help"}),
    "multiformatMessage": ({"text"}, {"markdown"}),
    "message": (set(), {"text"}),
    "configuration": (set(), {"level"}),
    "invocation": ({"executionSuccessful"}, {"toolExecutionNotifications"}),
    "notification": ({"message"}, {"level", "locations"}),
    "result": ({"message"}, {"ruleId", "ruleIndex", "level", "locations", "suppressions"}),
    "suppression": ({"kind"}, {"justification"}),
    "location": (set(), {"physicalLocation", "logicalLocations"}),
    "physicalLocation": (set(), {"artifactLocation", "region"}),
    "artifactLocation": (set(), {"uri"}),
    "region": (set(), {"startLine", "startColumn"}),
    "logicalLocation": (set(), {"name", "kind"}),
}
# The sort of the objects that stand at a key.
SORTS = {
    "runs": "run", "tool": "tool", "driver": "driver", "rules": "rule", "shortDescription": "multiformatMessage",
    "help": "multiformatMessage", "defaultConfiguration": "configuration", "invocations": "invocation", "results": "result",
    "toolExecutionNotifications": "notification", "message": "message", "locations": "location",
    "physicalLocation": "physicalLocation", "artifactLocation": "artifactLocation", "region": "region",
    "logicalLocations": "logicalLocation", "suppressions": "suppression",
}


def check(one, sort="log"):
    required, others = OBJECTS[sort]
    assert required <= set(one) <= required | others, (sort, set(one))
    for key, value in one.items():
        for item in value if isinstance(value, list) else [value]:
            if isinstance(item, dict):
                check(item, SORTS[key])
        if key in ("level",):
            assert value in ("none", "note", "warning", "error"), value
        if key in ("startLine", "startColumn"):
            assert isinstance(value, int) and value >= 1, value


class Sarif(test_command.Command):
    def run_sarif(self, *options, status=0, **scripts):
        ended, out, err = self.run_on("--sarif", "out.sarif", *options, **scripts)
        self.assertEqual(ended, status)
        log = json.loads(pathlib.Path("out.sarif").read_text(encoding="utf-8"))
        check(log)
        self.assertEqual((log["version"], log["$schema"]), ("2.1.0", "https://json.schemastore.org/sarif-2.1.0.json"))
        run, = log["runs"]
        self.assertEqual(run["columnKind"], "unicodeCodePoints")
        for result in run["results"]:
            self.assertEqual(run["tool"]["driver"]["rules"][result["ruleIndex"]]["id"], result["ruleId"])
        return run, out, err

    def test_complete(self):
        """The list is printed too, and nothing is a result."""
        run, out, _ = self.run_sarif(a="f'{x}'")
        self.assertEqual((run["results"], out), ([], "a.py:1:4\tx\t\t\n"))
        self.assertEqual(run["invocations"], [{"executionSuccessful": True, "toolExecutionNotifications": []}])
        driver = run["tool"]["driver"]
        self.assertEqual((driver["name"], driver["semanticVersion"]), ("stumpgarret", stumpgarret.__version__))
        self.assertEqual(driver["version"], ", ".join(test_command.VERSION_LINES))

    def test_rules(self):
        """One for each number, with its chapter and what to change, one for Python's own reading, and for what rounds."""
        run, _, _ = self.run_sarif(a="")
        rules = {rule["id"]: rule for rule in run["tool"]["driver"]["rules"]}
        ids = [f"SG{number:02}" for number in sorted(stumpgarret.REFUSALS)]
        self.assertEqual([*rules], [*ids, "SG-python", "SG-rounds", "SG-computed", "SG-own", "SG-formats"])
        self.assertEqual(len({rule["name"] for rule in rules.values()}), len(rules))
        self.assertTrue(all(rule["name"].isidentifier() or rule["name"][0].isdigit() for rule in rules.values()))
        self.assertEqual(rules["SG25"]["shortDescription"], {"text": "25 SingleRbrace"})
        self.assertRegex(rules["SG25"]["help"]["text"], "^Change: write `}}` if a brace is meant")
        self.assertRegex(rules["SG25"]["help"]["markdown"], "^### 11.25 SingleRbrace\n")
        self.assertTrue(all("help" in rules[one] for one in ids))

    def test_results(self):
        run, _, err = self.run_sarif(status=1, a="é = f'}'\nf'{x#}'")
        first, second = run["results"]
        place = {"artifactLocation": {"uri": "a.py"}, "region": {"startLine": 1, "startColumn": 8}}
        self.assertEqual((first["ruleId"], first["level"], first["locations"]), ("SG25", "error", [{"physicalLocation": place}]))
        self.assertEqual(f"a.py:1:8: {first['message']['text']}", err.splitlines()[0])
        self.assertEqual((second["ruleId"], second["locations"][0]["physicalLocation"]["region"]["startLine"]), ("SG75", 2))

    def test_notebooks(self):
        """The line of a cell is none of the file's, and stands in the message."""
        pathlib.Path("nb.ipynb").write_text(json.dumps({"cells": [{"cell_type": "code", "source": "\nf'}'"}]}))
        run, _, _ = self.run_sarif("nb.ipynb", status=1)
        result, = run["results"]
        self.assertRegex(result["message"]["text"], "^cell 1, line 2: refused: 25 ")
        self.assertEqual(result["locations"][0]["physicalLocation"], {"artifactLocation": {"uri": "nb.ipynb"}})
        self.assertEqual(result["locations"][0]["logicalLocations"], [{"name": "cell 1", "kind": "module"}])

    def test_failures(self):
        """What is not read is no result, and the run is told as not successful."""
        run, _, _ = self.run_sarif("none.py", status=2, a=b"\xff", b="f'}'")
        invocation, = run["invocations"]
        self.assertFalse(invocation["executionSuccessful"])
        said = [one["message"]["text"] for one in invocation["toolExecutionNotifications"]]
        self.assertEqual((said[0], len(said), len(run["results"])), ("No such file or directory", 2, 1))
        run, _, _ = self.run_sarif("--names", "none.txt", status=2, a="")
        self.assertRegex(run["invocations"][0]["toolExecutionNotifications"][0]["message"]["text"], "^the file of names none.txt")

    @unittest.skipUnless(test_command.IS_3_11, "Python 3.11 has the grammar")
    def test_differences(self):
        run, _, _ = self.run_sarif("--check", status=1, a="\nf'{a b}'")
        result, = run["results"]
        self.assertEqual((result["ruleId"], result["locations"][0]["physicalLocation"]["region"]), ("SG-python", {"startLine": 2}))

    def test_unwritten(self):
        status, out, err = self.run_on("--sarif", "none/out.sarif", a="f'{x}'")
        self.assertEqual((status, out, err), (2, "a.py:1:4\tx\t\t\n", "none/out.sarif: No such file or directory\n"))

    def test_uris(self):
        for path, uri in (("a b/é%.py", "a%20b/%C3%A9%25.py"), ("./a.py", "a.py"), ("/a b.py", "file:///a%20b.py"), ("<stdin>", "%3Cstdin%3E")):
            self.assertEqual(stumpgarret_sarif.uri(path), uri)


if __name__ == "__main__":
    unittest.main()
