"""The file that `stumpgarret --sarif` writes: what was refused, what else formats, and with --rounds what rounds, as SARIF
2.1.0, for code hosts and editors.

A rule for each number of a refusal, one for what Python's own `ast` has otherwise, one for each class of what rounds or may,
and one for what else formats. The same scripts make the same file.
"""

from __future__ import annotations

import json
import os
import pathlib
import re
from urllib.parse import quote

import stumpgarret
import stumpgarret_rules

SCHEMA = "https://json.schemastore.org/sarif-2.1.0.json"
# What has no number: its name here and for people, and what it means.
OTHERS = {
    "python": ("DifferentFromPython", "Python's own ast has another field, or does not take the script"),
    "rounds": ("FieldRounds", "a field rounds a number: by a type of e E f F g G n %, or by a precision without a type"),
    "computed": ("SpecComputed", "a field may round: its spec has a field, so its digits are decided when it runs"),
    "own": ("SpecOfAType", "a field may round: its spec is not of the mini-language but a type's own"),
    "formats": ("FormatsOtherwise", "something formats or rounds that is no field of an f-string, and is not listed"),
}


def rule_id(rule: int | str) -> str:
    return f"SG{rule:02}" if isinstance(rule, int) else f"SG-{rule}"


def sarif(results: list[dict[str, object]], failures: list[dict[str, object]], version: str) -> str:
    """The file of results and of scripts that could not be read, both made here."""
    rules = [_rule(number) for number in sorted(stumpgarret.REFUSALS)]
    rules += [_rule_of(rule_id(one), name, text) for one, (name, text) in OTHERS.items()]
    at = {rule["id"]: index for index, rule in enumerate(rules)}
    driver = {"name": "stumpgarret", "semanticVersion": stumpgarret.__version__, "version": version, "rules": rules}
    run = {
        "tool": {"driver": driver},
        "columnKind": "unicodeCodePoints",
        "invocations": [{"executionSuccessful": not failures, "toolExecutionNotifications": failures}],
        "results": [{**result, "ruleIndex": at[result["ruleId"]]} for result in results],
    }
    return json.dumps({"$schema": SCHEMA, "version": "2.1.0", "runs": [run]}, indent=1, ensure_ascii=False) + "\n"


def result(finding: object, path: str, cell: int | None) -> dict[str, object]:
    """What was found by a rule at a place. The lines of a cell are not those of its file; what is allowed is suppressed."""
    place, text = _place(path, cell), finding.said
    if cell is None:
        column = {"startColumn": finding.column} if finding.column else {}
        place["physicalLocation"]["region"] = {"startLine": finding.line, **column}
    else:
        text = f"cell {cell}, line {finding.line}: {text}"
    found = {"ruleId": rule_id(finding.rule), "level": finding.level, "message": {"text": text}, "locations": [place]}
    if finding.allowed is not None:
        found["suppressions"] = [{"kind": "external", "justification": finding.allowed}]
    return found


def failure(text: str, path: str | None = None, cell: int | None = None) -> dict[str, object]:
    """What was not read, and why."""
    return {"level": "error", "message": {"text": text}, "locations": [] if path is None else [_place(path, cell)]}


def _place(path: str, cell: int | None) -> dict[str, object]:
    place = {"physicalLocation": {"artifactLocation": {"uri": uri(path)}}}
    return place if cell is None else {**place, "logicalLocations": [{"name": f"cell {cell}", "kind": "module"}]}


def uri(path: str) -> str:
    """A relative path stays one; what a URI does not take is written by its code."""
    if os.path.isabs(path):
        return pathlib.Path(os.path.normpath(path)).as_uri()
    return quote(os.fsencode(os.path.normpath(path)))


def _rule(number: int) -> dict[str, object]:
    name, _ = stumpgarret.REFUSALS[number]
    chapter = stumpgarret_rules.chapters().get(number, "")
    change = stumpgarret_rules.change(number, 0)
    words = "".join(word[:1].upper() + word[1:] for word in re.findall(r"[A-Za-z0-9]+", name))
    rule = _rule_of(rule_id(number), words, f"{number} {name}")
    if chapter:
        rule["help"] = {"text": f"Change: {change}" if change else f"{number} {name}", "markdown": chapter}
    return rule


def _rule_of(name: str, words: str, text: str) -> dict[str, object]:
    return {"id": name, "name": words, "shortDescription": {"text": text}, "defaultConfiguration": {"level": "error"}}
