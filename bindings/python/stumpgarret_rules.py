"""What docs/RULES.md says of each refusal: its chapter, and what to change.

The page is taken from beside this module, where `./install` and the wheel put it, else from the clone.
"""

from __future__ import annotations

import functools
import os
import re

PAGES = "stumpgarret_rules.md", os.path.join("..", "..", "docs", "RULES.md")
SECTION = re.compile(r"^### 11\.([0-9]+) .*?(?=^### |^## )", re.MULTILINE | re.DOTALL)
CHANGE = re.compile(r"^Change: (.*?)(?:\n\n|\Z)", re.MULTILINE | re.DOTALL)
NOT_LISTED = re.compile(r" Not in a list of a script.*", re.DOTALL)
BY_DETAIL = re.compile(r"^\| ([0-9]) \| .* \| (.*) \|$", re.MULTILINE)


@functools.lru_cache(maxsize=None)
def chapters() -> dict[int, str]:
    """The text of each refusal's section, by its number; nothing where the page is missing."""
    here = os.path.dirname(os.path.abspath(__file__))
    for page in PAGES:
        try:
            with open(os.path.join(here, page), encoding="utf-8") as file:
                text = file.read()
        except OSError:
            continue
        return {int(found[1]): found[0].strip() + "\n" for found in SECTION.finditer(text)}
    return {}


def change(number: int, detail: int) -> str:
    """What to change in the script, in words; nothing where the page does not say it."""
    chapter = chapters().get(number, "")
    found = CHANGE.search(chapter)
    if found:
        return " ".join(NOT_LISTED.sub("", found[1]).split())
    return dict((int(one), said) for one, said in BY_DETAIL.findall(chapter)).get(detail, "")
