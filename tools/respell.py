#!/usr/bin/env python3
"""Brings this repository's own names to the spelling of Rattle's library: words in snake case, modules in camel case.

usage: tools/respell.py            once, at the top, right after the kit's port.py
       tools/respell.py --table    prints the names and their new spelling, and writes nothing

A name that the repository declares in specs/ or proofs/, as isBytes or octal-end, becomes is_bytes or octal_end. Where two
names would be one, the lemma gets `_lem`. A name that begins with a capital stays. A module in lower case, as proofs/moves,
becomes Moves. Functions of src/, exported names, strings and programs' inputs and outputs keep their names.
"""

import collections
import glob
import os
import re
import subprocess
import sys

WORD = re.compile(r"[^\s(){}\[\].;,@\"«»`]+")
QUIET = re.compile(r'"(?:[^"\\\n]|\\.)*"')
HEAD = re.compile(r"^\s*(?:(?:abbrev|unfoldable|opaque)\s+)?(?:pub\s+)?(?:(?:data|record)\s+)?([^\s(){}:]+)\s(?:[^\n=→]*?\s)?:\s", re.M)
USE = re.compile(r"^use (\S+?)\.\{([^}]*)\}", re.M)
# Variables that no declaration names.
VARIABLES = "amongDigits bytesOnly commentCase longScript spaceCase textN restR restW".split()
CAMEL = re.compile(r"[a-z][A-Za-z0-9_'₀-₉]*[A-Z].*")
# What a path through the record of a goal begins with.
STEP = re.compile(r"(?<![^\s({,])c(\.[^\s(){},.]+)*\.$")
DASHED = re.compile(r"[a-z0-9].*-.*")


def snake(name):
    name = name.replace("FString", "Fstring").replace("getD", "getOr").replace("-", "_")
    return re.sub(r"([a-z0-9])([A-Z])", lambda m: m.group(1) + "_" + m.group(2).lower(), name)


def proofs():
    return sorted(glob.glob("crates/*/specs/**/*.antt", recursive=True) + glob.glob("crates/*/proofs/**/*.antt", recursive=True))


def read(path):
    with open(path, encoding="utf-8", newline="") as it:
        return it.read()


def names():
    """The names that turn, each with its new spelling; and, by file, those that come from a library."""
    declared, words, foreign = set(VARIABLES), set(), collections.defaultdict(set)
    for path in proofs():
        text = re.sub(r"--[^\n]*", "", read(path))
        for m in USE.finditer(text):
            if not re.match(r"Rattle\.(?!std|core)", m.group(1)):
                foreign[path].update(it.split(" as ")[-1].strip() for it in m.group(2).split(","))
        text = re.sub(r"^use [^\n]*", "", text, flags=re.M)
        declared.update(m.group(1) for m in HEAD.finditer(text))
        words.update(WORD.findall(text))
    generated = re.compile(r"(invariant|decreases)-")
    turn = {n for n in declared if (CAMEL.fullmatch(n) or DASHED.fullmatch(n)) and re.search("[A-Za-z]", n) and not generated.match(n)}
    to = {}
    by_new = collections.defaultdict(list)
    for n in turn:
        by_new[snake(n)].append(n)
    for new, old in by_new.items():
        old.sort(key=lambda n: "-" in n)
        if new in declared:
            if "-" in old[0]:
                to[old[0]] = new + "_lem"
            else:
                to[old[0]] = new
                to[new] = new + "_lem"
        else:
            to[old[0]] = new
        for n in old[1:]:
            if new + "_lem" in to.values():
                raise SystemExit(f"three names become {new}: {old}")
            to[n] = new + "_lem"
    for new in to.values():
        if new in declared and new not in to:
            raise SystemExit(f"{new} is there already")
    return to, foreign


def modules():
    """The modules in lower case, by crate."""
    out = collections.defaultdict(list)
    for lib in sorted(glob.glob("crates/*/specs/**/*.antt", recursive=True) + glob.glob("crates/*/proofs/**/*.antt", recursive=True)):
        for m in re.finditer(r"^(?:pub )?mod ([a-z]\w*)$", read(lib), re.M):
            out[lib.split("/")[1]].append((lib, m.group(1)))
    return out


def spelled(text, to, skip, last):
    """The text with its names turned; quoted text stays. A name in snake case turns only in antt, and not in a path of a goal."""

    def word(m):
        w = m.group(0)
        if w not in to or w in skip:
            return w
        if "-" not in w and not CAMEL.fullmatch(w) and (not last or STEP.search(m.string[: m.start()])):
            return w
        return to[w]

    out, at = [], 0
    for q in QUIET.finditer(text):
        out.append(WORD.sub(word, text[at : q.start()]))
        out.append(q.group(0))
        at = q.end()
    out.append(WORD.sub(word, text[at:]))
    return "".join(out)


def main():
    os.chdir(subprocess.run(["git", "rev-parse", "--show-toplevel"], capture_output=True, text=True, check=True).stdout.strip())
    to, foreign = names()
    if sys.argv[1:] == ["--table"]:
        for old in sorted(to):
            print(old, to[old], sep="\t")
        return
    for path in proofs():
        text = read(path)
        new = spelled(text, to, foreign[path], True)
        if new != text:
            with open(path, "w", encoding="utf-8", newline="") as it:
                it.write(new)
    for path in sorted(glob.glob("crates/*/src/**/*.rt", recursive=True)):
        text = read(path)
        new = spelled(text, to, set(), False)
        if new != text:
            with open(path, "w", encoding="utf-8", newline="") as it:
                it.write(new)
    moved = []
    for crate, of in modules().items():
        for lib, name in of:
            folder = os.path.dirname(lib) if os.path.basename(lib) == "Lib.antt" else lib[: -len(".antt")]
            if os.path.exists(f"crates/{crate}/src/{name}.rt") or not os.path.exists(f"{folder}/{name}.antt"):
                print("look:", lib, name)
                continue
            big = "".join(p.capitalize() for p in name.split("_"))
            moved.append((crate, folder, name, big, lib))
    for crate, folder, name, big, lib in moved:
        text = read(lib)
        with open(lib, "w", encoding="utf-8", newline="") as it:
            it.write(re.sub(rf"^((?:pub )?mod ){name}$", rf"\g<1>{big}", text, flags=re.M))
        subprocess.run(["git", "mv", f"{folder}/{name}.antt", f"{folder}/{big}.antt"], check=True)
        if os.path.isdir(f"{folder}/{name}"):
            subprocess.run(["git", "mv", f"{folder}/{name}", f"{folder}/{big}"], check=True)
        inside = folder.split("/", 2)[2].replace("/", ".")
        pattern = re.compile(rf"(?<![\w.])(Rattle\.{crate}\.{inside}\.){name}(?![\w])")
        for path in proofs() + glob.glob("crates/*/src/**/*.rt", recursive=True):
            text = read(path)
            new = pattern.sub(rf"\g<1>{big}", text)
            if new != text:
                with open(path, "w", encoding="utf-8", newline="") as it:
                    it.write(new)


main()
