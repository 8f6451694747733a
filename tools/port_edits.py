#!/usr/bin/env python3
"""Brings the must-fail edits to the spelling of today's files: the same wrong program, written as Rattle is now.

usage: tools/port_edits.py            once, at the top, after tools/respell.py: writes crates/*/must-fail/*.edit anew from those of LANDED
       tools/port_edits.py --check    says what is wrong with the edits as they stand, and writes nothing
       tools/port_edits.py --beside   prints each edit as it was and, where it changed, as it is

What a name is called now is learnt from the files themselves: those of LANDED and today's say the same things in the same order, so that
their words pair off. The few edits whose statement is not only spelled otherwise but also written otherwise are in BY_HAND.
"""

import collections
import difflib
import functools
import glob
import os
import re
import subprocess
import sys

LANDED = "a0e7aa69fce7b9d36c2e0e57498c090d06f712e5"
TOKEN = re.compile(r'"(?:[^"\\\n]|\\.)*"|[^\s(){}\[\].;,@"«»`]+|\S')
QUIET = re.compile(r'("(?:[^"\\\n]|\\.)*")')
# A field of a name, as in (x .f) and y + x .f: written tight today, without brackets. In f x .g it is a field of f x: by hand.
BRACKETED = re.compile(r"\(([\w'′]+)((?: \.\w+)+)\)")
LOOSE = re.compile(r"([\w'′]+)((?: \.\w+)+)")
# What may stand before such an x: nothing, a bracket, a keyword or an operator.
HEAD = re.compile(r"(^|[(;]|(^|[\s(])(if|then|else|in|is|[^\s\w'′()\[\]]+))\s*$")
WORD = re.compile(r"[^\W\d][\w'′◌]*")
# Spelling that is gone.
GONE = [
    (re.compile(r"[⌜⌝′·]"), "a sign of the old spelling"),
    (re.compile(r"(?<![\w◌])_[^\s\w(){}\[\].,;]+_(?!\w)"), "an operator by its old name"),
    (re.compile(r"\b(now|entry|exit)\s+\(|\(\w+ \.(entry|exit)\)"), "a borrow's value by its old name"),
    (re.compile(r"\(\w+( \.\w+)+\)|[\w'] \.\w"), "a field that is not written tight"),
    (re.compile(r"(?<![\w'])[a-z][a-z0-9_]*[A-Z]\w*"), "a name in camel case"),
]
# By edit, the pairs of those that are written otherwise.
BY_HAND = {
    "literals/long_script_one_less": [("const MOST_BYTES: usize = 1048576;", "const MOST_BYTES: usize = 1048575;")],
    "answers/details_lost": [("r.a, r.b,", "r.a, 0,")],
    "answers/text_for_records": [("x.records,", "x.text,")],
    "definition/characters_in_bytes": [
        (
            "all_chars script (l ∷ ls) = (counted (body script l) (length (body script l))).chars + all_chars script ls",
            "all_chars script (l ∷ ls) = length (body script l) + all_chars script ls",
        )
    ],
    "definition_formed/texts_together": [
        (
            "    && texts_utf8 (lent_answer x).text (lent_answer x).records",
            "    && (eqb (word x.numbers 1) 2 || is_utf8 (lent_answer x).text)",
        )
    ],
}

# The number that these change has a name of its own today, where they stand now.
NAMED = {"literals/long_script_one_less"}


def run(*words):
    return subprocess.run(words, capture_output=True, text=True, check=True).stdout


def short(name):
    """crate/edit, of crates/crate/must-fail/edit.edit."""
    return "/".join(name.split("/")[1::2]).removesuffix(".edit")


def landed(path):
    return landed_files()[path]


@functools.cache
def landed_files():
    """The edits, and the sources and definitions that they name, as they stood at LANDED."""
    wanted = re.compile(r"crates/\w+/(must-fail/\w+\.edit|(src|specs|proofs)/.*\.(rt|antt))")
    paths = [p for p in run("git", "ls-tree", "-r", "--name-only", LANDED, "crates").split("\n") if wanted.fullmatch(p)]
    blobs = subprocess.run(["git", "cat-file", "--batch"], input="".join(f"{LANDED}:{p}\n" for p in paths).encode(), capture_output=True, check=True).stdout
    out, at = {}, 0
    for path in paths:
        end = blobs.index(b"\n", at)
        size = int(blobs[at:end].split()[2])
        out[path] = blobs[end + 1 : end + 1 + size].decode()
        at = end + 2 + size
    return out


@functools.cache
def read(path):
    with open(path, encoding="utf-8", newline="") as it:
        return it.read()


def bare(token):
    """A token without what only its spelling says."""
    if token[0] == '"' or not re.search(r"[^\W\d]", token):
        return re.sub("[_◌]", "", token) or token
    token = token.replace("FString", "Fstring").replace("getD", "getOr").replace("′", "'")
    return re.sub("[-_◌]", "", token).lower()


@functools.cache
def paired(path):
    """The tokens of a file at LANDED and today, and the index of today's counterpart of each, where there is one."""
    old = [(m.group(0), m.start(), m.end()) for m in TOKEN.finditer(landed(path))]
    new = [(m.group(0), m.start(), m.end()) for m in TOKEN.finditer(read(path))]
    to = {}
    match = difflib.SequenceMatcher(None, [bare(t[0]) for t in old], [bare(t[0]) for t in new], autojunk=False)
    for tag, a, b, c, d in match.get_opcodes():
        if tag == "equal" or tag == "replace" and b - a == d - c:
            to.update(zip(range(a, b), range(c, d)))
    return old, new, to


@functools.cache
def names(path):
    """What each word of a file is called today: the counterpart that it has most often."""
    old, new, to = paired(path)
    seen = collections.defaultdict(collections.Counter)
    for a, b in to.items():
        if bare(old[a][0]).rstrip("'") in bare(new[b][0]):
            seen[old[a][0]][new[b][0]] += 1
    return {w: c.most_common(1)[0][0] for w, c in seen.items()}


@functools.cache
def all_names(crate):
    """What each word of a crate's definitions is called today, or of all crates' for those that only others have."""
    out, own = {}, {}
    for path in landed_files():
        if path.endswith(".antt") and "/specs/" in path and os.path.exists(path):
            (own if path.split("/")[1] == crate else out).update(names(path))
    return out | own


def spelled(text, path):
    """A text of an edit of this file, spelled as today."""
    if not path.endswith(".antt"):
        return text
    here, there = names(path), all_names(path.split("/")[1])
    out = []
    for i, part in enumerate(QUIET.split(text)):
        if i % 2 == 0:
            part = BRACKETED.sub(lambda m: m.group(1) + m.group(2).replace(" ", ""), part)
            part = LOOSE.sub(lambda m: m.group(1) + m.group(2).replace(" ", "") if HEAD.search(m.string[: m.start()]) else m.group(0), part)
            part = TOKEN.sub(lambda m: here.get(m.group(0), there.get(m.group(0), m.group(0))), part).replace("′", "'")
        out.append(part)
    return "".join(out)


def counterpart(text, path):
    """Where today's file has what LANDED's says with this text: the range of its characters."""
    old, new, to = paired(path)
    at = landed(path).index(text)
    of = [to[i] for i, (t, a, b) in enumerate(old) if a < at + len(text) and at < b and i in to]
    return new[min(of)][1], new[max(of)][2]


def fields(edit):
    """The file of an edit, and its pairs."""
    lines = edit.split("\n")
    file = [l[6:] for l in lines if l.startswith("file: ")]
    old = [l[5:] for l in lines if l.startswith("old: ")]
    new = [l[5:] for l in lines if l.startswith("new: ")]
    if len(file) != 1 or len(old) != len(new):
        raise SystemExit("an edit with other lines than file, old and new:\n" + edit)
    return file[0], list(zip(old, new))


def ported(name):
    """An edit's text as it should stand today."""
    crate = "/".join(name.split("/")[:2])
    edit = landed(name)
    file, pairs = fields(edit)
    path = f"{crate}/{file}"
    now = BY_HAND.get(short(name)) or [tuple(spelled(t, path) for t in pair) for pair in pairs]
    olds, news = iter([a for a, b in now]), iter([b for a, b in now])
    return "\n".join("old: " + next(olds) if l.startswith("old: ") else "new: " + next(news) if l.startswith("new: ") else l for l in edit.split("\n"))


def wrong(name):
    """What is wrong with an edit as it stands."""
    crate = "/".join(name.split("/")[:2])
    edit = read(name)
    file, pairs = fields(edit)
    path = f"{crate}/{file}"
    if not os.path.exists(path):
        yield f"no file {path}"
        return
    before = fields(landed(name))[1]
    if [l for l in edit.split("\n") if not re.match("(old|new): ", l)] != [l for l in landed(name).split("\n") if not re.match("(old|new): ", l)]:
        yield "another file, or other comments"
    if len(before) != len(pairs):
        yield "another number of pairs"
    text = read(path)
    for (old, new), (was, became) in zip(pairs, before):
        if text.count(old) != 1:
            yield f"stands {text.count(old)} times: {old}"
            continue
        if old == new:
            yield f"changes nothing: {old}"
        if read(path).count(old) == 1 and landed(path).count(was) == 1 and short(name) not in NAMED:
            low, high = counterpart(was, path)
            at = read(path).index(old)
            if at + len(old) <= low or high <= at:
                yield f"stands elsewhere: {old}, and not {read(path)[low:high]}"
        text = text.replace(old, new)
        parts = "".join(QUIET.split(new)[::2])
        for sign, what in GONE if path.endswith(".antt") else GONE[:1]:
            if sign.search(parts):
                yield f"{what}: {new}"
        own = set(WORD.findall(became)) - set(WORD.findall(landed(path)))
        for word in WORD.findall(parts):
            if word not in WORD.findall(read(path)) and word not in own:
                yield f"a word that the file does not have, {word}: {new}"


def main():
    os.chdir(run("git", "rev-parse", "--show-toplevel").strip())
    there = sorted(p for p in landed_files() if p.endswith(".edit"))
    if sys.argv[1:] == ["--check"]:
        found = 0
        for name in there:
            for what in wrong(name) if os.path.exists(name) else ["is gone"]:
                print(f"{name}: {what}")
                found += 1
        for name in sorted(set(glob.glob("crates/*/must-fail/*.edit")) - set(there)):
            print(f"{name}: was not there")
        print(f"{len(there)} edits, {found} things wrong")
        raise SystemExit(1 if found else 0)
    if sys.argv[1:] == ["--beside"]:
        for name in there:
            print(name)
            was, now = landed(name).strip().split("\n"), read(name).strip().split("\n")
            for a, b in zip(was, now):
                print(f"  {a}" if a == b else f"  {a}\n > {b}")
        return
    changed = 0
    for name in there:
        text = ported(name)
        if text != read(name):
            changed += 1
            with open(name, "w", encoding="utf-8", newline="") as it:
                it.write(text)
    print(f"{len(there)} edits, {changed} written anew")


main()
