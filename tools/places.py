#!/usr/bin/env python3
"""Counts the places of src/ that docs/DESIGN-PASS.md goes through, and lists them.

    tools/places.py             a line for each point: how many there are
    tools/places.py POINT       the places of a point, one a line: shapes, sentinels, numbers, twins, loops, chains, copies,
                                together, wide, facts, lengths, switches, proofs
"""
import collections
import glob
import os
import re
import sys

ROOT = os.path.join(os.path.dirname(os.path.abspath(__file__)), "..")


def sources():
    """The files of src/, by crate and name, with their text without comments and clauses."""
    for path in sorted(glob.glob(f"{ROOT}/crates/*/src/**/*.rt", recursive=True)):
        name = os.path.relpath(path, f"{ROOT}/crates").replace("/src/", "/")
        yield name, open(path).read()


def code_of(text):
    """The text with comments, ghost lines and clauses taken out; lines keep their numbers."""
    lines = []
    for line in text.split("\n"):
        bare = line.strip()
        if bare.startswith(("//", "ghost ", "requires ", "ensures ")):
            line = ""
        lines.append(line.split(" // ")[0])
    return "\n".join(lines)


def functions():
    """Each function: file, line, name, parameters, result, body, and the comment above it."""
    head = re.compile(r"^( *)(?:pub(?:\(crate\))? )?fn (\w+)(?:<[^>]*>)?\(", re.M)
    for name, text in sources():
        code = code_of(text)
        raw = text.split("\n")
        for found in head.finditer(code):
            depth, at = 1, found.end()
            while depth:
                depth += {"(": 1, ")": -1}.get(code[at], 0)
                at += 1
            params = code[found.end():at - 1]
            open_at = code.index("{", at)
            close = re.compile(rf"^{found.group(1)}}}", re.M).search(code, open_at)
            line = code.count("\n", 0, found.start()) + 1
            above = raw[line - 2].strip() if line > 1 else ""
            body = code[open_at + 1:close.start()]
            yield name, line, found.group(2), params, code[at:open_at].strip(), body, above


def shapes():
    """Own enums with a case for a refusal, for nothing, for too much or too little."""
    empty = "Refused|Refuses|Fails|Broken|TooLong|Nothing|Nowhere|Short|End|Wrong|Not|Inside|Unread|Stopped|Malformed|Over"
    for name, text in sources():
        code = code_of(text)
        for found in re.finditer(r"^(?:pub(?:\(crate\))? )?enum (\w+)(?:<[^>]*>)? \{\n(.*?)^\}", code, re.M | re.S):
            cases = [it.strip().rstrip(",") for it in found.group(2).strip().split("\n") if it.strip()]
            if any(re.match(rf"(?:{empty})\b", it) for it in cases) and any("(" in it for it in cases):
                line = code.count("\n", 0, found.start()) + 1
                yield f"{name}:{line}: enum {found.group(1)} {{ {', '.join(cases)} }}"


def sentinels():
    """Functions that answer with a number for 'none', and constants that stand for it."""
    told = re.compile(r"[;,] (?:over )?(?:0|7|8|16|256|0x110000|[\d,]+|no code|nothing|zeros|the (?:number|end|index))\b.* (?:if|where|at|past|there)\b")
    for name, line, fn, _, result, _, above in functions():
        if result and "bool" not in result and "Option" not in result and told.search(above):
            yield f"{name}:{line}: fn {fn}: {above.lstrip('/ ')}"
    for name, text in sources():
        for number, line in enumerate(text.split("\n"), 1):
            if re.match(r"(?:pub(?:\(crate\))? )?const (?:NO_(?:CODE|VALUE|KIND|NAMES)|NONE_OPEN|NOWHERE|NOT_BACK)\b", line):
                yield f"{name}:{number}: {line}"


def numbers():
    """Constants that are a refusal's number or a kind's."""
    for name, text in sources():
        for number, line in enumerate(text.split("\n"), 1):
            if re.match(r"(?:pub(?:\(crate\))? )?const \w+: u(?:32|8) = \d{1,2};", line):
                yield f"{name}:{number}: {line}"
    for name, line, fn, params, _, _, _ in functions():
        if re.search(r"\bset: u8|\bends: u8", params):
            yield f"{name}:{line}: fn {fn}({params.strip()})"


def shape_of(params, result, body):
    """A function's text with its names, numbers and types taken out."""
    text = f"{params} {result} {body}"
    text = re.sub(r"b?\"(?:\\.|[^\"])*\"|b?'(?:\\.|[^'])'|0x[0-9A-Fa-f]+|\d+", "1", text)
    text = re.sub(r"\b(?:u8|u16|u32|u64|usize)\b", "t", text)
    words = {}
    keep = {"if", "else", "return", "let", "mut", "while", "loop", "match", "for", "in", "true", "false", "len", "as", "t", "bool", "Self", "self"}
    text = re.sub(r"\b[A-Za-z_]\w*\b", lambda it: it.group() if it.group() in keep else words.setdefault(it.group(), f"x{len(words)}"), text)
    return re.sub(r"\s+", " ", text)


def twins():
    """Functions whose text is the same but for names, numbers and types; bodies of a line or two are left out."""
    groups = collections.defaultdict(list)
    for name, line, fn, params, result, body, _ in functions():
        if len(re.findall(r"\S+", body)) >= 9:
            groups[shape_of(params, result, body)].append(f"{name}:{line} {fn}")
    for group in groups.values():
        if len(group) > 1:
            yield "; ".join(group)


def loops():
    """Loops that count an index by hand."""
    for name, line, fn, _, _, body, _ in functions():
        for found in re.finditer(r"^( *)(?:let .* = )?(?:'\w+: )?(while (?!let)[^{]*|loop )\{\n(.*?)^\1\}", body, re.M | re.S):
            if re.search(r"\b(\w+) (?:\+|-)= (?:1|8|size)\b|\b(\w+) = \2 [+-] 1", found.group(3)):
                at = line + body.count("\n", 0, found.start())
                yield f"{name}:{at}: fn {fn}: {found.group(2).strip()}"


def chains():
    """Functions to bool that are chains of `if`, each returning true or false."""
    for name, line, fn, _, result, body, _ in functions():
        if result == "-> bool" and re.search(r"return (?:true|false);|=> (?:true|false),", body) and not re.search(r"\b(?:while|loop|for)\b", body):
            yield f"{name}:{line}: fn {fn}"


def copies():
    """Conversions and copies written by hand: functions that only rebuild a value field by field, or turn one into numbers."""
    for name, line, fn, params, result, body, _ in functions():
        fields = re.findall(r"^\s+(\w+): (\w+)\.(\w+),", body, re.M)
        same = [it for it in fields if it[0] == it[2]]
        if len(same) >= 3:
            yield f"{name}:{line}: fn {fn}: {len(same)} fields"
        elif re.fullmatch(r"-> \[u32; 12\]", result) or fn in ("reason",):
            yield f"{name}:{line}: fn {fn} {result}"


def wide():
    """Functions of more than seven parameters."""
    for name, line, fn, params, _, _, _ in functions():
        count = len([it for it in re.split(r",\s*(?![^<\[(]*[>\])])", params.strip().rstrip(",")) if it])
        if count > 7:
            yield f"{name}:{line}: fn {fn}: {count}"


def together():
    """Parameters that travel together: a file of names with its index; words, text and rows."""
    for name, line, fn, params, _, _, _ in functions():
        if re.search(r"file: &\[u8\],\s*index: &\[u32\]", params):
            yield f"{name}:{line}: fn {fn}: file, index"
        if re.search(r"words: &mut \[u32\],\s*text: &mut \[u8\]", params):
            yield f"{name}:{line}: fn {fn}: words, text"


def facts():
    """Facts that stand in the `requires` of three functions or more."""
    where = collections.defaultdict(list)
    for name, text in sources():
        for number, line in enumerate(text.split("\n"), 1):
            found = re.match(r"\s*requires (?:\w+ )?\{ (.*) \}$", line)
            for fact in re.split(r" × (?![^()]*\))", found.group(1)) if found else []:
                where[fact.strip("()")].append(f"{name}:{number}")
    for fact, places in sorted(where.items()):
        if len(places) > 2:
            yield f"{fact}: {len(places)} ({', '.join(places)})"


def lengths():
    """An array of a fixed length with a count beside it."""
    for name, line, fn, params, _, _, _ in functions():
        if re.search(r"&(?:mut )?\[u\d+; \d+\]", params) and re.search(r"\b(?:depth|count|used): usize", params):
            yield f"{name}:{line}: fn {fn}"


def switches():
    """Steps chosen by a number."""
    for name, line, fn, params, _, body, _ in functions():
        if re.search(r"\b(?:set|step|mode): u(?:8|32)", params) and re.search(r"if (?:set|step|mode) ==|match (?:set|step|mode)\b", body):
            yield f"{name}:{line}: fn {fn}"


def proofs():
    """Files of answers, by crate."""
    counts = collections.Counter()
    for path in glob.glob(f"{ROOT}/crates/*/proofs/**/Answers.antt", recursive=True):
        counts[os.path.relpath(path, f"{ROOT}/crates").split("/")[0]] += len(re.findall(r"^pub \S+ : goal\.", open(path).read(), re.M))
    for name, count in sorted(counts.items()):
        yield f"{name}: {count}"


POINTS = [shapes, sentinels, numbers, twins, loops, chains, copies, together, wide, facts, lengths, switches, proofs]

if __name__ == "__main__":
    wanted = sys.argv[1:]
    if not wanted:
        for point in POINTS:
            places = list(point())
            count = sum(int(it.split(": ")[1]) for it in places) if point is proofs else len(places)
            print(f"{point.__name__:10} {count:5}  {point.__doc__.strip()}")
    elif len(wanted) == 1 and wanted[0] in {it.__name__ for it in POINTS}:
        for place in globals()[wanted[0]]():
            print(place)
    else:
        sys.exit(__doc__)
