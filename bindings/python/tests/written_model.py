"""A body written back from records: a small model, from the request's words. Reading is the library's own, by its call."""

import ctypes

from support import stumpgarret

WORDS, NUMBERS = 8, 12
LITERAL, FIELD, SPEC, BYTES = 1, 2, 3, 4
CONVERSIONS = 0, ord("s"), ord("a"), ord("r")


def write(words, text, reading, room):
    """The refusal's number and the bytes needed, and None; or 0, how many bytes, and the body."""
    records = records_of(words, text, reading)
    if records is None:
        return 54, 0, None
    parts, after = parts_from(records, 0, len(records))
    assert after == len(records)
    body = spelled(parts, "top")
    if not reads_back(body, parts):
        return 55, 0, None
    if len(body) > room:
        return 56, len(body), None
    return 0, len(body), body


def records_of(words, text, reading):
    """The records, each its kind, text, conversion and parts, if they meet the rules."""
    number, sort, count, size = reading[0], reading[1], reading[5], reading[6]
    if number != 0 or sort != 1 or count * WORDS > len(words) or size > len(text):
        return None
    records, reached, owed, spec_due = [], 0, 0, False
    for at in range(0, count * WORDS, WORDS):
        kind, offset, length, _, _, conversion, parts, _ = words[at : at + WORDS]
        own = text[offset : offset + length]
        fits = {
            LITERAL: parts == 0,
            FIELD: conversion in CONVERSIONS and parts <= 1,
            SPEC: length == 0 and conversion == 0,
        }
        if not fits.get(kind, False) or (kind == SPEC) != spec_due or offset != reached or reached + length > size:
            return None
        try:
            own.decode()
        except UnicodeDecodeError:
            return None
        reached += length
        owed = max(owed - 1, 0) + parts
        spec_due = kind == FIELD and parts == 1
        records.append((kind, own, conversion, parts))
    return records if owed == 0 and reached == size else None


def parts_from(records, at, count):
    """So many parts from a record on, and the record after them. A part is bytes, or a field: expression, conversion, and
    the parts of its spec or None."""
    parts = []
    while len(parts) < count and at < len(records):
        kind, own, conversion, has_spec = records[at]
        at += 1
        if kind == LITERAL:
            parts.append(own)
            continue
        spec = None
        if has_spec:
            spec, at = parts_from(records, at + 1, records[at][3])
        parts.append((own, conversion, spec))
    return parts, at


def spelled(parts, where):
    body = b""
    for part in parts:
        if isinstance(part, bytes):
            body += spelled_text(part, where)
            continue
        expression, conversion, spec = part
        body += b"{" + expression + (b"!%c" % conversion if conversion else b"")
        body += b"}" if spec is None else b":" + spelled(spec, "early") + b"}"
        where = "late" if where == "early" else where
    return body


def spelled_text(text, where):
    if where == "top":
        return text.replace(b"\\", b"\\\\").replace(b"{", b"{{").replace(b"}", b"}}")
    if where == "early":
        return text
    return text.replace(b"\\", b"\\\\").replace(b"{", rb"\x7b").replace(b"}", rb"\x7d")


def reads_back(body, parts):
    answer, words, text = read(body)
    if answer[0] != 0:
        return False
    records = [words[at : at + WORDS] for at in range(0, answer[5] * WORDS, WORDS)]
    records = [(own[0], text[own[1] : own[1] + own[2]], own[5], own[6]) for own in records]
    return joined(parts_from(records, 0, len(records))[0]) == joined(parts)


def read(body):
    """The library's reading of a body alone, of kind 1, with room: its twelve numbers, words and text."""
    room = len(body) + 1
    literal = (ctypes.c_uint32 * 6)(1, 0, 0, len(body), 0, len(body) + 3)
    words = (ctypes.c_uint32 * (WORDS * room))()
    text = (ctypes.c_char * (2 * room))()
    answer = (ctypes.c_uint32 * NUMBERS)()
    stumpgarret._function("read")(body, len(body), literal, 6, words, len(words), text, len(text), answer)
    return list(answer), list(words), text.raw


def joined(parts):
    """Without empty texts, and touching ones joined, in specs too."""
    out = []
    for part in parts:
        if not isinstance(part, bytes):
            expression, conversion, spec = part
            out.append((expression, conversion, None if spec is None else joined(spec)))
        elif part and out and isinstance(out[-1], bytes):
            out[-1] += part
        elif part:
            out.append(part)
    return out
