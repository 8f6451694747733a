"""Two revisions compared, written from document 02's item 8 and document 01's record rules, not from the definition or the code: an answer is made a tree, by recursion, and two trees are compared item by item.

An answer is (numbers, words, text): the numbers that a reading returned, 0 first, and both buffers."""
LITERAL, FIELD, SPEC, BYTES = 1, 2, 3, 4
PLAIN, JOINED, ONLY_BYTES = 0, 1, 2
CONVERSIONS = (0, ord("s"), ord("a"), ord("r"))
MOST = 2**32 - 1


class IllFormed(Exception):
    """The record rules are broken."""


def demand(holds):
    if not holds:
        raise IllFormed


def records_of(numbers, words, text):
    """The records as (kind, text, conversion or None, parts), in order; each text lies where the last one ended, and ends in the text."""
    demand(numbers[0] == 0)
    count, size = numbers[5], numbers[6]
    demand(len(words) >= 8 * count and len(text) >= size)
    reached, records = 0, []
    for n in range(count):
        kind, offset, length, _start, _end, mode, parts, _place = words[8 * n:8 * n + 8]
        demand(offset == reached and kind in (LITERAL, FIELD, SPEC, BYTES))
        reached += length
        demand(reached <= size)
        own = bytes(text[offset:reached])
        if kind != BYTES:
            try:
                own.decode("utf-8")
            except UnicodeDecodeError:
                raise IllFormed from None
        records.append((kind, own, mode, parts))
    demand(reached == size)
    return records


def take_item(records):
    """One literal, bytes record, or field with its spec and parts, off the front; what it is, whatever its places, ranges and u marks."""
    demand(records)
    kind, own, mode, parts = records.pop(0)
    demand(kind != SPEC)
    if kind != FIELD:
        demand(parts == 0)
        return kind, own
    demand(mode in CONVERSIONS and parts in (0, 1))
    return kind, own, mode, take_spec(records) if parts else None


def take_spec(records):
    demand(records)
    kind, own, mode, parts = records.pop(0)
    demand(kind == SPEC and not own and mode == 0)
    items = []
    for _ in range(parts):
        items.append(take_item(records))
        demand(items[-1][0] != BYTES)
    return items


def items_of(numbers, words, text):
    """The top-level items of a well-formed answer."""
    records = records_of(numbers, words, text)
    sort, kinds = numbers[1], [r[0] for r in records]
    if sort == PLAIN:
        demand(kinds == [LITERAL])
    elif sort == ONLY_BYTES:
        demand(kinds == [BYTES])
    else:
        demand(sort == JOINED and BYTES not in kinds)
    items = []
    while records:
        items.append(take_item(records))
    return items


def equal_run(a, b):
    n = 0
    while n < min(len(a), len(b)) and a[n] == b[n]:
        n += 1
    return n


def compare(first, second, room):
    """The twelve numbers, and the list, or None for zeros throughout."""
    sides = []
    for number, answer in (57, first), (58, second):
        try:
            sides.append(items_of(*answer))
        except IllFormed:
            return [number] + [0] * 11, None
    a, b = sides
    front = equal_run(a, b)
    back = equal_run(a[front:][::-1], b[front:][::-1])
    middles = [range(front, len(side) - back) for side in sides]
    listed = [i for middle in middles for i in middle]
    if len(listed) > room:
        return [59] + [0] * 8 + [min(len(listed), MOST), 0, 0], None
    return [0, front, back, len(a), len(b), len(middles[0]), len(middles[1])] + [0] * 5, listed
