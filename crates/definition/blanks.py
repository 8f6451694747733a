# Run with Python 3, `python3 crates/definition/blanks.py`: holds the definition's White_Space, read from specs/Chars.antt, against Python's unicodedata over
# all code points, and lists each code that differs. Fails unless these are U+001C to U+001F.
"""unicodedata does not have White_Space itself. It has what `str.isspace` goes by: the category Zs, or the bidirectional class B, S or WS. Those are all of
White_Space and, besides, the information separators U+001C to U+001F, which Python takes for white space and Unicode does not."""
import os
import re
import sys
import unicodedata

CHARS = os.path.join(os.path.dirname(os.path.abspath(__file__)), "specs", "Chars.antt")
INFORMATION_SEPARATORS = {0x1C, 0x1D, 0x1E, 0x1F}


def white_space():
    """The codes of the definition's ranges: `white_space = low to high ∷ .. ∷ []`."""
    with open(CHARS, encoding="utf-8") as file:
        listed, = re.findall(r"^white_space =\n((?:    .*\n)+)", file.read(), re.MULTILINE)
    *ranges, end = map(str.strip, listed.split("∷"))
    assert ranges and end == "[]", listed
    codes = set()
    for one in ranges:
        low, high = re.fullmatch(r"0x([0-9A-F]{4}) to 0x([0-9A-F]{4})", one).groups()
        codes.update(range(int(low, 16), int(high, 16) + 1))
    return codes


def is_space(c):
    space = unicodedata.category(c) == "Zs" or unicodedata.bidirectional(c) in ("B", "S", "WS")
    assert space == c.isspace(), ascii(c)
    return space


def main():
    ours, theirs = white_space(), {code for code in range(sys.maxunicode + 1) if is_space(chr(code))}
    for code in sorted(ours ^ theirs):
        c, side = chr(code), "the definition" if code in ours else "Python"
        print(f"blanks: U+{code:04X} only in {side}: category {unicodedata.category(c)}, class {unicodedata.bidirectional(c)}")
    print(f"blanks: {len(ours)} codes in the definition, {len(theirs)} in Python's unicodedata (Unicode {unicodedata.unidata_version})")
    if ours - theirs or theirs - ours != INFORMATION_SEPARATORS:
        sys.exit("blanks.py: the codes that differ are not U+001C to U+001F")


if __name__ == "__main__":
    main()
