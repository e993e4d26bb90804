#!/usr/bin/env python3
"""Holds what the headers say can come 'after a check' to the vectors: of each case on file whose pyramid zg_check accepts,
with the lengths due, the number must be one of those that the function's comment names there. tests/after.py LIBRARY,
a shared library of both archives, which answers the checks.

The last line counts cases and differences; status 0 if there is none.
"""
import ctypes
import re
import sys
from pathlib import Path

ROOT = Path(__file__).resolve().parent.parent
# the forms of tests/README.md: a number (n, N, h, level, involution, dart), or a list with its length before it
FORMS = {
    "check": "nDhRLET", "add": "nDhRLEMT", "read": "nDhRLElid", "bylevels": "nDhRLElid", "unfold": "nDhRLElT",
    "write": "nDhRLETB", "decimation": "nDhRLETl", "census": "nDhRLETCS", "regions": "nDhRLETlN", "join": "nDhRLETl",
    "rebase": "nDhRLETlO",
}
NAMES = {"bylevels": "read_by_levels"}


class Refusal(ctypes.Structure):
    _fields_ = [(name, ctypes.c_uint16) for name in ("number", "level", "involution", "dart")]


def allowed_after_a_check():
    """{function: {number}} by the comments."""
    headers = "".join((ROOT / "include" / name).read_text() for name in ("zompelgors.h", "zompelgors_regions.h"))
    numbers = dict(re.findall(r"^    ZG_E_(\w+) = (\d+)", headers, re.M))
    found = {}
    for comment, function in re.findall(r"/\*((?:(?!\*/).)*)\*/\n\w+ (zg_\w+)\(", headers, re.S):
        after = re.search(r"^ \* After a check.*?: (.*?)\Z", comment, re.S | re.M)
        if after:
            found[function] = {int(numbers[word]) for word in re.findall(r"\b[A-Z_]{4,}\b", after[1]) if word in numbers}
    return found


def lent(words, form):
    """{letter: number or list} of a case."""
    rest, found = iter(map(int, words)), {}
    for letter in form:
        found[letter] = next(rest) if letter in "nDhlid" else [next(rest) for _ in range(next(rest))]
    return found


def accepted(check, case):
    n, darts, h = case["n"], case["D"], case["h"]
    entries = (n + 1) * darts
    if not (1 <= n <= 4 and 1 <= darts <= 4096 and h <= 32) or [len(case[k]) for k in "RLE"] != [entries, darts, darts]:
        return False
    halves, bytes_ = ctypes.c_uint16 * entries, ctypes.c_uint8 * darts
    size = ctypes.c_size_t
    return check(n, darts, h, halves(*case["R"]), size(entries), bytes_(*case["L"]), size(darts), bytes_(*case["E"]), size(darts), halves(), size(entries)).number == 0


if __name__ == "__main__":
    check = ctypes.CDLL(str(Path(sys.argv[1]).resolve())).zg_check
    check.restype = Refusal
    allowed, looked_at, wrong = allowed_after_a_check(), 0, []
    for path in sorted((ROOT / "tests" / "vectors").glob("*.cases")):
        for number, (line, answer) in enumerate(zip(path.read_text().split("\n"), path.with_suffix(".answers").read_text().split("\n")), 1):
            word, *words = line.split() or [""]
            if word not in FORMS or not accepted(check, lent(words, FORMS[word])):
                continue
            function, came = "zg_" + NAMES.get(word, word), int(answer.split()[0])
            looked_at += 1
            if came and came not in allowed[function]:
                wrong.append(f"{path.name}:{number}: {function} is refused {came} after an accepted check")
    print("\n".join(wrong + [f"{looked_at} cases of accepted pyramids: {len(wrong)} differences"]))
    sys.exit(1 if wrong or not looked_at else 0)
