"""Compares answers with what is expected, line by line: compare.py CASES EXPECTED GIVEN.

The first differences are printed, each with its case. The last line is 'N passed, M failed', and the exit status is 0 if M
is 0."""

import sys
from itertools import zip_longest

SHOWN = 5
WIDEST = 200


def lines(path):
    with open(path, "rb") as file:
        text = file.read()
    return text.removesuffix(b"\n").split(b"\n") if text else []


def shown(line):
    """Bytes of any kind, in one line of a terminal."""
    if line is None:
        return "(no line)"
    text = line.decode("ascii", "backslashreplace").encode("unicode_escape").decode()
    return text if len(text) <= WIDEST else f"{text[:WIDEST]} .. ({len(line)} bytes)"


def main():
    cases, expected, given = map(lines, sys.argv[1:4])
    passed = failed = 0
    for case, right, answer in zip_longest(cases, expected, given):
        if right is not None and right == answer:
            passed += 1
            continue
        failed += 1
        if failed <= SHOWN:
            print(f"case     {shown(case)}\nexpected {shown(right)}\ngiven    {shown(answer)}")
    if failed > SHOWN:
        print(f"and {failed - SHOWN} more")
    if not passed + failed:
        failed = 1
        print("there are no cases")
    print(f"{passed} passed, {failed} failed")
    return 1 if failed else 0


sys.exit(main())
