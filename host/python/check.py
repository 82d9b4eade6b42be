#!/usr/bin/env -S python3 -B
"""Holds the package provedbook to the cases of the program `cases` of second/, with every byte compared.

usage: check.py LIBRARY SEED COUNT <CASES

LIBRARY is the shared object. It wants COUNT cases of each call. The last line is 'N passed, M failed'. A case that
failed can be run alone: `cases SEED N N CALL | check.py LIBRARY SEED 0`, where 0 wants no number of cases.
"""
import os
import struct
import sys
from collections import Counter

sys.path.insert(0, os.path.join(os.path.dirname(os.path.abspath(__file__)), "../../python"))
from provedbook import KIND_FEED, KIND_LOOKUP, KIND_ORDER, KIND_RESULT, Library  # noqa: E402

# Each call, by the kind of its input records.
CALLS = {KIND_ORDER: "order", KIND_RESULT: "result", KIND_FEED: "feed", KIND_LOOKUP: "lookup"}
NUMBERS = struct.Struct("<5Ii")
MOST_SAID = 10


def take(stream, length):
    taken = stream.read(length)
    if len(taken) != length:
        raise EOFError("the last case is cut")
    return taken


def cases(stream):
    """Each case: the call's name, its number, the status that is expected, three areas before and two after."""
    while head := stream.read(NUMBERS.size):
        if len(head) != NUMBERS.size:
            raise EOFError("the last case is cut")
        kind, number, book, input, answer, status = NUMBERS.unpack(head)
        if kind not in CALLS:
            raise ValueError(f"no call has input records of kind {kind}")
        yield CALLS[kind], number, status, [take(stream, length) for length in (book, input, answer, book, answer)]


def differences(call, status, areas):
    """What is not as the case expects it."""
    book, input, answer, book_after, answer_after = areas
    book, answer = bytearray(book), bytearray(answer)
    found = call(book, input, answer)
    faults = [] if found == status else [f"status {found} instead of {status}"]
    return faults + ["the book"] * (book != book_after) + ["the answer"] * (answer != answer_after)


def main(library, seed, count):
    passed, faults, reached = 0, [], {name: Counter() for name in CALLS.values()}
    try:
        for name, number, status, areas in cases(sys.stdin.buffer):
            reached[name][status] += 1
            found = differences(getattr(library, name), status, areas)
            passed += not found
            faults += [f"seed {seed}, {name} case {number}: {', '.join(found)}"] if found else []
    except (EOFError, ValueError) as fault:
        faults.append(str(fault))
    for name, statuses in reached.items():
        print(f"{name}:", ", ".join(f"{times} of {status}" for status, times in sorted(statuses.items(), reverse=True)))
        if count and statuses.total() != count:
            faults.append(f"{statuses.total()} cases of {name} instead of {count}")
    print("\n".join(faults[:MOST_SAID] + ["and more"] * (len(faults) > MOST_SAID)), end="\n" if faults else "")
    print(f"{passed} passed, {len(faults)} failed")
    return 1 if faults else 0


if __name__ == "__main__":
    if len(sys.argv) != 4 or not all(word.isdigit() for word in sys.argv[2:]):
        print(__doc__, file=sys.stderr)
        sys.exit(2)
    sys.exit(main(Library(sys.argv[1]), *map(int, sys.argv[2:])))
