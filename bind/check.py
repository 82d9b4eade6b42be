#!/usr/bin/env -S python3 -B
"""Holds a generated binding to the cases of the program `cases` of second/, with every byte compared.

usage: check.py swig FOLDER SEED COUNT <CASES       SWIG's wrapper, which is in that folder
       check.py cffi LIBRARY SEED COUNT <CASES      cffi, by the part of book.h that it reads

It wants COUNT cases of each call. The last line is 'N passed, M failed'.
"""
import os
import sys

HERE = os.path.dirname(os.path.abspath(__file__))
sys.path[:0] = [os.path.join(HERE, "../host/python"), os.path.join(HERE, "cffi")]
import check  # noqa: E402

CALLS = check.CALLS.values()


class Calls:
    """The calls by their names, as host/python/check.py asks for them."""

    def __init__(self, calls):
        for name in CALLS:
            setattr(self, name, calls("book_" + name))


def by_swig(folder):
    sys.path.insert(0, folder)
    import book

    for name in CALLS:
        call = getattr(book, "book_" + name)
        for bad in ((bytearray(64), 64, bytearray(64)), (bytearray(64), bytes(64), bytes(64))):
            try:
                call(*bad)
                raise SystemExit(f"{name} took what is no buffer, or can not be written")
            except TypeError:
                pass
        assert name == "feed" or "Trade-" + name.capitalize() in call.__doc__, call.__doc__
    return Calls(lambda name: getattr(book, name))


def by_cffi(path):
    import cffi
    from part import part

    ffi = cffi.FFI()
    with open(os.path.join(HERE, "../include/book.h")) as header:
        ffi.cdef(part(header.read()))
    calls = ffi.dlopen(path)
    assert calls.BOOK_UNSOUND == -102 and calls.BOOK_AT_N5 == 60

    def bound(name):
        def call(book, input, answer):
            areas = [ffi.from_buffer("uint8_t[]", area) for area in (book, input, answer)]
            return getattr(calls, name)(*(word for area in areas for word in (area, len(area))))

        return call

    return Calls(bound)


if __name__ == "__main__":
    if len(sys.argv) != 5 or sys.argv[1] not in ("swig", "cffi") or not all(map(str.isdigit, sys.argv[3:])):
        print(__doc__, file=sys.stderr)
        sys.exit(2)
    made = by_swig(sys.argv[2]) if sys.argv[1] == "swig" else by_cffi(sys.argv[2])
    sys.exit(check.main(made, *map(int, sys.argv[3:])))
