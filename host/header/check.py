#!/usr/bin/env -S python3 -B
"""Holds what include/book.h says in its comments to what is so: the table of the kinds, field by field, with ranges
and keys, to the second program's `book-check`; the smallest book to the library; texts and names to book_row.h; and
the part for cffi to what cffi can read.

usage: check.py LIBRARY BOOK_CHECK TEXTS

LIBRARY is the shared object, BOOK_CHECK the program of second/, TEXTS what host/header/texts.c printed. The last line
is 'N passed, M failed'.
"""
import dataclasses
import os
import re
import subprocess
import sys

HERE = os.path.dirname(os.path.abspath(__file__))
sys.path.insert(0, os.path.join(HERE, "../../python"))
import provedbook  # noqa: E402
from provedbook import *  # noqa: E402, F403

HEADER = os.path.join(HERE, "../../include/book.h")
KIND = re.compile(r"^ \* {1,2}(\d+) (\w.*)$")
FIELDS = [field.name for field in dataclasses.fields(Row) if field.name != "kind"]
FIELD = re.compile(rf"^ \*    ([* ]) ({'|'.join(FIELDS)})\b *(-?[\d,]+\.\.-?[\d,]+)?(.*)$")
INPUTS = {KIND_ORDER: "order", KIND_RESULT: "result", KIND_FEED: "feed", KIND_LOOKUP: "lookup"}
WIDTHS = {"type": (0, 255), "status": (0, 255), "flags": (0, 255), "party": (0, 2**32 - 1), "id": (0, 2**64 - 1),
          "time": (0, 2**32 - 1), "m1": (-2**63, 2**63 - 1), "m2": (-2**63, 2**63 - 1)}
# What an order on the smallest book is refused for, if it lacks its row of this kind.
WITHOUT = {KIND_BROKER: UNSOUND, KIND_CUSTOMER: UNSOUND, KIND_ACCOUNT: ORDER_NO_ACCOUNT,
           KIND_SECURITY: ORDER_NO_SECURITY, KIND_BAND: ORDER_NO_BAND, KIND_CHARGE: ORDER_NO_CHARGE}
passed, faults = 0, []


def want(good, what):
    global passed
    passed += bool(good)
    if not good:
        faults.append(what)


def blocks(header):
    """The lines of each block that is to be read as it stands."""
    return [block.splitlines() for block in re.findall(r"@verbatim\n(.*?) \* @endverbatim", header, re.DOTALL)]


def table(lines):
    """For each kind its fields: whether each is of the key, and the least and the most that it may be."""
    kinds = {}
    for line in lines:
        if found := KIND.match(line):
            fields = kinds[int(found[1])] = {}
        elif found := FIELD.match(line):
            ends = found[3] and [int(end) for end in found[3].replace(",", "").split("..")]
            fields[found[2]] = (found[1] == "*", ends, found[4])
        else:
            want(False, f"a line of the table that cannot be read: {line}")
    return kinds


def good_row(kind, fields):
    """A row of this kind that fits, completed if it is a trade."""
    row = Row(kind)
    for name, (_, ends, _) in fields.items():
        setattr(row, name, "ABC" if name == "symbol" else max(ends[0], 1) if ends else 1)
    if kind == KIND_TRADE:
        row.status = CMPT
    if kind == KIND_BAND:
        row.n2 = fields["n2"][1][1]
    if kind == KIND_LOT_HISTORY:
        row.n2 = 9
    if kind == KIND_ORDER:
        row.type = TLB
    return row


def said(book_check, rows):
    """What book-check says of rows as a book, or of an input record."""
    call = INPUTS.get(rows[0].kind)
    words = [book_check] + (["--input", call] if call else []) + ["-"]
    bytes_of = b"".join(row.write() for row in rows)
    return subprocess.run(words, input=bytes_of, stdout=subprocess.PIPE, check=False).stdout.decode().splitlines()


def fits(book_check, row, name):
    """Whether the record fits the grid; where it does not, the field that book-check names must be this one."""
    lines = said(book_check, [row])
    if not lines[0].startswith(("refused -102 S1 ", "refused -103 ")):
        return True
    want(lines[2].startswith(name + " is "), f"kind {row.kind}, {name}: {lines}")
    return False


def changed(row, name, value):
    return dataclasses.replace(row, **{name: value})


def check_field(book_check, kind, name, ends, text, row):
    what = f"kind {kind}, {name}"
    if name == "symbol":
        for symbol in ("ABCDEFG", "A", "Z.-09"):
            want(fits(book_check, changed(row, name, symbol), name), f"{what}: {symbol!r}")
        for symbol in ("ABCDEFGH", "", "abc", "A\0B"):
            want(not fits(book_check, changed(row, name, symbol), name), f"{what}: {symbol!r}")
        return
    if ends is None:
        want("any but 0" in text, what)
        ends = WIDTHS[name]
    low, high = ends
    # A trade that is not completed has neither price nor tax, and a market order no bid.
    at_least = row
    if kind == KIND_TRADE and (name == "status" or " 0 until status 3" in text):
        at_least = dataclasses.replace(row, status=PNDG, n3=0, m2=0)
    if kind == KIND_ORDER and (name == "type" or " 0 for types 1 and 2" in text):
        at_least = dataclasses.replace(row, type=TMB, n2=0)
    want(fits(book_check, changed(at_least, name, low), name), f"{what}: the least")
    want(fits(book_check, changed(row, name, high), name), f"{what}: the most")
    least, most = WIDTHS.get(name, (-2**31, 2**31 - 1))
    if low > least and not (low == 0 and "signed" not in text):
        want(not fits(book_check, changed(row, name, low - 1), name), f"{what}: less")
    if high < most:
        want(not fits(book_check, changed(row, name, high + 1), name), f"{what}: more")
    if re.search(r"never 0|not 0|any but 0", text):
        want(not fits(book_check, changed(row, name, 0), name), f"{what}: zero")
    if found := re.search(r"not (below|equal to) (n1)", text):
        other = getattr(row, found[2]) - (found[1] == "below")
        want(not fits(book_check, changed(row, name, other), name), f"{what}: {found[0]}")


def other_value(row, name, ends):
    """Another value that fits."""
    if name == "symbol":
        return "ABD"
    value = getattr(row, name) + 1
    return value if ends is None or value <= ends[1] else getattr(row, name) - 1


def check_key(book_check, kind, fields, row):
    """Rows that differ in no field of the key break S2, and those that differ in one do not."""
    want(" S2 " in said(book_check, [row, row])[0], f"kind {kind}: a row twice")
    for name, (of_key, ends, _) in fields.items():
        if (kind, name) == (KIND_TRADE, "status"):
            continue  # a trade of another status has other fields, too
        lines = said(book_check, [row, changed(row, name, other_value(row, name, ends))])
        want(" S1 " not in lines[0] and (" S2 " in lines[0]) != of_key, f"kind {kind}, key or not, {name}: {lines}")


def check_kinds(book_check, kinds):
    want(sorted(kinds) == [*range(KIND_BROKER, KIND_PERMISSION + 1), *INPUTS], f"the kinds {sorted(kinds)}")
    for kind, fields in kinds.items():
        row = good_row(kind, fields)
        want(fits(book_check, row, ""), f"kind {kind}: a good row")
        for name, (_, ends, text) in fields.items():
            check_field(book_check, kind, name, ends, text, row)
        for name in FIELDS:
            if name not in fields:
                used = changed(row, name, "A" if name == "symbol" else 1)
                want(not fits(book_check, used, name), f"kind {kind}: {name} is used")
        if kind not in INPUTS:
            check_key(book_check, kind, fields, row)


def smallest(lines):
    """The rows of the smallest book."""
    names = {"broker": KIND_BROKER, "customer": KIND_CUSTOMER, "account": KIND_ACCOUNT, "security": KIND_SECURITY,
             "band": KIND_BAND, "charge": KIND_CHARGE}
    for line in lines:
        name, fields = re.match(r"^ \* (\w+) +(.*)$", line).groups()
        pairs = (field.split(" ") for field in fields.split(", "))
        yield Row(names[name], **{field: value if field == "symbol" else int(value.replace(",", ""))
                                  for field, value in pairs})


def check_smallest(library, book_check, lines):
    rows = list(smallest(lines))
    want(said(book_check, rows)[0] == "sound", "the smallest book is sound")
    for free, flags, expected in ((7, 0, DONE), (6, 0, NO_ROOM), (8, FLAG_CASH, DONE), (7, FLAG_CASH, NO_ROOM)):
        book, status = Book(rows, free, library), DONE
        try:
            order = book.order(type=TMB, flags=flags, party=1, symbol="ABC", n1=10)
            book.result(id=order.id, n1=2000)
        except Refused as refused:
            status = refused.status
        want(status == expected, f"a buy on the smallest book and {free} places, flags {flags}: {status}")
    for without, row in enumerate(rows):
        book, status = Book(rows[:without] + rows[without + 1:], 8, library), DONE
        try:
            book.order(type=TMB, party=1, symbol="ABC", n1=10)
        except Refused as refused:
            status = refused.status
        want(status == WITHOUT[row.kind], f"an order without {row}: {status}")


def check_texts(texts):
    """Names and texts of book_row.h are those of the constants' comments."""
    found = [line.rstrip("\n").split(" ", 2) for line in open(texts)]
    statuses = {int(number): (name, text) for name, number, text in found if name.startswith("BOOK_")}
    want({number: text for number, (_, text) in statuses.items()} == STATUS_TEXT, f"texts of statuses: {statuses}")
    want(all(getattr(provedbook, name[5:]) == number for number, (name, _) in statuses.items()), "names of statuses")
    made = open(os.path.join(HERE, "../../python/provedbook/constants.py")).read()
    for what, prefix in (("kind", r"KIND_\w+"), ("type", r"T[ML][BS]|TSL"), ("status", "PNDG|SBMT|CMPT")):
        expected = set(re.findall(rf"^(?:{prefix}) = (\d+)  # (.*)$", made, re.MULTILINE))
        names = {(number, text) for of, number, text in found if of == what}
        want(names == expected and names, f"names of {what}: {names ^ expected}")


def check_struct():
    """The members of the struct are the same with their zeros, for C++14, and without."""
    text = open(os.path.join(HERE, "../../include/book_row.h")).read()
    with_zeros, without = re.search(r"201402L.*?\n(.*?)#else\n(.*?)#endif", text, re.DOTALL).groups()
    members = re.sub(r" = (0|{})", "", with_zeros)
    want(members == re.sub(r" /\*.*?\*/", "", without) and members != with_zeros, "the two forms of struct book_row")


def check_cffi(header):
    """The part for cffi: constants that are plain numbers, the four calls, and no other line of the preprocessor."""
    part = header[header.index("/* What stands between"):header.index("/* Here ends what cffi reads")]
    lines = [line for line in part.splitlines() if line.startswith("#")]
    want(lines and all(re.match(r"#define BOOK_\w+ -?\d+ +/\*\*<", line) for line in lines), "lines for cffi")
    want(len(re.findall(r"^int32_t book_\w+\(", part, re.MULTILINE)) == 4, "the calls for cffi")
    try:
        import cffi
    except ImportError:
        print("cffi is not here, and was not tried")
        return
    cffi.FFI().cdef(part)
    want(True, "")


def main(path, book_check, texts):
    header = open(HEADER).read()
    found = blocks(header)
    check_kinds(book_check, table(found[0]))
    rules = [line.split()[1] for line in found[1] if re.match(r" \* S\d", line)]
    want(rules == [f"S{number}" for number in range(1, 11)], f"the rules {rules}")
    check_smallest(Library(path), book_check, found[2])
    check_texts(texts)
    check_struct()
    check_cffi(header)
    print("\n".join(faults[:20]), end="\n" if faults else "")
    print(f"{passed} passed, {len(faults)} failed")
    return len(faults) > 0


if __name__ == "__main__":
    if len(sys.argv) != 4:
        print(__doc__, file=sys.stderr)
        sys.exit(2)
    sys.exit(main(*sys.argv[1:]))
