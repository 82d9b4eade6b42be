#!/usr/bin/env -S python3 -B
"""Holds the package provedbook to its promises: buffers of every sort, what is none, rows, refusals and help.

usage: package.py LIBRARY

LIBRARY is the shared object. The last line is 'N passed, M failed'.
"""
import array
import ctypes
import inspect
import mmap
import os
import pydoc
import random
import sys
import unittest

sys.path.insert(0, os.path.join(os.path.dirname(os.path.abspath(__file__)), "../../python"))
import provedbook  # noqa: E402
from provedbook import *  # noqa: E402, F403

CALLS = ["order", "result", "feed", "lookup"]
SECURITY = Row(KIND_SECURITY, symbol="ABC", type=1, n1=200)
ENTRY = Row(KIND_FEED, symbol="ABC", n1=210, n2=5)


def mapped(data):
    area = mmap.mmap(-1, len(data))
    area[:] = data
    return area


def in_the_middle(data):
    return memoryview(bytearray(7) + data + bytearray(9))[7:-9]


# The sorts of buffers that can be written.
WRITABLE = [bytearray, lambda data: memoryview(bytearray(data)), lambda data: array.array("B", data),
            lambda data: array.array("I", data), lambda data: (ctypes.c_uint8 * len(data))(*data), mapped,
            in_the_middle]


class Areas(unittest.TestCase):
    def test_any_writable_buffer(self):
        for make in WRITABLE:
            for read in [bytes, *WRITABLE]:
                book, answer = make(SECURITY.write()), make(bytes(RECORD_SIZE))
                self.assertEqual(LIBRARY.feed(book, read(ENTRY.write()), answer), DONE)
                self.assertEqual(Row.read(bytes(book)).n1, 210)
                self.assertEqual(Row.read(bytes(answer)).n1, 1)

    def test_no_buffer_is_a_type_error(self):
        for name in CALLS:
            good = [bytearray(RECORD_SIZE), bytes(RECORD_SIZE), bytearray(RECORD_SIZE)]
            for place in range(3):
                for bad in (64, "A" * 64, None, [0] * 64, 6.4, Row()):
                    areas = good[:place] + [bad] + good[place + 1:]
                    self.assertRaises(TypeError, getattr(LIBRARY, name), *areas)

    def test_what_is_written_must_be_writable(self):
        for name in CALLS:
            areas = [bytearray(RECORD_SIZE), bytes(RECORD_SIZE), bytes(RECORD_SIZE)]
            self.assertRaises(TypeError, getattr(LIBRARY, name), *areas)
            areas = [bytes(RECORD_SIZE), bytes(RECORD_SIZE), bytearray(2 * RECORD_SIZE)]
            if name == "lookup":
                self.assertEqual(LIBRARY.lookup(*areas), BAD_INPUT)
            else:
                self.assertRaises(TypeError, getattr(LIBRARY, name), *areas)

    def test_one_run_of_bytes(self):
        every_other = memoryview(bytearray(2 * RECORD_SIZE))[::2]
        self.assertRaises(TypeError, LIBRARY.order, every_other, bytes(RECORD_SIZE), bytearray(RECORD_SIZE))

    def test_overlap(self):
        area = bytearray(3 * RECORD_SIZE)
        parts = memoryview(area)
        self.assertRaises(ValueError, LIBRARY.feed, area, ENTRY.write(), area)
        self.assertRaises(ValueError, LIBRARY.feed, parts[:65], ENTRY.write(), parts[64:128])
        self.assertEqual(LIBRARY.feed(parts[:64], parts[128:], parts[64:128]), BAD_INPUT)
        area[:64], area[128:] = SECURITY.write(), ENTRY.write()
        self.assertEqual(LIBRARY.feed(parts[:64], parts[128:], parts[64:128]), DONE)

    def test_empty_areas(self):
        for name in CALLS:
            call = getattr(LIBRARY, name)
            answer = bytearray(2 * RECORD_SIZE if name == "lookup" else RECORD_SIZE)
            self.assertEqual(call(bytearray(), bytes(RECORD_SIZE), answer), BAD_BOOK)
            self.assertEqual(call(bytearray(RECORD_SIZE), b"", answer), BAD_LENGTH)
            self.assertEqual(call(bytearray(RECORD_SIZE), bytes(RECORD_SIZE), bytearray()), BAD_LENGTH)


class Rows(unittest.TestCase):
    def test_round_trips(self):
        dice = random.Random(2026)
        for _ in range(2000):
            record = bytearray(dice.randbytes(RECORD_SIZE))
            if dice.random() < 0.5:
                first = dice.randrange(RECORD_SIZE)
                record[first:] = bytes(RECORD_SIZE - first)
            self.assertEqual(Row.read(record).write(), record)

    def test_fields_are_at_their_places(self):
        for name in Row.__dataclass_fields__:
            at = getattr(provedbook, "AT_" + name.upper())
            row = Row(**{name: "\1" if name == "symbol" else 1})
            self.assertEqual(row.write(), bytes(at) + b"\1" + bytes(RECORD_SIZE - at - 1), name)

    def test_what_does_not_fit(self):
        for fields in ({"kind": 256}, {"party": -1}, {"n1": 1 << 31}, {"m1": 1 << 63}, {"symbol": "ABCDEFGHI"},
                       {"symbol": "\u20ac"}):
            self.assertRaises(ValueError, Row(**fields).write)

    def test_repr(self):
        self.assertEqual(repr(SECURITY), "Row(kind=6, type=1, symbol='ABC', n1=200)")
        self.assertEqual(eval(repr(SECURITY)), SECURITY)

    def test_signed_fields_and_tax(self):
        self.assertEqual(Row.read(Row(m1=-5, n1=-1, n5=-102).write()), Row(m1=-5, n1=-1, n5=-102))
        self.assertEqual(Row(symbol="\x10\x27").tax, 10000)


class Books(unittest.TestCase):
    def test_refused(self):
        book = Book([SECURITY], library=LIBRARY)
        before = bytes(book)
        with self.assertRaises(Refused) as caught:
            book.order(type=TMB, party=1, symbol="ABC", n1=1)
        self.assertEqual(caught.exception.status, ORDER_NO_ACCOUNT)
        self.assertEqual(caught.exception.text, "order: no such account")
        self.assertEqual(str(caught.exception), "-711: order: no such account")
        self.assertEqual(book, before)

    def test_rows_in_and_out(self):
        book = Book([SECURITY], free=1, library=LIBRARY)
        self.assertEqual(book.feed({"symbol": "ABC", "n1": 210, "n2": 5, "time": 9}).n1, 1)
        self.assertEqual(book.rows(), [Row(KIND_SECURITY, symbol="ABC", type=1, n1=210, m1=5, time=9), Row()])

    def test_lookup(self):
        trade = Row(KIND_TRADE, id=7, type=TMB, status=SBMT, party=1, symbol="ABC", n1=1, n2=1)
        book = Book([Row(KIND_BROKER, party=1), Row(KIND_CUSTOMER, party=1, type=1),
                     Row(KIND_ACCOUNT, party=1, n1=1, n2=1), SECURITY, trade,
                     Row(KIND_HISTORY, id=7, status=SBMT)], library=LIBRARY)
        self.assertEqual(book.lookup(7, 7), [(trade, None)] * 2)

    def test_executors(self):
        book = Book([Row(KIND_BROKER, party=1), Row(KIND_CUSTOMER, party=1, type=1),
                     Row(KIND_ACCOUNT, party=1, n1=1, n2=1), SECURITY, Row(KIND_PERMISSION, party=1, n1=5),
                     Row(KIND_BAND, type=TMB, status=1, flags=1, n1=1, n2=10, n3=50),
                     Row(KIND_CHARGE, type=TMB, status=1, n1=500)], free=4, library=LIBRARY)
        order = {"type": TMB, "party": 1, "symbol": "ABC", "n1": 1}
        with self.assertRaises(Refused) as caught:
            book.order(**order, n3=6)
        self.assertEqual(caught.exception.status, ORDER_NOT_PERMITTED)
        self.assertEqual([book.order(**order, n3=executor).id for executor in (0, 5)], [1, 2])

    def test_texts(self):
        self.assertEqual(len(STATUS_TEXT), 21)
        for status in STATUS_TEXT:
            self.assertTrue(Refused(status).text)
        self.assertEqual(Refused(1).text, "no status of this library")

    def test_help(self):
        for of in (Library, Book):
            for name in CALLS:
                method = getattr(of, name)
                self.assertIn("Trade-" if name != "feed" else "Market-", inspect.getdoc(method))
                self.assertIn(name + "(", pydoc.plain(pydoc.render_doc(method)))
        self.assertEqual(list(inspect.signature(Library.order).parameters), ["self", "book", "input", "answer"])


if __name__ == "__main__":
    if len(sys.argv) != 2:
        print(__doc__, file=sys.stderr)
        sys.exit(2)
    LIBRARY = Library(sys.argv.pop())
    result = unittest.main(exit=False, verbosity=0).result
    failed = len(result.failures) + len(result.errors)
    sys.stderr.flush()
    print(f"{result.testsRun - failed} passed, {failed} failed", flush=True)
    sys.exit(failed > 0)
