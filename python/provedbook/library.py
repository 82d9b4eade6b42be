"""The calls of the proved book as C has them: areas in, a status out."""
import ctypes
import os

from .constants import DONE, STATUS_TEXT, VERSION_MAJOR


class Refused(Exception):
    """A call was refused: `status` is its number, `text` the condition that held."""

    def __init__(self, status):
        self.status = status
        self.text = STATUS_TEXT.get(status, "no status of this library")
        super().__init__(f"{status}: {self.text}")


def done(status):
    """Raises Refused unless this is DONE."""
    if status != DONE:
        raise Refused(status)


def _area(data, name, is_written):
    """What the library is handed: the buffer itself if it can be written, else a copy of what is only read."""
    try:
        view = memoryview(data)
    except TypeError:
        raise TypeError(f"the {name} is a {type(data).__name__}, not a buffer as a bytearray is") from None
    if not view.c_contiguous:
        raise TypeError(f"the {name} is not one run of bytes")
    of_bytes = ctypes.c_uint8 * view.nbytes
    if not is_written:
        return of_bytes.from_buffer_copy(view)
    if view.readonly:
        raise TypeError(f"the {name} is written, and this {type(data).__name__} can only be read")
    return of_bytes.from_buffer(view)


class Library:
    """The library's calls. `path` is the shared object; else the environment's BOOK_LIBRARY, else the installed one.

    Every call takes the book, the input and the answer area, and gives the status, 0 (DONE) or a refusal. An area is
    any buffer: a bytearray, an mmap, an array, a part of one as a memoryview. One that is written must be writable, and
    must not overlap another. What is no buffer is a TypeError. book.h says what each call reads, writes and refuses.
    """

    def __init__(self, path=None):
        self.path = path or os.environ.get("BOOK_LIBRARY") or f"libbook.so.{VERSION_MAJOR}"
        calls = ctypes.CDLL(os.fspath(self.path))
        for name in ("order", "result", "feed", "lookup"):
            call = calls["book_" + name]
            call.argtypes = [ctypes.c_void_p, ctypes.c_size_t] * 3
            call.restype = ctypes.c_int32
            setattr(self, "_" + name, call)

    def order(self, book, input, answer):
        """Trade-Order: a new trade. The book is written; the input and the answer are one record of KIND_ORDER."""
        return self._run(self._order, book, True, input, answer)

    def result(self, book, input, answer):
        """Trade-Result: a submitted trade is carried out. The book is written; input and answer are of KIND_RESULT."""
        return self._run(self._result, book, True, input, answer)

    def feed(self, book, input, answer):
        """Market-Feed: new prices. The book is written; the input is 1 to 20 records of KIND_FEED, the answer one."""
        return self._run(self._feed, book, True, input, answer)

    def lookup(self, book, input, answer):
        """Trade-Lookup: trades by number. The book is read; 1 to 20 records of KIND_LOOKUP, two answers for each."""
        return self._run(self._lookup, book, False, input, answer)

    @staticmethod
    def _run(call, book, book_is_written, input, answer):
        areas = _area(book, "book", book_is_written), _area(input, "input", False), _area(answer, "answer", True)
        ends = sorted((ctypes.addressof(area), ctypes.addressof(area) + len(area)) for area in areas if len(area) > 0)
        if any(end > begin for (_, end), (begin, _) in zip(ends, ends[1:])):
            raise ValueError("two areas of the call overlap")
        return call(*(word for area in areas for word in (ctypes.addressof(area), len(area))))
