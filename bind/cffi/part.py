"""The part of book.h that cffi parses as it is, and the calls by it.

    ffi = cffi.FFI()
    ffi.cdef(part(open("book.h").read()))
    calls = ffi.dlopen("libbook.so.1")
    status = calls.book_order(book, len(book), input, len(input), answer, len(answer))

where book and answer are ffi.from_buffer("uint8_t[]", a bytearray, require_writable=True).
"""

BEGIN = "/* What stands between this line and the one that ends it is plain enough for cffi. */"
END = "/* Here ends what cffi reads. */"


def part(header):
    """The text between the two lines."""
    return header[header.index(BEGIN):header.index(END)]
