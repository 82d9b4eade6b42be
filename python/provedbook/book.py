"""A book whose calls take rows and give rows."""
from .constants import KIND_FEED, KIND_LOOKUP, KIND_ORDER, KIND_RESULT, RECORD_SIZE
from .library import Library, done
from .row import Row


class Book(bytearray):
    """A book: its bytes, and the calls on it with rows. A refusal raises Refused and leaves the bytes as they were.

    Book([Row(..), ..], free=8) has these rows and then so many free places. `library` is the Library to call, else one
    that is found as Library() does.
    """

    def __init__(self, rows=(), free=0, library=None):
        super().__init__(b"".join(row.write() for row in rows) + bytes(free * RECORD_SIZE))
        self.library = library or Library()

    def rows(self):
        """The rows at their places, free ones too."""
        return [Row.read(self[at:at + RECORD_SIZE]) for at in range(0, len(self), RECORD_SIZE)]

    def order(self, **fields):
        """Trade-Order with these fields of an input record. Gives the answer as a Row."""
        return self._one(self.library.order, [Row(KIND_ORDER, **fields)])

    def result(self, **fields):
        """Trade-Result with these fields of an input record. Gives the answer as a Row."""
        return self._one(self.library.result, [Row(KIND_RESULT, **fields)])

    def feed(self, *entries):
        """Market-Feed of these entries, each a dict of an input record's fields. Gives the answer as a Row."""
        return self._one(self.library.feed, [Row(KIND_FEED, **fields) for fields in entries])

    def lookup(self, *numbers):
        """Trade-Lookup of these trade numbers. Gives a pair for each: its trade, and its settlement or None."""
        found = self._rows(self.library.lookup, [Row(KIND_LOOKUP, id=number) for number in numbers], 2 * len(numbers))
        return [(trade, settlement if settlement.kind else None) for trade, settlement in zip(found[::2], found[1::2])]

    def _one(self, call, inputs):
        return self._rows(call, inputs, 1)[0]

    def _rows(self, call, inputs, answers):
        answer = bytearray(answers * RECORD_SIZE)
        done(call(self, b"".join(row.write() for row in inputs), answer))
        return [Row.read(answer[at:at + RECORD_SIZE]) for at in range(0, len(answer), RECORD_SIZE)]
