"""A record of a book as a Row, and back."""
import dataclasses
import struct

from .constants import RECORD_SIZE

_RECORD = struct.Struct("<4BIQ8s4i2qIi")
assert _RECORD.size == RECORD_SIZE
_SYMBOL = 8


@dataclasses.dataclass(repr=False)
class Row:
    """A record, its fields in the order of their places. book.h says which of them a kind uses, and what for.

    A field that is not given is zero. n1 to n5, m1 and m2 are signed; a symbol is a str, without the zeros behind it.
    """

    kind: int = 0
    type: int = 0
    status: int = 0
    flags: int = 0
    party: int = 0
    id: int = 0
    symbol: str = ""
    n1: int = 0
    n2: int = 0
    n3: int = 0
    n4: int = 0
    m1: int = 0
    m2: int = 0
    time: int = 0
    n5: int = 0

    @classmethod
    def read(cls, record):
        """The row of a record of RECORD_SIZE bytes. Written again they are the same, whatever they are."""
        fields = list(_RECORD.unpack(record))
        fields[6] = fields[6].rstrip(b"\0").decode("latin-1")
        return cls(*fields)

    def write(self):
        """The record's bytes. What does not fit its field is a ValueError."""
        fields = list(dataclasses.astuple(self))
        fields[6] = self._symbol_bytes()
        try:
            return _RECORD.pack(*fields)
        except struct.error as fault:
            raise ValueError(f"a field of {self} does not fit: {fault}") from None

    def __repr__(self):
        """The fields that are not zero."""
        fields = ((field.name, getattr(self, field.name)) for field in dataclasses.fields(self))
        return f"Row({', '.join(f'{name}={value!r}' for name, value in fields if value)})"

    @property
    def tax(self):
        """The tax in the answer of an order or a result: it is where a row has its symbol."""
        return int.from_bytes(self._symbol_bytes(), "little")

    def _symbol_bytes(self):
        letters = self.symbol.encode("latin-1")
        if len(letters) > _SYMBOL:
            raise ValueError(f"the symbol {self.symbol!r} has more than {_SYMBOL} bytes")
        return letters
