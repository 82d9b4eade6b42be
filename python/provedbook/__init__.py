"""The proved book from Python: Book with rows, Library with the calls as C has them, Row, Refused, and book.h's
constants without their prefix. Every method has a help text; book.h says what the calls do."""
from . import constants
from .book import Book
from .constants import *  # noqa: F403
from .library import Library, Refused, done
from .row import Row

VERSION = f"{constants.VERSION_MAJOR}.{constants.VERSION_MINOR}.{constants.VERSION_PATCH}"
__all__ = ["Book", "Library", "Refused", "Row", "VERSION", "done", *filter(str.isupper, vars(constants))]
