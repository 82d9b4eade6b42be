"""The constants of book.h without their prefix. Made by tools/make-constants, not written by hand."""

# The version: of the header, the archive and the shared object.
VERSION_MAJOR = 1  # rises when a call that was accepted may now leave other bytes
VERSION_MINOR = 0  # rises with new calls, kinds or statuses, or if a refused call may be accepted now
VERSION_PATCH = 0  # rises with any other change

# What a call returns, in the order of checking. The comment is the condition.
DONE = 0
BAD_LENGTH = -100
BAD_BOOK = -101
UNSOUND = -102
BAD_INPUT = -103
ORDER_NO_ACCOUNT = -711
ORDER_NOT_PERMITTED = -721
ORDER_NO_SECURITY = -712
ORDER_NO_TAX = -731
ORDER_NO_RATE = -732
ORDER_NO_BAND = -735
ORDER_NO_CHARGE = -733
RESULT_NO_TRADE = -811
RESULT_NOT_SUBMITTED = -812
RESULT_NO_TAX = -831
RESULT_NO_RATE = -841
RESULT_NO_BAND = -842
FEED_NO_SECURITY = -311
LOOKUP_NO_TRADE = -611
OVER_LIMIT = -104
NO_ROOM = -105

# Sizes.
RECORD_SIZE = 64  # bytes of a record
MOST_RECORDS = 4096  # of a book
MOST_INPUTS = 20  # records of one feed or lookup
MOST_STACK = 262144  # bytes of stack that a call takes, with all that it calls

# Where a field of a record begins. Fields that a kind does not use are zero.
AT_KIND = 0  # 1 byte
AT_TYPE = 1  # 1 byte
AT_STATUS = 2  # 1 byte
AT_FLAGS = 3  # 1 byte
AT_PARTY = 4  # 4 bytes
AT_ID = 8  # 8 bytes
AT_SYMBOL = 16  # 8 bytes; in the answer of an order or a result the tax, little-endian
AT_N1 = 24  # 4 bytes
AT_N2 = 28  # 4 bytes
AT_N3 = 32  # 4 bytes
AT_N4 = 36  # 4 bytes
AT_M1 = 40  # 8 bytes
AT_M2 = 48  # 8 bytes
AT_TIME = 56  # 4 bytes
AT_N5 = 60  # 4 bytes: zero in every row; the status in an answer

# The kinds of rows.
KIND_BROKER = 1  # broker
KIND_CUSTOMER = 2  # customer
KIND_TAX_RATE = 3  # tax rate
KIND_CUSTOMER_RATE = 4  # customer's rate
KIND_ACCOUNT = 5  # account
KIND_SECURITY = 6  # security
KIND_BAND = 7  # commission band
KIND_CHARGE = 8  # charge
KIND_TRADE = 9  # trade
KIND_REQUEST = 10  # request
KIND_HISTORY = 11  # trade history
KIND_LOT = 12  # lot
KIND_SUMMARY = 13  # summary
KIND_LOT_HISTORY = 14  # lot history
KIND_SETTLEMENT = 15  # settlement
KIND_CASH = 16  # cash
KIND_PERMISSION = 17  # permission

# The kinds of input records. An order, a result and a feed answer one record of the same kind.
KIND_ORDER = 33  # order
KIND_RESULT = 34  # result
KIND_FEED = 35  # feed
KIND_LOOKUP = 36  # lookup

# Trade types: 1 and 3 buy, the others sell.
TMB = 1  # market buy
TMS = 2  # market sell
TLB = 3  # limit buy
TLS = 4  # limit sell
TSL = 5  # stop loss

# Trade statuses.
PNDG = 1  # pending
SBMT = 2  # submitted
CMPT = 3  # completed

# Flags, added up. Trades have the first two, settlements the first, order inputs all three.
FLAG_CASH = 1  # cash
FLAG_LIFO = 2  # LIFO
FLAG_ROLL_BACK = 4  # roll back

# The condition of each status.
STATUS_TEXT = {
    DONE: 'no refusal',
    BAD_LENGTH: 'input or answer area has the wrong length',
    BAD_BOOK: 'book length is 0, no multiple of 64, or over 4,096 records',
    UNSOUND: 'the book is not sound',
    BAD_INPUT: 'an input field breaks its rule',
    ORDER_NO_ACCOUNT: 'order: no such account',
    ORDER_NOT_PERMITTED: 'order: the named executor has no permission for the account',
    ORDER_NO_SECURITY: 'order: no such security',
    ORDER_NO_TAX: "order: gain and tax status 1 or 2, yet the customer's rates sum to 0",
    ORDER_NO_RATE: "order: the band's rate is 0",
    ORDER_NO_BAND: 'order: no band holds the shares',
    ORDER_NO_CHARGE: 'order: charge 0 or no row',
    RESULT_NO_TRADE: 'result: no such trade',
    RESULT_NOT_SUBMITTED: "result: the trade's status is not 2, submitted",
    RESULT_NO_TAX: "result: gain and tax status 1 or 2, yet the customer's rates sum to 0",
    RESULT_NO_RATE: "result: the band's rate is 0",
    RESULT_NO_BAND: 'result: no band holds the shares',
    FEED_NO_SECURITY: "feed: an entry's security is unknown",
    LOOKUP_NO_TRADE: 'lookup: a trade is unknown',
    OVER_LIMIT: "trade number, balance, broker's trades or commission total, or volume would leave its range",
    NO_ROOM: 'free places at entry are fewer than rows to add',
}
