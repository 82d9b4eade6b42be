# A first book: account 1 buys 100 ABC at the market. The order is accepted, and its result is booked.
from provedbook import *

book = Book([
    Row(KIND_BROKER, party=1),
    Row(KIND_CUSTOMER, party=1, type=1),
    Row(KIND_ACCOUNT, party=1, n1=1, n2=1, m1=1_000_000),
    Row(KIND_SECURITY, symbol="ABC", type=1, n1=2_000),
    Row(KIND_BAND, type=TMB, status=1, flags=1, n1=1, n2=1_000, n3=50),
    Row(KIND_CHARGE, type=TMB, status=1, n1=500),
], free=7)
ordered = book.order(type=TMB, party=1, symbol="ABC", n1=100)
booked = book.result(id=ordered.id, n1=2_010, time=1)
print(f"trade {ordered.id} settles {booked.m2}")
