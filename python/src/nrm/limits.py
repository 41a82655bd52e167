"""The limits of networks, of what is asked of one and of the files about it, as the program has them.

A test compares each with the constant of the same name in the crates.
"""
from __future__ import annotations

MOST_HISTORIES = 32
MOST_PERIODS = 16
MOST_LEGS = 64
MOST_PRODUCTS = 256
MOST_SEATS = 999
MOST_THRESHOLDS = 9
MOST_FARE = 99_999_999
MOST_REFUND = 100
MOST_LEGS_OF_A_PRODUCT = 4
MOST_DEMAND = 999
MOST_PARTY = 999
LAST_BOOKING = 999_999_999_999
MOST_NETWORK_BYTES = 4_194_304
MOST_CERTIFICATE_BYTES = 65_536
MOST_NAME_BYTES = 12
MOST_GROUPS = 10
MOST_CLASSES = 10
LAST_PERIOD = 99
LAST_LINE = 4_294_967_296
GREATEST_NUMBER = 2 ** 63 - 1
SIZE_LIMIT = 2 ** 48
