"""The hourly balancing settlement of a gas market, recomputed: opening a Gas Day, default thresholds, settling an hour, previewing one and judging an operator's quantities
for one, closing a zone, and reading and writing an hour's file.

The calls are those of a library that is proved to give exactly the answer that the requirements define, for every input. An hour of three users, from a new day; first its
preview, which shows the hour before it is booked and leaves the day as it was:

    >>> from gas_day import GasDay, Zone, default_thresholds
    >>> day = GasDay(users=3, length=24)
    >>> amounts = dict(entry=[30_000_000, 15_000_000, 2_000_000], exit=[-10_000_000, -5_000_000, -5_000_000], title=[0, 0, 0], pooling=[0, 0, 0])
    >>> terms = dict(zone=Zone.H, thresholds=default_thresholds(month=1, zone=Zone.H), excess_price=20_000, shortfall_price=25_000)
    >>> seen = day.preview_hour(hour=1, **terms, **amounts)
    >>> seen.after
    [16666667, 8333333, -3000000]
    >>> day.positions(Zone.H)
    [0, 0, 0]
    >>> done = day.settle_hour(hour=1, **terms, **amounts)
    >>> done.outcome
    Outcome(side=<Side.EXCESS: 1>, total=5000000, causers=[0, 1])
    >>> done.quantity
    [3333333, 1666667, 0]
    >>> day.positions(Zone.H)
    [16666667, 8333333, -3000000]

A `GasDay` carries its record and its table itself, and `day.state` is both, to be stored. The functions `settle_hour` and `close_zone` are given record and table and
answer new ones; the functions `preview_hour` and `judge_hour` are given them too.

A call that is turned away raises `Refusal`, with the first cause that applies: its number, its words and the call's name. Then nothing has changed.

    >>> day.settle_hour(hour=3, **terms, **amounts)
    Traceback (most recent call last):
    gas_day.Refusal: settle_hour refused by cause 6: hour is not hours done plus 1, or above the day's length; at closing, hours done below it
    >>> day.record
    Day(users=3, length=24, h=ZoneDay(hours=1, closed=False, sold=5000000, bought=0), l=ZoneDay(hours=0, closed=False, sold=0, bought=0))

What is not a whole number is a TypeError, and a number beyond 64 bits an OverflowError, before the library is called.

Energy is in kWh, a price in millionths of a euro per kWh, money in millionths of a euro. Zones: 0 is H, 1 is L. A user is a place in every list, from 0. An hour has four
amounts of every user: its entry (EEA, 0 or more), its exit (XEA, 0 or less: an exit is negative), its net title transfer (NCTTN) and its pooling transfer (IPT), both of
either sign; the pooling transfers of all users add to zero.

From a shell, `python3 -m gas_day settle FILE --length 24 --month 1 --excess-price 20000 --shortfall-price 25000` settles an hour's file; --help says more.

The shared object is the one that GAS_DAY_LIBRARY names in the environment; else that of the repository or of the prefix that this module stands in; else the one that the
system finds.
"""

from __future__ import annotations

import argparse
import ctypes
import operator
import os
import re
import sys
import threading
from array import array
from ctypes import POINTER, Structure, c_int64, c_size_t, c_uint8, c_uint64
from dataclasses import dataclass, field
from enum import IntEnum
from pathlib import Path
from typing import Any, List, NoReturn, Optional, Tuple, Union

__all__ = [
    "open_day",
    "default_thresholds",
    "settle_hour",
    "preview_hour",
    "judge_hour",
    "close_zone",
    "read_hour_file",
    "write_hour_file",
    "Cause",
    "ClosingDone",
    "Day",
    "GasDay",
    "HourDone",
    "HourFile",
    "HourPreview",
    "Outcome",
    "Refusal",
    "Side",
    "State",
    "Thresholds",
    "Zone",
    "ZoneDay",
    "VERSION",
    "TABLE_PLACES",
    "ZONE_PLACES",
    "FILE_PLACES",
    "USERS_LEAST",
    "USERS_MOST",
    "LENGTH_LEAST",
    "LENGTH_USUAL",
    "LENGTH_MOST",
    "ENTRY_MOST",
    "EXIT_LEAST",
    "TITLE_MOST",
    "POOLING_MOST",
    "POSITION_MOST",
    "THRESHOLD_MOST",
    "PRICE_MOST",
    "TOTAL_MOST",
    "FILE_MWH_DECIMALS",
    "WRITE_BYTES_MOST",
]

VERSION = 3
"""The version of the interface that this module is written for. A call that is added leaves it as it is."""

# ---- limits, by the header's names. Every call checks them itself; they are here for who prepares its inputs

TABLE_PLACES = 256  # 128 for the H zone, then 128 for the L zone
ZONE_PLACES = 128
FILE_PLACES = 128  # of each of the reader's four lists
USERS_LEAST = 1
USERS_MOST = 128
LENGTH_LEAST = 23  # hours of a day: on one of the two days of a clock change
LENGTH_USUAL = 24  # on every day but these two
LENGTH_MOST = 25  # on the other day of a clock change
ENTRY_MOST = 50_000_000  # 0 to this
EXIT_LEAST = -50_000_000  # this to 0
TITLE_MOST = 50_000_000  # of either sign
POOLING_MOST = 100_000_000  # of either sign
POSITION_MOST = 100_000_000  # before or after settlement, of either sign
THRESHOLD_MOST = 1_000_000_000  # upper: 0 to this; lower: minus this to 0
PRICE_MOST = 10_000_000  # of either sign
TOTAL_MOST = 332_800_000_000  # what was sold, or bought, in a zone so far: 0 to this
FILE_MWH_DECIMALS = 3  # of an amount in MWh, in a file that is read: 12.345 means 12345 kWh
WRITE_BYTES_MOST = 7_833  # lent bytes that are enough for every file: 25, and 61 for each of 128 lines

# ---- what a caller gives and gets

Numbers = Union[List[int], Tuple[int, ...], "array[int]"]
"""The amounts of an hour or a table: a list, a tuple or an array of whole numbers."""


class Zone(IntEnum):
    """The two zones of the market."""

    H = 0
    L = 1


class Side(IntEnum):
    """Where the market was: within its thresholds, above the upper or below the lower one."""

    WITHIN = 0
    EXCESS = 1
    SHORTFALL = 2


class Cause(IntEnum):
    """Why a call was turned away: the first cause that applies, in the order of their numbers, but for 21, which comes after 1 and before 3."""

    USERS = 1
    RECORD = 2
    LENGTH = 3
    ZONE = 4
    CLOSED = 5
    HOUR = 6
    TABLE = 7
    TERMS = 8
    AMOUNT = 9
    POOLING = 10
    POSITION = 11
    FILE_LENGTH = 12
    FILE_HEADER = 13
    FILE_FORM = 14
    FILE_FIELD = 15
    FILE_ORDER = 16
    FILE_EMPTY = 17
    WRITE_COUNT = 18
    WRITE_NUMBER = 19
    WRITE_ROOM = 20
    DAY_LENGTH = 21
    JUDGED_SIGN = 22
    JUDGED_SHARE = 23
    JUDGED_SUM = 24
    TOTALS = 25

    @property
    def words(self) -> str:
        """The cause in the words of the requirements; those of 2, 6 and 21 are made of them, since the day has a length and totals; 23 has "a quantity" for their "one"."""
        return _WORDS[self]


_WORDS = {
    Cause.USERS: "opening: user count not 1 to 128",
    Cause.RECORD: "record's user count not 1 to 128, length not 23, 24 or 25, hours not 0 to the length, a zone closed with fewer than the length, "
    "a zone with no hours done whose totals are not zero, or a total below zero or above 332,800,000,000",
    Cause.LENGTH: "table not of 256 places, or a list or the scratch not of exactly the user count",
    Cause.ZONE: "zone not 0 or 1",
    Cause.CLOSED: "zone closed",
    Cause.HOUR: "hour is not hours done plus 1, or above the day's length; at closing, hours done below it",
    Cause.TABLE: "table holds a position outside its range, a non-zero place at or beyond the user count in either zone, "
    "or a non-zero place in a zone that is closed or has no hours done",
    Cause.TERMS: "threshold or price out of range; month not 1 to 12",
    Cause.AMOUNT: "an amount out of range",
    Cause.POOLING: "pooling amounts do not add to zero",
    Cause.POSITION: "a position before settlement out of range",
    Cause.FILE_LENGTH: "a reader's list not of 128 places",
    Cause.FILE_HEADER: "header differs",
    Cause.FILE_FORM: "a line's form or field count",
    Cause.FILE_FIELD: "a field's number or zone letter",
    Cause.FILE_ORDER: "h or z differs from the first line, or g is not the next place below 128",
    Cause.FILE_EMPTY: "no line after the header",
    Cause.WRITE_COUNT: "the count is not 1 to 128, the zone not 0 or 1, or a list is not of the count's length",
    Cause.WRITE_NUMBER: "the hour or an amount has more than nine digits or the hour is negative",
    Cause.WRITE_ROOM: "the lent bytes are too few",
    Cause.DAY_LENGTH: "opening: length not 23, 24 or 25",
    Cause.JUDGED_SIGN: "a user who did not cause has a quantity or a causer's has the wrong sign",
    Cause.JUDGED_SHARE: "a quantity is 1 kWh or more off",
    Cause.JUDGED_SUM: "the sum is wrong",
    Cause.TOTALS: "a total would pass the bound",
}


class Refusal(Exception):
    """A call was turned away. Nothing has changed."""

    def __init__(self, call: str, cause: Cause) -> None:
        super().__init__(call, cause)
        self.call = call
        """The name of the call."""
        self.cause = cause

    @property
    def number(self) -> int:
        """The cause's number."""
        return int(self.cause)

    @property
    def words(self) -> str:
        """The cause's words."""
        return self.cause.words

    def __str__(self) -> str:
        return f"{self.call} refused by cause {self.number}: {self.words}"


@dataclass(frozen=True)
class ZoneDay:
    """The day record of one zone: the hours done, 0 to the day's length, whether it is closed, and its totals: what was sold and what was bought in it so far, in kWh, as
    sizes. They are 0 at opening. An accepted hour of the zone adds its total to `sold` in an excess and to `bought` in a shortfall; an accepted closing adds what it sold
    and bought. An hour, its preview or a closing after which a total of its own zone would be above `TOTAL_MOST` is refused by cause 25, its last; a total that reaches
    this is no cause. Only an altered record can lead past it.
    """

    hours: int = 0
    closed: bool = False
    sold: int = field(default_factory=int)  # 0, but no attribute of the class: a record that an older module stored has no totals, and is not taken for one of 0
    bought: int = field(default_factory=int)


@dataclass(frozen=True)
class Day:
    """The day record: the users, 1 to 128, the day's length, 23, 24 or 25 hours, and each zone. It and the table that was answered with it belong together."""

    users: int
    length: int
    h: ZoneDay = ZoneDay()
    l: ZoneDay = ZoneDay()


@dataclass(frozen=True)
class State:
    """A day as it stands: its record, and the table that belongs to it, 128 places of the H zone, then 128 of the L zone."""

    day: Day
    table: List[int] = field(repr=False)


@dataclass(frozen=True)
class Thresholds:
    """The two thresholds of an hour."""

    upper: int
    lower: int


@dataclass(frozen=True)
class Outcome:
    """Where the market was, how far outside of its thresholds (in kWh, as a size), and the places of those who caused it, upwards."""

    side: Side
    total: int
    causers: List[int]


@dataclass(frozen=True)
class HourDone:
    """An accepted hour: record and table after it, its outcome, and each user's quantity (positive where it sells) and money (positive where it is paid)."""

    day: Day
    table: List[int] = field(repr=False)
    outcome: Outcome
    quantity: List[int]
    money: List[int]


@dataclass(frozen=True)
class HourPreview:
    """An hour before it is booked: its outcome, and each user's quantity (positive where it sells), money (positive where it is paid) and position after it."""

    outcome: Outcome
    quantity: List[int]
    money: List[int]
    after: List[int]


@dataclass(frozen=True)
class ClosingDone:
    """An accepted closing: record and table after it, what the users sold and bought by it alone (in kWh, both as sizes), and each user's quantity and money."""

    day: Day
    table: List[int] = field(repr=False)
    sold: int
    bought: int
    quantity: List[int]
    money: List[int]


@dataclass(frozen=True)
class HourFile:
    """What an hour's file says: hour and zone, and the four amounts of every user."""

    hour: int
    zone: Zone
    entry: List[int]
    exit: List[int]
    title: List[int]
    pooling: List[int]

    @property
    def users(self) -> int:
        """As many as the file has lines after the header."""
        return len(self.entry)


# ---- the header gas_day.h: its structs and calls


class _ZoneDay(Structure):
    _fields_ = [("hours", c_int64), ("closed", c_int64), ("sold", c_int64), ("bought", c_int64)]


class _Day(Structure):
    _fields_ = [("users", c_int64), ("length", c_int64), ("h", _ZoneDay), ("l", _ZoneDay)]


class _Opened(Structure):
    _fields_ = [("cause", c_uint64), ("day", _Day)]


class _Thresholds(Structure):
    _fields_ = [("cause", c_uint64), ("upper", c_int64), ("lower", c_int64)]


class _HourTerms(Structure):
    _fields_ = [
        ("zone", c_int64),
        ("hour", c_int64),
        ("upper", c_int64),
        ("lower", c_int64),
        ("excess_price", c_int64),
        ("shortfall_price", c_int64),
    ]


class _Hour(Structure):
    _fields_ = [
        ("cause", c_uint64),
        ("day", _Day),
        ("side", c_uint64),
        ("total", c_int64),
        ("first", c_uint64),
        ("second", c_uint64),
        ("number", c_uint64),
    ]


class _Judged(Structure):
    _fields_ = [("cause", c_uint64), ("day", _Day)]


class _ClosingTerms(Structure):
    _fields_ = [("zone", c_int64), ("excess_price", c_int64), ("shortfall_price", c_int64)]


class _Closing(Structure):
    _fields_ = [("cause", c_uint64), ("day", _Day), ("sold", c_int64), ("bought", c_int64)]


class _File(Structure):
    _fields_ = [("cause", c_uint64), ("hour", c_int64), ("zone", c_int64), ("lines", c_int64)]


class _Written(Structure):
    _fields_ = [("cause", c_uint64), ("bytes", c_int64)]


_NUMBERS = [POINTER(c_int64), c_size_t]
_SCRATCH = [POINTER(c_uint64), c_size_t]
_BYTES = [POINTER(c_uint8), c_size_t]

_CALLS = {
    "gas_day_open": ([c_int64, c_int64, *_NUMBERS], _Opened),
    "gas_day_default_thresholds": ([c_int64, c_int64], _Thresholds),
    "gas_day_settle_hour": ([_Day, *_NUMBERS, _HourTerms, *(6 * _NUMBERS), *_SCRATCH], _Hour),
    "gas_day_preview_hour": ([_Day, *_NUMBERS, _HourTerms, *(7 * _NUMBERS), *_SCRATCH], _Hour),
    "gas_day_judge_hour": ([_Day, *_NUMBERS, _HourTerms, *(5 * _NUMBERS)], _Judged),
    "gas_day_close_zone": ([_Day, *_NUMBERS, _ClosingTerms, *(2 * _NUMBERS)], _Closing),
    "gas_day_read_hour_file": ([*_BYTES, *(4 * _NUMBERS)], _File),
    "gas_day_write_hour_file": ([c_int64, c_int64, c_int64, *(4 * _NUMBERS), *_BYTES], _Written),
}


def _place() -> str:
    """Where the shared object is."""
    file, folder = f"libgas_day.so.{VERSION}", Path(__file__).resolve().parent
    near = []
    if folder.parts[-2:] == ("bindings", "python"):
        near = [folder.parents[1] / "target/bindings/lib" / file]
    elif folder.name in ("site-packages", "dist-packages"):  # of PREFIX/lib/python3.x
        near = [folder.parents[1] / file]
    named = os.environ.get("GAS_DAY_LIBRARY")
    return named if named else next((str(path) for path in near if path.exists()), file)


def _load(path: str) -> ctypes.CDLL:
    try:
        library = ctypes.CDLL(path)
        library.gas_day_version.argtypes, library.gas_day_version.restype = [], c_uint64
        version = library.gas_day_version()
        if version != VERSION:
            raise ImportError(f"{path} is of version {version}, and this module is written for version {VERSION}")
        for name, (parameters, answer) in _CALLS.items():
            call = getattr(library, name, None)
            if call is None:
                raise ImportError(f"{path} has no {name}: it is older than this module; bindings/build makes a new one, and GAS_DAY_LIBRARY may name it")
            call.argtypes, call.restype = parameters, answer
    except (OSError, AttributeError) as error:
        raise ImportError(f"the gas_day library cannot be loaded: {error}; bindings/build makes it, and GAS_DAY_LIBRARY may name it") from None
    return library


def _end(message: str) -> NoReturn:
    """Ends a command that cannot be carried out."""
    _complain(message)
    sys.exit(2)


def _complain(message: str) -> None:
    if sys.stderr is not None:  # print would take None for standard output
        print(f"gas_day: {message}", file=sys.stderr)


try:
    _library = _load(_place())
except ImportError as error:
    if __name__ != "__main__":
        raise
    _end(str(error))

# ---- from Python to the library and back


def _whole(number: int, what: str) -> int:
    """A number as the library takes it. ctypes would cut it to 64 bits without a word."""
    try:
        value = int.__index__(operator.index(number))  # a plain int, also where number is of a class that is over int
    except TypeError:
        raise TypeError(f"{what} is to be an int, not {type(number).__name__}") from None
    if not -(2**63) <= value < 2**63:
        raise OverflowError(f"{what} is beyond 64 bits")
    return value


def _area(numbers: Numbers, what: str) -> Any:
    """A copy of a list, to be lent. No set or dict, which have no order, and no bytes or str, which are lists of something else."""
    if not isinstance(numbers, (list, tuple, array)):
        raise TypeError(f"{what} is to be a list of ints, not {type(numbers).__name__}")
    if isinstance(numbers, array) and memoryview(numbers).format == "q":
        data = memoryview(numbers).tobytes()
        return (c_int64 * (len(data) // 8)).from_buffer_copy(data)
    values = [_whole(number, f"{what}[{place}]") for place, number in enumerate(numbers)]
    return (c_int64 * len(values))(*values)


def _zeros(places: int) -> Any:
    return (c_int64 * places)()


def _lent(*areas: Any) -> List[Any]:
    """Each area and its number of places, as the calls take them."""
    return [argument for area in areas for argument in (area, len(area))]


def _expect(kind: type, value: object, what: str) -> None:
    if not isinstance(value, kind):
        raise TypeError(f"{what} is to be a {kind.__name__}, not {type(value).__name__}")


def _zone_record(zone: ZoneDay, what: str) -> _ZoneDay:
    _expect(ZoneDay, zone, what)
    return _ZoneDay(
        _whole(zone.hours, f"{what}.hours"),
        _whole(zone.closed, f"{what}.closed"),
        _whole(zone.sold, f"{what}.sold"),
        _whole(zone.bought, f"{what}.bought"),
    )


def _record(day: Day) -> _Day:
    _expect(Day, day, "day")
    return _Day(_whole(day.users, "day.users"), _whole(day.length, "day.length"), _zone_record(day.h, "day.h"), _zone_record(day.l, "day.l"))


def _zone_day(zone: _ZoneDay) -> ZoneDay:
    return ZoneDay(zone.hours, bool(zone.closed) if zone.closed in (0, 1) else zone.closed, zone.sold, zone.bought)


def _day(record: _Day) -> Day:
    return Day(record.users, record.length, _zone_day(record.h), _zone_day(record.l))


def _accepted(call: str, answer: Any) -> Any:
    if answer.cause:
        raise Refusal(call, Cause(answer.cause))
    return answer


# ---- the calls


def open_day(users: int, length: int) -> State:
    """Opens a Gas Day of 23, 24 or 25 hours: the record, which keeps the length, and the table of 256 places, all zero. Causes 1 and 21; the table is this function's own,
    so 3 does not come up.

    >>> open_day(users=3, length=25).day
    Day(users=3, length=25, h=ZoneDay(hours=0, closed=False, sold=0, bought=0), l=ZoneDay(hours=0, closed=False, sold=0, bought=0))
    """
    table = _zeros(TABLE_PLACES)
    opened = _accepted("open_day", _library.gas_day_open(_whole(users, "users"), _whole(length, "length"), *_lent(table)))
    return State(_day(opened.day), list(table))


def default_thresholds(month: int, zone: int) -> Thresholds:
    """The default thresholds of a month (1 to 12) and a zone. Causes 4 and 8.

    >>> default_thresholds(month=7, zone=Zone.L)
    Thresholds(upper=16000000, lower=-16000000)
    """
    answer = _accepted("default_thresholds", _library.gas_day_default_thresholds(_whole(month, "month"), _whole(zone, "zone")))
    return Thresholds(answer.upper, answer.lower)


def settle_hour(
    day: Day,
    table: Numbers,
    zone: int,
    hour: int,
    thresholds: Thresholds,
    *,
    excess_price: int,
    shortfall_price: int,
    entry: Numbers,
    exit: Numbers,
    title: Numbers,
    pooling: Numbers,
) -> HourDone:
    """Settles an hour: what becomes of record and table, who caused, and each user's quantity and money. The record's totals of the zone have what was sold or bought.
    Causes 2 to 11, then 25. Nothing given is changed.
    """
    terms, amounts = _hour_terms(zone, hour, thresholds, excess_price, shortfall_price), _amounts(entry, exit, title, pooling)
    return _settle(_record(day), _area(table, "table"), terms, amounts)


def _hour_terms(zone: int, hour: int, thresholds: Thresholds, excess_price: int, shortfall_price: int) -> _HourTerms:
    _expect(Thresholds, thresholds, "thresholds")
    return _HourTerms(
        _whole(zone, "zone"),
        _whole(hour, "hour"),
        _whole(thresholds.upper, "thresholds.upper"),
        _whole(thresholds.lower, "thresholds.lower"),
        _whole(excess_price, "excess_price"),
        _whole(shortfall_price, "shortfall_price"),
    )


def _amounts(entry: Numbers, exit: Numbers, title: Numbers, pooling: Numbers) -> List[Any]:
    return [_area(entry, "entry"), _area(exit, "exit"), _area(title, "title"), _area(pooling, "pooling")]


def _settle(record: _Day, table: Any, terms: _HourTerms, amounts: List[Any]) -> HourDone:
    users = len(amounts[0])  # if it is not the record's number, the entries are refused by their length
    quantity, money, scratch = _zeros(users), _zeros(users), (c_uint64 * users)()
    lent = _lent(*amounts, quantity, money, scratch)
    done = _accepted("settle_hour", _library.gas_day_settle_hour(record, *_lent(table), terms, *lent))
    return HourDone(_day(done.day), list(table), _outcome(done), list(quantity), list(money))


def _outcome(hour: _Hour) -> Outcome:
    marks = hour.first | hour.second << 64
    return Outcome(Side(hour.side), hour.total, [place for place in range(ZONE_PLACES) if marks >> place & 1])


def preview_hour(
    day: Day,
    table: Numbers,
    zone: int,
    hour: int,
    thresholds: Thresholds,
    *,
    excess_price: int,
    shortfall_price: int,
    entry: Numbers,
    exit: Numbers,
    title: Numbers,
    pooling: Numbers,
) -> HourPreview:
    """Shows an hour before it is booked: who would cause, and what `settle_hour` would give each user as quantity, money and position after it. Causes 2 to 11, then 25.
    Nothing given is changed.

    >>> terms = dict(zone=Zone.H, hour=1, thresholds=Thresholds(4, 0), excess_price=20_000, shortfall_price=25_000)
    >>> preview_hour(Day(2, length=24), 256 * [0], **terms, entry=[9, 0], exit=[0, -2], title=[0, 0], pooling=[0, 0])
    HourPreview(outcome=Outcome(side=<Side.EXCESS: 1>, total=3, causers=[0]), quantity=[3, 0], money=[60000, 0], after=[6, -2])
    """
    terms, amounts = _hour_terms(zone, hour, thresholds, excess_price, shortfall_price), _amounts(entry, exit, title, pooling)
    return _preview(_record(day), _area(table, "table"), terms, amounts)


def _preview(record: _Day, table: Any, terms: _HourTerms, amounts: List[Any]) -> HourPreview:
    users = len(amounts[0])  # as of an hour
    quantity, money, after, scratch = _zeros(users), _zeros(users), _zeros(users), (c_uint64 * users)()
    lent = _lent(*amounts, quantity, money, after, scratch)
    seen = _accepted("preview_hour", _library.gas_day_preview_hour(record, *_lent(table), terms, *lent))
    return HourPreview(_outcome(seen), list(quantity), list(money), list(after))


def judge_hour(
    day: Day,
    table: Numbers,
    zone: int,
    hour: int,
    thresholds: Thresholds,
    *,
    excess_price: int,
    shortfall_price: int,
    entry: Numbers,
    exit: Numbers,
    title: Numbers,
    pooling: Numbers,
    quantity: Numbers,
) -> None:
    """Judges an operator's own quantities for an hour, one of each user, which may be rounded in another way than those of `settle_hour` and still be right; those are
    accepted too. Returns if they are accepted, and raises `Refusal` if they are not: causes 2 to 11, as of an hour; then 22, 23 and 24, each looked at for every user
    before the next; not 25, since nothing is added to the record. They have to add to the excess, or to minus the shortfall, or to zero if there is neither; only causers
    have any, with the right sign, and each is less than 1 kWh from the exact share. Nothing given is changed.

    >>> terms = dict(zone=Zone.H, hour=1, thresholds=Thresholds(1, 0), excess_price=20_000, shortfall_price=25_000)
    >>> amounts = dict(entry=[1, 1, 1], exit=[0, 0, 0], title=[0, 0, 0], pooling=[0, 0, 0])
    >>> judge_hour(Day(3, length=24), 256 * [0], **terms, **amounts, quantity=[1, 1, 0])
    >>> judge_hour(Day(3, length=24), 256 * [0], **terms, **amounts, quantity=[0, 1, 1])
    >>> judge_hour(Day(3, length=24), 256 * [0], **terms, **amounts, quantity=[2, 0, 0])
    Traceback (most recent call last):
    gas_day.Refusal: judge_hour refused by cause 23: a quantity is 1 kWh or more off
    """
    terms, amounts = _hour_terms(zone, hour, thresholds, excess_price, shortfall_price), _amounts(entry, exit, title, pooling)
    _judge(_record(day), _area(table, "table"), terms, amounts, _area(quantity, "quantity"))


def _judge(record: _Day, table: Any, terms: _HourTerms, amounts: List[Any], quantity: Any) -> None:
    _accepted("judge_hour", _library.gas_day_judge_hour(record, *_lent(table), terms, *_lent(*amounts, quantity)))


def close_zone(day: Day, table: Numbers, zone: int, *, excess_price: int, shortfall_price: int) -> ClosingDone:
    """Closes a zone after all hours of its day: each user's quantity is its whole position. The record's totals of the zone have what was sold and bought. Causes 2 to 8,
    then 25. Nothing given is changed.

    >>> day, table = Day(2, length=24, h=ZoneDay(hours=24, sold=5)), [2, -2] + 254 * [0]
    >>> done = close_zone(day, table, Zone.H, excess_price=20_000, shortfall_price=25_000)
    >>> done.money
    [40000, -50000]
    >>> done.day.h
    ZoneDay(hours=24, closed=True, sold=7, bought=2)
    """
    return _close(_record(day), _area(table, "table"), _closing_terms(zone, excess_price, shortfall_price))


def _closing_terms(zone: int, excess_price: int, shortfall_price: int) -> _ClosingTerms:
    return _ClosingTerms(_whole(zone, "zone"), _whole(excess_price, "excess_price"), _whole(shortfall_price, "shortfall_price"))


def _close(record: _Day, table: Any, terms: _ClosingTerms) -> ClosingDone:
    users = record.users if USERS_LEAST <= record.users <= USERS_MOST else 0  # another number is refused as a record, before any length
    quantity, money = _zeros(users), _zeros(users)
    done = _accepted("close_zone", _library.gas_day_close_zone(record, *_lent(table), terms, *_lent(quantity, money)))
    return ClosingDone(_day(done.day), list(table), done.sold, done.bought, list(quantity), list(money))


def read_hour_file(file: Union[bytes, bytearray, memoryview]) -> HourFile:
    """Reads the bytes of an hour's file. Causes 13 to 17; the lists are this function's own, so 12 does not come up.

    >>> read_hour_file(b"h,z,g,EEA,XEA,NCTTN,IPT\\r\\n1,L,0,14000000,0,0,0\\r\\n")
    HourFile(hour=1, zone=<Zone.L: 1>, entry=[14000000], exit=[0], title=[0], pooling=[0])

    The amounts answered are in kWh. An amount of the file that has a point is in MWh, and has three decimals:

    >>> read_hour_file(b"h,z,g,EEA,XEA,NCTTN,IPT\\r\\n1,L,0,14000.000,-0.005,0,12\\r\\n")
    HourFile(hour=1, zone=<Zone.L: 1>, entry=[14000000], exit=[-5], title=[0], pooling=[12])
    """
    if not isinstance(file, (bytes, bytearray, memoryview)):
        raise TypeError(f"file is to be bytes, not {type(file).__name__}")
    data = memoryview(file).tobytes()
    area, lists = (c_uint8 * len(data)).from_buffer_copy(data), [_zeros(FILE_PLACES) for _ in range(4)]
    read = _accepted("read_hour_file", _library.gas_day_read_hour_file(*_lent(area, *lists)))
    return HourFile(read.hour, Zone(read.zone), *(amounts[: read.lines] for amounts in lists))


def write_hour_file(hour: int, zone: int, *, entry: Numbers, exit: Numbers, title: Numbers, pooling: Numbers, users: Optional[int] = None) -> bytes:
    """The bytes of an hour's file, in which every line ends in CR LF. The users are as many as the entries, if they are not given. Causes 18 and 19; the lent bytes are
    this function's own, and enough for every file, so 20 does not come up.

    >>> write_hour_file(1, Zone.L, entry=[14_000_000], exit=[0], title=[0], pooling=[-5])
    b'h,z,g,EEA,XEA,NCTTN,IPT\\r\\n1,L,0,14000000,0,0,-5\\r\\n'
    """
    amounts, area = _amounts(entry, exit, title, pooling), (c_uint8 * WRITE_BYTES_MOST)()
    count = len(amounts[0]) if users is None else _whole(users, "users")
    lent = _lent(*amounts, area)
    written = _accepted("write_hour_file", _library.gas_day_write_hour_file(_whole(hour, "hour"), _whole(zone, "zone"), count, *lent))
    return bytes(area[: written.bytes])


class GasDay:
    """A Gas Day from its opening: its calls go on from the record and the table that the last accepted one left. A refused call leaves the object as it was.

    Calls from several threads go one after the other; a preview and a judge, which change nothing, wait for none and take the day as it stands. An object can be copied and
    pickled.
    """

    def __init__(self, users: int, length: int) -> None:
        self._begin(open_day(users, length))

    def _begin(self, state: State) -> None:
        self._turn = threading.Lock()
        self._keep(state.day, state.table)

    def _keep(self, day: Day, table: Numbers) -> None:
        self._state = day, array("q", table)  # put in place at once, so that whoever reads it has both of one call

    @classmethod
    def resume(cls, state: State) -> GasDay:
        """Goes on with a day that was stored. A pair of record and table that is no day is refused by the next call, causes 2, 3 and 7."""
        _expect(State, state, "state")
        day = cls.__new__(cls)
        day._begin(State(_day(_record(state.day)), list(_area(state.table, "table"))))
        return day

    @property
    def state(self) -> State:
        """Record and table, to be stored together; `resume` goes on with them."""
        day, table = self._state
        return State(day, table.tolist())

    @property
    def record(self) -> Day:
        """The day record."""
        return self._state[0]

    def positions(self, zone: int) -> List[int]:
        """The users' positions in a zone. Cause 4."""
        day, table = self._state
        if _whole(zone, "zone") not in (Zone.H, Zone.L):
            raise Refusal("positions", Cause.ZONE)
        part = table[zone * ZONE_PLACES : (zone + 1) * ZONE_PLACES]
        return part[: max(day.users, 0)].tolist()

    def settle_hour(
        self,
        zone: int,
        hour: int,
        thresholds: Thresholds,
        *,
        excess_price: int,
        shortfall_price: int,
        entry: Numbers,
        exit: Numbers,
        title: Numbers,
        pooling: Numbers,
    ) -> HourDone:
        """Settles an hour of this day, as the function `settle_hour` does."""
        terms, amounts = _hour_terms(zone, hour, thresholds, excess_price, shortfall_price), _amounts(entry, exit, title, pooling)
        with self._turn:  # no code of the caller's runs in here, so that it cannot wait for itself
            day, table = self._state
            done = _settle(_record(day), _area(table, "table"), terms, amounts)
            self._keep(done.day, done.table)
        return done

    def preview_hour(
        self,
        zone: int,
        hour: int,
        thresholds: Thresholds,
        *,
        excess_price: int,
        shortfall_price: int,
        entry: Numbers,
        exit: Numbers,
        title: Numbers,
        pooling: Numbers,
    ) -> HourPreview:
        """Shows an hour of this day before it is booked, as the function `preview_hour` does. The day stays as it was."""
        terms, amounts = _hour_terms(zone, hour, thresholds, excess_price, shortfall_price), _amounts(entry, exit, title, pooling)
        day, table = self._state  # of one call, and nothing is kept: so it waits for no turn
        return _preview(_record(day), _area(table, "table"), terms, amounts)

    def judge_hour(
        self,
        zone: int,
        hour: int,
        thresholds: Thresholds,
        *,
        excess_price: int,
        shortfall_price: int,
        entry: Numbers,
        exit: Numbers,
        title: Numbers,
        pooling: Numbers,
        quantity: Numbers,
    ) -> None:
        """Judges an operator's own quantities for an hour of this day, as the function `judge_hour` does. The day stays as it was."""
        terms, amounts = _hour_terms(zone, hour, thresholds, excess_price, shortfall_price), _amounts(entry, exit, title, pooling)
        judged = _area(quantity, "quantity")
        day, table = self._state  # as of a preview
        _judge(_record(day), _area(table, "table"), terms, amounts, judged)

    def settle_file(self, file: HourFile, thresholds: Thresholds, *, excess_price: int, shortfall_price: int) -> HourDone:
        """Settles the hour that a file has."""
        _expect(HourFile, file, "file")
        return self.settle_hour(
            file.zone,
            file.hour,
            thresholds,
            excess_price=excess_price,
            shortfall_price=shortfall_price,
            entry=file.entry,
            exit=file.exit,
            title=file.title,
            pooling=file.pooling,
        )

    def close_zone(self, zone: int, *, excess_price: int, shortfall_price: int) -> ClosingDone:
        """Closes a zone of this day, as the function `close_zone` does."""
        terms = _closing_terms(zone, excess_price, shortfall_price)
        with self._turn:
            day, table = self._state
            done = _close(_record(day), _area(table, "table"), terms)
            self._keep(done.day, done.table)
        return done

    def __reduce__(self) -> Tuple[Any, Tuple[State]]:
        return type(self).resume, (self.state,)

    def __repr__(self) -> str:
        return f"<GasDay {self.record}>"


# ---- from a shell

_STATUS = "Exit status: 0 settled; 1 refused, with the cause on standard error; 2 the command, a file or the output cannot be used."


def _number(text: str) -> int:
    if not re.fullmatch("-?[0-9]+", text):
        raise argparse.ArgumentTypeError(f"{text!r} is not a whole number")
    return int(text)


def _parser() -> argparse.ArgumentParser:
    parser = argparse.ArgumentParser(
        prog="python3 -m gas_day", description="Settles hours of a gas market's Gas Day from their allocation files.", epilog=_STATUS, allow_abbrev=False
    )
    settle = parser.add_subparsers(metavar="COMMAND", required=True).add_parser(
        "settle",
        help="settle the hours of files",
        description="Opens a Gas Day of so many hours for as many users as the first FILE has, and settles the hours of the files on it, in the order given. "
        "Prints for each file a heading and each user's place, position before, quantity, money and position after.",
        epilog=_STATUS,
        allow_abbrev=False,
    )
    settle.add_argument("files", metavar="FILE", nargs="+", help="an hour's allocation file; - is standard input")
    settle.add_argument("--length", type=_number, metavar="HOURS", required=True, help="the hours of the day: 24, and 23 or 25 on the days of a clock change")
    settle.add_argument("--month", type=_number, help="take the default thresholds of this month, 1 to 12")
    settle.add_argument("--upper", type=_number, metavar="KWH", help="the upper threshold, in place of a month's")
    settle.add_argument("--lower", type=_number, metavar="KWH", help="the lower threshold, in place of a month's")
    settle.add_argument("--excess-price", type=_number, metavar="PRICE", required=True, help="in millionths of a euro per kWh")
    settle.add_argument("--shortfall-price", type=_number, metavar="PRICE", required=True, help="in millionths of a euro per kWh")
    return parser


def _arguments() -> argparse.Namespace:
    parser = _parser()
    arguments = parser.parse_args()
    named = [arguments.month is not None, arguments.upper is not None, arguments.lower is not None]
    if named not in ([True, False, False], [False, True, True]):
        parser.error("settle wants either --month or both --upper and --lower")
    if arguments.files.count("-") > 1:
        parser.error("standard input can be read once")
    return arguments


def _thresholds_of(arguments: argparse.Namespace, zone: int) -> Thresholds:
    if arguments.month is not None:
        return default_thresholds(arguments.month, zone)
    return Thresholds(arguments.upper, arguments.lower)


def _content(name: str) -> bytes:
    if name != "-":
        return Path(name).read_bytes()
    if sys.stdin is None:
        raise OSError("standard input is closed")
    return sys.stdin.buffer.read()


def _print_hour(positions: List[int], done: HourDone) -> None:
    if sys.stdout is None:
        raise OSError("closed")
    print("g,before,q,money,after", end="\r\n")
    for place, (quantity, money, after) in enumerate(zip(done.quantity, done.money, positions)):
        print(place, quantity + after, quantity, money, after, sep=",", end="\r\n")
    sys.stdout.flush()


def _settle_files(arguments: argparse.Namespace) -> int:
    day = None
    for name in arguments.files:
        try:
            file = read_hour_file(_content(name))
            day = day or GasDay(file.users, arguments.length)
            thresholds = _thresholds_of(arguments, file.zone)
            done = day.settle_file(file, thresholds, excess_price=arguments.excess_price, shortfall_price=arguments.shortfall_price)
        except Refusal as refusal:
            _complain(f"{name}: {refusal}")
            return 1
        except (OSError, OverflowError, MemoryError) as error:
            _end(f"{name}: {str(error) or 'not enough memory'}")
        _print_hour(day.positions(file.zone), done)
    return 0


def main() -> int:
    """The command `python3 -m gas_day`; answers its exit status."""
    try:
        return _settle_files(_arguments())
    except OSError as error:  # of what is printed; what could not be written is not tried again when the process ends
        if sys.stdout is not None:
            os.dup2(os.open(os.devnull, os.O_WRONLY), sys.stdout.fileno())
        _end(f"standard output: {error}")


if __name__ == "__main__":
    sys.exit(main())
