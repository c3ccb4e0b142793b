"""What the tests share: case A, calls in short, and every cause with a call that is refused by it."""

from functools import partial

from gas_day import (
    TOTAL_MOST,
    Day,
    GasDay,
    Thresholds,
    Zone,
    ZoneDay,
    close_zone,
    default_thresholds,
    judge_hour,
    open_day,
    preview_hour,
    read_hour_file,
    settle_hour,
    write_hour_file,
)

ENTRY, EXIT = [30_000_000, 15_000_000, 2_000_000], [-10_000_000, -5_000_000, -5_000_000]
PRICES = {"excess_price": 20_000, "shortfall_price": 25_000}
WIDE = Thresholds(1_000_000_000, -1_000_000_000)
NONE = Thresholds(0, 0)
HEADER = b"h,z,g,EEA,XEA,NCTTN,IPT\r\n"
FILE_A = HEADER + b"1,H,0,30000000,-10000000,0,0\r\n1,H,1,15000000,-5000000,0,0\r\n1,H,2,2000000,-5000000,0,0\r\n"
FILE_A_IN_MWH = HEADER + b"1,H,0,30000.000,-10000.000,0.000,0.000\r\n1,H,1,15000.000,-5000.000,0.000,0.000\r\n1,H,2,2000.000,-5000.000,0.000,0.000\r\n"


def amounts(users, **given):
    """The four lists of an hour: those that are given, and zeros."""
    return {kind: given.get(kind, [0] * users) for kind in ("entry", "exit", "title", "pooling")}


def idle_hour(day, zone, hour, thresholds=WIDE, **given):
    """An hour without amounts but for those given."""
    return day.settle_hour(zone, hour, thresholds, **PRICES, **amounts(day.record.users, **given))


def idle_preview(day, zone, hour, thresholds=WIDE, **given):
    """The same, previewed."""
    return day.preview_hour(zone, hour, thresholds, **PRICES, **amounts(day.record.users, **given))


def idle_judge(day, zone, hour, thresholds=WIDE, quantity=None, **given):
    """The same, judged: zeros, if no quantities are given."""
    users = day.record.users
    return day.judge_hour(zone, hour, thresholds, **PRICES, **amounts(users, **given), quantity=[0] * users if quantity is None else quantity)


def case_a():
    """The day of case A before its hour, and what its hour is given."""
    return GasDay(3, 24), (Zone.H, 1, default_thresholds(1, Zone.H)), {**PRICES, **amounts(3, entry=ENTRY, exit=EXIT)}


def case_a_judged(quantity):
    """The quantities of its hour: of 5000000 kWh the exact shares are 3333333.33 and 1666666.67, and the third user did not cause."""
    day, hour, given = case_a()
    return judge_hour(day.record, day.state.table, *hour, **given, quantity=quantity)


def hour_of(record=Day(2, 24), table=None, zone=Zone.H, hour=1, thresholds=NONE, prices=None, call=settle_hour, **given):
    table = [0] * 256 if table is None else table
    return call(record, table, zone, hour, thresholds, **(prices or PRICES), **amounts(2, **given))


preview_of = partial(hour_of, call=preview_hour)


def judge_of(*record_and_table, quantity=(77, 77), **given):
    """Quantities that nobody caused, if none are given: so whatever refuses the hour comes before them."""
    return hour_of(*record_and_table, call=partial(judge_hour, quantity=quantity), **given)


def closing_of(record=Day(2, 24, ZoneDay(24)), table=None, zone=Zone.H, prices=None):
    table = [0] * 256 if table is None else table
    return close_zone(record, table, zone, **(prices or PRICES))


def written(hour=1, zone=Zone.H, users=None, **given):
    """The file of two users, without amounts but for those given."""
    return write_hour_file(hour, zone, users=users, **amounts(2, **given))


def table_with(place, position):
    return [position if at == place else 0 for at in range(256)]


PRICE_TOO_HIGH = {"excess_price": 10_000_001, "shortfall_price": 0}

# Number, and the call, of which it is given one or another: hour_of, preview_of or judge_of.
REFUSED_HOURS = [
    (2, lambda of: of(Day(129, 24))),
    (2, lambda of: of(Day(2, 22))),
    (2, lambda of: of(Day(2, 26), table=[])),
    (2, lambda of: of(Day(2, 24, ZoneDay(25)))),
    (2, lambda of: of(Day(2, 23, ZoneDay(), ZoneDay(24)))),
    (2, lambda of: of(Day(2, 25, ZoneDay(), ZoneDay(24, True)))),
    (2, lambda of: of(Day(2, 24, ZoneDay(), ZoneDay(23, True)))),
    (2, lambda of: of(Day(2, 24, ZoneDay(24, 2)), zone=Zone.L)),
    (2, lambda of: of(Day(2, 24, ZoneDay(sold=1)))),
    (2, lambda of: of(Day(2, 24, ZoneDay(bought=1)))),
    (2, lambda of: of(Day(2, 24, ZoneDay(), ZoneDay(sold=1)))),
    (2, lambda of: of(Day(2, 24, ZoneDay(), ZoneDay(bought=TOTAL_MOST)))),
    (2, lambda of: of(Day(2, 24, ZoneDay(1, sold=-1)), hour=2)),
    (2, lambda of: of(Day(2, 24, ZoneDay(1, bought=-1)), hour=2)),
    (2, lambda of: of(Day(2, 24, ZoneDay(), ZoneDay(1, sold=-1)))),
    (2, lambda of: of(Day(2, 24, ZoneDay(), ZoneDay(1, bought=-1)))),
    (2, lambda of: of(Day(2, 24, ZoneDay(1, sold=TOTAL_MOST + 1)), hour=2)),
    (2, lambda of: of(Day(2, 24, ZoneDay(1, bought=TOTAL_MOST + 1)), hour=2)),
    (2, lambda of: of(Day(2, 24, ZoneDay(), ZoneDay(1, sold=TOTAL_MOST + 1)))),
    (2, lambda of: of(Day(2, 24, ZoneDay(), ZoneDay(1, bought=TOTAL_MOST + 1)))),
    (3, lambda of: of(table=[0] * 255)),
    (3, lambda of: of(table=[])),
    (3, lambda of: of(entry=[0, 0, 0])),
    (3, lambda of: of(exit=[0])),
    (3, lambda of: of(title=[])),
    (3, lambda of: of(pooling=[0] * 128)),
    (4, lambda of: of(zone=2)),
    (4, lambda of: of(zone=-1)),
    (5, lambda of: of(Day(2, 24, ZoneDay(24, True)), hour=25)),
    (6, lambda of: of(hour=2)),
    (6, lambda of: of(Day(2, 24, ZoneDay(24)), hour=25)),
    (6, lambda of: of(Day(2, 23, ZoneDay(23)), hour=24)),
    (6, lambda of: of(Day(2, 25, ZoneDay(25)), hour=26)),
    (7, lambda of: of(table=table_with(0, 1))),
    (7, lambda of: of(Day(2, 24, ZoneDay(1)), table_with(2, -1), hour=2)),
    (7, lambda of: of(Day(2, 24, ZoneDay(1)), table_with(1, 100_000_001), hour=2)),
    (8, lambda of: of(thresholds=Thresholds(1_000_000_001, 0))),
    (8, lambda of: of(thresholds=Thresholds(0, 1))),
    (8, lambda of: of(prices=PRICE_TOO_HIGH)),
    (9, lambda of: of(entry=[0, 50_000_001])),
    (9, lambda of: of(exit=[1, 0])),
    (9, lambda of: of(title=[0, -50_000_001])),
    (9, lambda of: of(pooling=[-100_000_001, 100_000_001])),
    (10, lambda of: of(pooling=[1, 0])),
    (11, lambda of: of(entry=[50_000_000, 0], title=[50_000_000, 0], pooling=[1, -1])),
]

# Number, and the call, hour_of or preview_of, that would bring a total past its bound. A judge adds nothing.
REFUSED_TOTALS = [
    (25, lambda of: of(Day(2, 24, ZoneDay(1, sold=TOTAL_MOST - 4)), hour=2, entry=[5, 0])),
    (25, lambda of: of(Day(2, 24, ZoneDay(1, bought=TOTAL_MOST)), hour=2, exit=[0, -1])),
    (25, lambda of: of(Day(2, 24, ZoneDay(), ZoneDay(1, sold=TOTAL_MOST)), zone=Zone.L, hour=2, title=[0, 1])),
    (25, lambda of: of(Day(2, 24, ZoneDay(), ZoneDay(1, bought=TOTAL_MOST - 1)), zone=Zone.L, hour=2, title=[-2, 0])),
]

# Number, and quantities for case A's hour.
REFUSED_QUANTITIES = [
    (3, []),
    (3, [3_333_333, 1_666_667]),
    (3, [3_333_333, 1_666_667, 0, 0]),
    (22, [3_333_333, 1_666_667, -1]),
    (22, [3_333_333, 1_666_666, 1]),
    (22, [-3_333_333, -1_666_667, 0]),
    (22, [5_000_001, -1, 0]),
    (22, [3_333_333, -(2**63), 0]),
    (22, [2**63 - 1, 2**63 - 1, 2**63 - 1]),
    (23, [3_333_332, 1_666_668, 0]),
    (23, [3_333_333, 1_666_665, 0]),
    (23, [0, 5_000_000, 0]),
    (23, [0, 0, 0]),
    (23, [2**63 - 1, 1_666_667, 0]),
    (24, [3_333_333, 1_666_666, 0]),
    (24, [3_333_334, 1_666_667, 0]),
]

# Number, name of the call, and the call.
REFUSED = [
    (1, "open_day", lambda: open_day(0, 24)),
    (1, "open_day", lambda: open_day(129, 24)),
    (1, "open_day", lambda: GasDay(-(2**63), 22)),
    (21, "open_day", lambda: open_day(2, 22)),
    (21, "open_day", lambda: open_day(128, 26)),
    (21, "open_day", lambda: GasDay(1, -24)),
    (4, "default_thresholds", lambda: default_thresholds(1, 2)),
    (8, "default_thresholds", lambda: default_thresholds(13, 0)),
    (8, "default_thresholds", lambda: default_thresholds(0, Zone.L)),
    *((number, "settle_hour", partial(call, hour_of)) for number, call in REFUSED_HOURS),
    *((number, "preview_hour", partial(call, preview_of)) for number, call in REFUSED_HOURS),
    *((number, "judge_hour", partial(call, judge_of)) for number, call in REFUSED_HOURS),
    *((number, "settle_hour", partial(call, hour_of)) for number, call in REFUSED_TOTALS),
    *((number, "preview_hour", partial(call, preview_of)) for number, call in REFUSED_TOTALS),
    *((number, "judge_hour", partial(case_a_judged, quantity)) for number, quantity in REFUSED_QUANTITIES),
    (22, "judge_hour", lambda: judge_of(quantity=[1, -1])),
    (23, "judge_hour", lambda: judge_of(entry=[4, 2], thresholds=Thresholds(3, 0), quantity=[3, 0])),
    (2, "close_zone", lambda: closing_of(Day(0, 24, ZoneDay(24)))),
    (2, "close_zone", lambda: closing_of(Day(2**63 - 1, 24, ZoneDay(24)))),
    (3, "close_zone", lambda: closing_of(table=[0] * 257)),
    (4, "close_zone", lambda: closing_of(zone=2)),
    (5, "close_zone", lambda: closing_of(Day(2, 24, ZoneDay(24, True)))),
    (2, "close_zone", lambda: closing_of(Day(2, 22, ZoneDay(22)))),
    (2, "close_zone", lambda: closing_of(Day(2, 23, ZoneDay(24)))),
    (2, "close_zone", lambda: closing_of(Day(2, 24, ZoneDay(24), ZoneDay(sold=1)))),
    (2, "close_zone", lambda: closing_of(Day(2, 24, ZoneDay(24), ZoneDay(bought=1)))),
    (2, "close_zone", lambda: closing_of(Day(2, 24, ZoneDay(24, sold=-1)))),
    (2, "close_zone", lambda: closing_of(Day(2, 24, ZoneDay(24, bought=TOTAL_MOST + 1)))),
    (6, "close_zone", lambda: closing_of(zone=Zone.L)),
    (6, "close_zone", lambda: closing_of(Day(2, 25, ZoneDay(24)))),
    (7, "close_zone", lambda: closing_of(table=table_with(128, 1))),
    (8, "close_zone", lambda: closing_of(prices=PRICE_TOO_HIGH)),
    (25, "close_zone", lambda: closing_of(Day(2, 24, ZoneDay(24, sold=TOTAL_MOST)), table_with(0, 1))),
    (25, "close_zone", lambda: closing_of(Day(2, 24, ZoneDay(), ZoneDay(24, bought=TOTAL_MOST - 1)), table_with(129, -2), Zone.L)),
    (13, "read_hour_file", lambda: read_hour_file(b"")),
    (14, "read_hour_file", lambda: read_hour_file(HEADER + b"1,H,0,0,0,0\r\n")),
    (15, "read_hour_file", lambda: read_hour_file(HEADER + b"1,h,0,0,0,0,0\r\n")),
    (16, "read_hour_file", lambda: read_hour_file(HEADER + b"1,H,1,0,0,0,0\r\n")),
    (17, "read_hour_file", lambda: read_hour_file(HEADER)),
    (18, "write_hour_file", lambda: written(users=0)),
    (18, "write_hour_file", lambda: written(users=3)),
    (18, "write_hour_file", lambda: written(users=-2)),
    (18, "write_hour_file", lambda: write_hour_file(1, 0, **amounts(0))),
    (18, "write_hour_file", lambda: write_hour_file(1, 0, **amounts(129))),
    (18, "write_hour_file", lambda: written(zone=2)),
    (18, "write_hour_file", lambda: written(zone=-1, hour=-1)),
    (18, "write_hour_file", lambda: written(entry=[0])),
    (18, "write_hour_file", lambda: written(exit=[])),
    (18, "write_hour_file", lambda: written(title=[0, 0, 0])),
    (18, "write_hour_file", lambda: written(pooling=[0] * 128)),
    (19, "write_hour_file", lambda: written(hour=-1)),
    (19, "write_hour_file", lambda: written(hour=1_000_000_000)),
    (19, "write_hour_file", lambda: written(entry=[1_000_000_000, 0])),
    (19, "write_hour_file", lambda: written(exit=[0, -1_000_000_000])),
    (19, "write_hour_file", lambda: written(title=[-(2**63), 0])),
    (19, "write_hour_file", lambda: written(pooling=[0, 2**63 - 1])),
]
