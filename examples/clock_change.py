"""Gas Days of 23, 24 and 25 hours: the length is told to the opening, by the day's begin and end in UTC. Every hour of the H zone is settled, the hour after the last is
refused, and the zone is closed; before the last hour it is not.

Usage: PYTHONPATH=bindings/python python3 examples/clock_change.py
"""

from datetime import datetime, timedelta

from gas_day import GasDay, Refusal, Thresholds, Zone

DAYS = [("2026-03-28 05:00", "2026-03-29 04:00"), ("2026-03-29 04:00", "2026-03-30 04:00"), ("2026-10-24 04:00", "2026-10-25 05:00")]
PRICES = {"excess_price": 20_000, "shortfall_price": 25_000}


def cause_of(call, *arguments):
    """The number of the cause that a call is refused by; 0 if it is accepted."""
    try:
        call(*arguments)
    except Refusal as refusal:
        return refusal.number
    return 0


def run(begin, end):
    """The line of a day of two users, of which one is given 5 kWh in each hour and the other takes 2."""
    length = (datetime.fromisoformat(end) - datetime.fromisoformat(begin)) // timedelta(hours=1)
    day = GasDay(users=2, length=length)

    def settle(hour):
        return day.settle_hour(Zone.H, hour, Thresholds(40, 0), **PRICES, entry=[5, 0], exit=[0, -2], title=[0, 0], pooling=[0, 0])

    for hour in range(1, length):
        settle(hour)
    early = cause_of(lambda: day.close_zone(Zone.H, **PRICES))
    settle(length)
    late = cause_of(settle, length + 1)
    closed = day.close_zone(Zone.H, **PRICES)
    return f"{begin} to {end}: {length} hours; closing an hour early: cause {early}; hour {length + 1}: cause {late}; closed with {closed.sold} sold, {closed.bought} bought"


for day in DAYS:
    print(run(*day))
