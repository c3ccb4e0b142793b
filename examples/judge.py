"""An operator's own quantities, judged. The desk has a preview of the hour of the requirements' case A, with its own quantities, and judges those that the operator might
send: another rounding may be right too, a list that is wrong is refused by the first cause that applies, and the day stays as it was.

Usage: PYTHONPATH=bindings/python python3 examples/judge.py
"""

from gas_day import LENGTH_USUAL, GasDay, Refusal, Zone, default_thresholds

TERMS = {"zone": Zone.H, "hour": 1, "thresholds": default_thresholds(month=1, zone=Zone.H), "excess_price": 20_000, "shortfall_price": 25_000}
AMOUNTS = {"entry": [30_000_000, 15_000_000, 2_000_000], "exit": [-10_000_000, -5_000_000, -5_000_000], "title": [0, 0, 0], "pooling": [0, 0, 0]}

# The exact shares of the two users who caused are 3333333.33 and 1666666.67 kWh.
SENT = [
    ("the kWh left over given to place 1", [3_333_333, 1_666_667, 0]),
    ("the kWh left over given to place 0", [3_333_334, 1_666_666, 0]),
    ("shared over all users", [3_030_303, 1_515_152, 454_545]),
    ("rounded to tens", [3_333_330, 1_666_670, 0]),
    ("all rounded down", [3_333_333, 1_666_666, 0]),
]


def judged(day, quantity):
    try:
        day.judge_hour(**TERMS, **AMOUNTS, quantity=quantity)
    except Refusal as refusal:
        return refusal
    return "accepted"


day = GasDay(users=3, length=LENGTH_USUAL)
ours = day.preview_hour(**TERMS, **AMOUNTS)
print(f"{ours.outcome.side.name.lower()} of {ours.outcome.total} kWh by {ours.outcome.causers}; our own quantities: {ours.quantity}")
for how, quantity in SENT:
    print(f"{how}: {quantity}: {judged(day, quantity)}")
print(f"after them: {day.record.h.hours} hours done, positions {day.positions(Zone.H)}")
