"""A dispatcher looks at an hour before it is booked. By the forecasts the market will be short, and the desk, which is the user at place 0, among those who cause it: the
preview says what it would have to buy, and for how much. If the user at place 2 sells it some gas in a title trade, it is less: that is previewed, and then booked. A trade
with a digit too many is refused.

Usage: PYTHONPATH=bindings/python python3 examples/preview.py
"""

from gas_day import LENGTH_USUAL, GasDay, Refusal, Zone, default_thresholds

DESK, SELLER = 0, 2
TERMS = {"thresholds": default_thresholds(month=1, zone=Zone.H), "excess_price": 20_000, "shortfall_price": 25_000}
FORECAST = {"entry": [10_000_000, 20_000_000, 30_000_000], "exit": [-28_000_000, -32_000_000, -24_000_000], "pooling": [0, 0, 0]}


def hour_with(traded):
    """Hour 1 by the forecasts, with so many kWh that the desk buys from the seller."""
    title = [0, 0, 0]
    title[DESK], title[SELLER] = traded, -traded
    return {"zone": Zone.H, "hour": 1, **TERMS, **FORECAST, "title": title}


def line(hour, position):
    """What an hour, previewed or booked, means for the desk, which has this position after it."""
    market, bought, paid = hour.outcome, -hour.quantity[DESK], -hour.money[DESK] // 1_000_000
    return f"{market.side.name.lower()} of {market.total} kWh by {market.causers}; the desk buys {bought} kWh for {paid} euros and stands at {position}"


def preview(day, traded):
    try:
        seen = day.preview_hour(**hour_with(traded))
    except Refusal as refusal:
        return refusal
    return line(seen, seen.after[DESK])


day = GasDay(users=3, length=LENGTH_USUAL)
for traded in (0, 6_000_000, 60_000_000):
    print(f"preview with {traded} kWh traded: {preview(day, traded)}")
print(f"before it is booked: {day.record.h.hours} hours done, positions {day.positions(Zone.H)}")
done = day.settle_hour(**hour_with(6_000_000))
print(f"booked with 6000000 kWh traded: {line(done, day.positions(Zone.H)[DESK])}")
print(f"after it is booked: {day.record.h.hours} hour done, positions {day.positions(Zone.H)}")
