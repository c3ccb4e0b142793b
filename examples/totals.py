"""What was sold and bought so far. A desk asks after each hour, and after each closing: the day record holds both for each zone. In the H zone user 0 brings in more gas than
user 1 takes out until hour 12, and less from then on; in the L zone both take out. At the end the record's totals are those of the quantities answered.

Usage: PYTHONPATH=bindings/python python3 examples/totals.py
"""

from gas_day import LENGTH_USUAL, GasDay, Zone, default_thresholds

PRICES = {"excess_price": 20_000, "shortfall_price": 25_000}


def amounts(zone, hour):
    if zone == Zone.L:
        entry, exit = [0, 0], [-1_000_000, -1_000_000]
    elif hour <= 12:
        entry, exit = [6_000_000, 0], [0, -2_000_000]
    else:
        entry, exit = [1_000_000, 0], [0, -7_000_000]
    return {"entry": entry, "exit": exit, "title": [0, 0], "pooling": [0, 0]}


def line(when, record):
    return f"{when}: " + "; ".join(f"{name} {zone.sold} sold, {zone.bought} bought" for name, zone in (("H", record.h), ("L", record.l)))


day = GasDay(users=2, length=LENGTH_USUAL)
answered = {zone: [] for zone in Zone}
for hour in range(1, LENGTH_USUAL + 1):
    for zone in Zone:
        done = day.settle_hour(zone, hour, default_thresholds(month=1, zone=zone), **PRICES, **amounts(zone, hour))
        answered[zone] += done.quantity
    print(line(f"hour {hour}", day.record))
for zone in Zone:
    answered[zone] += day.close_zone(zone, **PRICES).quantity
    print(line(f"{zone.name} closed", day.record))
sums = [f"{zone.name} {sum(q for q in answered[zone] if q > 0)} and {sum(q for q in answered[zone] if q < 0)}" for zone in Zone]
print(f"the quantities answered, those above zero and those below: {'; '.join(sums)}")
