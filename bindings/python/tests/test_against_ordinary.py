"""The calls that tests/vectors prints, with what the ordinary settlement answers: by the functions, and whole days by a GasDay. GAS_DAY_VECTORS names the file."""

import json
import os
import unittest
from array import array
from collections import Counter

import gas_day
from gas_day import Day, GasDay, HourFile, Outcome, Refusal, Side, State, Thresholds, Zone, ZoneDay

LISTS = ("entry", "exit", "title", "pooling")
CAUSES = {
    "open_day": [0, 1, 21],
    "default_thresholds": [0, 4, 8],
    "settle_hour": [0, *range(2, 12), 25],
    "preview_hour": [0, *range(2, 12), 25],
    "judge_hour": [0, *range(2, 12), 22, 23, 24],
    "close_zone": [0, *range(2, 9), 25],
    "read_hour_file": [0, *range(13, 18)],
    "write_hour_file": [0, 18, 19],
}


def record(numbers):
    users, length, *zones = numbers
    return Day(users, length, ZoneDay(*zones[:4]), ZoneDay(*zones[4:]))


def answer(call, *arguments, **more):
    """What a call answers, or the number and the call's name of its refusal."""
    try:
        return call(*arguments, **more)
    except Refusal as refusal:
        return refusal.number, refusal.call


class AgainstOrdinary(unittest.TestCase):
    maxDiff = None

    def test_every_call(self):
        counts = Counter()
        self.day, self.gone_on = None, 0
        with open(os.environ["GAS_DAY_VECTORS"], encoding="ascii") as vectors:
            for line in vectors:
                vector = json.loads(line)
                counts[vector["call"], vector["cause"]] += 1
                getattr(self, vector["call"])(vector)
        self.assertEqual(set(counts), {(call, cause) for call, causes in CAUSES.items() for cause in causes})
        self.assertGreaterEqual(min(counts.values()), 6)
        self.assertGreaterEqual(self.gone_on, 1_200)
        print(f"python: {sum(counts.values())} calls, no difference", flush=True)

    def open_day(self, vector):
        refused = (vector["cause"], "open_day")
        given = vector["users"], vector["length"]
        opened = State(Day(*given, ZoneDay(0, False, 0, 0), ZoneDay(0, False, 0, 0)), 256 * [0])
        self.assertEqual(answer(gas_day.open_day, *given), refused if vector["cause"] else opened)
        if not vector["cause"]:
            self.day = GasDay(*given)

    def default_thresholds(self, vector):
        refused = (vector["cause"], "default_thresholds")
        accepted = Thresholds(vector["upper"], vector["lower"])
        self.assertEqual(answer(gas_day.default_thresholds, vector["month"], vector["zone"]), refused if vector["cause"] else accepted)

    def settle_hour(self, vector):
        self.on_day(vector, gas_day.HourDone(*self.left(vector), self.outcome(vector), vector["quantity"], vector["money"]), *self.hour(vector))

    def preview_hour(self, vector):
        self.on_day(vector, gas_day.HourPreview(self.outcome(vector), vector["quantity"], vector["money"], vector["after"]), *self.hour(vector))

    def judge_hour(self, vector):
        """Accepted, it answers nothing."""
        terms, lists = self.hour(vector)
        self.on_day(vector, None, terms, {**lists, "quantity": vector["quantity"]})

    def close_zone(self, vector):
        self.on_day(vector, gas_day.ClosingDone(*self.left(vector), vector["sold"], vector["bought"], vector["quantity"], vector["money"]), (vector["zone"],))

    def left(self, vector):
        """Record and table after the call."""
        return record(vector["day_after"]), vector["table_after"]

    def outcome(self, vector):
        return Outcome(Side(vector["side"]), vector["total"], vector["causers"])

    def hour(self, vector):
        """What an hour, its preview and its judge are told, and their amounts."""
        terms = (vector["zone"], vector["hour"], Thresholds(vector["upper"], vector["lower"]))
        return terms, {kind: vector[kind] for kind in LISTS}

    def on_day(self, vector, accepted, terms, lists={}):
        """An hour, its preview, its judge or a closing: by the function, from lists and from arrays; and by the day, if it goes on with it."""
        call, before = vector["call"], (record(vector["day"]), vector["table"])
        prices = {price: vector[price] for price in ("excess_price", "shortfall_price")}
        expected = (vector["cause"], call) if vector["cause"] else accepted
        arrays = {name: array("q", numbers) for name, numbers in lists.items()}
        self.assertEqual(answer(getattr(gas_day, call), *before, *terms, **prices, **lists), expected)
        self.assertEqual(answer(getattr(gas_day, call), before[0], array("q", before[1]), *terms, **prices, **arrays), expected)
        if vector["goes_on"]:
            self.gone_on += 1
            self.assertEqual(self.day.state, State(*before))
            self.assertEqual(answer(getattr(self.day, call), *terms, **prices, **lists), expected)
            self.assertEqual(self.day.state, State(*self.left(vector)))

    def read_hour_file(self, vector):
        refused = (vector["cause"], "read_hour_file")
        read = HourFile(vector["hour"], Zone(vector["zone"]), *(vector[kind] for kind in LISTS))
        self.assertEqual(answer(gas_day.read_hour_file, bytes(vector["file"])), refused if vector["cause"] else read)

    def write_hour_file(self, vector):
        """With the users that are given; and without, if they are as many as the entries. A file that is written is read to the same again."""
        terms, lists = (vector["hour"], vector["zone"]), {kind: vector[kind] for kind in LISTS}
        expected = (vector["cause"], "write_hour_file") if vector["cause"] else bytes(vector["file"])
        self.assertEqual(answer(gas_day.write_hour_file, *terms, users=vector["users"], **lists), expected)
        arrays = {kind: array("q", numbers) for kind, numbers in lists.items()}
        if vector["users"] == len(vector["entry"]):
            self.assertEqual(answer(gas_day.write_hour_file, *terms, **arrays), expected)
        if not vector["cause"]:
            self.assertEqual(gas_day.read_hour_file(expected), HourFile(vector["hour"], Zone(vector["zone"]), **lists))


if __name__ == "__main__":
    unittest.main()
