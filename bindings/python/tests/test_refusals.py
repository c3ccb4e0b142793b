"""Every cause as its exception, and what a refused call leaves."""

import pickle
import unittest
from ctypes import c_int64
from dataclasses import replace
from functools import partial

import gas_day
from gas_day import TOTAL_MOST, Cause, Day, GasDay, Refusal, State, Thresholds, Zone, ZoneDay
from worked import FILE_A, NONE, PRICES, REFUSED, amounts, case_a, idle_hour, idle_judge, idle_preview


class EveryCause(unittest.TestCase):
    def test_is_raised_with_number_words_and_call(self):
        for number, call, refused_call in REFUSED:
            with self.subTest(number=number, call=call), self.assertRaises(Refusal) as refused:
                refused_call()
            refusal = refused.exception
            self.assertEqual((refusal.number, refusal.call), (number, call))
            self.assertEqual(refusal.cause, Cause(number))
            self.assertEqual(refusal.words, Cause(number).words)
            self.assertEqual(str(refusal), f"{call} refused by cause {number}: {refusal.words}")

    def test_is_tried_but_for_two(self):
        tried = {number for number, _, _ in REFUSED}
        self.assertEqual(tried, {int(cause) for cause in Cause} - {12, 20})

    def test_the_readers_lists_are_of_their_length(self):
        """Cause 12 does not come up in Python. The library has it: with lists of 127 places, which only this test lends."""
        lists = [(c_int64 * 127)() for _ in range(4)]
        data = gas_day._library.gas_day_read_hour_file(*gas_day._lent((gas_day.c_uint8 * len(FILE_A))(*FILE_A)), *gas_day._lent(*lists))
        with self.assertRaises(Refusal) as refused:
            gas_day._accepted("read_hour_file", data)
        self.assertEqual(refused.exception.number, 12)

    def test_the_writers_bytes_are_enough(self):
        """Cause 20 does not come up in Python, not for the longest file. The library has it: with a byte too few, which only this test lends."""
        longest = {"hour": 999_999_999, "zone": 1, **amounts(128, **{kind: 128 * [-999_999_999] for kind in ("entry", "exit", "title", "pooling")})}
        file = gas_day.write_hour_file(**longest)
        self.assertEqual(len(file), 25 + 58 * 128 + 274)
        lists = [(c_int64 * 128)(*longest[kind]) for kind in ("entry", "exit", "title", "pooling")]
        data = gas_day._library.gas_day_write_hour_file(999_999_999, 1, 128, *gas_day._lent(*lists, (gas_day.c_uint8 * (len(file) - 1))()))
        with self.assertRaises(Refusal) as refused:
            gas_day._accepted("write_hour_file", data)
        self.assertEqual(refused.exception.number, 20)

    def test_words_and_names(self):
        self.assertEqual([int(cause) for cause in Cause], list(range(1, 26)))
        self.assertEqual(Cause.POOLING.words, "pooling amounts do not add to zero")
        self.assertEqual(str(Refusal("close_zone", Cause.CLOSED)), "close_zone refused by cause 5: zone closed")

    def test_everything_that_a_caller_needs_is_exported(self):
        names = {}
        exec("from gas_day import *", names)
        public = {name for name in vars(gas_day) if name[0].isupper() and getattr(vars(gas_day)[name], "__module__", "gas_day") == "gas_day"}
        self.assertEqual(public - {"Numbers"} - set(names), set())
        calls = {"open_day", "default_thresholds", "settle_hour", "preview_hour", "judge_hour", "close_zone", "read_hour_file", "write_hour_file"}
        self.assertLessEqual(calls, set(names))

    def test_can_be_stored(self):
        refusal = pickle.loads(pickle.dumps(Refusal("settle_hour", Cause.HOUR)))
        self.assertEqual((refusal.call, refusal.cause, refusal.words), ("settle_hour", Cause.HOUR, Cause.HOUR.words))


class LeavesTheDayAsItWas(unittest.TestCase):
    def setUp(self):
        self.day, hour, given = case_a()
        self.day.settle_hour(*hour, **given)

    def refused(self, number, call):
        before = self.day.state
        with self.assertRaises(Refusal) as refused:
            call()
        self.assertEqual(refused.exception.number, number)
        self.assertEqual(self.day.state, before)

    def at_the_bound(self):
        """The day with its zone's totals at their bound, so that the last cause of what sells or buys is 25."""
        day, table = self.day.record, self.day.state.table
        self.day = GasDay.resume(State(replace(day, h=replace(day.h, sold=TOTAL_MOST, bought=TOTAL_MOST)), table))

    def test_every_cause_of_an_hour_of_its_preview_and_of_its_judge(self):
        self.every_cause_of_an_hour()

    def test_every_cause_of_an_hour_at_the_bound(self):
        self.at_the_bound()
        for idle in (idle_hour, idle_preview):
            self.refused(25, lambda: idle(self.day, 0, 2, NONE))
        self.every_cause_of_an_hour()

    def every_cause_of_an_hour(self):
        """The judge's quantities are wrong too, which comes last. The hour that is accepted at the end sells nothing."""
        day, wrong = self.day, {"quantity": [77, 77, 77]}
        calls = ((day.settle_hour, idle_hour), (day.preview_hour, idle_preview), (partial(day.judge_hour, **wrong), partial(idle_judge, **wrong)))
        for call, idle in calls:
            self.refused(3, lambda: call(0, 2, NONE, **PRICES, **amounts(4)))
            self.refused(4, lambda: idle(day, 2, 2, NONE))
            self.refused(6, lambda: idle(day, 0, 1, NONE))
            self.refused(6, lambda: idle(day, 0, 3, NONE))
            self.refused(8, lambda: idle(day, 0, 2, Thresholds(-1, 0)))
            self.refused(9, lambda: idle(day, 0, 2, NONE, entry=[0, -1, 0]))
            self.refused(10, lambda: idle(day, 0, 2, NONE, pooling=[0, 0, 5]))
            self.refused(11, lambda: idle(day, 0, 2, NONE, title=[50_000_000, 0, 0], entry=[50_000_000, 0, 0]))
        self.refused(3, lambda: idle_judge(day, 2, 2, quantity=[0, 0]))
        self.refused(22, lambda: idle_judge(day, 0, 2, **wrong))
        self.assertEqual(idle_hour(day, 0, 2).day.h.hours, 2)

    def test_every_cause_of_quantities(self):
        """The users stand at 16666667, 8333333 and -3000000: of 5 kWh above a threshold the exact shares are 3.33 and 1.67."""
        judge = partial(idle_judge, self.day, 0, 2, Thresholds(21_999_995, 0))
        for number, quantity in ((22, [3, 1, 1]), (22, [6, -1, 0]), (23, [5, 0, 0]), (23, [3, 0, 0]), (24, [3, 1, 0]), (24, [4, 2, 0])):
            self.refused(number, lambda: judge(quantity=quantity))
        for quantity in ([3, 2, 0], [4, 1, 0]):
            self.assertIsNone(judge(quantity=quantity))

    def test_every_cause_of_a_closing(self):
        day = self.day
        self.refused(4, lambda: day.close_zone(-1, **PRICES))
        self.refused(6, lambda: day.close_zone(0, **PRICES))
        for hour in range(2, 25):
            idle_hour(day, 0, hour)
        self.refused(8, lambda: day.close_zone(0, excess_price=0, shortfall_price=-10_000_001))
        self.at_the_bound()
        self.refused(8, lambda: self.day.close_zone(0, excess_price=0, shortfall_price=-10_000_001))
        self.refused(25, lambda: self.day.close_zone(0, **PRICES))
        self.day = day
        day.close_zone(0, **PRICES)
        self.refused(5, lambda: day.close_zone(0, **PRICES))
        self.refused(5, lambda: idle_hour(day, 0, 24))
        self.refused(5, lambda: idle_preview(day, 0, 24))
        self.refused(5, lambda: idle_judge(day, 0, 24))
        self.refused(6, lambda: idle_hour(day, Zone.L, 2))

    def test_a_zone_that_is_none(self):
        for zone in (2, -1):
            with self.assertRaises(Refusal) as refused:
                self.day.positions(zone)
            self.assertEqual(str(refused.exception), "positions refused by cause 4: zone not 0 or 1")

    def test_a_day_that_no_opening_opened(self):
        self.day = GasDay.resume(State(self.day.record, 256 * [1]))
        for idle in (idle_hour, idle_preview, idle_judge):
            self.refused(7, lambda: idle(self.day, 0, 2))
            self.refused(7, lambda: idle(self.day, Zone.L, 1))
        self.day = GasDay.resume(State(self.day.record, 255 * [0]))
        for idle in (idle_hour, idle_preview, idle_judge):
            self.refused(3, lambda: idle(self.day, 0, 2))

    def test_a_wrong_argument(self):
        before = self.day.state
        for wrong, error in ((1.0, TypeError), (None, TypeError), ("1", TypeError), (2**63, OverflowError)):
            for idle in (idle_hour, idle_preview, idle_judge):
                with self.assertRaises(error):
                    idle(self.day, 0, 2, entry=[0, 0, wrong])
            with self.assertRaises(error):
                idle_judge(self.day, 0, 2, quantity=[0, 0, wrong])
            with self.assertRaises(error):
                self.day.close_zone(0, excess_price=wrong, shortfall_price=0)
            self.assertEqual(self.day.state, before)


class Totals(unittest.TestCase):
    """Near their bound, where only a record that was altered comes: two users at 5 and -2 in a zone with these totals; those of the other zone are at the bound."""

    def altered(self, zone, hours, totals):
        zones, table = 2 * [ZoneDay(1, False, TOTAL_MOST, TOTAL_MOST)], 256 * [0]
        zones[zone] = ZoneDay(hours, False, *totals)
        table[128 * zone : 128 * zone + 2] = [5, -2]
        return GasDay.resume(State(Day(2, 24, *zones), table))

    def refused(self, day, call):
        before = day.state
        with self.assertRaises(Refusal) as refused:
            call(day)
        self.assertEqual((refused.exception.number, day.state), (25, before))

    def brings(self, call, hours, totals, after):
        """The call brings such totals, in either zone, to those after it, and changes none of the other zone; or it is refused by cause 25."""
        for zone in Zone:
            day = self.altered(zone, hours, totals)
            if after is None:
                self.refused(day, lambda day: call(day, zone))
                continue
            others = day.record
            done = call(day, zone)
            zones, before = (day.record.h, day.record.l), (others.h, others.l)
            self.assertEqual((zones[zone].sold, zones[zone].bought), after)
            self.assertEqual(zones[1 - zone], before[1 - zone])
            self.assertEqual(done.day, day.record)

    def test_of_an_hour(self):
        """It sells 3, and it buys 4."""
        sells, buys = lambda day, zone: idle_hour(day, zone, 2, NONE), lambda day, zone: idle_hour(day, zone, 2, NONE, exit=[0, -7])
        for totals, after in (((0, 0), (3, 0)), ((TOTAL_MOST - 3, TOTAL_MOST), (TOTAL_MOST, TOTAL_MOST)), ((TOTAL_MOST - 2, 0), None), ((TOTAL_MOST, 0), None)):
            self.brings(sells, 1, totals, after)
        for totals, after in (((0, 0), (0, 4)), ((TOTAL_MOST, TOTAL_MOST - 4), (TOTAL_MOST, TOTAL_MOST)), ((0, TOTAL_MOST - 3), None), ((0, TOTAL_MOST), None)):
            self.brings(buys, 1, totals, after)

    def test_of_a_closing(self):
        """It sells 5 and buys 2."""
        most, close = (TOTAL_MOST, TOTAL_MOST), lambda day, zone: day.close_zone(zone, **PRICES)
        for totals, after in (((0, 0), (5, 2)), ((TOTAL_MOST - 5, TOTAL_MOST - 2), most), ((TOTAL_MOST - 4, 0), None), ((0, TOTAL_MOST - 1), None), (most, None)):
            self.brings(close, 24, totals, after)

    def test_of_a_preview(self):
        """Where the hour is refused it is, and else it shows what it shows without totals and leaves the day."""
        for zone in Zone:
            seen = idle_preview(self.altered(zone, 1, (0, 0)), zone, 2, NONE)
            for totals in ((TOTAL_MOST - 3, TOTAL_MOST), (0, TOTAL_MOST)):
                day = self.altered(zone, 1, totals)
                before = day.state
                self.assertEqual((idle_preview(day, zone, 2, NONE), day.state), (seen, before))
            for totals in ((TOTAL_MOST - 2, 0), (TOTAL_MOST, TOTAL_MOST)):
                self.refused(self.altered(zone, 1, totals), lambda day: idle_preview(day, zone, 2, NONE))

    def test_not_of_a_judge(self):
        for zone in Zone:
            for totals in ((TOTAL_MOST - 3, 0), (TOTAL_MOST - 2, 0), (TOTAL_MOST, TOTAL_MOST)):
                day = self.altered(zone, 1, totals)
                before = day.state
                self.assertIsNone(idle_judge(day, zone, 2, NONE, quantity=[3, 0]))
                self.assertEqual(day.state, before)


if __name__ == "__main__":
    unittest.main()
