"""Case A and a whole day, worked out by hand from the requirements."""

import copy
import doctest
import pickle
import threading
import unittest
import unittest.mock
from array import array

import gas_day
from gas_day import TOTAL_MOST, Day, GasDay, HourFile, HourPreview, Outcome, Refusal, Side, State, Thresholds, Zone, ZoneDay
from worked import ENTRY, EXIT, FILE_A, FILE_A_IN_MWH, HEADER, NONE, PRICES, WIDE, amounts, case_a, idle_hour, idle_judge, idle_preview


class CaseA(unittest.TestCase):
    def check(self, day, done):
        self.assertEqual(done.outcome, Outcome(Side.EXCESS, 5_000_000, [0, 1]))
        self.assertEqual(done.quantity, [3_333_333, 1_666_667, 0])
        self.assertEqual(done.money, [66_666_660_000, 33_333_340_000, 0])
        self.assertEqual(done.day, Day(3, 24, ZoneDay(1, False, 5_000_000, 0), ZoneDay(0, False, 0, 0)))
        self.assertEqual(done.table, [16_666_667, 8_333_333, -3_000_000] + 253 * [0])
        self.assertEqual((day.record, day.state, day.positions(Zone.H)), (done.day, State(done.day, done.table), done.table[:3]))

    def test_by_lists(self):
        day, hour, given = case_a()
        self.check(day, day.settle_hour(*hour, **given))

    def test_by_arrays_and_tuples(self):
        day, hour, given = case_a()
        given.update(entry=array("q", ENTRY), exit=array("i", EXIT), title=(0, 0, 0))
        self.check(day, day.settle_hour(*hour, **given))

    def test_by_its_file(self):
        file = gas_day.read_hour_file(FILE_A)
        self.assertEqual(file, HourFile(1, Zone.H, ENTRY, EXIT, [0, 0, 0], [0, 0, 0]))
        self.assertEqual(gas_day.read_hour_file(memoryview(FILE_A)), gas_day.read_hour_file(bytearray(FILE_A)))
        day = GasDay(file.users, 24)
        self.check(day, day.settle_file(file, gas_day.default_thresholds(1, file.zone), **PRICES))

    def test_by_its_file_in_mwh(self):
        file = gas_day.read_hour_file(FILE_A_IN_MWH)
        self.assertEqual(file, gas_day.read_hour_file(FILE_A))
        day = GasDay(file.users, 24)
        self.check(day, day.settle_file(file, gas_day.default_thresholds(1, file.zone), **PRICES))

    def test_by_a_file_of_both_units(self):
        file = gas_day.read_hour_file(HEADER + b"1,L,0,12.345,-12345,0,0.000\r\n1,L,1,7,-0.005,999999.999,-999999999")
        self.assertEqual(file, HourFile(1, Zone.L, [12_345, 7], [-12_345, -5], [0, 999_999_999], [0, -999_999_999]))
        with self.assertRaises(Refusal) as refused:
            gas_day.read_hour_file(HEADER + b"1,L,0,12.3,0,0,0")
        self.assertEqual(refused.exception.number, 15)

    def test_by_a_file_with_every_amount(self):
        file = gas_day.read_hour_file(HEADER + b"1,L,0,100,-10,5,2\r\n1,L,1,0,0,0,-2")
        self.assertEqual(file, HourFile(1, Zone.L, [100, 0], [-10, 0], [5, 0], [2, -2]))
        day = GasDay(2, 24)
        self.assertEqual(day.settle_file(file, Thresholds(90, 0), excess_price=3, shortfall_price=0).money, [15, 0])
        self.assertEqual((day.positions(Zone.H), day.positions(Zone.L)), ([0, 0], [92, -2]))
        other = HourFile(2, Zone.L, [0, 0], [0, 0], [1, 1], [-1, 1])
        day.settle_file(other, WIDE, excess_price=0, shortfall_price=0)
        self.assertEqual(day.positions(Zone.L), [92, 0])

    def test_by_the_functions(self):
        opened = gas_day.open_day(3, 24)
        self.assertEqual(opened, State(Day(3, 24, ZoneDay(0, False, 0, 0), ZoneDay(0, False, 0, 0)), 256 * [0]))
        _, hour, given = case_a()
        lists = {name: list(value) for name, value in given.items() if isinstance(value, list)}
        done = gas_day.settle_hour(opened.day, opened.table, *hour, **given)
        self.check(GasDay.resume(State(done.day, done.table)), done)
        self.assertEqual(opened, gas_day.open_day(3, 24))
        self.assertEqual({name: given[name] for name in lists}, lists)

    def test_previewed(self):
        """By a day and by the function, from lists and from arrays; and again. Nothing that is given is changed."""
        expected = HourPreview(
            outcome=Outcome(Side.EXCESS, 5_000_000, [0, 1]),
            quantity=[3_333_333, 1_666_667, 0],
            money=[66_666_660_000, 33_333_340_000, 0],
            after=[16_666_667, 8_333_333, -3_000_000],
        )
        day, hour, given = case_a()
        opened, arrays = gas_day.open_day(3, 24), {**given, "entry": array("q", ENTRY), "exit": tuple(EXIT)}
        for of_kind in (given, arrays, given):
            self.assertEqual(day.preview_hour(*hour, **of_kind), expected)
            self.assertEqual(gas_day.preview_hour(opened.day, opened.table, *hour, **of_kind), expected)
            self.assertEqual(gas_day.preview_hour(opened.day, array("q", opened.table), *hour, **of_kind), expected)
        self.assertEqual((day.state, opened, given), (gas_day.open_day(3, 24), gas_day.open_day(3, 24), case_a()[2]))
        self.check(day, day.settle_hour(*hour, **given))

    def test_judged(self):
        """Our own quantities, and the same rounded in the other way: by a day and by the function, from lists, tuples and arrays. Nothing that is given is changed."""
        day, hour, given = case_a()
        opened = gas_day.open_day(3, 24)
        for quantity in ([3_333_333, 1_666_667, 0], [3_333_334, 1_666_666, 0]):
            for judged in (quantity, tuple(quantity), array("q", quantity), array("i", quantity)):
                before = copy.copy(judged)
                self.assertIsNone(day.judge_hour(*hour, **given, quantity=judged))
                self.assertIsNone(gas_day.judge_hour(opened.day, opened.table, *hour, **given, quantity=judged))
                self.assertIsNone(gas_day.judge_hour(opened.day, array("q", opened.table), *hour, **given, quantity=judged))
                self.assertEqual(judged, before)
        self.assertEqual((day.state, opened, given), (gas_day.open_day(3, 24), gas_day.open_day(3, 24), case_a()[2]))
        self.check(day, day.settle_hour(*hour, **given))

    def test_shown(self):
        day, hour, given = case_a()
        seen = day.preview_hour(*hour, **given)
        self.assertEqual(
            repr(seen),
            "HourPreview(outcome=Outcome(side=<Side.EXCESS: 1>, total=5000000, causers=[0, 1]), "
            "quantity=[3333333, 1666667, 0], money=[66666660000, 33333340000, 0], after=[16666667, 8333333, -3000000])",
        )
        done = day.settle_hour(*hour, **given)
        self.assertEqual(
            repr(done),
            "HourDone(day=Day(users=3, length=24, h=ZoneDay(hours=1, closed=False, sold=5000000, bought=0), "
            "l=ZoneDay(hours=0, closed=False, sold=0, bought=0)), "
            "outcome=Outcome(side=<Side.EXCESS: 1>, total=5000000, causers=[0, 1]), "
            "quantity=[3333333, 1666667, 0], money=[66666660000, 33333340000, 0])",
        )
        self.assertEqual(repr(day), f"<GasDay {done.day!r}>")


class WrittenFiles(unittest.TestCase):
    def test_case_a(self):
        self.assertEqual(gas_day.write_hour_file(1, Zone.H, entry=ENTRY, exit=EXIT, title=[0, 0, 0], pooling=[0, 0, 0]), FILE_A)
        given = {"entry": array("q", ENTRY), "exit": array("i", EXIT), "title": (0, 0, 0), "pooling": [0, 0, 0]}
        self.assertEqual(gas_day.write_hour_file(hour=1, zone=0, users=3, **given), FILE_A)

    def test_every_amount(self):
        given = {"entry": [1, 999_999_999], "exit": [-2, -999_999_999], "title": [3, 0], "pooling": [-4, 10]}
        file = gas_day.write_hour_file(999_999_999, Zone.L, **given)
        self.assertIs(type(file), bytes)
        self.assertEqual(file, HEADER + b"999999999,L,0,1,-2,3,-4\r\n999999999,L,1,999999999,-999999999,0,10\r\n")
        self.assertEqual(gas_day.read_hour_file(file), HourFile(999_999_999, Zone.L, **given))
        self.assertEqual(given, {"entry": [1, 999_999_999], "exit": [-2, -999_999_999], "title": [3, 0], "pooling": [-4, 10]})

    def test_of_every_number_of_users(self):
        for users in range(1, 129):
            lists = [[sign * ((7 * place + 1) ** power % 10**9) for place in range(users)] for power, sign in ((1, 1), (2, -1), (3, 1), (4, -1))]
            expected = HourFile(users - 1, Zone(users % 2), *lists)
            given = {kind: getattr(expected, kind) for kind in ("entry", "exit", "title", "pooling")}
            self.assertEqual(gas_day.read_hour_file(gas_day.write_hour_file(users - 1, users % 2, **given)), expected)


class Documentation(unittest.TestCase):
    def test_its_examples(self):
        found = doctest.testmod(gas_day)
        self.assertEqual(found.failed, 0)
        self.assertGreaterEqual(found.attempted, 29)


class WholeDay(unittest.TestCase):
    """67 users, so that causers stand in both words of marks."""

    def settled(self, day, *terms, **given):
        """The hour, settled after its preview, which gives the same, and after a judge, which accepts the preview's quantities; both leave the day."""
        before = day.state
        seen = day.preview_hour(*terms, **given)
        self.assertIsNone(day.judge_hour(*terms, **given, quantity=seen.quantity))
        self.assertEqual(day.state, before)
        done = day.settle_hour(*terms, **given)
        self.assertEqual(seen, HourPreview(done.outcome, done.quantity, done.money, day.positions(terms[0])))
        return done

    def first_hours(self, day):
        # H: places 1, 64, 65 and 66 at 10, place 2 at -4: a market of 36, 9 above 27; of the exact shares of 9 / 4 the spare kWh goes to place 1.
        of = lambda **places: [places.get(f"at{g}", 0) for g in range(67)]
        done = self.settled(
            day, Zone.H, 1, Thresholds(27, -1000), excess_price=20, shortfall_price=25,
            entry=of(at1=15, at66=9), exit=of(at1=-5, at2=-3), title=of(at64=10, at65=10), pooling=of(at66=1, at2=-1))  # fmt: skip
        self.assertEqual(done.outcome, Outcome(Side.EXCESS, 9, [1, 64, 65, 66]))
        self.assertEqual(done.quantity, of(at1=3, at64=2, at65=2, at66=2))
        self.assertEqual(done.money, of(at1=60, at64=40, at65=40, at66=40))
        self.assertEqual(day.positions(Zone.H), of(at1=7, at2=-4, at64=8, at65=8, at66=8))
        self.assertEqual((day.record.h, day.record.l), (ZoneDay(1, False, 9, 0), ZoneDay(0, False, 0, 0)))
        # L: place 0 at -8, place 66 at -4: a market of -12, 6 below -6.
        done = self.settled(
            day, Zone.L, 1, Thresholds(1000, -6), excess_price=20, shortfall_price=25,
            entry=of(), exit=of(at0=-8), title=of(at66=-4), pooling=of())  # fmt: skip
        self.assertEqual(done.outcome, Outcome(Side.SHORTFALL, 6, [0, 66]))
        self.assertEqual(done.quantity, of(at0=-4, at66=-2))
        self.assertEqual(done.money, of(at0=-100, at66=-50))
        self.assertEqual(day.positions(Zone.L), of(at0=-4, at66=-2))
        self.assertEqual(day.state.table[128:], day.positions(Zone.L) + 61 * [0])
        self.assertEqual((day.record.h, day.record.l), (ZoneDay(1, False, 9, 0), ZoneDay(1, False, 0, 6)))

    def test_both_zones_to_their_closing(self):
        for length in (23, 24, 25):
            with self.subTest(length=length):
                self.to_the_closing(length)

    def to_the_closing(self, length):
        day = GasDay(67, length)
        self.first_hours(day)
        for hour in range(2, length + 1):
            for zone in Zone:
                with self.assertRaises(Refusal) as refused:
                    day.close_zone(zone, **PRICES)
                self.assertEqual(refused.exception.number, 6)
                done = self.settled(day, zone, hour, WIDE, **PRICES, **amounts(67))
                self.assertEqual(done.outcome, Outcome(Side.WITHIN, 0, []))
                self.assertEqual(done.quantity, 67 * [0])
                self.assertEqual(done.day, Day(67, length, ZoneDay(hour, False, 9, 0), ZoneDay(hour - 1 + zone, False, 0, 6)))
                self.assertEqual(day.record, done.day)
        for idle in (idle_preview, idle_judge, idle_hour):
            with self.assertRaises(Refusal) as refused:
                idle(day, Zone.H, length + 1)
            self.assertEqual(refused.exception.number, 6)
        done = day.close_zone(Zone.H, excess_price=30, shortfall_price=35)
        self.assertEqual((done.sold, done.bought), (31, 4))
        self.assertEqual([done.quantity[g] for g in (0, 1, 2, 64, 65, 66)], [0, 7, -4, 8, 8, 8])
        self.assertEqual([done.money[g] for g in (0, 1, 2, 64, 65, 66)], [0, 210, -140, 240, 240, 240])
        self.assertEqual(day.positions(Zone.H), 67 * [0])
        self.assertEqual((day.record.h, day.record.l), (ZoneDay(length, True, 40, 4), ZoneDay(length, False, 0, 6)))
        self.assertEqual((day.positions(Zone.L)[0], day.positions(Zone.L)[66]), (-4, -2))
        done = day.close_zone(Zone.L, excess_price=30, shortfall_price=-35)
        self.assertEqual((done.sold, done.bought), (0, 6))
        self.assertEqual((done.money[0], done.money[66]), (140, 70))
        self.assertEqual(day.state, State(Day(67, length, ZoneDay(length, True, 40, 4), ZoneDay(length, True, 0, 12)), 256 * [0]))
        self.assertEqual(State(done.day, done.table), day.state)

    def test_resumed_it_goes_on(self):
        day = GasDay(67, 24)
        self.first_hours(day)
        state = day.state
        copies = [GasDay.resume(state), GasDay.resume(State(state.day, array("q", state.table))), copy.copy(day), copy.deepcopy(day), pickle.loads(pickle.dumps(day))]
        title = {"title": [-3] + 66 * [0]}
        done = idle_hour(day, Zone.L, 2, Thresholds(0, 0), **title)
        self.assertEqual(done.quantity[0], -7)
        self.assertEqual(done.day.l, ZoneDay(2, False, 0, 15))  # place 66 buys its 2 as well
        for each in copies:
            self.assertEqual(each.state, state)
            self.assertEqual(idle_hour(each, Zone.L, 2, Thresholds(0, 0), **title), done)

    def test_what_is_given_and_answered_is_the_callers_own(self):
        day = GasDay(3, 24)
        seen = idle_preview(day, Zone.H, 1, entry=[5, 0, 0])
        seen.after[0] = 6
        done = idle_hour(day, Zone.H, 1, entry=[5, 0, 0])
        given = array("q", done.table)
        other = GasDay.resume(State(done.day, given))
        given[0] = done.table[0] = 7
        day.state.table[0] = 8
        day.positions(Zone.H)[0] = 9
        for each in (day, other):
            self.assertEqual(each.positions(Zone.H), [5, 0, 0])

    def test_an_odd_record_stays_odd(self):
        totals = (Day(3, 24, ZoneDay(1, False, -1)), Day(3, 24, ZoneDay(0, False, 0, 1)), Day(3, 24, ZoneDay(), ZoneDay(1, False, 7, TOTAL_MOST + 1)))
        for odd in (*totals, Day(3, 24, ZoneDay(24, 2)), Day(3, 24, ZoneDay(25)), Day(3, 22), Day(3, 26), Day(129, 24), Day(-1, 24)):
            day = GasDay.resume(State(odd, list(range(256))))
            with self.assertRaises(Refusal) as refused:
                idle_hour(day, Zone.L, 1)
            self.assertEqual(refused.exception.number, 2)
            self.assertEqual(day.state, State(odd, list(range(256))))
            users = min(max(odd.users, 0), 128)
            self.assertEqual((day.positions(Zone.H), day.positions(Zone.L)), (list(range(users)), list(range(128, 128 + users))))

    def test_a_record_of_an_older_module_has_no_length(self):
        old = Day.__new__(Day)
        old.__dict__.update(users=1, h=ZoneDay(1, False), l=ZoneDay(0, False))  # as pickle would
        for call in (lambda: GasDay.resume(State(old, 256 * [0])), lambda: gas_day.close_zone(old, 256 * [0], Zone.H, **PRICES)):
            self.assertRaisesRegex(AttributeError, "'Day' object has no attribute 'length'", call)

    def test_a_record_of_an_older_module_has_no_totals(self):
        """It is not taken for one of zeros."""
        old, half = ZoneDay.__new__(ZoneDay), ZoneDay.__new__(ZoneDay)
        old.__dict__.update(hours=24, closed=False)  # as pickle would
        half.__dict__.update(hours=24, closed=False, sold=0)
        for day, lacks in ((Day(1, 24, old), "sold"), (Day(1, 24, ZoneDay(), old), "sold"), (Day(1, 24, half), "bought")):
            for call in (lambda: GasDay.resume(State(day, 256 * [0])), lambda: gas_day.close_zone(day, 256 * [0], Zone.H, **PRICES)):
                self.assertRaisesRegex(AttributeError, f"'ZoneDay' object has no attribute '{lacks}'", call)

    def test_a_resumed_record_is_of_plain_numbers(self):
        class Changes:
            number = 2

            def __index__(self):
                return self.number

        users = Changes()
        day = GasDay.resume(State(Day(users, 24), 256 * [0]))
        users.number = 3
        self.assertEqual((day.record, day.positions(Zone.H)), (Day(2, 24), [0, 0]))


class Turns(unittest.TestCase):
    def second_while_the_first_is_under_way(self, day, name, call, other=None):
        """The cause of a call, the same or another, that another thread makes while the library is at work on the first; and that the first is accepted."""
        numbers, library, turn, waits_or_ended = [], gas_day._library, day._turn, threading.Event()

        def second():
            try:
                (other or call)()
            except Refusal as refusal:
                numbers.append(refusal.number)
            finally:
                waits_or_ended.set()

        thread = threading.Thread(target=second)

        class Turn:
            def __enter__(self):
                if threading.current_thread() is thread:
                    waits_or_ended.set()
                turn.acquire()

            def __exit__(self, *_):
                turn.release()

        class Slow:
            def __getattr__(self, wanted):
                if wanted == name and not thread.ident:
                    thread.start()
                    waits_or_ended.wait()
                return getattr(library, wanted)

        day._turn = Turn()
        with unittest.mock.patch.object(gas_day, "_library", Slow()):
            call()
            thread.join()
        return numbers

    def test_of_two_hours_one_is_refused(self):
        day = GasDay(1, 24)
        numbers = self.second_while_the_first_is_under_way(day, "gas_day_settle_hour", lambda: idle_hour(day, Zone.H, 1, entry=[5]))
        self.assertEqual((numbers, day.positions(Zone.H)), ([6], [5]))

    def test_of_two_closings_one_is_refused(self):
        day = GasDay.resume(State(Day(1, 24, ZoneDay(24)), [5] + 255 * [0]))
        numbers = self.second_while_the_first_is_under_way(day, "gas_day_close_zone", lambda: day.close_zone(Zone.H, **PRICES))
        self.assertEqual((numbers, day.record.h), ([5], ZoneDay(24, True, 5, 0)))

    def test_a_preview_waits_for_no_hour(self):
        """It shows its hour on the day as it stands, which the hour that is under way has not changed."""
        day, seen = GasDay(1, 24), []
        hour, look = lambda: idle_hour(day, Zone.H, 1, entry=[5]), lambda: seen.append(idle_preview(day, Zone.H, 1, entry=[7]).after)
        numbers = self.second_while_the_first_is_under_way(day, "gas_day_settle_hour", hour, look)
        self.assertEqual((numbers, seen, day.positions(Zone.H)), ([], [[7]], [5]))

    def test_no_hour_waits_for_a_preview(self):
        """And none is undone by it."""
        day, seen = GasDay(1, 24), []
        hour, look = lambda: idle_hour(day, Zone.H, 1, entry=[5]), lambda: seen.append(idle_preview(day, Zone.H, 1, entry=[7]).after)
        numbers = self.second_while_the_first_is_under_way(day, "gas_day_preview_hour", look, hour)
        self.assertEqual((numbers, seen, day.positions(Zone.H), day.record.h.hours), ([], [[7]], [5], 1))

    def test_a_judge_waits_for_no_hour(self):
        """It judges on the day as it stands, on which 7 kWh are all that there is."""
        day, seen = GasDay(1, 24), []
        hour, look = lambda: idle_hour(day, Zone.H, 1, entry=[5]), lambda: seen.append(idle_judge(day, Zone.H, 1, NONE, [7], entry=[7]))
        numbers = self.second_while_the_first_is_under_way(day, "gas_day_settle_hour", hour, look)
        self.assertEqual((numbers, seen, day.positions(Zone.H)), ([], [None], [5]))

    def test_no_hour_waits_for_a_judge(self):
        """And none is undone by it."""
        day, seen = GasDay(1, 24), []
        hour, look = lambda: idle_hour(day, Zone.H, 1, entry=[5]), lambda: seen.append(idle_judge(day, Zone.H, 1, NONE, [7], entry=[7]))
        numbers = self.second_while_the_first_is_under_way(day, "gas_day_judge_hour", look, hour)
        self.assertEqual((numbers, seen, day.positions(Zone.H), day.record.h.hours), ([], [None], [5], 1))

    def test_an_argument_that_uses_the_day(self):
        """The hour that it settles comes first, and then its own is refused: nothing waits for itself."""
        for idle, kind in ((idle_hour, "entry"), (idle_preview, "entry"), (idle_judge, "entry"), (idle_judge, "quantity")):
            day = GasDay(1, 24)

            class Settles:
                def __index__(self):
                    idle_hour(day, Zone.H, 1, entry=[5])
                    return 7

            with self.assertRaises(Refusal) as refused:
                idle(day, Zone.H, 1, **{kind: [Settles()]})
            self.assertEqual((refused.exception.number, day.positions(Zone.H)), (6, [5]))


if __name__ == "__main__":
    unittest.main()
