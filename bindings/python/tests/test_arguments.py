"""What is not a whole number is a TypeError, a number beyond 64 bits an OverflowError, wherever it stands: never a wrong number."""

import itertools
import unittest
from array import array
from decimal import Decimal
from fractions import Fraction
from functools import partial

import gas_day
from gas_day import Day, GasDay, HourFile, State, Thresholds, Zone, ZoneDay
from worked import FILE_A, NONE, PRICES, closing_of, hour_of, idle_hour, idle_judge, idle_preview, judge_of, preview_of, written

NOT_WHOLE = [1.0, 0.5, float("nan"), None, "1", b"1", Decimal(1), Fraction(1), 1j, [1], object()]
BEYOND = [2**63, -(2**63) - 1, 2**64, 2**64 + 1, -(2**64), 10**30]
EDGES = [2**63 - 1, -(2**63)]


class Index:
    """A whole number that is no int, as other libraries have them."""

    def __init__(self, number):
        self.number = number

    def __index__(self):
        return self.number


# Every place where an hour takes one number, and so do its preview and its judge: the cause for the numbers at the ends of 64 bits, and the call, which is given hour_of,
# preview_of or judge_of.
PLACES_OF_AN_HOUR = {
    "zone": (4, lambda of, x: of(zone=x)),
    "hour": (6, lambda of, x: of(hour=x)),
    "upper": (8, lambda of, x: of(thresholds=Thresholds(x, 0))),
    "lower": (8, lambda of, x: of(thresholds=Thresholds(0, x))),
    "excess price": (8, lambda of, x: of(prices={"excess_price": x, "shortfall_price": 0})),
    "shortfall price": (8, lambda of, x: of(prices={"excess_price": 0, "shortfall_price": x})),
    "record's users": (2, lambda of, x: of(Day(x, 24))),
    "record's length": (2, lambda of, x: of(Day(2, x))),
    "record's hours of H": (2, lambda of, x: of(Day(2, 24, ZoneDay(x)))),
    "record's hours of L": (2, lambda of, x: of(Day(2, 24, ZoneDay(), ZoneDay(x)))),
    "record's mark of H": (2, lambda of, x: of(Day(2, 24, ZoneDay(24, x)))),
    "record's mark of L": (2, lambda of, x: of(Day(2, 24, ZoneDay(), ZoneDay(24, x)))),
    "what was sold in H": (2, lambda of, x: of(Day(2, 24, ZoneDay(1, False, x)), hour=2)),
    "what was bought in H": (2, lambda of, x: of(Day(2, 24, ZoneDay(1, False, 0, x)), hour=2)),
    "what was sold in L": (2, lambda of, x: of(Day(2, 24, ZoneDay(), ZoneDay(1, False, x)))),
    "what was bought in L": (2, lambda of, x: of(Day(2, 24, ZoneDay(), ZoneDay(1, False, 0, x)))),
    "a place of the table": (7, lambda of, x: of(table=255 * [0] + [x])),
    "an entry": (9, lambda of, x: of(entry=[0, x])),
    "an exit": (9, lambda of, x: of(exit=[x, 0])),
    "a title amount": (9, lambda of, x: of(title=[0, x])),
    "a pooling amount": (9, lambda of, x: of(pooling=(x, 0))),
}

# Every place where a call takes one number: the cause for the numbers at the ends of 64 bits (0: it is taken), and the call, for a number.
PLACES = {
    **{name: (cause, partial(call, hour_of)) for name, (cause, call) in PLACES_OF_AN_HOUR.items()},
    **{f"{name} of a preview": (cause, partial(call, preview_of)) for name, (cause, call) in PLACES_OF_AN_HOUR.items()},
    **{f"{name} of a judge": (cause, partial(call, judge_of)) for name, (cause, call) in PLACES_OF_AN_HOUR.items()},
    "a judged quantity": (22, lambda x: judge_of(quantity=[0, x])),
    "users": (1, lambda x: gas_day.open_day(x, 24)),
    "users of a GasDay": (1, lambda x: GasDay(x, 24)),
    "length": (21, lambda x: gas_day.open_day(2, x)),
    "length of a GasDay": (21, lambda x: GasDay(2, x)),
    "month": (8, lambda x: gas_day.default_thresholds(x, 0)),
    "zone of thresholds": (4, lambda x: gas_day.default_thresholds(1, x)),
    "an entry of a GasDay": (9, lambda x: idle_hour(GasDay(2, 24), 0, 1, entry=[0, x])),
    "an exit of a GasDay's preview": (9, lambda x: idle_preview(GasDay(2, 24), 0, 1, exit=[0, x])),
    "hour of a GasDay's preview": (6, lambda x: idle_preview(GasDay(2, 24), 0, x)),
    "a title amount of a GasDay's judge": (9, lambda x: idle_judge(GasDay(2, 24), 0, 1, title=[x, 0])),
    "a quantity of a GasDay's judge": (22, lambda x: idle_judge(GasDay(2, 24), 0, 1, quantity=[x, 0])),
    "a pooling amount of a file": (9, lambda x: GasDay(1, 24).settle_file(HourFile(1, 0, [0], [0], [0], [x]), NONE, **PRICES)),
    "hour of a file": (6, lambda x: GasDay(1, 24).settle_file(HourFile(x, 0, [0], [0], [0], [0]), NONE, **PRICES)),
    "closing's zone": (4, lambda x: closing_of(zone=x)),
    "closing's excess price": (8, lambda x: closing_of(prices={"excess_price": x, "shortfall_price": 0})),
    "closing's shortfall price": (8, lambda x: closing_of(prices={"excess_price": 0, "shortfall_price": x})),
    "closing's record": (2, lambda x: closing_of(Day(x, 24, ZoneDay(24)))),
    "length of a closing's record": (2, lambda x: closing_of(Day(2, x, ZoneDay(0)))),
    "what was sold before a closing": (2, lambda x: closing_of(Day(2, 24, ZoneDay(24, False, x)))),
    "what was bought before a closing": (2, lambda x: closing_of(Day(2, 24, ZoneDay(24, False, 0, x)))),
    "closing's table": (7, lambda x: closing_of(table=[x] + 255 * [0])),
    "zone of a GasDay's closing": (4, lambda x: GasDay(2, 24).close_zone(x, **PRICES)),
    "zone of positions": (4, lambda x: GasDay(2, 24).positions(x)),
    "written hour": (19, lambda x: written(hour=x)),
    "written zone": (18, lambda x: written(zone=x)),
    "written entry": (19, lambda x: written(entry=[0, x])),
    "written exit": (19, lambda x: written(exit=[x, 0])),
    "written title amount": (19, lambda x: written(title=(0, x))),
    "written pooling amount": (19, lambda x: written(pooling=[x, 0])),
    "resumed record": (0, lambda x: GasDay.resume(State(Day(x, 24), 256 * [0]))),
    "resumed length": (0, lambda x: GasDay.resume(State(Day(2, x), 256 * [0]))),
    "what was sold, resumed": (0, lambda x: GasDay.resume(State(Day(2, 24, ZoneDay(1, False, x)), 256 * [0]))),
    "what was bought, resumed": (0, lambda x: GasDay.resume(State(Day(2, 24, ZoneDay(), ZoneDay(1, False, 0, x)), 256 * [0]))),
    "resumed table": (0, lambda x: GasDay.resume(State(Day(2, 24), 255 * [0] + [x]))),
}


class OverInt(int):
    """An int that says that it is small."""

    def __lt__(self, other):
        return True

    __le__ = __gt__ = __ge__ = __lt__


class SingleNumbers(unittest.TestCase):
    def test_what_is_not_whole(self):
        for name, (_, call) in PLACES.items():
            for wrong in NOT_WHOLE:
                with self.subTest(place=name, given=wrong), self.assertRaises(TypeError):
                    call(wrong)

    def test_beyond_64_bits(self):
        for name, (_, call) in PLACES.items():
            for wrong in BEYOND + [Index(2**63), OverInt(2**64 + 1)]:
                with self.subTest(place=name, given=wrong), self.assertRaises(OverflowError):
                    call(wrong)

    def test_at_64_bits_the_library_answers(self):
        for name, (cause, call) in PLACES.items():
            for edge in EDGES:
                with self.subTest(place=name, given=edge):
                    if cause == 0:
                        call(edge)
                        continue
                    with self.assertRaises(gas_day.Refusal) as refused:
                        call(edge)
                    self.assertEqual(refused.exception.number, cause)

    def test_the_place_is_named(self):
        for call, words in (
            (lambda: hour_of(exit=[0, 1.0]), r"^exit\[1\] is to be an int, not float$"),
            (lambda: hour_of(Day(2, 24, ZoneDay(), ZoneDay(0, None))), "^day.l.closed is to be an int, not NoneType$"),
            (lambda: hour_of(Day(2, 24, ZoneDay(1, False, 1.0))), "^day.h.sold is to be an int, not float$"),
            (lambda: hour_of(Day(2, 24, ZoneDay(), ZoneDay(0, False, 0, "0"))), "^day.l.bought is to be an int, not str$"),
            (lambda: hour_of(Day(2, None)), "^day.length is to be an int, not NoneType$"),
            (lambda: gas_day.open_day(2, 24.0), "^length is to be an int, not float$"),
            (lambda: hour_of(title=None), "^title is to be a list of ints, not NoneType$"),
            (lambda: hour_of(thresholds=(0, 0)), "^thresholds is to be a Thresholds, not tuple$"),
        ):
            self.assertRaisesRegex(TypeError, words, call)
        self.assertRaisesRegex(OverflowError, "^month is beyond 64 bits$", lambda: gas_day.default_thresholds(2**63, 0))

    def test_what_counts_as_whole(self):
        self.assertEqual(gas_day.default_thresholds(Index(7), Index(1)), Thresholds(16_000_000, -16_000_000))
        self.assertEqual(hour_of(entry=[Index(5), True], thresholds=NONE).quantity, [5, 1])


    def test_the_users_of_a_file(self):
        """None is what they are if they are not given: as many as the entries."""
        self.assertEqual(written(users=Index(2)), written(users=None))
        for wrong in (wrong for wrong in NOT_WHOLE if wrong is not None):
            with self.subTest(given=wrong), self.assertRaisesRegex(TypeError, "^users is to be an int"):
                written(users=wrong)
        for wrong in BEYOND:
            with self.subTest(given=wrong), self.assertRaises(OverflowError):
                written(users=wrong)
        for edge in EDGES:
            with self.subTest(given=edge), self.assertRaises(gas_day.Refusal) as refused:
                written(users=edge)
            self.assertEqual(refused.exception.number, 18)


class Lists(unittest.TestCase):
    def test_what_is_no_list(self):
        wrong = [None, 3, 1.5, "12", b"12", bytearray(2), memoryview(b"12"), {0, 1}, {0: 1, 1: 2}, iter([0, 0]), range(2), object()]
        for given in wrong:
            for kind, of in itertools.product(("entry", "exit", "title", "pooling", "table"), (hour_of, preview_of, judge_of)):
                with self.subTest(kind=kind, given=given), self.assertRaises(TypeError):
                    of(**{kind: given} if given is not None or kind != "table" else {"table": 0})
            with self.subTest(judged=given), self.assertRaises(TypeError):
                judge_of(quantity=given)
            for kind in ("entry", "exit", "title", "pooling"):
                with self.subTest(written=kind, given=given), self.assertRaises(TypeError):
                    written(**{kind: given})
            with self.subTest(given=given), self.assertRaises(TypeError):
                GasDay.resume(State(Day(2, 24), given))

    def test_arrays_of_floats_and_of_large_numbers(self):
        with self.assertRaises(TypeError):
            hour_of(entry=array("d", [1, 2]))
        with self.assertRaises(OverflowError):
            hour_of(entry=array("Q", [1, 2**63]))
        self.assertEqual(hour_of(entry=array("B", [1, 2])).quantity, [1, 2])

    def test_an_array_that_says_that_it_is_another(self):
        class Other(array):
            typecode = "q"

            def __len__(self):
                return 1

        with self.assertRaises(OverflowError):
            hour_of(title=Other("Q", [2**64 - 1, 2**64 - 2]))
        with self.assertRaises(TypeError):
            hour_of(title=Other("d", [1, 2]))
        self.assertEqual(hour_of(title=Other("q", [1, 2])).quantity, [1, 2])

    def test_of_every_length_but_the_users(self):
        kinds = itertools.product(("entry", "exit", "title", "pooling"), (hour_of, preview_of, judge_of))
        for kind, of in (*kinds, ("quantity", judge_of)):
            for length in (0, 1, 3, 128, 129, 1000):
                for given in ([0] * length, array("q", [0] * length)):
                    with self.subTest(kind=kind, length=length), self.assertRaises(gas_day.Refusal) as refused:
                        of(**{kind: given})
                    self.assertEqual(refused.exception.number, 3)
        for length in (0, 1, 128, 255, 257, 512):
            for call in (hour_of, preview_of, judge_of, closing_of):
                with self.subTest(length=length), self.assertRaises(gas_day.Refusal) as refused:
                    call(table=[0] * length)
                self.assertEqual(refused.exception.number, 3)

    def test_that_changes_while_it_is_read(self):
        given = [0, 0]

        class Shrinks:
            def __index__(self):
                given.clear()
                return 5

        given[0] = Shrinks()
        with self.assertRaises(gas_day.Refusal) as refused:
            hour_of(entry=given)
        self.assertEqual(refused.exception.number, 3)


class OtherTypes(unittest.TestCase):
    def test_record_thresholds_and_files(self):
        for wrong in (None, (2, (0, 0), (0, 0)), {"users": 2}, ZoneDay()):
            for of in (hour_of, preview_of, judge_of):
                with self.assertRaises(TypeError):
                    of(wrong)
            with self.assertRaises(TypeError):
                gas_day.close_zone(wrong, 256 * [0], 0, **PRICES)
            with self.assertRaises(TypeError):
                GasDay.resume(wrong)
            with self.assertRaises(TypeError):
                GasDay.resume(State(wrong, 256 * [0]))
            with self.assertRaises(TypeError):
                GasDay(2, 24).settle_file(wrong, NONE, **PRICES)
        for wrong in (None, 0, (0, 0), Day(2, 24)):
            for of in (hour_of, preview_of, judge_of):
                with self.assertRaises(TypeError):
                    of(Day(2, 24, wrong))
                with self.assertRaises(TypeError):
                    of(thresholds=wrong)

    def test_a_files_bytes(self):
        for wrong in (None, 5, FILE_A.decode(), list(FILE_A), array("B", FILE_A)):
            with self.subTest(given=type(wrong)), self.assertRaises(TypeError):
                gas_day.read_hour_file(wrong)

    def test_views_of_bytes(self):
        twice = bytes(byte for byte in FILE_A for _ in range(2))
        self.assertEqual(gas_day.read_hour_file(memoryview(twice)[::2]), gas_day.read_hour_file(FILE_A))
        self.assertEqual(gas_day.read_hour_file(memoryview(FILE_A + bytes(len(FILE_A) % 2))[: len(FILE_A)].cast("b")), gas_day.read_hour_file(FILE_A))

    def test_amounts_go_by_name(self):
        with self.assertRaises(TypeError):
            GasDay(1, 24).settle_hour(Zone.H, 1, NONE, 0, 0, [0], [0], [0], [0])
        with self.assertRaises(TypeError):
            GasDay(1, 24).preview_hour(Zone.H, 1, NONE, 0, 0, [0], [0], [0], [0])
        with self.assertRaises(TypeError):
            gas_day.preview_hour(Day(1, 24), 256 * [0], Zone.H, 1, NONE, 0, 0, [0], [0], [0], [0])
        with self.assertRaises(TypeError):
            GasDay(1, 24).judge_hour(Zone.H, 1, NONE, 0, 0, [0], [0], [0], [0], [0])
        with self.assertRaises(TypeError):
            gas_day.judge_hour(Day(1, 24), 256 * [0], Zone.H, 1, NONE, 0, 0, [0], [0], [0], [0], [0])
        with self.assertRaises(TypeError):
            gas_day.write_hour_file(1, Zone.H, [0], [0], [0], [0])


if __name__ == "__main__":
    unittest.main()
