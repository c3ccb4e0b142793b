"""Wrong bindings, each an edit of a copy: what the bindings' own tests, or their comparison with the header, have to fail with. Two are tried at a time.

Usage: wrong.py FOLDER, from the repository's root, with GAS_DAY_VECTORS set; the copies go to the folder."""

import os
import re
import shutil
import subprocess
import sys
from concurrent.futures import ThreadPoolExecutor
from pathlib import Path

LIBRARIES = Path("target/bindings/lib").resolve()

# What a preview and a judge may not keep: the hour as done, in the record or in the table.
DONE = '_settle(_record(self._state[0]), _area(self._state[1], "table"), terms, amounts)'
KEPT = [f"self._keep({DONE}.day, self._state[1])", f"self._keep(self._state[0], {DONE}.table)"]

# What a judge is not: the comparison with our own quantities.
JUDGED = '_accepted("judge_hour", _library.gas_day_judge_hour(record, *_lent(table), terms, *_lent(*amounts, quantity)))'
COMPARED = 'if list(quantity) != _preview(record, table, terms, amounts).quantity:\n        raise Refusal("judge_hour", Cause.JUDGED_SHARE)'

# A zone's totals exchanged: in what is given to the library and in what it answers. A judge takes them in either order: it asks the same of both.
EXCHANGED_GIVEN = {zone: f'_zone_record(ZoneDay(day.{zone}.hours, day.{zone}.closed, day.{zone}.bought, day.{zone}.sold), "day.{zone}")' for zone in "hl"}
EXCHANGED_ANSWERED = {zone: f"_zone_day(_ZoneDay(record.{zone}.hours, record.{zone}.closed, record.{zone}.bought, record.{zone}.sold))" for zone in "hl"}
EXCHANGED_RECORD = {zone: f"Day {{ {zone}: ZoneDay {{ sold: day.{zone}.bought, bought: day.{zone}.sold, ..day.{zone} }}, ..*day }}" for zone in "hl"}
EXCHANGED_SINCE = {zone: f"    std::mem::swap(&mut day.{zone}.sold, &mut day.{zone}.bought);\n" for zone in "hl"}
BETWEEN = "i64,\n    /// What was bought so far, in kWh, as a size: of all accepted hours of the zone and its closing.\n"
EXCHANGED_MEMBERS = (f"pub sold: {BETWEEN}    pub bought", f"pub bought: {BETWEEN}    pub sold")

# To what the crate hands the record: to calls that add to its totals, or would, and to the judge. And records without one of the totals.
ADDING = ["gas_day_settle_hour(\n            *day,", "gas_day_preview_hour(\n            *day,", "gas_day_close_zone(*day,"]
HANDED = [*ADDING, "gas_day_judge_hour(\n            *day,"]
WITHOUT = [f"Day {{ {zone}: ZoneDay {{ {total}: 0, ..day.{zone} }}, ..*day }}" for zone in "hl" for total in ("sold", "bought")]

PYTHON = Path("bindings/python/gas_day.py")
PYTHON_EDITS = {  # by the tests that have to tell them
    "test_[ad]*.py": [  # answers and arguments
        ('_whole(length, "length"), *_lent(table)', 'length, *_lent(table)'),
        ('_whole(day.length, "day.length")', "day.length"),
        ("hour.first | hour.second << 64", "hour.second | hour.first << 64"),
        ('_area(title, "title"), _area(pooling, "pooling")', '_area(pooling, "pooling"), _area(title, "title")'),
        ("_amounts(entry, exit, title, pooling)\n    return _settle", "_amounts(exit, entry, title, pooling)\n    return _settle"),
        ("_amounts(entry, exit, title, pooling)\n        with", "_amounts(entry, exit, pooling, title)\n        with"),
        ("_outcome(done), list(quantity), list(money))", "_outcome(done), list(money), list(quantity))"),
        ("_amounts(entry, exit, title, pooling)\n    return _preview", "_amounts(exit, entry, title, pooling)\n    return _preview"),
        ("_amounts(entry, exit, title, pooling)\n        day, table", "_amounts(entry, exit, pooling, title)\n        day, table"),
        ("quantity, money, after, scratch)", "quantity, after, money, scratch)"),
        ("quantity, money, after, scratch)", "after, money, quantity, scratch)"),
        ("HourPreview(_outcome(seen), list(quantity), list(money)", "HourPreview(_outcome(seen), list(money), list(quantity)"),
        ("list(money), list(after))", "list(after), list(money))"),
        ("HourPreview(_outcome(seen)", "HourPreview(Outcome(Side.WITHIN, 0, [])"),
        ("_zeros(users), _zeros(users), _zeros(users), (c_uint64", "_zeros(users), _zeros(users), _zeros(ZONE_PLACES), (c_uint64"),
        ("gas_day_preview_hour(record, *_lent(table), terms, *lent)", "gas_day_settle_hour(record, *_lent(table), terms, *lent[:12], *lent[14:])"),
        ("list(after))", "list(table)[:users])"),
        ("_amounts(entry, exit, title, pooling)\n    _judge", "_amounts(exit, entry, title, pooling)\n    _judge"),
        ("_amounts(entry, exit, title, pooling)\n        judged", "_amounts(entry, exit, pooling, title)\n        judged"),
        ("_lent(*amounts, quantity)", "_lent(*amounts[:3], quantity, amounts[3])"),
        ("_lent(*amounts, quantity)", "_lent(quantity, *amounts[1:], amounts[0])"),
        ("_lent(*amounts, quantity)", "_lent(*amounts, _zeros(len(quantity)))"),
        ("_lent(*amounts, quantity)", "_lent(*amounts), quantity, len(amounts[0])"),
        (JUDGED, COMPARED),
        ("done.sold, done.bought, list(quantity)", "done.bought, done.sold, list(quantity)"),
        ("done.sold, done.bought, list(quantity)", "done.day.h.sold, done.day.h.bought, list(quantity)"),
        ('_whole(zone.sold, f"{what}.sold")', "zone.sold"),
        ('_whole(zone.bought, f"{what}.bought")', "zone.bought"),
        ('f"{what}.bought"', 'f"{what}.sold"'),
        ("    sold: int = field(default_factory=int)  #", "    sold: int = 0  #"),
        ("    bought: int = field(default_factory=int)\n", "    bought: int = 0\n"),
        ("Thresholds(answer.upper, answer.lower)", "Thresholds(answer.lower, answer.upper)"),
        ('        _whole(excess_price, "excess_price"),\n', '        _whole(shortfall_price, "excess_price"),\n'),
        ('_whole(thresholds.lower, "thresholds.lower")', '-_whole(thresholds.upper, "thresholds.upper")'),
        ("_closing_terms(zone, excess_price, shortfall_price)\n        with", "_closing_terms(zone, shortfall_price, excess_price)\n        with"),
        ("amounts[: read.lines]", "amounts[:]"),
        ("HourFile(read.hour, Zone(read.zone)", "HourFile(read.hour, Zone(0)"),
        ("            title=file.title,", "            title=file.pooling,"),
        ("_amounts(entry, exit, title, pooling), (c_uint8", "_amounts(exit, entry, title, pooling), (c_uint8"),
        ("_amounts(entry, exit, title, pooling), (c_uint8", "_amounts(entry, exit, pooling, title), (c_uint8"),
        ('(_whole(hour, "hour"), _whole(zone, "zone"), count', '(_whole(zone, "zone"), _whole(hour, "hour"), count'),
        ('len(amounts[0]) if users is None else _whole(users, "users")', "len(amounts[0])"),
        ('len(amounts[0]) if users is None else _whole(users, "users")', 'len(amounts[0]) if not users else _whole(users, "users")'),
        ("bytes(area[: written.bytes])", "bytes(area)"),
        ("bytes(area[: written.bytes])", "bytes(area[: written.bytes - 2])"),
        ("(c_uint8 * WRITE_BYTES_MOST)()", "(c_uint8 * (len(entry) * 40 + 25))()"),
    ],
    "test_arguments.py": [  # what is no number, no list, no file
        ("if not -(2**63) <= value < 2**63:", "if not -(2**63) <= value < 2**64:"),
        ("int.__index__(operator.index(number))", "int(number)"),
        ("(list, tuple, array)", "(list, tuple, array, set, bytes)"),
        ('memoryview(numbers).format == "q"', 'numbers.typecode == "q"'),
        ("(c_int64 * len(values))(*values)", "(c_int64 * max(len(values), 2))(*values)"),
        ("(c_int64 * (len(data) // 8))", "(c_int64 * len(numbers))"),
        ('f"{what}[{place}]"', '"numbers"'),
        ('list(_area(state.table, "table"))', "state.table"),
        ("(bytes, bytearray, memoryview)):", "(bytes, bytearray, memoryview, array)):"),
        ("hour: int, zone: int, *, entry: Numbers", "hour: int, zone: int, entry: Numbers"),
        ('amounts, _area(quantity, "quantity"))', "amounts, (c_int64 * len(quantity))(*quantity))"),
        ('judged = _area(quantity, "quantity")', "judged = (c_int64 * len(quantity))(*quantity)"),
        ("None else _whole(users, \"users\")", "None else int(users)"),
        ('(_whole(hour, "hour"), _whole(zone, "zone"), count', '(hour, _whole(zone, "zone"), count'),
        ('(_whole(hour, "hour"), _whole(zone, "zone"), count', '(_whole(hour, "hour"), zone, count'),
        ("memoryview(file).tobytes()", "bytes(bytearray(file)) if isinstance(file, bytes) else bytes(file.obj if isinstance(file, memoryview) else file)"),
    ],
    "test_[ar]*.py": [  # refusals
        ('_whole(length, "length"), *_lent(table)', 'min(max(_whole(length, "length"), LENGTH_LEAST), LENGTH_MOST), *_lent(table)'),
        ("    if answer.cause:", "    if answer.cause > 1:"),
        ("raise Refusal(call, Cause(answer.cause))", 'raise Refusal("gas_day", Cause(answer.cause))'),
        ("users = record.users if USERS_LEAST <= record.users <= USERS_MOST else 0", "users = record.users"),
        ('_accepted("preview_hour", ', '_accepted("settle_hour", '),
        ('_accepted("preview_hour", _library', '(lambda name, answer: answer)("preview_hour", _library'),
        ('_accepted("judge_hour", ', '_accepted("preview_hour", '),
        ('_accepted("judge_hour", _library', '(lambda name, answer: answer)("judge_hour", _library'),
        ("JUDGED_SIGN = 22", "JUDGED_SIGN = 26"),
        ("    TOTALS = 25\n", "    TOTALS = 26\n"),
        ('    "TOTAL_MOST",\n', ""),
        ("    if answer.cause:", "    if answer.cause not in (0, 25):"),
        ("    if answer.cause:", '    if answer.cause and (call, answer.cause) != ("preview_hour", 25):'),
        ("    if answer.cause:", '    if answer.cause and (call, answer.cause) != ("close_zone", 25):'),
        (JUDGED, f"_preview(record, table, terms, amounts)\n    {JUDGED}"),
        ('_whole(zone.sold, f"{what}.sold")', 'min(_whole(zone.sold, f"{what}.sold"), TOTAL_MOST)'),
        ('_whole(zone.bought, f"{what}.bought")', 'max(_whole(zone.bought, f"{what}.bought"), 0)'),
        ('_whole(zone.sold, f"{what}.sold")', '_whole(zone.sold, f"{what}.sold") if zone.hours else 0'),
        ('_whole(zone.bought, f"{what}.bought")', '_whole(zone.bought, f"{what}.bought") if zone.hours else 0'),
        ('_accepted("write_hour_file", ', '_accepted("read_hour_file", '),
        ('_accepted("write_hour_file", _library', '(lambda name, answer: answer)("write_hour_file", _library'),
        ("(c_uint8 * WRITE_BYTES_MOST)()", "(c_uint8 * 7722)()"),
        ('_whole(zone.closed, f"{what}.closed")', 'bool(_whole(zone.closed, f"{what}.closed"))'),
    ],
    "test_[dr]*.py": [  # the day
        ("self._begin(open_day(users, length))", "self._begin(open_day(users, LENGTH_USUAL))"),
        ("Day(record.users, record.length, _zone_day", "Day(record.users, LENGTH_USUAL, _zone_day"),
        ('_whole(day.length, "day.length")', "LENGTH_USUAL"),
        *((f'_zone_record(day.{zone}, "day.{zone}")', given) for zone, given in EXCHANGED_GIVEN.items()),
        *((f"_zone_day(record.{zone})", answered) for zone, answered in EXCHANGED_ANSWERED.items()),
        ('_whole(zone.sold, f"{what}.sold")', "0"),
        ('_whole(zone.bought, f"{what}.bought")', "0"),
        ("zone.closed, zone.sold, zone.bought)", "zone.closed, zone.sold)"),
        ("zone.closed, zone.sold, zone.bought)", "zone.closed, bought=zone.bought)"),
        ("_zone_day(record.h), _zone_day(record.l))", "_zone_day(record.h), _zone_day(record.h))"),
        ("State(_day(_record(state.day)), ", "State(Day(state.day.users, state.day.length, ZoneDay(state.day.h.hours, state.day.h.closed), state.day.l), "),
        ("            self._keep(done.day, done.table)\n        return done\n\n    def preview_hour", "        return done\n\n    def preview_hour"),
        ("            self._keep(done.day, done.table)\n        return done\n\n    def __reduce__", "        return done\n\n    def __reduce__"),
        ("        with self._turn:  # no code", "        if True:  # no code"),
        ("        with self._turn:\n            day, table = self._state\n            done = _c", "        if True:\n            day, table = self._state\n            done = _c"),
        ("        day, table = self._state  # of one call", "        with self._turn:\n            day, table = self._state  # of one call"),
        ("        day, table = self._state  # of one call", "        day, table = self._state[0], _zeros(TABLE_PLACES)  # of one call"),
        *(("        day, table = self._state  # of one call", f"        {kept}\n        day, table = self._state  # of one call") for kept in KEPT),
        ("pooling)\n        day, table = self._state  # of one call", "pooling) if (state := self._state) else ()\n        day, table = state  # of one call"),
        ("        day, table = self._state  # as of", "        with self._turn:\n            day, table = self._state  # as of"),
        ("        day, table = self._state  # as of", "        day, table = self._state[0], _zeros(TABLE_PLACES)  # as of"),
        *(("        day, table = self._state  # as of", f"        {kept}\n        day, table = self._state  # as of") for kept in KEPT),
        ('judged = _area(quantity, "quantity")\n        day, table = self._state', '(day, table), judged = self._state, _area(quantity, "quantity")'),
        ("State(_day(_record(state.day)), ", "State(state.day, "),
        ("        part = table[zone * ZONE_PLACES : (zone + 1) * ZONE_PLACES]", "        part = table[zone * ZONE_PLACES :]"),
        ("part[: max(day.users, 0)]", "part[: day.users]"),
        ("bool(zone.closed) if zone.closed in (0, 1) else zone.closed", "bool(zone.closed)"),
    ],
    "test_loading.py": [  # loading
        ("        if version != VERSION:", "        if version < VERSION:"),
        ("        if version != VERSION:", "        if version > VERSION:"),
        ('next((str(path) for path in near if path.exists()), file)', "file"),
        ('    if folder.parts[-2:] == ("bindings", "python"):', "    if True:"),
        ("    except (OSError, AttributeError) as error:", "    except OSError as error:"),
        ("            call = getattr(library, name, None)\n", "            call = getattr(library, name)\n"),
        ("            if call is None:\n", '            if call is None and name == "gas_day_open":\n'),
        ('    if __name__ != "__main__":\n        raise', "    if True:\n        raise"),
    ],
    "test_shell.py": [  # the command
        ("GasDay(file.users, arguments.length)", "GasDay(file.users, LENGTH_USUAL)"),
        ('metavar="HOURS", required=True', 'metavar="HOURS", default=LENGTH_USUAL'),
        ("            return 1\n", "            return 2\n"),
        ('        print(f"gas_day: {message}", file=sys.stderr)', '        print(f"gas_day: {message}")'),
        ("    if sys.stderr is not None:  # print would take None for standard output\n        print", "    if True:\n        print"),
        ("([True, False, False], [False, True, True])", "([True, False, False], [False, True, True], [True, True, False])"),
        ('    if sys.stdout is None:\n        raise OSError("closed")\n', ""),
        ("    sys.stdout.flush()\n", ""),
        ('            os.dup2(os.open(os.devnull, os.O_WRONLY), sys.stdout.fileno())', "            pass"),
        ('re.fullmatch("-?[0-9]+", text)', 're.fullmatch("[-+]?[0-9_]+", text)'),
        ('        epilog=_STATUS,\n        allow_abbrev=False,', "        epilog=_STATUS,"),
    ],
}

RUST = Path("bindings/rust/src")
RUST_EDITS = [
    ("lib.rs", "    // SAFETY: above.\n    let hour", "    let (title, pooling) = (pooling, title);\n    let hour"),
    ("lib.rs", "    // SAFETY: above.\n    let hour", "    let (entry, exit) = (exit, entry);\n    let hour"),
    ("lib.rs", "{ entries, exits, titles, poolings } = lists", "{ entries: exits, exits: entries, titles, poolings } = lists"),
    ("lib.rs", "    // SAFETY: above.\n    let hour", "    let (quantity, money) = (money, quantity);\n    let hour"),
    ("lib.rs", "    // SAFETY: above.\n    let seen", "    let (title, pooling) = (pooling, title);\n    let seen"),
    ("lib.rs", "    // SAFETY: above.\n    let seen", "    let (entry, exit) = (exit, entry);\n    let seen"),
    ("lib.rs", "    // SAFETY: above.\n    let seen", "    let (quantity, money) = (money, quantity);\n    let seen"),
    ("lib.rs", "    // SAFETY: above.\n    let seen", "    let (quantity, after) = (after, quantity);\n    let seen"),
    ("lib.rs", "    // SAFETY: above.\n    let seen", "    let (money, after) = (after, money);\n    let seen"),
    ("lib.rs", "            after.len(),\n", "            quantity.len(),\n"),
    ("lib.rs", "    // SAFETY: above.\n    let seen", "    let scratch = &mut vec![0; scratch.len()];\n    let seen"),
    ("lib.rs", "    accepted(seen.cause)?;\n", ""),
    ("lib.rs", "    Ok(outcome(&seen))", "    Ok(Outcome::Within)"),
    ("lib.rs", "    Ok(outcome(&seen))", "    unsafe { (*std::ptr::from_ref(day).cast_mut()).h.hours += 1 };\n    Ok(outcome(&seen))"),
    ("lib.rs", "    Ok(outcome(&seen))", "    unsafe { *table.as_ptr().cast_mut() = after[0] };\n    Ok(outcome(&seen))"),
    ("lib.rs", "    // SAFETY: above.\n    let judged", "    let (title, pooling) = (pooling, title);\n    let judged"),
    ("lib.rs", "    // SAFETY: above.\n    let judged", "    let (entry, exit) = (exit, entry);\n    let judged"),
    ("lib.rs", "    // SAFETY: above.\n    let judged", "    let (title, quantity) = (quantity, title);\n    let judged"),
    ("lib.rs", "    // SAFETY: above.\n    let judged", "    let quantity = &vec![0; quantity.len()];\n    let judged"),
    ("lib.rs", "            quantity.as_ptr(),\n            quantity.len(),\n", "            quantity.as_ptr(),\n            entry.len(),\n"),
    ("lib.rs", "    accepted(judged.cause)\n", "    let _ = judged;\n    Ok(())\n"),
    ("lib.rs", "    accepted(judged.cause)\n", "    accepted(judged.cause).map_err(|_| Cause::JudgedSum)\n"),
    ("lib.rs", "    accepted(judged.cause)\n", "    unsafe { (*std::ptr::from_ref(day).cast_mut()).h.hours += 1 };\n    accepted(judged.cause)\n"),
    ("lib.rs", "    accepted(judged.cause)\n", "    accepted(judged.cause)?;\n    unsafe { *table.as_ptr().cast_mut() = 1 };\n    Ok(())\n"),
    ("lib.rs", "    accepted(judged.cause)\n", "    accepted(judged.cause)?;\n    unsafe { *quantity.as_ptr().cast_mut() = 0 };\n    Ok(())\n"),
    ("lib.rs", "    // SAFETY: above.\n    let closing", "    let (quantity, money) = (money, quantity);\n    let closing"),
    ("lib.rs", "    *day = hour.day;\n", ""),
    ("lib.rs", "    *day = closing.day;\n", ""),
    *(("lib.rs", call, call.replace("*day", record)) for call in ADDING for record in EXCHANGED_RECORD.values()),
    *(("lib.rs", call, call.replace("*day", record)) for call in HANDED for record in WITHOUT),
    *(("lib.rs", booked, booked + since) for booked in ("    *day = hour.day;\n", "    *day = closing.day;\n") for since in EXCHANGED_SINCE.values()),
    ("lib.rs", "    *day = hour.day;\n", "    *day = Day { h: ZoneDay { sold: day.h.sold, ..hour.day.h }, ..hour.day };\n"),
    ("lib.rs", "    *day = hour.day;\n", "    *day = Day { l: ZoneDay { bought: day.l.bought, ..hour.day.l }, ..hour.day };\n"),
    ("lib.rs", "    *day = closing.day;\n", "    *day = Day { h: ZoneDay { bought: day.h.bought, ..closing.day.h }, ..closing.day };\n"),
    ("lib.rs", *EXCHANGED_MEMBERS),
    ("lib.rs", "    Ok(opened.day)\n", "    Ok(Day { l: ZoneDay { sold: 1, ..opened.day.l }, ..opened.day })\n"),
    ("lib.rs", "    accepted(hour.cause)?;\n", "    accepted(if hour.cause == 25 { 0 } else { hour.cause })?;\n"),
    ("lib.rs", "    accepted(seen.cause)?;\n", "    accepted(if seen.cause == 25 { 0 } else { seen.cause })?;\n"),
    ("lib.rs", "    accepted(closing.cause)?;\n", "    accepted(if closing.cause == 25 { 0 } else { closing.cause })?;\n"),
    ("lib.rs", "    accepted(judged.cause)\n", "    accepted(if day.h.sold == limits::TOTAL_MOST { 25 } else { judged.cause })\n"),
    ("lib.rs", "sold: closing.sold, bought: closing.bought", "sold: closing.day.h.sold, bought: closing.day.h.bought"),
    ("lib.rs", "    accepted(hour.cause)?;\n", ""),
    ("lib.rs", "    accepted(closing.cause)?;\n", ""),
    ("lib.rs", "    accepted(opened.cause)?;\n", ""),
    ("lib.rs", "    accepted(defaults.cause)?;\n", ""),
    ("lib.rs", "    accepted(read.cause)?;\n", ""),
    ("lib.rs", "1 => Side::Excess", "1 => Side::Shortfall"),
    ("lib.rs", "total: hour.total", "total: hour.total.min(10_000_000)"),
    ("lib.rs", "first: hour.first, second: hour.second", "first: hour.second, second: hour.first"),
    ("lib.rs", "sold: closing.sold, bought: closing.bought", "sold: closing.bought, bought: closing.sold"),
    ("lib.rs", "upper: defaults.upper, lower: defaults.lower", "upper: defaults.lower, lower: defaults.upper"),
    ("lib.rs", "self.second >> (place - 64)", "self.first >> (place - 64)"),
    ("lib.rs", "64..=127 =>", "64..=100 =>"),
    ("lib.rs", "            _ => false,", "            _ => true,"),
    ("lib.rs", "(0..limits::ZONE_PLACES).filter", "(0..100).filter"),
    ("lib.rs", "hour: read.hour", "hour: 1"),
    ("lib.rs", "zone: read.zone", "zone: 0"),
    ("lib.rs", "lines: read.lines as usize", "lines: read.hour as usize"),
    ("lib.rs", "            file.len(),\n            entries", "            file.len().min(400),\n            entries"),
    ("lib.rs", "    // SAFETY: above.\n    let written", "    let (title, pooling) = (pooling, title);\n    let written"),
    ("lib.rs", "    // SAFETY: above.\n    let written", "    let (entry, exit) = (exit, entry);\n    let written"),
    ("lib.rs", "    // SAFETY: above.\n    let written", "    let (hour, zone) = (zone, hour);\n    let written"),
    ("lib.rs", "    // SAFETY: above.\n    let written", "    let users = entry.len() as i64;\n    let written"),
    ("lib.rs", "    // SAFETY: above.\n    let written", "    let exit = &exit[..entry.len().min(exit.len())];\n    let written"),
    ("lib.rs", "    accepted(written.cause)?;\n", ""),
    ("lib.rs", "Ok(written.bytes as usize)", "Ok(file.len())"),
    ("lib.rs", "            file.as_mut_ptr(),\n            file.len(),\n", "            file.as_mut_ptr(),\n            file.len().max(1) - 1,\n"),
    ("lib.rs", "            file.as_mut_ptr(),\n            file.len(),\n", "            file.as_mut_ptr(),\n            file.len().min(400),\n"),
    ("cause.rs", "Pooling = 10,", "Pooling = 26,"),
    ("cause.rs", "DayLength = 21,", "DayLength = 26,"),
    ("cause.rs", "JudgedSign = 22,", "JudgedSign = 26,"),
    ("cause.rs", "Totals = 25,", "Totals = 26,"),
    ("cause.rs", "JudgedShare = 23,\n    /// The sum is wrong.\n    JudgedSum = 24,", "JudgedShare = 24,\n    /// The sum is wrong.\n    JudgedSum = 23,"),
    ("cause.rs", "        Cause::JudgedSum,\n        Cause::Totals,\n    ];", "        Cause::Totals,\n    ];"),
    ("cause.rs", "        Cause::Totals,\n    ];", "    ];"),
    ("lib.rs", "boundary::gas_day_open(users, length,", "boundary::gas_day_open(users, limits::LENGTH_USUAL,"),
    ("lib.rs", "boundary::gas_day_open(users, length,", "boundary::gas_day_open(length, users,"),
    ("cause.rs", "cause.number() == number", "cause.number() == number & 0xff"),
    ("cause.rs", 'write!(to, "cause {}: {}", self.number(), self.words())', 'write!(to, "cause {}", self.number())'),
]

# What no call may show, or a test in the binding's own language would not see: declarations, names and words.
DECLARATION_EDITS = [
    ("gas_day.py", '("upper", c_int64),\n        ("lower"', '("lower", c_int64),\n        ("upper"'),
    ("gas_day.py", '("total", c_int64)', '("total", c_uint64)'),
    ("gas_day.py", '_Day), ("sold", c_int64), ("bought"', '_Day), ("bought", c_int64), ("sold"'),
    ("gas_day.py", '("closed", c_int64), ("sold", c_int64), ("bought"', '("closed", c_int64), ("bought", c_int64), ("sold"'),
    ("gas_day.py", '("closed", c_int64), ("sold", c_int64)', '("sold", c_int64), ("closed", c_int64)'),
    ("gas_day.py", '("closed", c_int64), ("sold", c_int64), ("bought", c_int64)', '("closed", c_int64), ("sold", c_int64), ("bought", c_uint64)'),
    ("gas_day.py", '("closed", c_int64), ("sold", c_int64), ("bought", c_int64)', '("closed", c_int64)'),
    ("gas_day.py", "    TOTALS = 25\n", "    TOTALS = 26\n"),
    ("gas_day.py", "    TOTALS = 25\n", "    TOTAL = 25\n    TOTALS = 26\n"),
    ("gas_day.py", '    Cause.TOTALS: "a total would pass the bound",\n', ""),
    ("gas_day.py", '"a total would pass the bound"', '"a total would reach the bound"'),
    ("gas_day.py", '"a zone with no hours done whose totals are not zero, or a total', '"a total'),
    ("gas_day.py", "TOTAL_MOST = 332_800_000_000", "TOTAL_MOST = 332_800_000_001"),
    ("gas_day.py", "*(6 * _NUMBERS), *_SCRATCH", "*(7 * _NUMBERS)"),
    ("gas_day.py", "*(7 * _NUMBERS), *_SCRATCH", "*(6 * _NUMBERS), *_SCRATCH, *_NUMBERS"),
    ("gas_day.py", "*(7 * _NUMBERS), *_SCRATCH], _Hour", "*(7 * _NUMBERS), *_SCRATCH], _Closing"),
    ("gas_day.py", '    "gas_day_preview_hour": (', '    # "gas_day_preview_hour": ('),
    ("gas_day.py", "*(5 * _NUMBERS)], _Judged", "*(6 * _NUMBERS)], _Judged"),
    ("gas_day.py", "*(5 * _NUMBERS)], _Judged", "*(5 * _NUMBERS)], _Opened"),
    ("gas_day.py", '    "gas_day_judge_hour": (', '    # "gas_day_judge_hour": ('),
    ("gas_day.py", '_Judged(Structure):\n    _fields_ = [("cause", c_uint64), ("day", _Day)]', '_Judged(Structure):\n    _fields_ = [("cause", c_uint64)]'),
    ("gas_day.py", "    JUDGED_SIGN = 22\n", "    JUDGED_SIGN = 26\n"),
    ("gas_day.py", "    JUDGED_SHARE = 23\n    JUDGED_SUM = 24\n", "    JUDGED_SUM = 23\n    JUDGED_SHARE = 24\n"),
    ("gas_day.py", '"a quantity is 1 kWh or more off"', '"a quantity is more than 1 kWh off"'),
    ("gas_day.py", "*(2 * _NUMBERS)], _Closing", "*(2 * _NUMBERS)], _File"),
    ("gas_day.py", "LENGTH_USUAL = 24", "LENGTH_USUAL = 25"),
    ("gas_day.py", "LENGTH_LEAST = 23", "LENGTH_LEAST = 22"),
    ("gas_day.py", '("users", c_int64), ("length", c_int64)', '("length", c_int64), ("users", c_int64)'),
    ("gas_day.py", '("users", c_int64), ("length", c_int64), ("h"', '("users", c_int64), ("h"'),
    ("gas_day.py", "([c_int64, c_int64, *_NUMBERS], _Opened)", "([c_int64, *_NUMBERS, c_int64], _Opened)"),
    ("gas_day.py", "    DAY_LENGTH = 21\n", "    DAY_LENGTH = 26\n"),
    ("gas_day.py", '"opening: length not 23, 24 or 25"', '"opening: length not 24"'),
    ("gas_day.py", "EXIT_LEAST = -50_000_000", "EXIT_LEAST = 50_000_000"),
    ("gas_day.py", "    EXCESS = 1\n    SHORTFALL = 2", "    SHORTFALL = 1\n    EXCESS = 2"),
    ("gas_day.py", "    AMOUNT = 9\n    POOLING = 10", "    POOLING = 9\n    AMOUNT = 10"),
    ("gas_day.py", "    WRITE_ROOM = 20\n", "    WRITE_ROOM = 20\n    WRITE_LATER = 26\n"),
    ("gas_day.py", "    WRITE_COUNT = 18\n    WRITE_NUMBER = 19\n", "    WRITE_NUMBER = 18\n    WRITE_COUNT = 19\n"),
    ("gas_day.py", "more than nine digits or the hour is negative", "more than nine digits"),
    ("gas_day.py", "FILE_MWH_DECIMALS = 3", "FILE_MWH_DECIMALS = 2"),
    ("gas_day.py", "WRITE_BYTES_MOST = 7_833", "WRITE_BYTES_MOST = 7_834"),
    ("gas_day.py", '_fields_ = [("cause", c_uint64), ("bytes", c_int64)]', '_fields_ = [("bytes", c_int64), ("cause", c_uint64)]'),
    ("gas_day.py", "*(4 * _NUMBERS), *_BYTES], _Written", "*_BYTES, *(4 * _NUMBERS)], _Written"),
    ("gas_day.py", '"header differs"', '"the header differs"'),
    ("boundary.rs", "table: *mut i64,\n        table_places: usize,\n        terms: HourTerms", "table: *mut i64,\n        places: usize,\n        terms: HourTerms"),
    ("boundary.rs", "        money: *mut i64,\n        money_places: usize,\n        scratch", "        scratch"),
    ("boundary.rs", "pub first: u64,\n    pub second: u64", "pub second: u64,\n    pub first: u64"),
    ("boundary.rs", "pub lines: i64", "pub lines: u64"),
    ("boundary.rs", "month: i64, zone: i64", "zone: i64, month: i64"),
    ("boundary.rs", "money_places: usize,\n        scratch: *mut u64", "money_places: usize,\n        scratch: *const u64"),
    ("boundary.rs", "preview_hour(\n        day: Day,\n        table: *const i64", "preview_hour(\n        day: Day,\n        table: *mut i64"),
    ("boundary.rs", "judge_hour(\n        day: Day,\n        table: *const i64", "judge_hour(\n        day: Day,\n        table: *mut i64"),
    ("boundary.rs", "after: *mut i64,\n        after_places", "after: *const i64,\n        after_places"),
    ("boundary.rs", "after_places: usize,\n        scratch: *mut u64", "after_places: usize,\n        scratch: *mut i64"),
    ("boundary.rs", "        after: *mut i64,\n        after_places: usize,\n", ""),
    ("boundary.rs", "money_places: usize,\n        after: *mut i64,\n        after_places", "after_places: usize,\n        after: *mut i64,\n        money_places"),
    ("boundary.rs", "pub fn gas_day_preview_hour(", "pub fn gas_day_preview("),
    ("boundary.rs", "quantity: *const i64", "quantity: *mut i64"),
    ("boundary.rs", "        quantity: *const i64,\n        quantity_places: usize,\n", ""),
    ("boundary.rs", "quantity: *const i64,\n        quantity_places: usize", "quantity: *const i64,\n        quantity_places: i64"),
    ("boundary.rs", "pub struct Judged {\n    pub cause: u64,\n    pub day: Day,\n}", "pub struct Judged {\n    pub cause: u64,\n}"),
    ("boundary.rs", "    ) -> Judged;", "    ) -> Opened;"),
    ("boundary.rs", "pub fn gas_day_judge_hour(", "pub fn gas_day_judge("),
    ("cause.rs", "    JudgedShare = 23,\n", "    JudgedOff = 23,\n"),
    ("cause.rs", "/// The sum is wrong.", "/// The sum is right."),
    ("cause.rs", '"a user who did not cause has a quantity or a causer\'s has the wrong sign"', '"a user who did not cause has a quantity"'),
    ("boundary.rs", "    pub fn gas_day_version() -> u64;\n", ""),
    ("boundary.rs", "    pub lines: i64,\n", "    pub lines: i64,\n    pub spare: [u64; 4],\n"),
    ("lib.rs", "pub const VERSION: u64 = 3;", "pub const VERSION: u64 = 2;"),
    ("lib.rs", *EXCHANGED_MEMBERS),
    ("lib.rs", "    pub closed: i64,\n    /// What was sold so far, in kWh, as a size: of all accepted hours of the zone and its closing.\n    pub sold: i64,\n", "    pub sold: i64,\n    /// Whether it is closed.\n    pub closed: i64,\n"),
    ("lib.rs", "    pub sold: i64,\n    /// What was bought so far", "    pub sold: u64,\n    /// What was bought so far"),
    ("lib.rs", "of the zone and its closing.\n    pub bought: i64,\n", "of the zone and its closing.\n"),
    ("limits.rs", "pub const TOTAL_MOST: i64 = 332_800_000_000;", "pub const TOTAL_MOST: i64 = 332_800_000;"),
    ("limits.rs", "pub const TOTAL_MOST: i64 = 332_800_000_000;\n", ""),
    ("cause.rs", "    /// A total would pass the bound.\n    Totals = 25,\n", ""),
    ("cause.rs", "    Totals = 25,\n", "    Total = 25,\n"),
    ("cause.rs", "    /// A total would pass the bound.\n", "    /// A total would reach the bound.\n"),
    ("cause.rs", '"a total would pass the bound"', '"a total would reach the bound"'),
    ("cause.rs", "whose totals are not zero, or a total below zero or above 332,800,000,000\"", "whose totals are not zero\""),
    ("cause.rs", "    /// totals are not zero, or a total below zero", "    /// totals are not zero, or a total of zero"),
    ("limits.rs", "pub const PRICE_MOST: i64 = 10_000_000;", "pub const PRICE_MOST: i64 = 1_000_000;"),
    ("limits.rs", "pub const USERS_LEAST: i64 = 1;\n", ""),
    ("limits.rs", "pub const USERS_LEAST: i64 = 1;\n", "pub const USERS_LEAST: i64 = 1;\npub const ENTRY_MOST: i64 = 1;\n"),
    ("cause.rs", "Zone = 4,", "Zone = 5,"),
    ("cause.rs", "/// Zone closed.", "/// Zone open."),
    ("cause.rs", "Amount = 9,", "Quantity = 9,"),
    ("cause.rs", '"no line after the header"', '"no line"'),
    ("cause.rs", "at or beyond the user count in either zone, \"", "at or beyond the user count, \""),
    ("boundary.rs", "        hour: i64,\n        zone: i64,\n        users", "        zone: i64,\n        hour: i64,\n        users"),
    ("boundary.rs", "file: *mut u8", "file: *const u8"),
    ("boundary.rs", "pub cause: u64,\n    pub bytes: i64", "pub bytes: i64,\n    pub cause: u64"),
    ("limits.rs", "pub const FILE_MWH_DECIMALS: usize = 3;\n", ""),
    ("limits.rs", "pub const WRITE_BYTES_MOST: usize = 7_833;", "pub const WRITE_BYTES_MOST: usize = 7_832;"),
    ("cause.rs", "WriteNumber = 19,\n", "WriteDigits = 19,\n"),
    ("cause.rs", '"the lent bytes are too few"', '"too few lent bytes"'),
    ("cause.rs", "    WriteRoom = 20,\n", "    WriteRoom = 20,\n    /// No cause.\n    WriteLater = 26,\n"),
    ("cause.rs", '"opening: length not 23, 24 or 25"', '"opening: length not 24"'),
    ("cause.rs", "    DayLength = 21,\n", "    DayHours = 21,\n"),
    ("boundary.rs", "users: i64, length: i64", "length: i64, users: i64"),
    ("lib.rs", "    pub users: i64,\n    /// The hours that the day has: 23, 24 or 25.\n    pub length: i64,\n", "    pub length: i64,\n    /// The users.\n    pub users: i64,\n"),
    ("limits.rs", "pub const LENGTH_MOST: i64 = 25;", "pub const LENGTH_MOST: i64 = 26;"),
]


def edited(text, old, new):
    assert text.count(old) == 1, f"{text.count(old)} times there: {old}"
    return text.replace(old, new)


def tested_python(folder, given):
    """How such tests of the module end, OK or FAILED, with this text for the module. A module that cannot be imported is no test."""
    tests, text = given
    (folder / "gas_day.py").write_text(text)
    library = next(LIBRARIES.glob("libgas_day.so.*"))
    environment = {**os.environ, "PYTHONPATH": str(folder), "GAS_DAY_LIBRARY": str(library)}
    command = [sys.executable, "-B", "-m", "unittest", "discover", "-f", "-s", "bindings/python/tests", "-p", tests]
    run = subprocess.run(command, env=environment, capture_output=True, text=True, check=False, timeout=120)
    end = re.findall(r"^(OK|FAILED)\b", run.stderr, re.M)
    return "not imported" if "Failed to import" in run.stderr or not end else end[-1]


def tested_rust(folder, sources):
    """The same for the crate, with these sources."""
    for name, text in sources.items():
        (folder / name).write_text(text)
    build = ["rustc", "--edition", "2021", "--out-dir", str(folder), "-L", f"native={LIBRARIES}"]
    subprocess.run([*build, "-A", "warnings", "--crate-name", "gas_day", "--crate-type", "rlib", "-l", "static=gas_day", str(folder / "lib.rs")], check=True)
    for test in ("causes", "days"):
        subprocess.run([*build, "--test", "--extern", f"gas_day={folder}/libgas_day.rlib", f"bindings/rust/tests/{test}.rs"], check=True)
        if subprocess.run([str(folder / test)], capture_output=True, check=False).returncode != 0:
            return "FAILED"
    return "OK"


def tested_declarations(folder, sources):
    """The same for the comparison of both with the header."""
    for name, text in sources.items():
        (folder / name).write_text(text)
    library = next(LIBRARIES.glob("libgas_day.so.*"))
    environment = {**os.environ, "PYTHONPATH": str(folder), "GAS_DAY_LIBRARY": str(library)}
    run = subprocess.run([sys.executable, "-B", "tests/bindings/against_header.py", str(folder)], env=environment, capture_output=True, text=True, check=False)
    return "OK" if run.returncode == 0 else "FAILED" if "bindings: " in run.stdout else run.stderr


def tries():
    """Each try by what it puts in, with its test and what that is given; first both bindings as they are."""
    module, sources = PYTHON.read_text(), {path.name: path.read_text() for path in RUST.glob("*.rs")}
    both = {"gas_day.py": module, **sources}
    yield "Python as it is", tested_python, ("test_*.py", module)
    yield "Rust as it is", tested_rust, sources
    yield "declarations as they are", tested_declarations, both
    for tests, edits in PYTHON_EDITS.items():
        for old, new in edits:
            yield f"Python: {new!r} for {old!r}", tested_python, (tests, edited(module, old, new))
    for file, old, new in RUST_EDITS:
        yield f"Rust: {new!r} for {old!r}", tested_rust, {**sources, file: edited(sources[file], old, new)}
    for file, old, new in DECLARATION_EDITS:
        yield f"{file}: {new!r} for {old!r}", tested_declarations, {**both, file: edited(both[file], old, new)}


def main():
    root = Path(sys.argv[1]).resolve()
    shutil.rmtree(root, ignore_errors=True)

    def end(number, test, given):
        folder = root / str(number)
        folder.mkdir(parents=True)
        return test(folder, given)

    not_told = 0
    with ThreadPoolExecutor(2) as pool:
        ends = [(what, pool.submit(end, number, test, given)) for number, (what, test, given) in enumerate(tries())]
        for what, future in ends:
            expected = "OK" if what.endswith((" as it is", " as they are")) else "FAILED"
            if future.result() != expected:
                print(f"wrong bindings: {what}: the tests end in {future.result()!r}, not {expected!r}")
                not_told += 1
    print(f"wrong bindings: {len(ends) - 3} tried, {not_told} not told")
    return not_told > 0


if __name__ == "__main__":
    sys.exit(main())
