"""Whether include/gas_day.h declares the structs and the calls that the library exports, and no other: every member and every parameter by its name, its type and its
place. A test in C cannot see a parameter by the wrong name. Run from the repository's root."""

import re
import sys
from pathlib import Path

SOURCES = ["crates/rules/src/lib.rt", "crates/record_c/src/lib.rt", "crates/flat/src/lib.rt", "crates/gas_day_c/src/lib.rt"]
NUMBERS = {"i64": "int64_t", "u64": "uint64_t", "u8": "uint8_t"}
STRUCTS = {
    "ZoneDayC": "gas_day_zone_day",
    "DayC": "gas_day_day",
    "OpenC": "gas_day_opened",
    "ThresholdsC": "gas_day_thresholds",
    "HourTerms": "gas_day_hour_terms",
    "HourC": "gas_day_hour",
    "JudgedC": "gas_day_judged",
    "ClosingTerms": "gas_day_closing_terms",
    "ClosingC": "gas_day_closing",
    "FileC": "gas_day_file",
    "WrittenC": "gas_day_written",
}


def type_in_c(name):
    return NUMBERS.get(name) or STRUCTS[name]


def parameter_in_c(name, kind):
    area = re.fullmatch(r"&(mut )?\[(\w+)\]", kind)
    if not area:
        return f"{type_in_c(kind)} {name}"
    const = "" if area[1] else "const "
    return f"{const}{NUMBERS[area[2]]} *{name}, size_t {name}_{'bytes' if area[2] == 'u8' else 'places'}"


def exported(source):
    """The declarations in C of what a source file exports."""
    for name, members in re.findall(r"pub struct (\w+) \{(.*?)\}", source, re.S):
        if name in STRUCTS:
            members = " ".join(f"{type_in_c(kind)} {member};" for member, kind in re.findall(r"pub (\w+): (\w+),", members))
            yield f"typedef struct {{ {members} }} {STRUCTS[name]};"
    for name, parameters, result in re.findall(r'pub extern "C" fn (\w+)\((.*?)\) -> (\w+)', source, re.S):
        parameters = [parameter_in_c(*parameter) for parameter in re.findall(r"(\w+): ([^,]+)", parameters)]
        yield f"{type_in_c(result)} {name}({', '.join(parameters) or 'void'});"


def declared(header):
    """The declarations of structs and of calls in the header, each on one line."""
    text = re.sub(r"/\*.*?\*/", " ", header, flags=re.S)
    text = re.sub(r"^ *#.*$", " ", text, flags=re.M)
    text = re.sub(r"\s+", " ", text)
    return re.findall(r"typedef struct \{[^}]*\} \w+;|\w+ gas_day_\w+\([^)]*\);", text)


def main():
    of_library = [text for path in SOURCES for text in exported(Path(path).read_text())]
    of_header = declared(Path("include/gas_day.h").read_text())
    for text in sorted(set(of_library) ^ set(of_header)):
        print(f"declarations: only in the {'library' if text in of_library else 'header'}: {text}")
    if sorted(of_library) != sorted(of_header) or not of_header:
        return 1
    print(f"declarations: {len(of_header)} of the header, all as the library exports them")
    return 0


if __name__ == "__main__":
    sys.exit(main())
