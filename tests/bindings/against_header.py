"""Whether the bindings say what include/gas_day.h says: every struct, member, call and parameter; the version, the limits, the sides, and the causes by number, name and
words. In Rust also the parameters' names, which a Python declaration does not have. Usage: against_header.py FOLDER, from the repository's root, with the crate's sources
in the folder and gas_day.py on the path."""

import re
import sys
from ctypes import POINTER, Structure, c_int64, c_uint8, c_uint64
from pathlib import Path

sys.path.insert(0, "tests/header")
import gas_day
from declarations import declared

HEADER = Path("include/gas_day.h").read_text()
RUST = {name: Path(sys.argv[1], f"{name}.rs").read_text() for name in ("lib", "boundary", "cause", "limits")}

# ---- structs and calls, as the header declares them

STRUCTS = {
    "ZoneDay": "gas_day_zone_day",
    "Day": "gas_day_day",
    "Opened": "gas_day_opened",
    "Thresholds": "gas_day_thresholds",
    "HourTerms": "gas_day_hour_terms",
    "Hour": "gas_day_hour",
    "Judged": "gas_day_judged",
    "ClosingTerms": "gas_day_closing_terms",
    "Closing": "gas_day_closing",
    "File": "gas_day_file",
    "Written": "gas_day_written",
}
OF_RUST = {"i64": "int64_t", "u64": "uint64_t", "u8": "uint8_t", "usize": "size_t", **STRUCTS}
OF_PYTHON = {c_int64: "int64_t", c_uint64: "uint64_t", POINTER(c_int64): "int64_t *", POINTER(c_uint64): "uint64_t *", POINTER(c_uint8): "uint8_t *"}


def struct(name, members):
    return f"typedef struct {{ {' '.join(f'{kind} {member};' for member, kind in members)} }} {name};"


def rust_member(line):
    member = re.fullmatch(r"pub (\w+): (\w+),", line)
    return (member[1], OF_RUST[member[2]]) if member else (line, "not read:")


def rust_type(text):
    pointer = re.fullmatch(r"\*(mut|const) (\w+)", text)
    return f"{'const ' if pointer[1] == 'const' else ''}{OF_RUST[pointer[2]]} *" if pointer else f"{OF_RUST[text]} "


def of_rust():
    for source in (RUST["lib"], RUST["boundary"]):
        for attributes, name, body in re.findall(r"((?:^#\[[^\n]*\n)*)^pub struct (\w+) \{\n(.*?)\n\}", source, re.S | re.M):
            if "repr" in attributes:
                assert re.fullmatch(r"#\[repr\(C\)\]\n(#\[derive\([^\n]*\)\]\n)?", attributes), f"{name} is laid out by {attributes!r}"
                lines = [line.strip() for line in body.splitlines() if not line.strip().startswith("///")]
                yield struct(STRUCTS[name], [rust_member(line) for line in lines])
    for name, parameters, answer in re.findall(r"pub fn (gas_day_\w+)\((.*?)\) -> (\w+);", RUST["boundary"], re.S):
        parameters = [f"{rust_type(kind)}{parameter}" for parameter, kind in re.findall(r"(\w+): ([^,]+)", parameters)]
        yield f"{OF_RUST[answer]} {name}({', '.join(parameters) or 'void'});"


def python_type(kind):
    return OF_PYTHON.get(kind) or STRUCTS[kind.__name__[1:]]


def of_python():
    for kind in vars(gas_day).values():
        if isinstance(kind, type) and issubclass(kind, Structure) and kind is not Structure:
            yield struct(python_type(kind), [(member, python_type(of)) for member, of in kind._fields_])
    for name in ("gas_day_version", *gas_day._CALLS):
        call = getattr(gas_day._library, name)
        yield f"{python_type(call.restype)} {name}({', '.join(map(python_type, call.argtypes)) or 'void'});"


def without_names(declaration):
    """A call without what a Python declaration does not have: its parameters' names, const, and a size_t that is not uint64_t."""
    if declaration.startswith("typedef"):
        return declaration
    name, parameters = re.fullmatch(r"(\w+ \w+)\((.*)\);", declaration).groups()
    kinds = [re.sub(r"\w+$", "", re.sub("^const ", "", parameter)).strip() for parameter in parameters.split(", ")]
    return f"{name}({', '.join(kinds) if parameters != 'void' else 'void'});".replace("size_t", "uint64_t")


# ---- numbers by name


def of_header():
    """The limits, the version and the sides by name; the causes by number, name and words."""
    numbers = re.findall(r"^#define GAS_DAY_(\w+) (?:U?INT64_C\()?(-?\d+)\)?", HEADER, re.M)
    sides = re.findall(r"GAS_DAY_(WITHIN|EXCESS|SHORTFALL) = (\d)", HEADER)
    causes = re.findall(r"GAS_DAY_CAUSE_(\w+) = (\d+),? */\* (.*?) \*/", HEADER, re.S)
    words = [(int(number), name, re.sub(r"\s+(\* )?", " ", text)) for name, number, text in causes]
    return {name: int(number) for name, number in numbers + sides}, words


def numbers_of_python(names):
    sides = {side.name: int(side) for side in gas_day.Side}
    return {name: sides.get(name, getattr(gas_day, name, None)) for name in names}


def causes_of_python():
    return [(int(cause), cause.name, gas_day._WORDS.get(cause)) for cause in gas_day.Cause]


def numbers_of_rust():
    constants = re.findall(r"^pub const (\w+): \w+ = (-?[\d_]+);", RUST["lib"] + RUST["limits"], re.M)
    sides = re.findall(r"(\d) => (?:return Outcome::|Side::)(\w+),", RUST["lib"])
    return [(name.upper(), int(number)) for name, number in constants + [(name, number) for number, name in sides]]


def causes_of_rust():
    """The words by the code; and those of the documentation too, which begin alike, if they differ."""
    words = dict(re.findall(r'Cause::(\w+) => (?:concat!\()?\s*((?:"[^"]*",?\s*)+)', RUST["cause"]))
    for documented, name, number in re.findall(r"((?:^    ///[^\n]*\n)*)^    (\w+) = (\d+),", RUST["cause"], re.M):
        text = "".join(re.findall(r'"([^"]*)"', words.get(name, "")))
        shown = " ".join(re.findall(r"/// (.*)", documented))
        alike = shown[:1].lower() + shown[1 : len(text)] == text
        yield int(number), re.sub(r"(?<=[a-z])(?=[A-Z])", "_", name).upper(), text if alike else f"{text}, documented as: {shown}"


def differences(what, header, binding):
    for item in sorted(set(map(str, header)) ^ set(map(str, binding))):
        print(f"bindings: {what}: only in {'the header' if item in map(str, header) else 'the binding'}: {item}")
    return sorted(map(str, header)) != sorted(map(str, binding))


def main():
    calls = declared(HEADER)
    numbers, causes = of_header()
    compared = [
        ("Rust's declarations", calls, list(of_rust())),
        ("Python's declarations", list(map(without_names, calls)), list(of_python())),
        ("Rust's numbers", numbers.items(), numbers_of_rust()),
        ("Python's numbers", numbers.items(), numbers_of_python(numbers).items()),
        ("Rust's causes", causes, list(causes_of_rust())),
        ("Python's causes", causes, causes_of_python()),
    ]
    wrong = [differences(*each) for each in compared]
    if any(wrong):
        return 1
    print(f"bindings: {len(calls)} declarations, {len(numbers)} numbers and {len(causes)} causes, as the header has them")
    return 0


if __name__ == "__main__":
    sys.exit(main())
