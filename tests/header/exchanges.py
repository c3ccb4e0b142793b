"""Whether the header's test tells a wrong header: in copies of include/gas_day.h any two members of a struct are exchanged, and any two lists of a call; any two
neighbouring enumerators have each other's number, and every other constant is one more or one less; the test has to fail with each. Usage, from the repository's root:
exchanges.py LIBRARY FOLDER."""

import itertools
import re
import subprocess
import sys
from concurrent.futures import ThreadPoolExecutor
from pathlib import Path


def members_exchanged(header):
    for struct in re.finditer(r"typedef struct \{\n(.*?)\} (\w+);", header, re.S):
        lines = struct[1].splitlines(keepends=True)
        for i, j in itertools.combinations(range(len(lines)), 2):
            exchanged = list(lines)
            exchanged[i], exchanged[j] = lines[j], lines[i]
            yield f"{struct[2]}: member {i + 1} and {j + 1}", header[: struct.start(1)] + "".join(exchanged) + header[struct.end(1) :]


def lists_exchanged(header):
    """The test hands lists over in the header's order. A macro, by the call's name, hands each of the two on in the other's place, with its length."""
    for name, parameters in re.findall(r"^\w+ (gas_day_\w+)\(([^)]*)\);", header, re.M):
        names = re.findall(r"(\w+)(?:,|$)", parameters)
        lists = re.findall(r"int64_t \*(\w+),\s+size_t", parameters)
        for a, b in itertools.combinations(lists, 2):
            other = {a: b, b: a, f"{a}_places": f"{b}_places", f"{b}_places": f"{a}_places"}
            handed = [f"(void *)({other.get(of, of)})" if of in lists else other.get(of, of) for of in names]
            yield f"{name}: {a} and {b}", f"{header}#define {name}({', '.join(names)}) {name}({', '.join(handed)})\n"


def numbers_exchanged(header):
    for enum in re.finditer(r"enum \{\n(.*?)\};", header, re.S):
        values = list(re.finditer(r"(\w+) = (\d+)", enum[1]))
        for a, b in zip(values, values[1:]):
            changed = enum[1][: a.start(2)] + b[2] + enum[1][a.end(2) : b.start(2)] + a[2] + enum[1][b.end(2) :]
            yield f"{a[1]} and {b[1]}", header[: enum.start(1)] + changed + header[enum.end(1) :]


def constants_off_by_one(header):
    for define in re.finditer(r"#define (GAS_DAY_\w+) (?:U?INT64_C\()?(-?\d+)", header):
        for off in (-1, 1):
            yield f"{define[1]} by {off}", header[: define.start(2)] + str(int(define[2]) + off) + header[define.end(2) :]


def told(header, library, folder):
    """Whether the test fails with this header. One that does not compile has told nothing."""
    folder.mkdir(parents=True, exist_ok=True)
    (folder / "gas_day.h").write_text(header)
    program = folder / "header"
    subprocess.run(["gcc", "-std=c11", "-w", f"-I{folder}", "tests/header/main.c", library, "-o", program], check=True)
    return subprocess.run([program], stdout=subprocess.DEVNULL).returncode == 1


def main():
    library, folder = sys.argv[1], Path(sys.argv[2])
    header = Path("include/gas_day.h").read_text()
    if told(header, library, folder / "right"):
        print("exchanges: the test fails with the header as it is")
        return 1
    wrong = list(itertools.chain(members_exchanged(header), lists_exchanged(header), numbers_exchanged(header), constants_off_by_one(header)))
    with ThreadPoolExecutor(2) as two:
        results = two.map(lambda i: told(wrong[i][1], library, folder / str(i)), range(len(wrong)))
    tried, passed = len(wrong), [name for (name, _), is_told in zip(wrong, results) if not is_told]
    for name in passed:
        print(f"exchanges: not told: {name}")
    print(f"exchanges: {tried} tried, {len(passed)} not told")
    return 1 if passed else 0


if __name__ == "__main__":
    sys.exit(main())
