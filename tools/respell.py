#!/usr/bin/env python3
"""Brings the repository's own definitions, lemmas and fields to the spelling of today's library, once, right after the kit's port.py.

    python3 tools/respell.py [--dry]

Words are in snake case. In a lemma's name a dash joins two names (`length-drop`) and an underscore a plain word (`length_kept`); a field has no dash. Types, facts and modules keep their
capitals; functions of src/, exported names, strings, inputs and outputs keep their names. Ends with the names that would fall together, and then changes nothing."""
import re, subprocess, sys
from pathlib import Path

root = Path(__file__).resolve().parent.parent
word = r"[^\s(){}\[\],;.:`\"«»|]+"
declared = re.compile(r"^(\s*)((?:(?:pub|abbrev|unfoldable|private|data|record|ruleset)\s+)*)(" + word + r")\s*:(?:\s|$)")

# Names that would fall together with another name of their scope.
by_hand = {"first-sum": "first_adds", "second-sum": "second_adds", "case-a": "case_a_lem", "settled_at": "settled_at_lem"}
# Plain words of the library that lemmas' names are joined from.
library = set("""length append drop take map zip zip_with sum get_or replicate tabulate cons concat neg pos negsuc mag mul add sub le lt eqb ltb leb cond min max suc set ones ℤ ℕ fits""".split())
never = {"kWh"}


def snake(name):
    name = name.replace("getD", "get_or").replace("sumℤ", "sum_ℤ")
    name = re.sub(r"(?<=[a-z0-9])([A-Z])", lambda m: "_" + m[1].lower(), name)
    return re.sub(r"(?<=_[a-z])([A-Z])", lambda m: "_" + m[1].lower(), name)


def is_camel(name):
    return re.match(r"[a-z]", name) and re.search(r"[a-z0-9][A-Z]", name) and name not in never


def without_comments(text):
    return re.sub(r"(?m)--(?![^\s]).*$|--\s.*$", "", text)


antt = sorted(f for part in ("specs", "proofs") for f in root.glob(f"crates/*/{part}/**/*.antt") if "/out/" not in str(f))
shared = [f for f in antt if f.name != "Proof.antt"]


def declarations():
    """Every declared name of specs/ and of the lemma files: (name, is a field, is a lemma)."""
    for f in shared:
        kinds, in_record = [], False
        lines = without_comments(f.read_text()).split("\n")
        record = None
        for line in lines:
            m = declared.match(line)
            if not line.strip():
                continue
            indent = len(line) - len(line.lstrip())
            if record is not None and indent <= record:
                record = None
            if not m:
                if re.match(r"^\s*(pub )?(record|data) .* where", line) or re.match(r"^\s*(pub )?record ", line):
                    record = indent
                continue
            kind = m[2].split()
            if "record" in kind:
                record = indent
                continue
            yield m[3], record is not None and "pub" in kind, not ({"abbrev", "unfoldable", "data"} & set(kind)) and record is None


# The library's words that some file brings in.
imported = {n.strip() for f in antt for group in re.findall(r"use (?:Rattle\.std|mathlib|lib|borrow|mir|native|Prim)[^{\n]*\{([^}]*)\}", f.read_text()) for n in group.split(",")}


def mapping():
    found = list(declarations())
    names = {}
    for f in antt:
        for token in re.findall(word, without_comments(f.read_text())):
            if is_camel(token):
                names[token] = snake(token)
    functions = library | {snake(n) for n, field, lemma in found if not lemma and not field and "-" not in n}
    for name, field, lemma in found:
        if "-" not in name.strip("◌") or "◌" in name or name in by_hand:
            continue
        parts = snake(name).split("-")
        if field or "" in parts:
            names[name] = "_".join(parts) if "" not in parts else snake(name)
            continue
        out = parts[0]
        for before, part in zip(parts, parts[1:]):
            out += ("-" if before in functions and part in functions else "_") + part
        names.setdefault(name, out)
        if field:
            names[name] = "_".join(parts)
    fields = {n for n, field, lemma in found if field}
    taken = {names.get(n, n) for n, field, lemma in found if not lemma and not field} | {names[n] for n in names if is_camel(n)} | imported
    for name, field, lemma in found:
        if lemma and name in names and names[name] in taken and name not in fields and not is_camel(name):
            names[name] += "_lem"
    for name in fields:
        if "-" in name.strip("◌") and "◌" not in name:
            names[name] = "_".join(snake(name).split("-"))
    names.update(by_hand)
    return {a: b for a, b in names.items() if a != b}


def turned(text, names):
    return re.sub(word, lambda m: names.get(m[0], m[0]), text)


def turned_apart(text, names):
    """What port.py did not turn: an edit's line or a name in a page, which may have a name as it was before port.py."""
    return re.sub(word, lambda m: names.get(m[0], snake(m[0]) if is_camel(m[0]) else m[0]), text)


def turned_antt(text, names):
    return "\n".join(turned(l, names) if not l.lstrip().startswith("--") else re.sub(r"`[^`]*`", lambda m: turned(m[0], names), l) for l in text.split("\n"))


def turned_strings_apart(text, names):
    return re.sub(r'"(?:\\.|[^"\\])*"|[^"]+', lambda m: m[0] if m[0].startswith('"') else turned(m[0], names), text)


def main():
    names = mapping()
    clashes = []
    targets = {}
    for a, b in sorted(names.items()):
        targets.setdefault(b, []).append(a)
    present = {}
    for f in antt:
        for token in re.findall(word, without_comments(f.read_text())):
            present.setdefault(token, set()).add(str(f.relative_to(root)))
    for b, sources in sorted(targets.items()):
        if len(sources) > 1:
            clashes.append(f"{b} of {', '.join(sources)}")
        before = sorted(f for f in present.get(b, ()) if not f.endswith("Proof.antt"))
        if before and b not in names:
            clashes.append(f"{b} of {sources[0]}: stands already in {before[:3]}")
    for c in clashes:
        print("together:", c)
    if "--dry" in sys.argv:
        for a, b in sorted(names.items()):
            print(a, b)
        return
    for f in antt:
        f.write_text(turned_antt(f.read_text(), names))
    for f in sorted(root.glob("crates/*/src/**/*.rt")):
        f.write_text(turned_strings_apart(f.read_text(), names))
    for f in sorted(root.glob("crates/*/must-fail/*.edit")):
        head, *rest = f.read_text().split("\n")
        f.write_text("\n".join([head] + [turned_apart(l, names) for l in rest]))
    for f in [root / "README.md", *sorted(root.glob("docs/**/*.md"))]:
        f.write_text(re.sub(r"`[^`\n]*`", lambda m: turned_apart(m[0], names), f.read_text()))
    print(len(names), "names")


main()
