#!/usr/bin/env python3
"""Run once after tools/respell.py: the names that it left, since their old spelling had no capital: the library's `get_or`, and a sign joined by an underscore, as in its `neg_ℤ`."""
import re
from pathlib import Path

root = Path(__file__).resolve().parent.parent
names = {"get_d_map": "get_or-map_at", "get_d_tabulate": "get_or-tabulate", "get_d_zip": "get_or-zip", "sumℤ": "sum_ℤ"}
files = [f for pattern in ("specs/**/*.antt", "proofs/**/*.antt", "src/**/*.rt", "must-fail/*.edit") for f in root.glob("crates/*/" + pattern)]
for f in sorted(files) + [root / "README.md", *root.glob("docs/**/*.md")]:
    text = f.read_text()
    turned = re.sub(r"(?<![\w'₀-])(get_d_map|get_d_tabulate|get_d_zip|sumℤ)(?![\w'₀-])", lambda m: names[m[0]], text)
    if turned != text:
        f.write_text(turned)

# A field that the first script gave the name of the lemma that was spelled alike.
for f in sorted(root.glob("crates/firsthour/*/Examples.antt")):
    f.write_text(f.read_text().replace("case_a_lem", "case_a"))
