"""Runs the README's passages as they are written, all in one shell at the repository's root, one after the other, and then all once more: after the lines by which
bindings/build says what it made, each block of commands has to print the block of text that follows it. Usage: passages.py HEADING, from the root: the passages
below that heading, to the next of its rank."""

import re
import subprocess
import sys
from pathlib import Path

PASSAGE = re.compile(r"```sh\n(.*?)```\n\n```text\n(.+?)```\n", re.S)
MARK = "---- the end of a passage"


def main():
    _, after = Path("README.md").read_text().split(f"\n## {sys.argv[1]}\n")
    section, *_ = after.split("\n## ")
    passages = 2 * PASSAGE.findall(section)
    assert section.count("\n```") == 2 * len(passages), "a block is no part of a passage"
    script = "".join(f"{commands}printf '%s\\n' '{MARK}'\n" for commands, _ in passages)
    run = subprocess.run(["bash", "-e"], input=script, capture_output=True, text=True, check=False)
    printed = re.sub("^bindings: .*\n", "", run.stdout, flags=re.M).split(f"{MARK}\n")
    wrong = 0
    for (commands, expected), found in zip(passages, printed + len(passages) * ["nothing"]):
        if found != expected:
            print(f"passages: this one prints something else:\n{commands}It prints:\n{found}")
            wrong += 1
    if run.returncode != 0 or run.stderr or len(printed) != len(passages) + 1:
        print(f"passages: the shell ends with status {run.returncode}, after {len(printed) - 1} passages:\n{run.stderr}")
        wrong += 1
    print(f"passages: {len(passages)} run, {wrong} wrong")
    return wrong > 0


if __name__ == "__main__":
    sys.exit(main())
