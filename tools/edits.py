#!/usr/bin/env python3
"""Says at what each must-fail edit was refused: its first error, a line each, from what `rt ci` or `rt must-fail` printed.
    tools/edits.py [FILE]      of this file, or standard input
A line with `!` before it shows no fact: there a proof file names something that is not there, or the edit is bad. Exits with 1 where there is one."""
import re
import sys
from pathlib import Path

LINE = re.compile(r"^rt: must-fail (\S+)\.edit: (.*)$", re.M)
NO_FACT = ("can be named from here", "is not in scope", "names what the edit took away", "BAD EDIT", "NOT REFUSED", "NOT TRIED", "only by a limit of the prover")


def main(words):
    if len(words) > 1:
        sys.exit(__doc__)
    printed = Path(words[0]).read_text() if words else sys.stdin.read()
    wrong = 0
    for edit, said in sorted(set(LINE.findall(printed))):
        no_fact = any(x in said for x in NO_FACT)
        wrong += no_fact
        said = said.removeprefix("refused, as it must be: ")
        print(f"{'! ' * no_fact}{edit}: {said[:160]}")
    return 1 if wrong else 0


if __name__ == "__main__":
    sys.exit(main(sys.argv[1:]))
