#!/usr/bin/env python3
"""Writes expected.txt in each fund's folder: some commands, and what the interpreter in oracle/ says of them. With --check
it writes nothing, and ends with status 1 if a file differs."""

import shlex
import sys
from pathlib import Path

HERE = Path(__file__).parent
sys.path.insert(0, str(HERE.parent / "oracle"))

from report import lines_of  # noqa: E402

RUNS = {
    "harbour": [
        "rules.ial members.roll",
        "rules.ial members.roll --group 4",
        "rules.ial members_money.roll --kind hundredths",
        "rules.ial members_money.roll --kind hundredths --group 4",
        "rules.ial members.roll --set bonus=3 --set margin[3]=5",
        "rules.ial members.roll --limit 5000",
    ],
    "mill": [
        "rules.ial hands.roll",
        "rules.ial hands.roll --kind hundredths",
    ],
    "school": [
        "rules.ial teachers.roll",
        "rules.ial teachers.roll --group 3",
        "rules.ial teachers.roll --kind hundredths --group 3",
    ],
}


def expected(fund):
    parts = []
    for words in RUNS[fund]:
        lines = [f"$ ial value {words}"] + lines_of(shlex.split(words), HERE / fund)
        parts.append("".join(line + "\n" for line in lines))
    return "\n".join(parts)


def main():
    differ = 0
    for fund in RUNS:
        file = HERE / fund / "expected.txt"
        if "--check" not in sys.argv[1:]:
            file.write_text(expected(fund))
        elif file.read_text() != expected(fund):
            print(f"{file} differs")
            differ = 1
    sys.exit(differ)


if __name__ == "__main__":
    main()
