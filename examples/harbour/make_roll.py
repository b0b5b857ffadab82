#!/usr/bin/env python3
"""Writes members.roll, in whole pounds, and members_money.roll, in pounds with two decimals: 900 members, the same in
both but for the hundredths. A member is four lines: class, age, years of service, amount a year."""

import random
from pathlib import Path

MEMBERS = 900
LEFT, ACTIVE, DEFERRED, PENSIONER, OLD_CODE, END = 0, 1, 2, 3, 9, -1


def member(draw):
    """Class, age, years of service, and the amount in hundredths of a pound."""
    kind = draw.choices([LEFT, ACTIVE, DEFERRED, PENSIONER, OLD_CODE], [15, 45, 12, 25, 3])[0]
    if kind == PENSIONER:
        return kind, draw.randint(60, 94), draw.randint(10, 40), draw.randint(5_000, 60_000)
    if kind == DEFERRED:
        return kind, draw.randint(30, 64), draw.randint(5, 30), draw.randint(2_000, 30_000)
    age = draw.randint(20, 68)
    years = draw.randint(0, min(age - 20, 40))
    return kind, age, years, draw.randint(30_000, 120_000)


def main():
    draw = random.Random(1958)
    whole, money = [], []
    for _ in range(MEMBERS):
        kind, age, years, amount = member(draw)
        whole += [kind, age, years, amount // 100]
        money += [kind, age, years, f"{amount // 100}.{amount % 100:02}"]
    folder = Path(__file__).parent
    for name, figures in (("members.roll", whole), ("members_money.roll", money)):
        (folder / name).write_text("".join(f"{f}\n" for f in figures + [END]))


if __name__ == "__main__":
    main()
