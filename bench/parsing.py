#!/usr/bin/env python3
"""How fast words are parsed, and how the time grows. Run it by hand, from anywhere: bench/parsing.py

A program of its own, crates/times, makes a unit of one kind and parses its words. A row is a kind
of unit of so many bytes: its words, the processor time of parsing it once (the difference between parsing
it TIMES times and not at all; the least of three), the words a second, and the time's ratio to that of
a unit of half the bytes. The larger unit is nearly at the limit of 65,536 words. The ratio is to stay
below 2.5 for each kind. On an idle machine it is 2.2 at most. No unit is to take a second, those that are no files among them.
"""
import sys

from programs import program, run

# Kinds of units, and the bytes of the larger one, which keep the limit of words.
KINDS = (('list', 150_000), ('sum', 160_000), ('product', 180_000), ('parentheses', 60_000), ('groups', 175_000), ('labels', 120_000),
         ('ordinary', 140_000), ('units', 240_000), ('stuck', 240_000), ('endless', 190_000))
# Those that are no files.
UNREAD = ('stuck', 'endless')
TIMES = 30
HIGHEST = 2.5
SECONDS = 1.0


def cost(path, kind, size, times):
    """The processor seconds of a run, and the unit's words."""
    said, seconds, _ = run(path, 'units', size, times, kind)
    told = said.split()
    if told[:1] != [kind] or told[4] != ('0' if kind in UNREAD else str(times)):
        sys.exit(f'{kind}: {said!r}')
    return seconds, int(told[1])


def each(path, kind, size):
    """The processor seconds of parsing a unit of so many bytes once, and its words."""
    none = min(cost(path, kind, size, 0)[0] for _ in range(3))
    seconds, words = min(cost(path, kind, size, TIMES) for _ in range(3))
    return (seconds - none) / TIMES, words


def main():
    path = program('times')
    print(f'{"unit":>13}{"words":>8}{"ms":>8}{"Mwords/s":>10}{"ratio":>8}')
    is_fine = True
    for kind, size in KINDS:
        half, _ = each(path, kind, size // 2)
        whole, words = each(path, kind, size)
        print(f'{kind:>13}{words:8}{whole * 1000:8.2f}{words / whole / 1e6:10.2f}{whole / half:8.2f}')
        is_fine = is_fine and whole / half < HIGHEST and whole < SECONDS
    return 0 if is_fine else 1


if __name__ == '__main__':
    sys.exit(main())
