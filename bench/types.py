#!/usr/bin/env python3
"""How fast the rules of types are tried, and how the time grows. Run it by hand, from anywhere: bench/types.py

A program of its own, crates/times, makes a unit whose types take work of one kind and tries the rules of types
on it. A row is a kind of unit: its words, the processor time of trying it once (the difference between trying it TIMES
times and not at all; the least of three), the words a second, and the time's ratio to that of a unit of half the
length. The larger unit is nearly at the limit of 65,536 words. The ratio is to stay below 2.5 for each kind.
"""
import sys

from programs import program, run

# Kinds of units, and how many terms, factors, hundredths of assignments, subscripts, values, parts or constants the larger one has, which keep the
# limit of words.
KINDS = (('typed-terms', 32_000), ('typed-factors', 60_000), ('typed-parentheses', 50_000), ('typed-subscripts', 16_000), ('typed-values', 30_000), ('typed-parts', 10_000), ('typed-constants', 9_000))
TIMES = 10
HIGHEST = 2.5


def cost(path, kind, names, times):
    """The processor seconds of a run, and the unit's words."""
    said, seconds, _ = run(path, 'units', names, times, kind)
    told = said.split()
    if told[:1] != [kind] or told[1] == '0' or told[4] != str(times):
        sys.exit(f'{kind}: {said!r}')
    return seconds, int(told[1])


def each(path, kind, names):
    """The processor seconds of trying a unit with so many names once, and its words."""
    none = min(cost(path, kind, names, 0)[0] for _ in range(3))
    seconds, words = min(cost(path, kind, names, TIMES) for _ in range(3))
    return (seconds - none) / TIMES, words


def main():
    path = program('times')
    print(f'{"unit":>19}{"words":>8}{"ms":>8}{"Mwords/s":>10}{"ratio":>8}')
    is_fine = True
    for kind, names in KINDS:
        half, _ = each(path, kind, names // 2)
        whole, words = each(path, kind, names)
        print(f'{kind:>19}{words:8}{whole * 1000:8.2f}{words / whole / 1e6:10.2f}{whole / half:8.2f}')
        is_fine = is_fine and whole / half < HIGHEST
    return 0 if is_fine else 1


if __name__ == '__main__':
    sys.exit(main())
