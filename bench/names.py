#!/usr/bin/env python3
"""How fast the rules of names are tried, and how the time grows. Run it by hand, from anywhere: bench/names.py

A program of its own, crates/times, makes a unit that is full of names of one kind and tries the rules of
names on it. A row is a kind of unit: its words, the processor time of trying it once (the difference between trying
it TIMES times and not at all; the least of three), the words a second, and the time's ratio to that of a unit of
half the names. The larger unit is nearly at the limit of 65,536 words. The ratio is to stay below 2.5 for each kind.

The instructions for a name are the same from an eighth of these names to all of them: 3,100 for declarations and tails, 15,900 for
blocks, 1,650 for block-labels, each within 2 percent (12 where the index has just grown), as valgrind counts them. What takes the ratio above 2
is memory: the phrases and the index of the larger units don't fit the processor's own, and on a busy machine others use that too. So where a row
is above 2.5, look at its instructions before the code.
"""
import sys

from programs import program, run

# Kinds of units, and the names of the larger one, which keep the limit of words.
KINDS = (('declarations', 16_000), ('blocks', 32_000), ('block-labels', 20_000), ('tails', 16_000))
TIMES = 10
HIGHEST = 2.5


def cost(path, kind, names, times):
    """The processor seconds of a run, and the unit's words."""
    said, seconds, _ = run(path, 'units', names, times, kind)
    told = said.split()
    if told[:1] != [kind] or told[1] == '0' or told[4] != str(times):
        sys.exit(f'{kind}: {said!r}')
    return seconds, int(told[1])


def each(path, kind, names):
    """The processor seconds of trying a unit with so many names once, and its words."""
    none = min(cost(path, kind, names, 0)[0] for _ in range(3))
    seconds, words = min(cost(path, kind, names, TIMES) for _ in range(3))
    return (seconds - none) / TIMES, words


def main():
    path = program('times')
    print(f'{"unit":>13}{"words":>8}{"ms":>8}{"Mwords/s":>10}{"ratio":>8}')
    is_fine = True
    for kind, names in KINDS:
        half, _ = each(path, kind, names // 2)
        whole, words = each(path, kind, names)
        print(f'{kind:>13}{words:8}{whole * 1000:8.2f}{words / whole / 1e6:10.2f}{whole / half:8.2f}')
        is_fine = is_fine and whole / half < HIGHEST
    return 0 if is_fine else 1


if __name__ == '__main__':
    sys.exit(main())
