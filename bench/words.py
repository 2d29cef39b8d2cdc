#!/usr/bin/env python3
"""How fast words are read. Run it by hand, from anywhere: bench/words.py

A program of its own, crates/times, makes a text of one kind and reads its words. A row is a kind
of text of so many bytes: its words, the processor time of reading it once (the difference between
reading it 21 times and once, by 20; the least of three), and the megabytes a second. Ordinary source
is to be read at 20 MB/s at least, and no kind slower than at a tenth of it.

The kinds of the second table define names again and again, so that what a name comes to is found anew
behind each definition. A row has the processor seconds of reading a text once (the least of three), at
half the length and at the whole one, and their ratio. A text of 1 MiB is to be read in 10 seconds.
"""
import sys

from programs import program, run

# Kinds of text, and their bytes, which keep the limit of words.
KINDS = (('ordinary', 1_048_576), ('comment', 1_048_576), ('line', 1_048_576), ('quotes', 1_048_576), ('digits', 1_048_576),
         ('replacements', 262_144), ('chain', 262_144), ('empties', 262_144))
TIMES = 20
LEAST = 20

# Kinds of text that define names again.
AGAIN = ('same', 'turns', 'wide', 'mixed', 'many', 'fours', 'fives', 'fresh', 'pair', 'fifty', 'scattered', 'beside', 'late', 'leaves',
         'shuffled', 'unneeded')
WHOLE = 1_048_576
MOST = 10


def cost(path, kind, size, times):
    """The processor seconds of a run, its bytes and words."""
    said, seconds, _ = run(path, 'words', size, times, kind)
    told = said.split()
    if told[:1] != [kind]:
        sys.exit(f'{kind}: {said!r}')
    return seconds, int(told[1]), int(told[3]) // times


def again(path, kind):
    """The seconds of reading a text of a kind that defines names again."""
    half, _, _ = min(cost(path, kind, WHOLE // 2, 1) for _ in range(3))
    whole, size, words = min(cost(path, kind, WHOLE, 1) for _ in range(3))
    print(f'{kind:>13}{size:10}{words:8}{half:8.2f} s{whole:8.2f} s{whole / half:8.1f}')
    return whole


def main():
    path = program('times')
    print(f'{"text":>13}{"bytes":>10}{"words":>8}{"ms":>8}{"MB/s":>8}')
    speeds = []
    for kind, least in KINDS:
        once = min(cost(path, kind, least, 1)[0] for _ in range(3))
        seconds, size, words = min(cost(path, kind, least, TIMES + 1) for _ in range(3))
        each = (seconds - once) / TIMES
        speeds.append(size / each / 1e6)
        print(f'{kind:>13}{size:10}{words:8}{each * 1000:8.2f}{speeds[-1]:8.1f}')
    slowest = max(again(path, kind) for kind in AGAIN)
    return 0 if speeds[0] >= LEAST and min(speeds) >= speeds[0] / 10 and slowest <= MOST else 1


if __name__ == '__main__':
    sys.exit(main())
