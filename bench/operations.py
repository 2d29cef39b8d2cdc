#!/usr/bin/env python3
"""How long an operation of expressions takes. Run it by hand, from anywhere: bench/operations.py

A program of its own, crates/times, does so many rounds of one operation as its words say, and
each round needs what the one before it came to. A row is an operation: its rounds, the processor time
(the least of nine runs), and the nanoseconds for each round, from which those of the program's start,
a run of no rounds, are taken. A sum and a comparison of integers are to take less than 20 nanoseconds
each. CAT joins a byte and a text of 255 bytes, for which no limit is set.
"""
import sys

from programs import program, run

# An operation, its rounds, and the nanoseconds that it stays below.
ROWS = (('sum', 20_000_000, 20), ('comparison', 20_000_000, 20), ('cat', 1_000_000, None))
# On a machine with other work a run can take twice the time, so the least of several is told.
RUNS = 9


def cost(path, kind, rounds):
    """The processor seconds of one run of so many rounds."""
    said, seconds, _ = run(path, 'operations', rounds, kind)
    if not said.startswith(f'{rounds} {kind} ') or said.count('\n') != 1:
        sys.exit(f'{rounds} {kind}: {said!r}')
    return seconds


def main():
    path = program('times')
    print(f'{"operation":>12}{"rounds":>12}{"ms":>10}{"ns each":>10}')
    is_fine = True
    for kind, rounds, limit in ROWS:
        start = min(cost(path, kind, 0) for _ in range(RUNS))
        seconds = min(cost(path, kind, rounds) for _ in range(RUNS))
        each = (seconds - start) * 1e9 / rounds
        print(f'{kind:>12}{rounds:12}{seconds * 1000:10.1f}{each:10.2f}')
        is_fine = is_fine and (limit is None or each < limit)
    return 0 if is_fine else 1


if __name__ == '__main__':
    sys.exit(main())
