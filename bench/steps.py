#!/usr/bin/env python3
"""How long a step of the plain executive takes with 128 processes. Run it by hand, from anywhere: bench/steps.py

A program of its own, crates/times, runs 128 processes that take turns on one lane, for so many
events as its word says; for each it asks which event may come and makes its step. A row is a number of
events: the processor time (the least of three runs), the peak of memory, and the milliseconds for each
event more than in the row above. A step is to cost the same in a long run, so the last row's is at
most 2.5 times that of the first. The peak is never less than Python's own.
"""
import sys

from programs import program, run

EVENTS = (300, 10_000, 20_000, 40_000)
RATIO_LIMIT = 2.5


def cost(path, events):
    """The processor seconds and peak megabytes of one run of so many events."""
    said, seconds, peak = run(path, 'steps', events)
    if said != f'{events} events, 128 processes\n':
        sys.exit(f'{events} events: {said!r}')
    return seconds, peak


def main():
    path = program('times')
    print(f'{"events":>8}{"ms":>10}{"MB":>8}{"ms each":>10}')
    last, steps = None, []
    for events in EVENTS:
        runs = [cost(path, events) for _ in range(3)]
        seconds, peak = min(run[0] for run in runs), max(run[1] for run in runs)
        step = ''
        if last:
            steps.append((seconds - last[1]) * 1000 / (events - last[0]))
            step = f'{steps[-1]:.4f}'
        print(f'{events:8}{seconds * 1000:10.1f}{peak:8.1f}{step:>10}')
        last = events, seconds
    return 0 if steps[-1] < RATIO_LIMIT * steps[0] else 1


if __name__ == '__main__':
    sys.exit(main())
