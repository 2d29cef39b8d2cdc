#!/usr/bin/env python3
"""How the cost of a run grows with the unit and the script. Run it by hand, from anywhere: bench/reading.py

Units of four shapes double up to the limits of a unit, 65,536 words and 1,048,576 bytes, under a
script of few events. Then scripts of two shapes double up to the limit of 4,096 lines, over the
smallest unit. A row is a run: the words or lines and the bytes that double, the processor time (the
least of three runs), the peak of memory, and the time's ratio to the row above. Reading, checking and
one request are to be linear in the unit, and reading and playing in the script's lines, so a ratio
stays below 2.5. The peak is never less than Python's own, in which the program is started.
"""
import os
import pathlib
import subprocess
import sys
import tempfile

ROOT = pathlib.Path(__file__).resolve().parent.parent
PROGRAM = ROOT / 'crates/hal_cli/out/hal_cli'
WORD_LIMIT, BYTE_LIMIT, LINE_LIMIT = 65_536, 1_048_576, 4_096
DOUBLINGS = 6
RATIO_LIMIT = 2.5
# Below this many seconds a time says little.
LEAST = 0.02


def sum_of(words):
    """One sum of many terms."""
    return ['DECLARE N INTEGER;', 'N = 1'] + ['+ 1 - 1'] * ((words - 15) // 4) + [';']


def assignments(words):
    """Many statements over one variable."""
    return ['DECLARE N INTEGER;'] + ['N = N + 1;', 'N = N - 1;'] * ((words - 11) // 12)


def names(words):
    """Many variables, each of them used."""
    count = (words - 7) // 10
    return [f'DECLARE V{n} INTEGER;' for n in range(count)] + [f'V{n} = V{n} + {n % 9};' for n in range(count)]


def items(words):
    """A WRITE of many items, which raises error 3:3 after the last one."""
    return ['WRITE(6) 1'] + [', 1'] * ((words - 13) // 2) + [';']


def text_of(lines, size):
    """The unit of these lines, filled up with blanks to so many bytes."""
    lines = ['P: PROGRAM;', *lines, 'CLOSE P;']
    fill = (size - sum(len(line) + 1 for line in lines)) // len(lines)
    text = ''.join(' ' * max(fill, 1) + line + '\n' for line in lines)
    return (text + ' ' * (size - len(text))).encode()


def cost(words):
    """The exit status, processor seconds and peak megabytes of one run."""
    child = subprocess.Popen([PROGRAM, *words], stdout=subprocess.DEVNULL)
    _, status, usage = os.wait4(child.pid, 0)
    child.returncode = os.WEXITSTATUS(status) if os.WIFEXITED(status) else -1
    return child.returncode, usage.ru_utime + usage.ru_stime, usage.ru_maxrss / 1024


def ticks(lines):
    """A script that lets time pass on every line."""
    return b'TICK 1\n' * lines


def preemptions(lines):
    """A script of long lines that preempt a process which isn't there."""
    return (b'PREEMPT ' + b'N' * 240 + b'\n') * lines


def unit_files(shape):
    """The runs of a unit's shape: its words, its bytes, and the files."""
    for doubling in reversed(range(DOUBLINGS)):
        words, size = WORD_LIMIT >> doubling, BYTE_LIMIT >> doubling
        yield words, size, b'RUN 3\n', text_of(shape(words), size)


def script_files(shape):
    """The runs of a script's shape: its lines, its bytes, and the files."""
    for doubling in reversed(range(DOUBLINGS)):
        lines = LINE_LIMIT >> doubling
        script = shape(lines)
        yield lines, len(script), script, b' P: PROGRAM; CLOSE P;\n'


def measure(shape, what, files, folder):
    """Prints a table of the shape; True where each ratio that tells something stays below its limit."""
    print(f'{shape.__name__}: {shape.__doc__}\n{what:>8}{"bytes":>10}{"ms":>9}{"MB":>8}{"ratio":>8}')
    last, is_fine = None, True
    for count, size, script, unit in files(shape):
        (folder / 'script.txt').write_bytes(script)
        (folder / 'unit.hal').write_bytes(unit)
        runs = [cost(['run', '1', str(folder / 'script.txt'), str(folder / 'unit.hal')]) for _ in range(3)]
        if any(status != 0 for status, _, _ in runs):
            sys.exit(f'{shape.__name__} of {count} {what}: the program ended with status {runs[0][0]}')
        seconds, peak = min(run[1] for run in runs), max(run[2] for run in runs)
        ratio = seconds / last if last else 1
        print(f'{count:8}{size:10}{seconds * 1000:9.1f}{peak:8.1f}{ratio:8.2f}')
        is_fine = is_fine and (ratio < RATIO_LIMIT or seconds < LEAST)
        last = seconds
    return is_fine


def main():
    subprocess.run([ROOT / 'hal'], stdout=subprocess.DEVNULL, check=False)  # builds it where it isn't built
    if not PROGRAM.exists():
        return 1
    with tempfile.TemporaryDirectory() as folder:
        folder = pathlib.Path(folder)
        results = [measure(shape, 'words', unit_files, folder) for shape in (sum_of, assignments, names, items)]
        results += [measure(shape, 'lines', script_files, folder) for shape in (ticks, preemptions)]
    return 0 if all(results) else 1


if __name__ == '__main__':
    sys.exit(main())
