#!/usr/bin/env python3
"""How fast sets of units are compiled, and how the time grows. Run it by hand, from anywhere: bench/compiling.py

The proved program, with the allocator that `./hal` gives it ([tools/large_pages.sh](../tools/large_pages.sh)), builds sets of units, of 16 KiB to 1 MiB of source: a PROGRAM that calls PROCEDUREs, each a unit of its own with declarations, loops,
conditions, expressions, subscripts and texts. The first table has a row for each size: the processor time of `build` (the least of seven), the megabytes a second, and the ratio
to half the size. 1 MiB is to be built at 2 MB a second at least, and no ratio is to be above 2.5. A size that takes longer than 10 seconds ends the table.

The second table is the same of one PROGRAM alone, with such statements of data of its own, up to 128 KiB: of a PROGRAM's data it is asked whether a TASK of it shares them. Its ratios have the same bar.

The third table says which share each stage has of the set of 32 KiB, which is given a fault in its last statement, which a
stage finds when it has done all its work, so that no later stage begins. A row is a stage: the time until the set is refused by it, and the time that it adds to the one before.

It ends with status 1 where a bar isn't met.
"""
import os
import pathlib
import subprocess
import sys
import tempfile

ROOT = pathlib.Path(__file__).resolve().parent.parent
PROGRAM = ROOT / 'crates/hal_cli/out/hal_cli'
KIB = 1024
SIZES = (16 * KIB, 32 * KIB, 64 * KIB, 128 * KIB, 256 * KIB, 512 * KIB, 1024 * KIB)
PROGRAM_SIZES = SIZES[:4]
SHARED = 32 * KIB
LEAST, HIGHEST, LONGEST = 2.0, 2.5, 10.0
# A unit keeps below the limit of words.
UNIT = 128 * KIB

# Stages in their order, each with a last statement that it refuses, and the rule that it tells.
STAGES = (
    ('words and trees', 'VELOCITY = 1 +;', 401),
    ('names', 'VELOCITY = LOST;', 601),
    ('types', "VELOCITY = 'A' + 1;", 702),
    ('locks', 'UPDATE; UPDATE; CLOSE; CLOSE;', 802),
    ('limits and calls', 'CALL LAST{unit}(VELOCITY) ASSIGN(VELOCITY);', 901),
)

DECLARED = """  DECLARE CORRECTION INTEGER DOUBLE, SMOOTHED INTEGER DOUBLE;
  DECLARE VELOCITY INTEGER DOUBLE, SAMPLE_POINT INTEGER, GYRO_READINGS ARRAY(100) INTEGER, DOWNLINK CHARACTER(40), SENSOR_BITS BIT(16);
"""
# Statements of many kinds; those of a number have a name of their own. A set of 1 MiB of them has fewer words than a set may have.
STATEMENTS = """  VELOCITY = VELOCITY + SAMPLE_POINT CORRECTION - {one} ABS(SMOOTHED);
  IF VELOCITY > {one} AND SAMPLE_POINT < 7 THEN GYRO_READINGS$SAMPLE_POINT = VELOCITY; ELSE DOWNLINK = DOWNLINK CAT 'UNIT {one}';
  DO FOR SAMPLE_POINT = 1 TO 100; GYRO_READINGS$SAMPLE_POINT = GYRO_READINGS$(SAMPLE_POINT) + {one}; END;
  DO WHILE VELOCITY > 0; VELOCITY = VELOCITY - 1; IF GYRO_READINGS$(1) = VELOCITY THEN VELOCITY = 0; END;
  SENSOR_BITS = SENSOR_BITS OR BIN'0101'; DO CASE SAMPLE_POINT; VELOCITY = 1; ; SMOOTHED = GYRO_READINGS$(SAMPLE_POINT); END;
"""


def started_with():
    """The environment in which `./hal` starts the program."""
    words = ['sh', '-c', '. tools/large_pages.sh; printf %s "$GLIBC_TUNABLES"']
    said = subprocess.run(words, cwd=ROOT, stdout=subprocess.PIPE, text=True, check=True).stdout
    return {**os.environ, 'GLIBC_TUNABLES': said}


ENVIRONMENT = started_with()


def body_of(size):
    """Declarations, and statements of so many bytes."""
    parts, length, one = [DECLARED], 0, 0
    while length < size:
        one += 1
        parts.append(STATEMENTS.format(one=one % 10_000))
        length += len(parts[-1])
    return ''.join(parts)


def unit_of(unit, size, last):
    """A PROCEDURE of so many bytes, with this statement at its end."""
    return f' LAST{unit}: PROCEDURE(CORRECTION) ASSIGN(SMOOTHED);\n{body_of(size)}  {last.format(unit=unit)}\n CLOSE LAST{unit};\n'


def program_of(folder, size):
    """The path of a PROGRAM of so many bytes."""
    path = folder / 'program.hal'
    path.write_text(f' MAIN: PROGRAM;\n{body_of(size)} CLOSE MAIN;\n')
    return [path]


def set_of(folder, size, last=';'):
    """The paths of a set of so many bytes; the statement is the last one of its last unit."""
    count = max(size // UNIT, 1)
    texts = [unit_of(unit, size // count, last if unit == count - 1 else ';') for unit in range(count)]
    calls = ''.join(f'  CALL LAST{unit}(VELOCITY) ASSIGN(VELOCITY);\n' for unit in range(count))
    heads = ''.join(f'D INCLUDE TEMPLATE LAST{unit}\n' for unit in range(count))
    texts.insert(0, f'{heads} MAIN: PROGRAM;\n  DECLARE VELOCITY INTEGER DOUBLE;\n{calls} CLOSE MAIN;\n')
    paths = []
    for number, text in enumerate(texts):
        paths.append(folder / f'{number}.hal')
        paths[-1].write_text(text)
    return paths


def build(paths):
    """The processor seconds of a build, the least of seven, its status and what it printed."""
    least = None
    for _ in range(7):
        child = subprocess.Popen([PROGRAM, 'build', *paths], stdout=subprocess.PIPE, env=ENVIRONMENT)
        said = child.stdout.read()
        child.stdout.close()
        _, status, usage = os.wait4(child.pid, 0)
        child.returncode = os.waitstatus_to_exitcode(status)
        took = usage.ru_utime + usage.ru_stime
        least = took if least is None else min(least, took)
    return least, child.returncode, said


def growing(folder, paths_of, sizes, least):
    """Whether sets of these sizes are built in a time that grows as their length does, and the last one at so many megabytes a second."""
    print(f'{"bytes":>10}{"seconds":>10}{"MB/s":>8}{"ratio":>8}')
    half, met = None, True
    for size in sizes:
        paths = paths_of(folder, size)
        length = sum(path.stat().st_size for path in paths)
        took, status, said = build(paths)
        if status != 0:
            sys.exit(f'a set of {length} bytes: status {status}, {said[:200]!r}')
        ratio = '' if half is None else f'{took / half:.2f}'
        print(f'{length:10}{took:10.3f}{length / took / 1e6:8.2f}{ratio:>8}', flush=True)
        met = met and (half is None or took / half <= HIGHEST) and (size < sizes[-1] or length / took / 1e6 >= least)
        half = took
        if took > LONGEST:
            return False
    return met


def shares(folder):
    """What each stage takes of a set."""
    print(f'{"stage":>18}{"seconds":>10}{"adds":>10}')
    before = 0.0
    for stage, last, rule in STAGES:
        took, status, said = build(set_of(folder, SHARED, last))
        if status != 5 or not said.endswith(f'rule {rule}\n'.encode()):
            sys.exit(f'{stage}: status {status}, {said[:200]!r}')
        print(f'{stage:>18}{took:10.3f}{took - before:10.3f}', flush=True)
        before = took
    took, _, _ = build(set_of(folder, SHARED))
    print(f'{"code and image":>18}{took:10.3f}{took - before:10.3f}')


def main():
    if not os.access(PROGRAM, os.X_OK):
        sys.exit(f'{PROGRAM} is missing: ./hal --prove builds it')
    with tempfile.TemporaryDirectory() as name:
        folder = pathlib.Path(name)
        met = [growing(folder, set_of, SIZES, LEAST), growing(folder, program_of, PROGRAM_SIZES, 0)]
        shares(folder)
    sys.exit(0 if all(met) else 1)


if __name__ == '__main__':
    main()
