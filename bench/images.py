#!/usr/bin/env python3
"""Images with bytes that were changed, cut and added. Run it by hand, from anywhere: bench/images.py

    bench/images.py                10,000 images
    bench/images.py 500 7          500, from another beginning of the random numbers

The proved program builds the examples and the units of some cases, and runs what it built. Then images are made from these: a byte or a few get another value, a number
of four bytes a small one, bytes are cut out, added, or taken from another image. Each runs under a script of 200 events.

Each run has to end by itself within 20 seconds and 2 GiB, with status 0, 9 or 10, by no signal and without a word on standard error. Status 10 says that the bytes are of no image just where
bench/image_bytes.py, which reads them by docs/IMAGE.md alone, finds none; else it names an instruction of the image, or the number of all of them. An image that wasn't changed has status 0 and its set's report. The
images of other runs stay in a folder, which is told. It ends with status 1 where there is one.
"""
import collections
import os
import pathlib
import random
import re
import resource
import subprocess
import sys
import tempfile

import image_bytes

ROOT = pathlib.Path(__file__).resolve().parent.parent
PROGRAM = ROOT / 'crates/hal_cli/out/hal_cli'
SCRIPT = 'RUN 200\n'
SECONDS, BYTES = 20, 2 << 30
# Of each file of cases about so many are built.
CASES = 12


def limited():
    """A program that runs away ends by a signal."""
    resource.setrlimit(resource.RLIMIT_CPU, (SECONDS, SECONDS))
    resource.setrlimit(resource.RLIMIT_AS, (BYTES, BYTES))
    resource.setrlimit(resource.RLIMIT_CORE, (0, 0))


def hal(folder, *words):
    """What comes of the program with these words."""
    return subprocess.run([PROGRAM, *words], cwd=folder, capture_output=True, preexec_fn=limited)


def units_of_case(text):
    """The units of a case by their names; none where it is written in another form, or has another status than 0."""
    if re.search(r'^-- (?:unit .* coded|status )', text, re.MULTILINE):
        return {}
    return {name: f'{lines}\n' for name, lines in re.findall(r'^-- unit (.*)\n((?:.*\n)*?.*)(?=\n-- )', text, re.MULTILINE)}


def sets():
    """Sets of units: those of the examples, and of some cases."""
    for folder in sorted((ROOT / 'examples').iterdir()):
        yield {unit.name: unit.read_text() for unit in sorted(folder.glob('*.hal'))}
    for path in sorted((ROOT / 'crates/case_rows/data').glob('*.cases')):
        cases = [units for units in map(units_of_case, re.split(r'^== ', path.read_text(), flags=re.MULTILINE)) if units]
        yield from cases[::max(len(cases) // CASES, 1)]


def built(folder):
    """The images of the sets, each with the report of its set."""
    images = {}
    for units in sets():
        for name, text in units.items():
            (folder / name).write_text(text)
        image, run = hal(folder, 'build', *units), hal(folder, 'run', '1', 'script', *units)
        if image.returncode != 0 or run.returncode != 0:
            sys.exit(f'{", ".join(units)}: build ended with status {image.returncode}, and run with {run.returncode}')
        images[image.stdout] = run.stdout
    return images


def changed(dice, image):
    """A few bytes have other values."""
    data = bytearray(image)
    for _ in range(dice.randint(1, 4)):
        data[dice.randrange(len(data))] = dice.randrange(256)
    return bytes(data)


def nudged(dice, image):
    """A byte is one more or one less."""
    data = bytearray(image)
    at = dice.randrange(len(data))
    data[at] = (data[at] + dice.choice((-1, 1))) % 256
    return bytes(data)


def renumbered(dice, image):
    """A number of four bytes is a small one, or a large one."""
    at = dice.randrange(len(image) - 3)
    number = dice.choice((dice.randrange(8), dice.randrange(65_536), 2**31 - 1, 2**32 - 1))
    return image[:at] + number.to_bytes(4, 'little') + image[at + 4:]


def cut(dice, image):
    """Bytes are cut out, or off the end."""
    at = dice.randrange(len(image))
    return image[:at] + image[dice.choice((len(image), at + dice.randint(1, 12))):]


def added(dice, image):
    """Bytes are added."""
    at = dice.randrange(len(image) + 1)
    return image[:at] + dice.randbytes(dice.randint(1, 12)) + image[at:]


def joined(dice, image, others):
    """Bytes stand where another image has them, or behind each other twice."""
    other = dice.choice(others)
    at, behind = dice.randrange(len(image)), dice.randrange(len(other))
    size = dice.randint(1, 40)
    return image[:at] + other[behind:behind + size] + image[at + dice.choice((0, size)):]


def made(dice, images):
    """An image that was changed in one way or two."""
    image = dice.choice(images)
    for _ in range(dice.choice((1, 1, 2))):
        way = dice.choice((changed, nudged, renumbered, cut, added, joined))
        image = (way(dice, image, images) if way is joined else way(dice, image)) or b'\0' * 4
        image = image.ljust(4, b'\0')
    return image


def fault_of(run, image, reports):
    """What is wrong with the run of an image, if anything is."""
    count = image_bytes.instruction_count(image)
    if run.returncode < 0 or run.stderr:
        return f'ended with {run.returncode} and {run.stderr[:200]!r}'
    if run.returncode == 9:
        return None if run.stdout == b'memory\n' else f'status 9 with {run.stdout[:80]!r}'
    if run.returncode == 10:
        line = b'image: not an image\n' if count is None else None
        told = re.fullmatch(rb'image: instruction (\d+)\n', run.stdout)
        right = run.stdout == line if count is None else told is not None and int(told[1]) <= count
        return None if right and image not in reports else f'status 10 with {run.stdout[:80]!r}, and it has {count} instructions'
    if run.returncode != 0 or count is None:
        return f'status {run.returncode}, and it has {count} instructions'
    return None if run.stdout == reports.get(image, run.stdout) else 'another report than that of its set'


def main(words):
    if not os.access(PROGRAM, os.X_OK):
        sys.exit(f'{PROGRAM} is missing: ./hal --prove builds it')
    count, seed = [*map(int, words), *(10_000, 1)[len(words):]]
    dice = random.Random(seed)
    folder = pathlib.Path(tempfile.mkdtemp(prefix='images-'))
    (folder / 'script').write_text(SCRIPT)
    reports = built(folder)
    images = list(reports)
    print(f'{len(images)} images of {min(map(len, images))} to {max(map(len, images))} bytes', flush=True)
    statuses, faults = collections.Counter(), 0
    for number in range(count + len(images)):
        image = images[number] if number < len(images) else made(dice, images)
        (folder / 'image').write_bytes(image)
        run = hal(folder, 'exec', '1', 'script', 'image')
        statuses[run.returncode] += 1
        fault = fault_of(run, image, reports)
        if fault:
            faults += 1
            (folder / f'fault-{number}').write_bytes(image)
            print(f'{folder}/fault-{number}: {fault}', flush=True)
    print(', '.join(f'{number} with status {status}' for status, number in sorted(statuses.items())))
    print(f'{faults} faults')
    if faults == 0:
        for path in folder.iterdir():
            path.unlink()
        folder.rmdir()
    return 1 if faults else 0


if __name__ == '__main__':
    sys.exit(main(sys.argv[1:]))
