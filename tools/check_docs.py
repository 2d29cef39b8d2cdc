#!/usr/bin/env python3
"""Runs each example through ./hal, and looks for what the documents name and for what they leave out.

The examples are run by the proved program: where ./hal says anything besides, it isn't built. Run it from anywhere. It prints
what is wrong, and ends with status 1 where something is.
"""
import pathlib
import re
import subprocess
import sys
import tempfile

ROOT = pathlib.Path(__file__).resolve().parent.parent

# A path of the repository in a document's text or commands, from the top.
NAMED = re.compile(r'(?<![\w./])(?:\./)?((?:crates|docs|examples|tools|bench|\.ci)/[\w./-]*)')
# A relative link.
LINK = re.compile(r'\]\((?!\w+:|#)([^)#\s]+)')
# A folder that only this or that machine has.
MACHINE = re.compile(r'(?<![\w.])/(?:work|opt|home|root|tmp|mnt|Users)/\w')
# The part of docs/CLAIMS.md that lists the wrong bodies, and a row of its table: crate, edit, and whether the gate tries it.
WRONG_BODIES = re.compile(r'^## Wrong bodies that are refused\n(.*?)^## ', re.MULTILINE | re.DOTALL)
WRONG_BODY = re.compile(r'^\| `(\w+)` \| `(\w+)` \| .*?(\(tried by the gate\) )?\|$', re.MULTILINE)
# The part of docs/LANGUAGE.md on names, and a row of its table of units: the unit, and the rule and the place, with the number of the unit where that isn't 0, or that it is right.
NAMES = re.compile(r'^## Names\n(.*?)^## ', re.MULTILINE | re.DOTALL)
KINDS = re.compile(r'^## Kinds\n(.*?)^## ', re.MULTILINE | re.DOTALL)
LOCKS = re.compile(r'^## Locks\n(.*?)^## ', re.MULTILINE | re.DOTALL)
CALLS = re.compile(r'^## Calls\n(.*?)^## ', re.MULTILINE | re.DOTALL)
TEMPLATES = re.compile(r'^## Templates\n(.*?)^## ', re.MULTILINE | re.DOTALL)
# A row of a table of docs/LANGUAGE.md that is run: what it shows, the unit, the script and the report, whose lines ` / ` parts.
RUN_UNIT = re.compile(r'^\| ([^|`]+) \| `( [^`]*;)` \| `([^`]*)` \| `([^`]*)` \|$', re.MULTILINE)
# A row of a table of docs/IMAGE.md: the title of a row of crates/code_rows, its image, and the instruction that is wrong; and the tables that several of them share.
WRONG_IMAGE = re.compile(r'^\| [^|`]+ \| ([^|`]+) \| `([^`]*)` \| `x\.img: instruction (\d+)` \|$', re.MULTILINE)
SHARED_TABLES = re.compile(r'T stands for `([^`]*)`')
NAMED_UNIT = re.compile(r'^\| `([ D][^`]*;)` \| (?:(\d+), (\d+:\d+)(?: of unit (\d+))?|right) \|$', re.MULTILINE)


def own_files():
    """The repository's files, without what is built and what git keeps."""
    for path in sorted(ROOT.rglob('*')):
        parts = path.relative_to(ROOT).parts
        if path.is_file() and not {'.git', 'out', '__pycache__'} & set(parts):
            yield path


def hal(folder, *words):
    """What comes of `hal` with these words in this folder."""
    return subprocess.run([ROOT / 'hal', *words], cwd=folder, capture_output=True)


def run_faults(folder, *words):
    """What is wrong with a run of an example, which gives report.txt."""
    run = hal(folder, *words)
    if run.returncode != 0 or run.stdout != (folder / 'report.txt').read_bytes():
        yield f'{words[0]} ended with status {run.returncode}, and the report was\n{run.stdout.decode(errors="replace")}'
    if run.stderr:
        yield f'standard error of {words[0]} was\n{run.stderr.decode(errors="replace")}'


def example_faults(folder):
    """What is wrong with an example: its units give its report, two builds of them the same bytes, and these the report again."""
    units = sorted(unit.name for unit in folder.glob('*.hal'))
    yield from run_faults(folder, 'run', '1', 'script.txt', *units)
    first, second = (hal(folder, 'build', *units) for _ in range(2))
    if first.returncode != 0 or (first.stdout, first.stderr) != (second.stdout, b''):
        yield f'builds ended with status {first.returncode} and {second.returncode}, or with other bytes'
    with tempfile.NamedTemporaryFile(suffix='.img') as image:
        image.write(first.stdout)
        image.flush()
        yield from run_faults(folder, 'exec', '1', 'script.txt', image.name)


def wrong_body_faults():
    """Wrong bodies that docs/CLAIMS.md leaves out, lists though there are none, or gives to the other tier."""
    table = WRONG_BODIES.search((ROOT / 'docs/CLAIMS.md').read_text())[1]
    listed = {(crate, 'must-fail' if gate else 'wrong', edit) for crate, edit, gate in WRONG_BODY.findall(table)}
    there = {(edit.parts[-3], edit.parts[-2], edit.stem) for edit in ROOT.glob('crates/*/*/*.edit')}
    for crate, tier, edit in sorted(listed ^ there):
        yield f'{tier}/{edit} of {crate} is {"not listed" if (crate, tier, edit) in there else "listed and not there"}'


def named_unit_faults(section, name):
    """Units of this section of docs/LANGUAGE.md that are no row of the file of rows, and rows that it leaves out."""
    table = section.search((ROOT / 'docs/LANGUAGE.md').read_text())[1]
    told = {f'{unit} => {f"rule {rule} {number or 0} {place}" if rule else "right"}' for unit, rule, place, number in NAMED_UNIT.findall(table)}
    rows = {line for line in (ROOT / 'crates/case_rows/data' / name).read_text().splitlines() if ' => ' in line}
    for row in sorted(told ^ rows):
        yield f'{"no row" if row in told else "not told"}: {row}'


def case_of(shows, unit, *texts):
    """A row of docs/LANGUAGE.md that is run, as a case."""
    script, report = (text.replace(' / ', '\n') for text in texts)
    return f'{shows}\n-- unit p.hal\n{unit}\n-- script\n{script}\n-- prints\n{report}\n'


def run_unit_faults():
    """Units of docs/LANGUAGE.md with a report that are no case of those that the gate runs, and cases that it leaves out."""
    told = {case_of(*row) for row in RUN_UNIT.findall((ROOT / 'docs/LANGUAGE.md').read_text())}
    cases = re.split(r'(?:\A|(?<=\n))== ', (ROOT / 'crates/case_rows/data/language.cases').read_text())[1:-1]
    for case in sorted(told ^ set(cases)):
        yield f'{"no case" if case in told else "not told"}: {case.splitlines()[0]}'


def wrong_image_faults():
    """Images of docs/IMAGE.md that are no row of crates/code_rows with this title and this failure."""
    text = (ROOT / 'docs/IMAGE.md').read_text()
    tables = SHARED_TABLES.search(text)[1]
    rows = ''.join((ROOT / 'crates/code_rows/rows' / name).read_text() for name in ('wrong_instructions.txt', 'wrong_tables.txt'))
    for shows, image, number in WRONG_IMAGE.findall(text):
        lines = re.sub('^T(?= / )', lambda _: tables, image).replace(' / ', '\n')
        if f'== {shows}\n-- image\n{lines}\n-- fails {number}\n' not in rows:
            yield f'no row: {shows}'


def document_faults(path, text):
    """Files that a document names and that are not there. What is built isn't looked for."""
    for name in NAMED.findall(text):
        if '/out/' not in name and not (ROOT / name.rstrip('.')).exists():
            yield f'no file {name}'
    for name in LINK.findall(text):
        if not (path.parent / name).exists():
            yield f'no file {name}'


def crates_named(crate):
    """What a crate's files name that may be a library."""
    named = set()
    for part in ('src', 'specs', 'proofs'):
        for path in (ROOT / 'crates' / crate / part).rglob('*.*t'):
            text = path.read_text()
            named.update(re.findall(r'\bRattle\.(\w+)', text), re.findall(r'\b(\w+)::', text))
    return named


def library_faults():
    """Crates of the repository that a crate lists in crates.txt and that no file of it names: `rt` follows every path through the list, so each costs the gate time."""
    lines = [line.split(':') for line in (ROOT / 'crates.txt').read_text().splitlines() if ':' in line and not line.startswith('#')]
    own = {words.split()[0] for words, _ in lines}
    for words, below in lines:
        crate = words.split()[0]
        for library in sorted(own.intersection(below.split()) - crates_named(crate)):
            yield f'{crate} lists {library}, which it names nowhere'


def main():
    faults = [f'crates.txt: {fault}' for fault in library_faults()]
    for folder in sorted((ROOT / 'examples').iterdir()):
        faults += [f'{folder.relative_to(ROOT)}: {fault}' for fault in example_faults(folder)]
    faults += [f'docs/CLAIMS.md: {fault}' for fault in wrong_body_faults()]
    sections = (NAMES, 'language.rows'), (KINDS, 'kinds.rows'), (LOCKS, 'lock_rules.rows'), (CALLS, 'call_rules.rows'), (TEMPLATES, 'template_rules.rows')
    for section, name in sections:
        faults += [f'docs/LANGUAGE.md: {fault}' for fault in named_unit_faults(section, name)]
    faults += [f'docs/LANGUAGE.md: {fault}' for fault in run_unit_faults()]
    faults += [f'docs/IMAGE.md: {fault}' for fault in wrong_image_faults()]
    for path in own_files():
        text = path.read_text(errors='replace')
        name = path.relative_to(ROOT)
        if path.suffix == '.md':
            faults += [f'{name}: {fault}' for fault in document_faults(path, text)]
        faults += [f'{name}: the machine\'s path {place}' for place in MACHINE.findall(text)]
    print('\n'.join(faults) if faults else 'check_docs: examples and documents are right')
    return 1 if faults else 0


if __name__ == '__main__':
    sys.exit(main())
