"""The programs of their own that a bench measures: built once, and run with their words."""
import os
import pathlib
import subprocess
import sys

CRATES = pathlib.Path(__file__).resolve().parent.parent / 'crates'


def program(name):
    """The program of a crate; its first run proves and builds it. The bench ends where that fails."""
    crate = CRATES / name
    path = crate / 'out' / name
    if not path.exists():
        subprocess.run(['rt', 'run'], cwd=crate, stdout=subprocess.DEVNULL, check=False)
    if not path.exists():
        sys.exit(f'{name} is not built')
    if any(source.stat().st_mtime > path.stat().st_mtime for source in CRATES.glob('*/src/**/*.rt')):
        print(f'{name} is older than the sources: rt ci builds it anew', file=sys.stderr)
    return path


def run(path, *words):
    """What one run prints, its processor seconds, and its peak in megabytes. The bench ends where a run fails."""
    child = subprocess.Popen([path, *map(str, words)], stdout=subprocess.PIPE, text=True)
    said = child.stdout.read()
    child.stdout.close()
    _, status, usage = os.wait4(child.pid, 0)
    child.returncode = os.waitstatus_to_exitcode(status)
    if child.returncode != 0:
        sys.exit(f'{path.name} {words}: status {child.returncode}, {said!r}')
    return said, usage.ru_utime + usage.ru_stime, usage.ru_maxrss / 1024
