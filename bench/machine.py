#!/usr/bin/env python3
"""How fast the machine goes. Run it by hand, from anywhere: bench/machine.py

Straight code: a loop of some turns with many equal statements in it, so nearly all the time is theirs. A row is a kind of statement: how many instructions
its code has, the millions of instructions and of statements a second, and the statements a second of CPython and of Lua 5.4 over the same statements, where
`lua5.4` is on the path. What it takes to read and compile the unit is measured by a run of no turn, and taken off. No kind is to be slower than CPython, and
integers are to make 40 million instructions a second.

Calls and turns stand in an UPDATE block, where they are no events of the executive. Such a block is computed twice: as it is looked at, and as the process goes on behind it. A row
is what one of the two takes. Of a loop more instructions are done than its code has.

Turns: a loop of one statement outside of UPDATE blocks. A row is a number of turns, with the microseconds that one takes; it is to be the same in each row, so the last is at
most twice the first.

Lines: a unit of as many WRITEs as a unit may have runs in less than a second.

It ends with status 1 where a bar isn't met.
"""
import collections
import os
import pathlib
import re
import shutil
import subprocess
import sys
import tempfile

import image_bytes

ROOT = pathlib.Path(__file__).resolve().parent.parent
PROGRAM = ROOT / 'crates/hal_cli/out/hal_cli'
BAR = 40e6
# How long a run is to last beside one of no turn, and how many turns it has at most: so many events are asked for.
LEAST_SECONDS, MOST_TURNS = 0.5, 60_000
# Words of a unit's statements, and turns of an UPDATE block.
WORDS, BLOCK_TURNS = 60_000, 65_535
WRITE_SECONDS = 1.0

# A kind of statement: what is declared, the statement and the units that it calls, the turns that it makes of an UPDATE block, and the same in Python and in Lua with what comes before it there.
Kind = collections.namedtuple('Kind', 'declared statement units turns python_first python lua_first lua')


def kind(declared, statement, python, lua, units='', turns=0):
    """A kind whose first lines and statements in Python and in Lua are pairs."""
    return Kind(declared, statement, units, turns, *python, *lua)


CASES = ' '.join([';'] * 99)
KINDS = {
    'integers': kind('DECLARE N INTEGER DOUBLE;', 'N = N + 1;', ('n = 0', 'n = n + 1'), ('local n = 0', 'n = n + 1')),
    'shifts': kind('DECLARE N INTEGER DOUBLE INITIAL(5);', 'N = SHR(SHL(N, 3), 3);', ('n = 5', 'n = n << 3 >> 3'), ('local n = 5', 'n = n << 3 >> 3')),
    'bits': kind('DECLARE B BIT(16);', "B = B CAT BIN'1';", ('b = 0', 'b = (b << 1 | 1) & 65535'), ('local b = 0', 'b = (b << 1 | 1) & 65535')),
    'texts': kind('DECLARE T CHARACTER(40);', "T = 'A' CAT T;", ("t = ''", "t = ('A' + t)[:40]"), ("local t = ''", "t = string.sub('A' .. t, 1, 40)")),
    'searches': kind("DECLARE T CHARACTER(40) INITIAL('ABCDEFGHIJ'), N INTEGER;", "N = INDEX(T CAT 'Z', 'Z');", ("t = 'ABCDEFGHIJ'", "n = (t + 'Z').find('Z') + 1"),
                     ("local t, n = 'ABCDEFGHIJ', 0", "n = string.find(t .. 'Z', 'Z', 1, true)")),
    'arrays': kind('DECLARE A ARRAY(100) INTEGER DOUBLE, I INTEGER INITIAL(7);', 'A$I = A$I + 1;', ('a, i = [0] * 100, 7', 'a[i] = a[i] + 1'),
                   ('local a, i = {}, 7; for j = 1, 100 do a[j] = 0 end', 'a[i] = a[i] + 1')),
    'copies': kind('STRUCTURE S: 1 A INTEGER, 1 B INTEGER; DECLARE Z S-STRUCTURE(100), I INTEGER INITIAL(7);', 'Z.A$(I;) = Z.B$(I;);',
                   ('class S: a = b = 0\n  z, i = [S() for _ in range(100)], 7', 'z[i].a = z[i].b'), ('local z, i = {}, 7; for j = 1, 100 do z[j] = {a = 0, b = 0} end', 'z[i].a = z[i].b')),
    'cases': kind('DECLARE N INTEGER INITIAL(100);', f'DO CASE N; {CASES} N = 100; END;', ('n = 100\n  f = [lambda: 100] * 100', 'n = f[n - 1]()'),
                  ('local n, f = 100, {}; for j = 1, 100 do f[j] = function() return 100 end end', 'n = f[n]()')),
    'calls': kind('DECLARE N INTEGER DOUBLE;', 'N = F(N, 1);', ('def f(x, y): return x + y\n  n = 0', 'n = f(n, 1)'), ('local function f(x, y) return x + y end local n = 0', 'n = f(n, 1)'),
                  'F: FUNCTION(X, Y) INTEGER DOUBLE; DECLARE X INTEGER DOUBLE, Y INTEGER DOUBLE; RETURN X + Y; CLOSE F;', 1),
    'turns of 9': kind('DECLARE N INTEGER DOUBLE;', 'DO FOR N = 1 TO 9; END;', ('n = 0', 'for n in range(1, 10): pass'), ('local n = 0', 'for n = 1, 9 do end'), turns=9),
    'turns of 99': kind('DECLARE N INTEGER DOUBLE;', 'DO FOR N = 1 TO 99; END;', ('n = 0', 'for n in range(1, 100): pass'), ('local n = 0', 'for n = 1, 99 do end'), turns=99),
}


def seconds(words):
    """The processor seconds of a run that ends with status 0, the least of three."""
    least = None
    for _ in range(3):
        child = subprocess.Popen(words, stdout=subprocess.DEVNULL)
        _, status, usage = os.wait4(child.pid, 0)
        child.returncode = os.WEXITSTATUS(status) if os.WIFEXITED(status) else -1
        if child.returncode != 0:
            sys.exit(f'{" ".join(map(str, words))}: status {child.returncode}')
        took = usage.ru_utime + usage.ru_stime
        least = took if least is None else min(least, took)
    return least


def count_of(what):
    """How many of these statements a unit is given."""
    words = len(re.findall(r"'[^']*'|\w+|[^\s\w]", what.statement))
    return min(WORDS // words, BLOCK_TURNS // what.turns) if what.turns else WORDS // words


def unit_of(what, count, turns):
    """A loop of so many turns with so many of these statements."""
    body = '\n'.join([f'  {what.statement}'] * count)
    if what.turns:
        body = f'  UPDATE;\n{body}\n  CLOSE;'
    return f' P: PROGRAM;\n  {what.declared}\n  DECLARE K INTEGER DOUBLE;\n  DO WHILE K < {turns};\n  K = K + 1;\n{body}\n  END;\n  {what.units}\n CLOSE P;\n'


def hal(room, unit):
    """The seconds of a run of the unit."""
    script, path = room / 'script', room / 'unit'
    script.write_text('RUN 65536\n' * 2)
    path.write_text(unit)
    return seconds([PROGRAM, 'run', '1', script, path])


def instructions_of(room, what):
    """How many instructions a statement has."""
    counts = []
    for count in (1, 2):
        (room / 'unit').write_text(unit_of(what, count, 1))
        counts.append(image_bytes.instruction_count(subprocess.run([PROGRAM, 'build', room / 'unit'], stdout=subprocess.PIPE).stdout))
    return counts[1] - counts[0]


def other(room, command, text):
    """The seconds that a program in another language takes."""
    path = room / 'other'
    path.write_text(text)
    return seconds([command, path])


def rate(run, count, turns):
    """The statements a second of runs with so many statements a turn. A run has as many turns as it takes to last long enough beside one of no turn."""
    none = run(0)
    while True:
        took = run(turns) - none
        if took >= LEAST_SECONDS or turns * 10 > MOST_TURNS:
            return count * turns / took
        turns *= 10


def hal_rate(room, what, count):
    """The statements a second of the machine: a block is computed twice."""
    times = 2 if what.turns else 1
    return times * rate(lambda turns: hal(room, unit_of(what, count, turns)), count, 60 if what.turns else 600)


def python_rate(room, what, count):
    """The statements a second of CPython."""
    text = f'def run(turns):\n  {what.python_first}\n  for _ in range(turns):\n' + f'    {what.python}\n' * count + 'run(%d)\n'
    return rate(lambda turns: other(room, sys.executable, text % turns), count, 60)


def lua_rate(room, what, count):
    """The statements a second of Lua."""
    text = f'local function run(turns)\n  {what.lua_first}\n  for k = 1, turns do\n' + f'    {what.lua}\n' * count + '  end\nend\nrun(%d)\n'
    return rate(lambda turns: other(room, 'lua5.4', text % turns), count, 60)


def straight(room):
    """Whether the bars are met."""
    has_lua = shutil.which('lua5.4') is not None
    if not has_lua:
        print('lua5.4 is missing')
    met = True
    print(f'{"kind":12}{"instructions":>14}{"M instr./s":>12}{"M stmt./s":>12}{"CPython":>10}{"Lua":>10}')
    for name, what in KINDS.items():
        count, instructions = count_of(what), instructions_of(room, what)
        own, python = hal_rate(room, what, count), python_rate(room, what, count)
        lua = f'{lua_rate(room, what, count) / 1e6:.1f}' if has_lua else '-'
        print(f'{name:12}{instructions:14}{own * instructions / 1e6:12.1f}{own / 1e6:12.2f}{python / 1e6:10.2f}{lua:>10}', flush=True)
        met = met and own >= python and (name != 'integers' or own * instructions >= BAR)
    return met


def turning(room):
    """Whether a turn takes the same however many there are."""
    print(f'{"turns":10}{"microseconds a turn":>20}')
    began = hal(room, unit_of(KINDS['integers'], 1, 0))
    each = []
    for turns in (8_000, 16_000, 32_000, 65_000):
        each.append((hal(room, unit_of(KINDS['integers'], 1, turns)) - began) / turns)
        print(f'{turns:<10}{each[-1] * 1e6:20.2f}')
    return each[-1] <= 2 * each[0]


def writing(room):
    """Whether a unit of WRITEs runs in its time."""
    statement = 'WRITE(6) 1;'
    count = WORDS // 6
    took = hal(room, ' P: PROGRAM;\n' + f'  {statement}\n' * count + ' CLOSE P;\n')
    print(f'{count} lines: {took:.2f} seconds')
    return took < WRITE_SECONDS


def main():
    if not os.access(PROGRAM, os.X_OK):
        sys.exit(f'{PROGRAM} is missing: ./hal --prove builds it')
    with tempfile.TemporaryDirectory() as folder:
        room = pathlib.Path(folder)
        kept = [straight(room), turning(room), writing(room)]
    sys.exit(0 if all(kept) else 1)


if __name__ == '__main__':
    main()
