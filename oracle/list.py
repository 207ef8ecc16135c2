#!/usr/bin/env python3
"""Writes the list of program gate_calls and what it has to print.

  python3 oracle/list.py     from the repository's root, after rust/compare is built

A case is a label, a text and what is said of the plan slice's room. In a text
records end in `;` and fields are parted by a blank; between three stars stand
a number and a part that is there so many times. The plans and refusals 6 to 9
are the oracle's, as `compare answer` writes them; refusals 1 to 5 are given here
by hand, from document 01, and 2 to 5 are held to what `compare one` has for
them; 10 is given where the oracle's plan is longer than the room. The cases of
the sizing call are in sizing.py.
"""
import pathlib
import re
import shutil
import subprocess

from sizing import SIZED

COMPARE = 'target/rust/release/compare'
LIST = 'crates/gate_calls/stdin'
STDOUT = 'crates/gate_calls/stdout'
# Where the answered sheets are left, for sheets.py and compare.py.
SHEETS = pathlib.Path('target/oracle/list')
# Bytes of the plan slice that gate_calls prints at most.
SHOWN = 2048
# Bytes that the list may have.
LONGEST = 32768
# The two words behind an answer's six, which no call touches.
BEHIND = [7, 7]

NODE = 'node - 0 0 0 1;'
REL = 'rel - 0 0 one - - 0 0 1;'


def statement(*clauses):
    return f'stmt {len(clauses)} 0;' + ''.join(clauses)


def match(*parts, optional=0):
    return f'match {optional} {len(parts)} 0 9;' + ''.join(parts)


def part(*elements, var='-', shortest=0):
    return f'part {var} {shortest} {len(elements)};' + ''.join(elements)


def pat(*parts):
    return f'pat {len(parts)};' + ''.join(parts)


def where(expr):
    return 'where 0 9;' + expr


def items(*entries):
    """Items as alias and expression, turn by turn."""
    return ''.join(f'item {a};{e}' for a, e in zip(entries[::2], entries[1::2]))


def returned(*entries):
    return f'return {len(entries) // 2} 0 0 0 0 0 9;' + items(*entries)


def unnamed(*exprs):
    return returned(*[word for expr in exprs for word in ('-', expr)])


def listed(*exprs):
    return f'list {len(exprs)};' + ''.join(exprs)


def shape(letters, var, shortest):
    """A part by its elements; each has an id of its own, from 1."""
    made = []
    for at, letter in enumerate(letters, 1):
        made.append(f'node {at} 0 0 0 1;' if letter == 'n' else f'rel {at} 0 {at % 3} one - - 0 0 1;')
    return part(*made, var=var, shortest=shortest)


M1 = 'stmt 2 0;match 0 1 0 14;part - 0 1;node 7 1 0 6 14;name Book;return 1 0 0 0 0 15 29;item -;prop title;var 7;'
PATTERN = pat(part(NODE))

# Label and text: the oracle answers.
ANSWERED = [
    ('M1', M1),
    ('M3', 'stmt 0 0;'),
    ('M4', 'stmt 1 0;match 0 1 0 16;part - 0 3;node 1 0 0 6 9;rel 2 0 0 one - - 0 9 13;node 3 0 0 13 16;'),
    ('M5', 'stmt 1 0;return 1 0 0 0 0 0 9;item -;pat 1;part - 0 1;node - 0 0 7 9;'),
    ('M6', 'stmt 1 0;match 0 1 0 30;part 4 1 3;node 1 0 0 8 11;rel 2 0 0 one - - 0 11 15;node 3 0 0 15 18;'),
    ('M7', 'stmt 1 0;where 0 8;pat 1;part - 0 1;node - 0 0 6 8;'),
    ('M8-least', 'stmt 1 0;return 1 0 0 0 0 0 27;item -;int -9223372036854775808;'),
    ('M9', 'stmt 1 0;return 1 0 0 0 0 5 19;item -;list 2;unres x;undes 0;'),
    ('M9-swapped', 'stmt 1 0;return 1 0 0 0 0 5 19;item -;list 2;undes 0;unres x;'),
    ('M10', 'stmt 0 1;arm 0 0;'),
    # the limits
    ('operators-2048', statement(unnamed('list 1023;*1023*pat 0;*'))),
    ('operators-2049', statement(unnamed('list 1024;*1024*pat 0;*'))),
    ('numbers-2048', statement('call f 0 2 0 0 1;yield a 1;yield b 2;', unnamed('pat 1;part - 0 1023;' + NODE + '*511*' + REL + NODE + '*'))),
    ('numbers-2049', statement('call f 0 3 0 0 1;yield a 1;yield b 2;yield c 3;', unnamed('pat 1;part - 0 1023;' + NODE + '*511*' + REL + NODE + '*'))),
    ('full-and-unres', statement(unnamed('list 1025;*1024*pat 0;*unres x;'))),
    ('lines-2048', statement(where('list 2045;*2045*null;*'))),
    ('depth-64', statement(where('*61*list 1;*list 0;'))),
    ('bytes-32768', statement(where('str *32744*x*;'))),
    # refusals of the check
    ('unres', statement(match(part('node 1 0 1 4 8;unres x;')))),
    ('undes-0', statement('where 3 8;undes 0;')),
    ('undes-1', statement('unwind 1 3 8;undes 1;')),
    ('undes-2', statement('call f 1 0 0 3 8;undes 2;')),
    ('undes-3', statement('with 0 1 0 0 0 3 8;undes 3;')),
    ('no-elements', statement('match 0 2 2 7;' + part(NODE) + part())),
    ('rel-first', statement('match 0 1 2 7;' + part(REL, NODE))),
    ('part-in-arm', 'stmt 0 1;arm 1 1;where 5 6;' + pat(part(shortest=1))),
    ('unres-rel-props', statement(match(part(NODE, 'rel - 0 0 one - - 1 5 6;map 1;name k;unres x;', NODE)))),
    ('unres-inner-props', statement(where(pat(part('node - 0 1 2 8;' + pat(part('node - 0 1 4 6;unres x;'))))))),
    ('part-inner-props', statement(match(part(NODE, 'rel - 0 0 one - - 1 2 8;' + pat(part('node - 0 1 4 6;' + pat(part(REL)))))))),
    ('undes-key', statement('return 1 0 1 1 1 3 8;' + items('-', 'null;') + 'key 0;undes 1;unres x;null;')),
    ('undes-limit', statement('with 1 0 1 1 1 3 8;' + items('-', 'null;') + 'key 0;null;null;undes 2;')),
    ('unres-deep', statement(where('*20*un 1;*unres x;'))),
    # sources, filters, expands
    ('no-parts', statement(match())),
    ('parts', statement(match(part(NODE), part('node 1 0 0 0 1;'), part('node 1 1 0 0 1;name A;')))),
    ('labels', statement(match(part('node 1 3 0 0 1;name A;name ;name C;')))),
    ('node-props', statement(match(part('node 1 1 1 0 1;name A;map 1;name k;prop p;var 1;')))),
    ('expand', statement(match(part('node 1 1 1 0 1;name A;param p;', 'rel 2 2 2 var 1 3 1 0 1;name T;name U;map 1;name k;var 1;', 'node 3 2 1 0 1;name B;name C;map 1;name l;var 2;', var=9)))),
    ('lengths', statement(match(part(NODE, 'rel - 0 0 var - - 0 0 1;', NODE, 'rel - 0 1 var 0 - 0 0 1;', NODE, 'rel - 0 2 var - 18446744073709551615 0 0 1;', NODE, 'rel - 0 0 var 2 1 0 0 1;', NODE)))),
    ('same-again', statement(match(part('node 5 0 0 0 1;', 'rel 5 0 0 one - - 0 0 1;', 'node 5 0 0 0 1;', var=5)))),
    ('unnamed-between', statement(match(part('node 5 0 0 0 1;', REL, NODE, 'rel 6 0 0 one - - 0 0 1;', 'node 5 0 0 0 1;')))),
    ('dropped-rel-props', statement(match(part('node 1 0 0 0 1;', f'rel 2 0 0 one - - 1 0 1;{PATTERN}', 'rel 3 1 1 one - - 0 0 1;name T;', 'node 4 0 0 0 1;', f'rel 5 0 0 one - - 1 0 1;{PATTERN}', var=9)))),
    ('later-source-props', statement(match(part('node 1 0 0 0 1;', f'node 2 1 1 0 1;name A;{PATTERN}', REL, f'node 3 0 1 0 1;{PATTERN}', f'node 1 0 1 0 1;{PATTERN}')))),
    ('path-again', statement(match(part('node 1 0 0 0 1;', var=2), part('node 2 0 0 0 1;', var=1)))),
    ('clauses-apart', statement(match(part('node 1 0 0 0 1;')), match(part('node 2 0 0 0 1;')), where('bin 6;var 1;var 2;'))),
    # special shortest parts
    ('short-start', statement(match(part(f'node 1 1 1 0 1;name A;{PATTERN}', 'rel 2 1 2 var - 5 1 0 1;name T;map 1;name k;var 1;', f'node 3 1 1 0 1;name B;{PATTERN}', shortest=2)))),
    ('short-unnamed', statement(match(part(NODE, REL, NODE, shortest=1)))),
    ('short-nnn', statement(match(part(NODE, NODE, NODE, shortest=1)))),
    ('short-nrr', statement(match(part(NODE, REL, REL, shortest=2)))),
    ('short-exists', statement(where(pat(part('node 1 0 0 0 1;', f'rel 2 0 0 one - - 1 0 1;{PATTERN}', 'node 3 0 0 0 1;', var=4, shortest=1))))),
    # optional
    ('optional-first', statement(match(part('node 1 0 0 0 1;'), optional=1))),
    ('optional-none', statement(match(optional=1), match(optional=1))),
    ('optional-later', statement(match(part('node 1 0 0 0 1;')), match(part('node 2 1 0 0 1;name A;'), optional=1), where('null;'))),
    ('optional-filter', statement('unwind 4 0 1;var 5;', match(part(f'node 4 0 1 3 5;{PATTERN}'), optional=1))),
    ('optional-expand', statement(match(), match(part('node 1 0 0 0 1;', f'rel 2 1 0 one - - 1 0 1;name T;{PATTERN}', f'node 3 1 1 0 1;name A;{PATTERN}'), optional=1))),
    ('optional-path', statement(match(), match(part(NODE), part('node 1 0 0 0 1;', REL, 'node 2 0 0 0 1;', var=3), optional=1))),
    ('optional-short', statement('call p 0 0 0 0 1;', match(part('node 1 0 0 0 1;', f'rel 2 0 1 one - - 1 0 1;{PATTERN}', NODE, shortest=1), optional=1))),
    ('optional-twice', statement(match(part('node 1 0 0 0 1;')), match(part('node 2 0 0 0 1;'), optional=1), match(part('node 1 0 0 0 1;', REL, 'node 2 0 0 0 1;'), optional=1))),
    # copies in copies
    ('exists-in-exists', statement(where(pat(part('node 1 0 1 0 1;' + pat(part('node 2 0 1 0 1;' + pat(part('node 1 0 0 0 1;'))))))))),
    ('exists-in-optional', statement(match(), match(part('node 1 0 1 0 1;' + pat(part('node 2 0 1 0 1;' + PATTERN, 'rel 3 0 0 one - - 1 0 1;' + PATTERN, 'node 4 0 1 0 1;' + PATTERN))), optional=1))),
    ('exists-20', statement(where('*20*pat 1;part - 0 1;node - 0 1 2 3;*null;'))),
    ('exists-path', statement(where(pat(part(NODE), part('node 1 0 0 0 1;', REL, NODE, var=2))))),
    ('exists-none', statement(where('un 1;pat 0;'))),
    # where, with, return, unwind, call
    ('where-lone', statement(where('bool 1;'))),
    ('where-after', statement(match(part('node 1 0 0 0 1;')), where(f'bin 12;{PATTERN}prop p;var 1;'))),
    ('with-lone', statement('with 0 0 0 0 0 0 9;')),
    ('with-filter', statement(match(part('node 1 0 0 0 1;')), 'with 2 1 0 0 0 0 9;' + items('=x', 'var 1;', '-', 'var 1;') + 'isnull 1;var 1;')),
    ('with-order', statement('with 1 0 2 0 0 0 9;' + items('=x', 'null;') + 'key 0;var 1;key 1;prop p;var 1;')),
    ('with-skip', statement('with 1 0 0 1 0 0 9;' + items('=x', 'null;') + 'int 1;')),
    ('with-limit', statement('with 1 0 0 0 1 0 9;' + items('=x', 'null;') + 'int 2;')),
    ('with-all', statement('with 1 1 1 1 1 0 9;' + items('-', PATTERN) + PATTERN + 'key 1;' + PATTERN * 3, where('var 1;'))),
    ('with-aggregate', statement('with 1 0 0 0 0 0 9;' + items('-', 'fn count 1 1;var 1;'))),
    ('return-none', statement('return 0 0 0 0 0 0 9;')),
    ('return-distinct', statement(match(part('node 1 0 0 0 1;')), 'return 1 1 0 0 0 0 9;' + items('-', 'var 1;'))),
    ('return-order', statement('return 1 0 2 0 0 0 9;' + items('-', 'null;') + 'key 1;var 1;key 0;var 2;')),
    ('return-skip', statement('return 1 0 0 1 0 0 9;' + items('-', 'null;') + 'int 1;')),
    ('return-limit', statement('return 1 0 0 0 1 0 9;' + items('-', 'null;') + 'int 2;')),
    ('return-all', statement('return 1 1 1 1 1 0 9;' + items('-', PATTERN) + 'key 0;' + PATTERN * 3)),
    ('return-twice', statement(unnamed('var 1;'), unnamed('var 2;'))),
    ('unwind', statement('unwind 4 0 1;' + listed('var 5;', 'var 4;'), 'unwind 6 0 1;var 4;')),
    ('unwind-pattern', statement('unwind 4 0 1;' + PATTERN)),
    ('call-lone', statement('call db.labels 0 0 0 0 1;')),
    ('call-yields', statement('call f 2 3 1 0 1;var 1;' + PATTERN + 'yield a 2;yield b 1;yield  3;')),
    ('call-after', statement('unwind 1 0 1;null;', 'call  1 1 0 0 1;var 1;yield y 2;', 'call g 0 0 1 0 1;')),
    # names of items
    ('items', statement(returned('-', 'var 12;', '-', 'prop name;prop other;var 3;', '-', 'fn size 1 1;var 3;', '-', 'int 5;', '-', PATTERN, '=alias', 'var 12;', '=', 'var 12;', '=_', 'null;', '=-', 'null;'))),
    ('with-items', statement('with 6 0 0 0 0 0 9;' + items('-', 'var 4294967295;', '-', 'prop ;null;', '-', 'fn  0 0;', '-', listed(), '=', 'prop p;null;', '==x', 'fn f 0 0;'))),
    # aggregates
    ('aggregates', statement(unnamed(*[f'fn {name} 1 {at % 2};var {at};' for at, name in enumerate(['count', 'SUM', 'Avg', 'mIN', 'maX', 'collect', 'StDev', 'STDEVP', 'percentileCont', 'PercentileDisc'])]))),
    ('near-aggregates', statement(unnamed('fn count 0 0;', *[f'fn {name} 1 0;var 1;' for name in ['counts', 'coun', 'stdev_p', 'ſum', 'cöunt', 'percentile', 'count\\t', 'toLower']]))),
    ('aggregate-keys', statement(match(part('node 1 0 0 0 1;')), returned('-', 'prop p;var 1;', '=n', 'fn count 1 1;var 1;', '-', 'var 1;', '-', 'fn Max 2 0;' + PATTERN + 'var 2;', '=k', PATTERN))),
    ('inner-aggregates', statement(unnamed('fn SIZE 1 0;fn collect 1 0;var 1;', 'fn Count 1 0;fn max 1 1;var 2;', 'bin 0;fn sum 1 0;var 1;int 1;'))),
    ('aggregate-all', statement('return 2 1 1 1 1 0 9;' + items('-', 'fn count 0 0;', '-', 'var 1;') + 'key 1;fn count 0 0;int 1;int 2;')),
    # arms
    ('arms-empty', 'stmt 0 2;arm 1 0;arm 0 0;'),
    ('arms', 'stmt 1 3;' + unnamed('var 1;') + 'arm 0 1;' + unnamed('var 1;') + 'arm 1 0;arm 1 2;' + match(part('node 1 0 0 0 1;')) + unnamed('var 2;')),
    ('arm-optional', 'stmt 1 1;' + match() + 'arm 0 1;' + match(part(NODE), optional=1)),
    ('arm-call', 'stmt 1 1;call f 0 0 0 0 1;arm 1 1;call g 0 0 0 0 1;'),
    ('arm-no-head', 'stmt 0 1;arm 1 1;' + where(PATTERN)),
    # expressions
    ('literals', statement(unnamed('null;', 'bool 0;', 'bool 1;', 'int 0;', 'int 9223372036854775807;', 'int -1;', 'float 0000000000000000;', 'float 8000000000000000;', 'float ffffffffffffffff;', 'str ;', 'str s;', 'param p;', 'param ;'))),
    ('operators', statement(where(listed(*[f'bin {op};var 1;int {op};' for op in range(20)], 'un 0;var 1;', 'un 1;var 1;')))),
    ('slices', statement(where(listed('slice 0 0;var 1;', 'slice 1 0;var 2;int 1;', 'slice 0 1;var 3;int 2;', 'slice 1 1;var 4;int 1;int 2;', 'index;var 5;int 0;')))),
    ('maps', statement(where(listed('map 0;', 'map 2;name a;var 1;name ;map 1;name c;null;', listed())))),
    ('cases', statement(where(listed('case 0 0 0;', 'case 1 1 1;var 1;int 1;var 2;var 3;', 'case 0 2 0;bool 0;var 4;bool 1;var 5;', 'case 1 0 0;var 6;', 'case 0 0 1;var 7;')))),
    ('list-predicates', statement(where(listed('listp 0 1 1;var 2;var 1;', 'listp 1 3 0;var 3;', f'listp 2 4 1;{PATTERN}{PATTERN}', 'listp 3 1 1;listp 0 5 0;var 1;var 5;')))),
    ('tests', statement(where(listed('isnull 0;var 1;', 'isnull 1;null;', 'in;var 2;var 1;', 'fn f 3 1;null;var 1;fn  0 0;')))),
    ('order-of-numbers', statement(where('bin 6;index;var 9;var 8;slice 1 1;var 7;var 6;var 5;'), 'unwind 4 0 1;var 3;')),
    # names
    ('escapes', statement(match(part('node 1 2 0 0 1;name \\t;name a\\\\b;', 'rel - 1 0 one - - 0 0 1;name \\n;', NODE)), 'call \\\\t 1 1 0 0 1;str \\t\\n\\\\;yield \\n 2;', returned('=\\t', 'prop \\n;var 1;', '-', 'prop \\\\;var 1;', '-', 'fn \\t\\t 1 0;param \\\\n;', '-', 'map 1;name \\n\\\\;null;'))),
    ('high-bytes', statement(match(part('node 1 1 0 0 1;name Bücher;')), returned('=日本', 'prop é;var 1;', '-', 'fn 🙂 1 0;str ÿ\\t;'))),
    ('low-bytes', statement(returned('=\x01\r\x7f', 'str \x00;'))),
]

# Shapes of parts: chains, and shortest parts that are special or not.
for letters in ['nn', 'nr', 'nrr', 'nrrn', 'nrnn', 'nrnrn', 'nrrnr']:
    ANSWERED.append((f'chain-{letters}', statement(match(shape(letters, '-', 0), shape(letters, 9, 0)))))
for letters in ['n', 'nn', 'nr', 'nrn', 'nnrn', 'nrrn', 'nrnr', 'nrnrn']:
    ANSWERED.append((f'shortest-{letters}', statement(match(shape(letters, '-', 1), shape(letters, 9, 1)))))
    ANSWERED.append((f'all-shortest-{letters}', statement(match(shape(letters, 9, 2), shape(letters, '-', 2)))))

# Label, text and bytes of room beyond the oracle's plan.
ROOMS = [
    ('room-exact', M1, 0),
    ('room-one-less', M1, -1),
    ('room-one-more', M1, 1),
    ('room-more', M1, 40),
    ('room-none', 'stmt 0 0;', -9),
    ('room-full', statement(unnamed('list 1024;*1024*pat 0;*')), 0),
    ('room-unres', statement(where('unres x;')), 0),
]

# Label, text, number and line, from document 01. The oracle does not take these sheets.
BY_HAND = [
    ('M2', '', 3, 1),
    ('M8-past', 'stmt 1 0;return 1 0 0 0 0 0 26;item -;int 9223372036854775808;', 3, 4),
    ('missing', 'stmt 1 0;', 3, 2),
    ('not-due', 'stmt 0 0;null;', 3, 2),
    ('no-feed', 'stmt 0 0', 3, 1),
    ('write', 'stmt 2 0;where 0 1;unres x;write 3 8;', 5, 4),
    ('long', 'stmt 1 0;where 0 1;str *32745*x*;', 2, 0),
    ('line-2049', statement(where('list 2046;*2046*null;*')), 4, 2049),
    ('depth-65', statement(where('*62*list 1;*null;')), 4, 65),
]

# What is short: a work slice by a word, the four of them by all their words, or the answer slice.
SHORT = [
    ('short-1', 1, 'stmt 0 0;'),
    ('short-2', 2, 'stmt 0 0;'),
    ('short-3', 3, 'stmt 0 0;'),
    ('short-4', 4, 'stmt 0 0;'),
    ('short-long', 4, 'x*32768*x*'),
    ('no-words', 5, ''),
]
NO_ANSWER = ('short-answer', 6, 'stmt 0 0;')


def spelled(text):
    if isinstance(text, bytes):
        return text
    return text.replace(' ', '\t').replace(';', '\n').encode()


def sheet_of(text):
    """What `cases` makes of a text."""
    found = re.fullmatch(rb'([^*]*)\*(\d+)\*([^*]*)\*([^*]*)', text)
    return found[1] + found[3] * int(found[2]) + found[4] if found else text


def ask_oracle():
    """Leaves the cases that it answers in SHEETS, with its answers."""
    shutil.rmtree(SHEETS, ignore_errors=True)
    SHEETS.mkdir(parents=True)
    for label, text, *_ in ANSWERED + ROOMS:
        SHEETS.joinpath(f'{label}.sheet').write_bytes(sheet_of(spelled(text)))
    subprocess.run([COMPARE, 'answer', SHEETS], check=True)


def agrees(text, values):
    """Whether the second reading of document 01 gives this refusal too."""
    run = subprocess.run([COMPARE, 'one', '/dev/stdin'], input=sheet_of(text), capture_output=True)
    return run.stdout.startswith(f'reading: {values},'.encode())


class Output:
    def __init__(self):
        self.cases, self.listed, self.printed = 0, b'', b''

    def say(self, label, call, answer, slice_=None):
        told = 'true' if len(answer) > 6 else 'false'
        self.printed += f"{label} {call} {told} {' '.join(map(str, answer))}\n".encode()
        if slice_ is not None:
            self.printed += slice_[:SHOWN] + b'\n'

    def list(self, label, short, room, text):
        assert text.count(b'*') in (0, 3) and b'|' not in text, label
        self.listed += f'{label}|{short}|{room}|'.encode() + text + b'|'
        self.cases += 1

    def both(self, label, short, text, answer):
        self.list(label, short, 'size', spelled(text))
        self.say(label, 'size', answer)
        self.list(label, short, 3, spelled(text))
        self.say(label, 'lower', answer, b'###')

    def lowered(self, label, text, values, slice_):
        assert len(slice_) <= 65536, (label, len(slice_))
        self.list(label, 0, len(slice_), text)
        self.say(label, 'lower', values + BEHIND, slice_)

    def sized(self, label, text, values):
        self.list(label, 0, 'size', text)
        self.say(label, 'size', values + BEHIND)

    def answered(self, label, text, more):
        answer = SHEETS.joinpath(f'{label}.answer').read_bytes()
        if answer.startswith(b'refused\t'):
            values = [int(word) for word in answer.split(b'\t')[1:]] + [0]
            self.lowered(label, text, values, b'#' * max(more, 0))
        elif more < 0:
            self.lowered(label, text, [10, 0, 0, 0, 0, 0], b'#' * (len(answer) + more))
        else:
            self.lowered(label, text, [0, 0, 0, 0, 0, len(answer)], answer + b'#' * more)


def main():
    ask_oracle()
    out = Output()
    for case in SHORT:
        out.both(*case, [1, 0, 0, 0, 0, 0] + BEHIND)
    out.both(*NO_ANSWER, [7, 7, 7, 7, 7])
    for label, text in ANSWERED:
        out.answered(label, spelled(text), 3)
    for label, text, more in ROOMS:
        out.answered(label, spelled(text), more)
    for label, text, number, line in BY_HAND:
        values = [number, line, 0, 0, 0, 0]
        assert agrees(spelled(text), values), label
        out.lowered(label, spelled(text), values, b'###')
    for label, text, values in SIZED:
        assert values[0] == 0 or agrees(spelled(text), values), label
        out.sized(label, spelled(text), values)
    assert len(out.listed) <= LONGEST, len(out.listed)
    with open(LIST, 'wb') as file:
        file.write(out.listed)
    with open(STDOUT, 'wb') as file:
        file.write(out.printed)
    print(f'{out.cases} cases, {len(out.listed)} bytes of the list, {len(out.printed)} bytes printed')


if __name__ == '__main__':
    main()
