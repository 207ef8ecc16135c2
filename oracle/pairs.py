#!/usr/bin/env python3
"""Writes the list of program gate_pairs and what it has to print.

  python3 oracle/pairs.py     from the repository's root, after rust/compare is built

First come the pairs of `compare sample-pairs` with the Rust's answers. Behind
them stand pairs from here, in the words of list.py: each test from 2 to 8 on
each side, against each of them on the other, and 9 and 10. Their refusals are given by hand, from document
01 and request F-1, and have to agree with the second reading; the plans at the
limits are the Rust's, as `compare answer` writes them.
"""
import pathlib
import shutil
import subprocess

from list import COMPARE, sheet_of, spelled

LIST = 'crates/gate_pairs/stdin'
STDOUT = 'crates/gate_pairs/stdout'
# Where the pairs that the Rust answers are left.
PAIRS = pathlib.Path('target/oracle/pairs-list')
# Bytes that the list and a plan may have, and those of a plan that are printed.
LONGEST = 131072
ROOM = 65536
SHOWN = 2048

FINE = 'stmt 1 0;match 0 1 0 1;part - 0 1;node 7 0 0 0 1;'
EMPTY = 'stmt 0 0;'

# A sheet for each test that refuses it and none before: the test's first number,
# the text, and number, line, start, end and kind alone.
FAULTS = [
    (2, 'stmt 1 0;where 0 1;str *32745*x*;', [2, 0, 0, 0, 0]),
    (3, 'stmt 1 0;', [3, 2, 0, 0, 0]),
    (3, 'stmt 1 0;where 0 1;*62*list 1;*null;', [4, 65, 0, 0, 0]),
    (5, 'stmt 2 0;where 0 1;unres x;write 3 8;', [5, 4, 0, 0, 0]),
    (6, 'stmt 1 0;where 3 8;unres x;', [6, 3, 3, 8, 0]),
    (6, 'stmt 2 0;where 0 1;null;where 3 9;undes 2;', [7, 5, 3, 9, 2]),
    (6, 'stmt 1 0;match 0 1 2 7;part - 0 0;', [8, 3, 2, 7, 0]),
]
# Others of the same tests, each tried on both sides against a sheet that is fine.
MORE_FAULTS = [
    (3, '', [3, 1, 0, 0, 0]),
    (3, 'stmt 0 0;null;', [3, 2, 0, 0, 0]),
    (3, 'stmt 1 0;where 0 1;list 2046;*2045*null;*null;', [4, 2049, 0, 0, 0]),
    (6, 'stmt 1 0;where 3 8;undes 0;', [7, 3, 3, 8, 0]),
    (6, 'stmt 1 0;unwind 1 3 8;undes 1;', [7, 3, 3, 8, 1]),
    (6, 'stmt 1 0;call f 1 0 0 3 8;undes 3;', [7, 3, 3, 8, 3]),
]
# Both sides are fine for tests 1 to 8; the Rust answers. Of operators and of
# numbers there are 2,048 in all, and then one more; the first two pairs of each
# have them on both sides, the last on one.
AT_LIMITS = [
    ('operators-2048', 'stmt 1 0;return 1 1 0 0 0 0 9;item -;list 500;*499*pat 0;*pat 0;', 'stmt 1 0;return 1 0 0 0 0 0 9;item -;list 521;*520*pat 0;*pat 0;'),
    ('operators-2049', 'stmt 1 0;return 1 0 0 0 0 0 9;item -;list 500;*499*pat 0;*pat 0;', 'stmt 1 0;return 1 0 0 0 0 0 9;item -;list 522;*521*pat 0;*pat 0;'),
    ('operators-2048-right', EMPTY, 'stmt 1 0;return 1 0 0 0 0 0 9;item -;list 1022;*1021*pat 0;*pat 0;'),
    ('operators-2049-left', 'stmt 1 0;return 1 1 0 0 0 0 9;item -;list 1022;*1021*pat 0;*pat 0;', EMPTY),
    ('numbers-2048', 'stmt 1 0;match 0 1 0 9;part - 0 1025;node - 0 0 0 1;*511*rel - 0 0 one - - 0 0 1;node - 0 0 0 1;*rel - 0 0 one - - 0 0 1;node - 0 0 0 1;', 'stmt 1 0;match 0 1 0 9;part - 0 1023;node - 0 0 0 1;*510*rel - 0 0 one - - 0 0 1;node - 0 0 0 1;*rel - 0 0 one - - 0 0 1;node - 0 0 0 1;'),
    ('numbers-2049', 'stmt 1 0;match 0 1 0 9;part - 0 1025;node - 0 0 0 1;*511*rel - 0 0 one - - 0 0 1;node - 0 0 0 1;*rel - 0 0 one - - 0 0 1;node - 0 0 0 1;', 'stmt 2 0;match 0 1 0 9;part - 0 1023;node - 0 0 0 1;*511*rel - 0 0 one - - 0 0 1;node - 0 0 0 1;*where 0 1;var 7;'),
]


def rooms(xs):
    """A plan whose length grows with `xs` by one each."""
    return f'stmt 1 0;where 0 1;str *{xs}*x*;', 'stmt 1 0;return 2 0 0 0 0 0 9;item -;str *16350*x*;item -;fn count 0 0;'


class Output:
    def __init__(self):
        self.cases, self.listed, self.printed = 0, b'', b''

    def pair(self, head, left, right, values, plan=b''):
        """The values are the six of the answer."""
        for text in (left, right):
            # A sheet ends in a line feed and has no empty line, which would end it; so does its text.
            assert spelled(text).count(b'*') in (0, 3) and b'\n\n' not in b'\n' + spelled(text), text
            assert text == '' or text.endswith(';'), text
        self.listed += head.encode() + b'\n' + spelled(left) + b'\n' + spelled(right) + b'\n'
        self.printed += f"answer {' '.join(map(str, values))}\n".encode()
        self.printed += plan if len(plan) <= SHOWN else plan[:SHOWN] + b'\n'
        self.cases += 1

    def refused(self, head, left, right, values):
        values = values + [0]
        assert agrees(head[0], left, right, values), (left, right, values)
        self.pair(head, left, right, values)

    def answered(self, name, left, right, answer):
        if answer.startswith(b'refused\t'):
            self.pair('0', left, right, [int(word) for word in answer.split(b'\t')[1:]] + [0])
        elif len(answer) > ROOM:
            self.pair('0', left, right, [10, 0, 0, 0, 0, 0])
        else:
            self.pair('0', left, right, [0, 0, 0, 0, 0, len(answer)], answer)


def agrees(all_, left, right, values):
    """Whether the second reading gives this refusal too."""
    for name, text in (('left', left), ('right', right)):
        PAIRS.joinpath(f'{name}.one').write_bytes(sheet_of(spelled(text)))
    command = [COMPARE, 'one-pair', PAIRS / 'left.one', PAIRS / 'right.one', '--all', all_]
    run = subprocess.run(command, capture_output=True)
    return run.stdout.startswith(f'reading: {values},'.encode())


def ask(pairs):
    """The Rust's answers, by name."""
    for name, left, right in pairs:
        left, right = sheet_of(spelled(left)), sheet_of(spelled(right))
        PAIRS.joinpath(f'{name}.pair').write_bytes(b'0\n' + left + b'\n' + right + b'\n')
    subprocess.run([COMPARE, 'answer', PAIRS], check=True)
    return {name: PAIRS.joinpath(f'{name}.answer').read_bytes() for name, *_ in pairs}


def on_side(side, values):
    """The kind tells the side, and in 7 the form too."""
    number, line, start, end, kind = values
    return [number, line, start, end, 10 * side + kind if number == 7 else side]


def main():
    shutil.rmtree(PAIRS, ignore_errors=True)
    PAIRS.mkdir(parents=True)
    out = Output()
    sample = [PAIRS / 'sample', PAIRS / 'sample-answers']
    subprocess.run([COMPARE, 'sample-pairs', *sample], check=True)
    out.listed, out.printed = (path.read_bytes() for path in sample)
    sampled = out.printed.count(b'\nanswer ') + 1
    # The earlier test wins, whichever side; at the same test the left.
    for left_test, left, left_values in FAULTS:
        out.refused('0', left, FINE, on_side(1, left_values))
        out.refused('1', FINE, left, on_side(2, left_values))
        for right_test, right, right_values in FAULTS:
            first = left_test <= right_test
            values = on_side(1, left_values) if first else on_side(2, right_values)
            out.refused('0', left, right, values)
    for _, text, values in MORE_FAULTS:
        out.refused('0', text, FINE, on_side(1, values))
        out.refused('0', FINE, text, on_side(2, values))
    # The limits. A plan that just fits, and one that is a byte longer.
    base = len(ask([('base', *rooms(1))])['base'])
    full = [(f'room-{more}', *rooms(ROOM - base + 1 + more)) for more in (0, 1)]
    answers = ask(AT_LIMITS + full)
    for name, left, right in AT_LIMITS + full:
        out.answered(name, left, right, answers[name])
    assert len(answers['room-0']) == ROOM and len(answers['room-1']) == ROOM + 1
    assert [answers[name].startswith(b'refused\t9\t') for name, *_ in AT_LIMITS] == [False, True, False, True, False, True]
    assert len(out.listed) <= LONGEST, len(out.listed)
    pathlib.Path(LIST).write_bytes(out.listed)
    pathlib.Path(STDOUT).write_bytes(out.printed)
    print(f'{sampled} pairs of the sample and {out.cases} more, {len(out.listed)} bytes of the list, {len(out.printed)} bytes printed')


if __name__ == '__main__':
    main()
