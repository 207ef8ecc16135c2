#!/usr/bin/env python3
"""Random statement sheets for the oracle, and a count of what they reach.

  sheets.py make DIR [--count N] [--seed N] [--max-records N]
      writes DIR/0000.sheet, DIR/0001.sheet, .. ; the same numbers give the
      same sheets. Older numbered sheets and answers in DIR are removed.
  sheets.py cover DIR
      reads every DIR/*.sheet with its answer and prints how many sheets reach
      each record, operator, branch and refusal. Ends with status 1 if one of
      them is reached by none.

Every sheet is well-formed and read-only, and its names are valid UTF-8. The
first few are fixed (CORNERS below), whatever the seed; they may have more
records than --max-records.
"""

import argparse
import collections
import pathlib
import random
import re
import sys

AGGREGATES = ['count', 'sum', 'avg', 'min', 'max', 'collect', 'stdev', 'stdevp',
              'percentilecont', 'percentiledisc']

# A record is its fields (the keyword first, all spelled as in the sheet) and
# the records that belong to it, in the order of the sheet.
Rec = collections.namedtuple('Rec', 'fields children')


def rec(word, *fields, children=()):
    return Rec([word] + [str(field) for field in fields], list(children))


def count_records(record):
    return 1 + sum(count_records(child) for child in record.children)


def write_record(record, lines):
    lines.append('\t'.join(record.fields) + '\n')
    for child in record.children:
        write_record(child, lines)


def sheet_bytes(record):
    lines = []
    write_record(record, lines)
    return ''.join(lines).encode('utf-8')


# ---------------------------------------------------------------- generating

# Names as they stand in a sheet, escapes included.
PLAIN_NAMES = ['Book', 'title', 'KNOWS', 'a', 'x', 'born', 'Person', 'db.labels']
ODD_NAMES = ['', ' ', '-', '=', '=x', '0', '_', '_v7', 'two words', 'null', 'stmt',
             '\\t', '\\n', '\\\\', 'a\\tb', 'x\\ny\\n', '\\\\t', '\\\\\\\\n', '\\t\\n\\\\',
             'Bücher', '日本', '🙂', 'é\\t', '\r', 'a\x00b', '\x7f', '"quoted"',
             'a name that is longer than twenty-three bytes']
# Names of functions that are no aggregates, though some come near.
PLAIN_FUNCTIONS = ['size', 'toLower', 'counts', 'coun', 'count ', ' max', '', 'percentile',
                   'ſum', 'MİN', 'stdev_p', 'cöunt', 'ma\\tx']
INTS = [0, 1, -1, 7, 10, 42, -100, 2**31, -2**31, 2**32, 2**63 - 1, -2**63, -2**63 + 1]
FLOATS = ['0000000000000000', '8000000000000000', '3ff0000000000000', '7ff0000000000000',
          'fff0000000000000', '7ff8000000000000', '7ff0000000000001', 'ffffffffffffffff',
          '400921fb54442d18', '0000000000000001', 'abcdef0123456789']
BOUNDS = ['-', '-', 0, 1, 2, 3, 5, 2**32, 2**63, 2**64 - 1]
IDS = [0, 1, 2, 3, 5, 7, 8, 12, 40, 1000, 2047, 2**31, 2**32 - 1]

# How the elements of a part may follow each other: n a node, r a rel.
SHAPES = ['n'] * 6 + ['nrn'] * 6 + ['nrnrn'] * 2 + [
    'nr', 'nn', 'nrrn', 'nrnr', 'nnrn', 'nrnn', 'nrr', 'nnr', 'nnn', 'nrrrn', 'nrnrrn', 'nrrnr']
SHORTEST_SHAPES = ['nrn'] * 8 + ['n', 'nrnrn', 'nr', 'nn', 'nrr', 'nnr', 'nnn', 'nrrn', 'nnrn']
BAD_SHAPES = ['', '', 'r', 'rn', 'rnr', 'rr']

CLAUSES = ['match', 'where', 'with', 'return', 'unwind', 'call']
# For each theme, how often each of these clauses is taken.
THEMES = {
    'mixed': [4, 2, 2, 3, 2, 2],
    'pattern': [9, 1, 0, 0, 0, 0],
    'return': [1, 0, 0, 6, 0, 0],
    'with': [1, 1, 6, 1, 0, 0],
    'expression': [0, 4, 0, 2, 2, 1],
    'rows': [1, 0, 0, 0, 4, 4],
    'optional': [9, 0, 0, 0, 1, 1],
}


class Generator:
    def __init__(self, rng, max_records):
        self.rng = rng
        self.max_records = max_records

    # How likely a thing is, by how many of a hundred.
    def chance(self, percent):
        return self.rng.random() * 100 < percent

    def flag(self, percent=50):
        return int(self.chance(percent))

    def pick(self, choices):
        return self.rng.choice(choices)

    def few(self, weights):
        """0, 1, 2, .. with these weights; only 0 or 1 when records run out."""
        number = self.rng.choices(range(len(weights)), weights)[0]
        return number if self.left > 0 else min(number, 1)

    def name(self):
        return self.pick(ODD_NAMES if self.chance(self.odd) else PLAIN_NAMES)

    def var(self):
        return self.pick(self.ids)

    def maybe_var(self):
        return self.var() if self.chance(55) else '-'

    def span(self):
        if self.chance(5):
            return self.pick([(0, 0), (0, 2**32 - 1), (2**32 - 1, 2**32 - 1)])
        start = self.rng.randrange(300)
        return (start, start + self.rng.randrange(100))

    def make(self, *fields, **more):
        self.left -= 1
        return rec(*fields, **more)

    # ---- the sheet

    def sheet(self, refuse):
        """One sheet of at most max_records records; one with a violation, or
        one with none."""
        while True:
            top = max(6, self.max_records - 5)
            self.left = self.pick([5, 8, 12, 16, 20, 25, 30, top])
            self.left = min(self.left, top)
            self.odd = self.pick([0, 10, 60])
            self.ids = self.rng.sample(IDS, self.pick([2, 3, 4, 6]))
            self.bad = self.pick([2, 4, 10, 25]) if refuse else 0
            self.theme = self.pick(list(THEMES) + ['mixed', 'optional'])
            stmt = self.statement()
            if count_records(stmt) > self.max_records:
                continue
            if refuse and not violations(stmt):
                continue
            return stmt

    def statement(self):
        arms = self.few([70, 18, 8, 4])
        most = 2 if arms else 4
        if self.theme == 'optional':
            most = 3
        head = self.clauses(0 if self.chance(25 if arms else 3) else self.rng.randint(1, most))
        arms = [self.arm() for _ in range(arms)]
        return self.make('stmt', len(head), len(arms), children=head + arms)

    def arm(self):
        clauses = self.clauses(self.pick([0, 1, 1, 1, 2]))
        return self.make('arm', self.flag(), len(clauses), children=clauses)

    def clauses(self, number):
        words = self.rng.choices(CLAUSES, THEMES[self.theme], k=number)
        return [getattr(self, word + '_clause')() for word in words]

    def match_clause(self):
        parts = self.parts([8, 62, 22, 8])
        optional = self.flag(90 if self.theme == 'optional' else 50)
        return self.make('match', optional, len(parts), *self.span(), children=parts)

    def where_clause(self):
        return self.make('where', *self.span(), children=[self.expr()])

    def with_clause(self):
        items = [self.item() for _ in range(self.few([6, 50, 30, 14]))]
        filters = [self.pattern(2)] if self.chance(10) else self.maybe_expr(40)
        keys, skip, limit = self.trailers()
        return self.make('with', len(items), len(filters), len(keys), len(skip), len(limit),
                         *self.span(), children=items + filters + keys + skip + limit)

    def return_clause(self):
        items = [self.item() for _ in range(self.few([4, 36, 30, 20, 10]))]
        keys, skip, limit = self.trailers()
        return self.make('return', len(items), self.flag(30), len(keys), len(skip), len(limit),
                         *self.span(), children=items + keys + skip + limit)

    def unwind_clause(self):
        return self.make('unwind', self.var(), *self.span(), children=[self.expr()])

    def call_clause(self):
        args = self.exprs([40, 40, 20])
        yields = [self.make('yield', self.name(), self.var()) for _ in range(self.few([4, 4, 2]))]
        return self.make('call', self.name(), len(args), len(yields), self.flag(), *self.span(),
                         children=args + yields)

    def item(self):
        alias = '-' if self.chance(60) else '=' + ('' if self.chance(20) else self.name())
        kind = self.rng.choices(['aggregate', 'prop', 'any'], [35, 12, 53])[0]
        if kind == 'aggregate':
            child = self.function(4, aggregate=True)
        elif kind == 'prop':
            child = self.prop(2)
        else:
            child = self.expr()
        return self.make('item', alias, children=[child])

    def trailers(self):
        # Now and then all three; else each for itself.
        if self.chance(15):
            return [self.key()], [self.expr(1)], [self.expr(1)]
        keys = [self.key() for _ in range(self.few([65, 25, 10]))]
        return keys, self.maybe_expr(22), self.maybe_expr(22)

    def key(self):
        return self.make('key', self.flag(), children=[self.expr(2)])

    # ---- patterns

    def parts(self, weights, depth=4):
        return [self.part(depth) for _ in range(self.few(weights))]

    def part(self, depth):
        shortest = self.pick([0, 0, 0, 0, 1, 2])
        shape = self.pick(SHORTEST_SHAPES if shortest else SHAPES)
        if self.left < 5:
            shape = self.pick(['n', 'n', 'nn', 'nr'])
        if self.chance(self.bad):
            shape = self.pick(BAD_SHAPES)
        elements = [self.node(depth) if letter == 'n' else self.rel(depth) for letter in shape]
        var = self.var() if self.chance(35) else '-'
        return self.make('part', var, shortest, len(elements), children=elements)

    def names(self):
        return [self.make('name', self.name()) for _ in range(self.few([60, 30, 10]))]

    def props(self, depth):
        if not self.chance(30 + self.bad) or self.left <= 0:
            return []
        if self.chance(40) and depth > 1:
            return [self.pattern(depth - 1)]
        return [self.expr(depth - 1)]

    def node(self, depth):
        labels, props = self.names(), self.props(depth)
        return self.make('node', self.maybe_var(), len(labels), len(props), *self.span(),
                         children=labels + props)

    def rel(self, depth):
        types, props = self.names(), self.props(depth)
        length = ['one', '-', '-']
        if self.chance(45):
            length = ['var', self.pick(BOUNDS), self.pick(BOUNDS)]
        return self.make('rel', self.maybe_var(), len(types), self.rng.randrange(3), *length,
                         len(props), *self.span(), children=types + props)

    # ---- expressions

    def maybe_expr(self, percent):
        return [self.expr(2)] if self.chance(percent) and self.left > 0 else []

    def exprs(self, weights, depth=3):
        return [self.expr(depth) for _ in range(self.few(weights))]

    def expr(self, depth=4):
        if self.chance(self.bad):
            return self.violation()
        if depth <= 0 or self.left <= 0 or self.chance(30):
            return self.leaf()
        words = ['prop', 'prop', 'index', 'slice', 'list', 'map', 'function', 'function', 'bin',
                 'bin', 'bin', 'un', 'case', 'isnull', 'in_list', 'pattern', 'pattern', 'pattern',
                 'list_predicate', 'list_predicate']
        return getattr(self, self.pick(words))(depth)

    def violation(self):
        if self.chance(40):
            return self.make('unres', self.name())
        return self.make('undes', self.rng.randrange(4))

    def leaf(self):
        word = self.pick(['null', 'bool', 'int', 'float', 'str', 'var', 'var', 'var', 'param'])
        if word == 'null':
            return self.make(word)
        field = {'bool': self.flag, 'int': lambda: self.pick(INTS),
                 'float': lambda: self.pick(FLOATS), 'str': self.name, 'var': self.var,
                 'param': self.name}[word]()
        return self.make(word, field)

    def prop(self, depth):
        return self.make('prop', self.name(), children=[self.expr(depth - 1)])

    def index(self, depth):
        return self.make('index', children=[self.expr(depth - 1), self.expr(depth - 1)])

    def slice(self, depth):
        start, end = self.flag(), self.flag()
        children = [self.expr(depth - 1) for _ in range(1 + start + end)]
        return self.make('slice', start, end, children=children)

    def list(self, depth):
        children = self.exprs([2, 3, 3, 2], depth - 1)
        return self.make('list', len(children), children=children)

    def map(self, depth):
        number = self.few([3, 4, 2])
        children = []
        for _ in range(number):
            children += [self.make('name', self.name()), self.expr(depth - 1)]
        return self.make('map', number, children=children)

    def function(self, depth, aggregate=False):
        if aggregate or self.chance(40):
            name = self.pick(AGGREGATES)
            case = self.pick(['lower', 'lower', 'upper', 'mixed'])
            if case == 'upper':
                name = name.upper()
            elif case == 'mixed':
                name = ''.join(self.pick([c, c.upper()]) for c in name)
        else:
            name = self.pick(PLAIN_FUNCTIONS)
        args = self.exprs([2, 6, 2], depth - 1)
        return self.make('fn', name, len(args), self.flag(35), children=args)

    def bin(self, depth):
        return self.make('bin', self.rng.randrange(20),
                         children=[self.expr(depth - 1), self.expr(depth - 1)])

    def un(self, depth):
        return self.make('un', self.flag(), children=[self.expr(depth - 1)])

    def case(self, depth):
        scrutinee, arms, otherwise = self.flag(), self.few([2, 5, 2]), self.flag()
        children = [self.expr(depth - 1) for _ in range(scrutinee + 2 * arms + otherwise)]
        return self.make('case', scrutinee, arms, otherwise, children=children)

    def isnull(self, depth):
        return self.make('isnull', self.flag(), children=[self.expr(depth - 1)])

    def in_list(self, depth):
        return self.make('in', children=[self.expr(depth - 1), self.expr(depth - 1)])

    def pattern(self, depth):
        parts = self.parts([10, 75, 15], depth)
        return self.make('pat', len(parts), children=parts)

    def list_predicate(self, depth):
        predicate = self.flag()
        children = [self.expr(depth - 1) for _ in range(1 + predicate)]
        return self.make('listp', self.rng.randrange(4), self.var(), predicate,
                         children=children)


# Sheets that stand first in every folder: document 01's worked examples, and
# shapes that chance alone seldom hits. A space stands for a tab, a bar for a
# line feed; the last line's is added.
CORNERS = [
    # M1, M3 to M10.
    'stmt 2 0|match 0 1 0 14|part - 0 1|node 7 1 0 6 14|name Book|return 1 0 0 0 0 15 29'
    '|item -|prop title|var 7',
    'stmt 0 0',
    'stmt 1 0|match 0 1 0 9|part - 0 3|node 1 0 0 0 1|rel 2 0 0 one - - 0 1 2|node 3 0 0 3 4',
    'stmt 1 0|return 1 0 0 0 0 0 5|item -|pat 1|part - 0 1|node - 0 0 1 2',
    'stmt 1 0|match 0 1 0 9|part 9 1 3|node 1 0 0 0 1|rel 2 0 0 one - - 0 1 2|node 3 0 0 3 4',
    'stmt 1 0|where 0 5|pat 1|part - 0 1|node - 0 0 1 2',
    'stmt 1 0|return 1 0 0 0 0 0 5|item -|int -9223372036854775808',
    'stmt 1 0|where 3 5|list 2|unres x|undes 0',
    'stmt 1 0|where 3 5|list 2|undes 0|unres x',
    'stmt 0 1|arm 0 0',
    # An optional match whose root is a filter over a pattern; its copy copies.
    'stmt 2 0|unwind 4 0 1|var 5|match 1 1 2 9|part - 0 1|node 4 0 1 3 5|pat 1|part - 0 1'
    '|node - 1 0 4 4|name a',
    # The same with a part that is named, with an expand, and with a special one.
    'stmt 3 0|match 1 0 0 1|match 1 2 2 9|part - 0 1|node - 0 0 3 5|part 6 0 1|node 6 0 0 7 8'
    '|match 1 1 9 9|part - 0 3|node - 0 0 1 1|rel - 0 2 var - - 0 1 1|node - 0 0 1 1',
    'stmt 2 0|call p 0 0 0 0 1|match 1 2 2 9|part - 0 1|node - 0 0 1 1|part - 2 3|node 1 0 0 3 5'
    '|rel 1 0 1 one - - 0 1 1|node - 1 1 1 1|name vanishes|var 8',
    # Aggregates inside an aggregate and inside another function.
    'stmt 1 0|return 3 1 1 1 1 0 5|item -|fn COUNT 1 1|fn max 1 0|var 3|item =k|fn size 1 1'
    '|fn collect 1 0|var 4|item -|var 3|key 1|var 4|int 1|int 2',
    # A pattern in an aggregate, a key, and each trailer.
    'stmt 1 0|return 2 0 1 1 1 0 5|item -|fn avg 1 0|pat 1|part - 0 1|node - 0 0 0 0|item =k'
    '|pat 1|part - 0 1|node 2 0 0 0 0|key 0|pat 0|pat 0|pat 0',
    'stmt 1 0|return 0 0 0 0 0 0 0',
    # Patterns in a with's item, filter and trailers.
    'stmt 1 0|with 1 1 1 1 1 0 5|item -|pat 0|pat 0|key 1|pat 0|pat 0|pat 0',
    # Violations in a match's second part; in trailers; in patterns.
    'stmt 1 0|match 0 2 3 9|part - 0 1|node 1 0 0 4 5|part - 0 1|node 1 0 1 6 7|undes 3',
    'stmt 1 0|with 1 1 1 1 1 2 5|item -|null|null|key 0|null|unres s|undes 1',
    'stmt 1 0|return 1 0 1 1 1 2 5|item -|null|key 0|null|null|undes 2',
    'stmt 1 0|unwind 1 3 4|pat 2|part - 0 1|node - 0 0 5 6|part - 1 0',
    'stmt 1 0|where 3 4|pat 1|part - 0 1|node - 0 1 5 6|pat 1|part - 0 1'
    '|rel - 0 0 one - - 1 7 8|unres x',
    'stmt 1 0|match 0 1 1 2|part - 0 2|node - 0 0 3 4|rel - 0 0 var - - 1 5 6|list 1|pat 1'
    '|part 3 0 0',
    'stmt 1 1|match 0 0 0 0|arm 1 2|call p 0 0 0 1 1|match 1 1 2 3|part 4 2 1'
    '|rel - 0 0 one - - 1 5 6|unres x',
]


def violations(record):
    """The violations at and below a record, in the order of the sheet."""
    found = []
    word = record.fields[0]
    if word == 'unres':
        found.append('6')
    if word == 'undes':
        found.append('7 kind ' + record.fields[1])
    if word == 'part' and not record.children:
        found.append('8 no elements')
    if word == 'part' and record.children and record.children[0].fields[0] == 'rel':
        found.append('8 rel first')
    for child in record.children:
        found += violations(child)
    return found


def make(folder, count, seed, max_records):
    folder.mkdir(parents=True, exist_ok=True)
    for path in folder.iterdir():
        if re.fullmatch(r'\d+\.(sheet|answer)', path.name):
            path.unlink()
    generator = Generator(random.Random(seed), max_records)
    corners = [(corner.replace(' ', '\t').replace('|', '\n') + '\n').encode()
               for corner in CORNERS]
    known = set()
    while len(known) < count:
        # A quarter of the other sheets is to be refused.
        text = corners.pop(0) if corners else \
            sheet_bytes(generator.sheet(refuse=len(known) % 4 == 3))
        if text not in known:
            (folder / ('%04d.sheet' % len(known))).write_bytes(text)
            known.add(text)
    print(count, 'sheets written, seed', seed)


# ------------------------------------------------------------------ counting

def children_due(f):
    """How many records belong to the record with the fields f."""
    word = f[0]
    number = lambda *places: sum(int(f[place]) for place in places)
    if word in ('where', 'unwind', 'item', 'key', 'prop', 'un', 'isnull'):
        return 1
    if word in ('index', 'bin', 'in'):
        return 2
    return {
        'stmt': lambda: number(1, 2), 'arm': lambda: number(2), 'match': lambda: number(2),
        'with': lambda: number(1, 2, 3, 4, 5), 'return': lambda: number(1, 3, 4, 5),
        'call': lambda: number(2, 3), 'part': lambda: number(3), 'node': lambda: number(2, 3),
        'rel': lambda: number(2, 7), 'slice': lambda: 1 + number(1, 2),
        'list': lambda: number(1), 'map': lambda: 2 * number(1), 'fn': lambda: number(2),
        'case': lambda: number(1, 2, 2, 3), 'pat': lambda: number(1),
        'listp': lambda: 1 + number(3),
    }.get(word, lambda: 0)()


def read_sheet(text):
    lines = iter(text.decode('utf-8').split('\n')[:-1])

    def read():
        fields = next(lines).split('\t')
        return Rec(fields, [read() for _ in range(children_due(fields))])

    stmt = read()
    assert next(lines, None) is None, 'a line with nothing due'
    return stmt


# Which fields of a record hold a name, and which a variable's id.
NAME_FIELDS = {'call': 1, 'yield': 1, 'name': 1, 'str': 1, 'param': 1, 'prop': 1, 'fn': 1,
               'unres': 1, 'item': 1}
ID_FIELDS = {'unwind': 1, 'yield': 2, 'part': 1, 'node': 1, 'rel': 1, 'var': 1, 'listp': 2}

RECORDS = ['stmt', 'arm', 'match', 'where', 'with', 'return', 'unwind', 'call', 'yield', 'item',
           'key', 'part', 'node', 'rel', 'name', 'null', 'bool', 'int', 'float', 'str', 'var',
           'param', 'prop', 'index', 'slice', 'list', 'map', 'fn', 'bin', 'un', 'case', 'isnull',
           'in', 'pat', 'listp', 'unres', 'undes']
OPERATORS = ['source', 'expand', 'filter', 'project', 'agg', 'order', 'skip', 'limit', 'distinct',
             'unwind', 'union', 'with', 'optional', 'short', 'path', 'call']
PLAN_RECORDS = ['rel', 'to', 'name', 'item', 'aggf', 'key', 'e', 'yield', 'exists', 'v', 'null',
                'bool', 'int', 'float', 'str', 'var', 'param', 'prop', 'index', 'slice', 'list',
                'map', 'fn', 'bin', 'un', 'case', 'isnull', 'in', 'listp']
COPIED = ['source', 'expand', 'filter', 'short', 'path']

# Everything that has to be reached, by group. The functions below tick these.
WANTED = {
    'record of the statement sheet': RECORDS,
    'operator of the plan': OPERATORS,
    'other record of the plan': PLAN_RECORDS,
    'operator copied': ['%s in %s' % (op, where) for where in ('exists', 'optional')
                        for op in COPIED] + ['exists inside a copy', 'exists in exists'],
    'clause': ['%s %s' % (word, place) for word in ('where', 'with', 'return', 'unwind', 'call')
               for place in ('first', 'later')] + [
        'match first', 'match later', 'match optional first', 'match optional later',
        'match of no parts', 'match of one part', 'match of several parts',
        'match optional later of no parts', 'match optional later of several parts',
        'where first with a pattern', 'with first with a pattern', 'return first with a pattern',
        'unwind first with a pattern', 'call first with a pattern', 'statement of no clauses',
        'unwind variable also in its list', 'call optional', 'call not optional',
        'call of no arguments', 'call with arguments', 'call of no yields', 'call with yields'],
    'items and trailers': ['%s %s' % (word, what) for word in ('with', 'return') for what in (
        'of no items', 'of several items', 'order', 'skip', 'limit', 'order, skip and limit',
        'no alias on var', 'no alias on prop', 'no alias on fn', 'no alias on another', 'alias',
        'empty alias', 'trailer with a pattern')] + [
        'with filter', 'with no filter', 'with filter with a pattern', 'return distinct',
        'return not distinct', 'key descending', 'key ascending'],
    'aggregates': ['aggregate ' + name for name in AGGREGATES] + [
        'no aggregates', 'aggregates and no keys', 'aggregates and keys', 'several aggregates',
        'several keys', 'aggregate aliased', 'aggregate not aliased', 'aggregate distinct',
        'aggregate not distinct', 'aggregate of no arguments', 'aggregate of several arguments',
        'aggregate in capitals', 'aggregate in mixed letters', 'aggregate not outermost',
        'aggregate inside an aggregate', 'aggregate in with', 'aggregate with a pattern',
        'key of an aggregate with a pattern', 'item with a pattern, no aggregates',
        'variable first met in an aggregate'],
    'chain': ['part named', 'part unnamed', 'node named', 'node unnamed', 'rel named',
              'rel unnamed', 'two rels running', 'rel at the end', 'node after node',
              'named, two rels running', 'named, rel at the end', 'named, node after node',
              'named, one node', 'named, five elements', 'start with props',
              'later source with props', 'far node with props', 'far node with labels',
              'rel with props', 'dropped rel with props', 'dropped rel with a variable',
              'source with no labels', 'source with one label', 'source with several labels',
              'node, rel and node all unnamed', 'node met again', 'rel met again',
              'part name met again'],
    'shortest': ['special %s' % what for what in (
        'named', 'unnamed', 'all 0', 'all 1', 'start with props', 'rel with props',
        'end with labels', 'end with props', 'start unnamed', 'rel unnamed', 'end unnamed',
        'in an expression')] + ['other shape %s' % what for what in (
            'named', 'unnamed', 'one node', 'of three elements', 'of five elements')],
    'rel': ['direction 0', 'direction 1', 'direction 2', 'one', 'var - -', 'var - max',
            'var min -', 'var min max', 'min above max', 'bound beyond 32 bits',
            'bound 18446744073709551615', 'no types', 'one type', 'several types'],
    'expression': ['bin %d' % op for op in range(20)] + ['un 0', 'un 1'] + [
        'slice %d %d' % (start, end) for start in (0, 1) for end in (0, 1)] + [
        'listp %d' % kind for kind in range(4)] + ['listp with predicate', 'listp without',
        'listp variable also in its list', 'listp variable met before', 'isnull 0', 'isnull 1',
        'bool 0', 'bool 1', 'list of none', 'list of several', 'map of none', 'map of several',
        'case scrutinee', 'case no scrutinee', 'case of no arms', 'case of several arms',
        'case else', 'case no else', 'fn distinct, no aggregate', 'fn of no arguments',
        'int -9223372036854775808', 'int 9223372036854775807', 'int 0', 'float not a number',
        'float minus zero', 'pat of no parts', 'pat of several parts', 'pat in node props',
        'pat in rel props', 'pat in pat', 'variable met again'],
    'name': ['tab', 'line feed', 'backslash', 'empty', 'beyond ASCII', 'empty label or type'],
    'union': ['empty head, empty arm', 'empty head, full arm', 'full head, empty arm',
              'full head, full arm', 'all 0', 'all 1', 'several arms',
              'variable in head and arm', 'no arms'],
    'refusal': ['6', '7 kind 0', '7 kind 1', '7 kind 2', '7 kind 3', '8 no elements',
                '8 rel first'],
    'refusal, where': ['in ' + word for word in CLAUSES] + [
        'in an arm', 'in node props', 'in rel props', 'in a pattern in an expression',
        'in a pattern in props', 'in order, skip or limit', 'deeper than 8',
        'part in a pattern in an expression', 'part in a pattern in props', 'several violations',
        'a later one of another number', 'in a part that is not its match\'s first'],
}


def holds_pat(record):
    return record.fields[0] == 'pat' or any(holds_pat(child) for child in record.children)


def all_records(record):
    yield record
    for child in record.children:
        yield from all_records(child)


def ids_of(record):
    for each in all_records(record):
        place = ID_FIELDS.get(each.fields[0])
        if place and each.fields[place] != '-':
            yield each.fields[place]


def is_aggregate(record):
    # Only ASCII letters are made small, as the Rust does it.
    return record.fields[0] == 'fn' and record.fields[1].isascii() \
        and record.fields[1].lower() in AGGREGATES


def parts_of_clause(record):
    """A with's or return's items, filter, keys, and skip and limit."""
    f, left = record.fields, iter(record.children)
    take = lambda number: [next(left) for _ in range(int(number))]
    items = take(f[1])
    filters = take(f[2]) if f[0] == 'with' else []
    return items, filters, take(f[3]), take(f[4]) + take(f[5])


def tick_clause(record, first, tick):
    f = record.fields
    word, place = f[0], 'first' if first else 'later'
    if word != 'match':
        tick('clause', '%s %s' % (word, place))
        if first and holds_pat(record):
            tick('clause', word + ' first with a pattern')
    else:
        number = {'0': 'no parts', '1': 'one part'}.get(f[2], 'several parts')
        name = 'match optional ' if f[1] == '1' else 'match '
        tick('clause', name + place)
        tick('clause', 'match of ' + number)
        tick('clause', '%s%s of %s' % (name, place, number))
    if word == 'unwind' and f[1] in ids_of(record.children[0]):
        tick('clause', 'unwind variable also in its list')
    if word == 'call':
        tick('clause', 'call optional' if f[4] == '1' else 'call not optional')
        tick('clause', 'call of no arguments' if f[2] == '0' else 'call with arguments')
        tick('clause', 'call of no yields' if f[3] == '0' else 'call with yields')
    if word in ('with', 'return'):
        tick_items(record, tick)
    if word == 'return':
        tick_aggregates(record, tick)


def tick_items(record, tick):
    f = record.fields
    word = f[0]
    items, filters, keys, counts = parts_of_clause(record)
    here = lambda what: tick('items and trailers', '%s %s' % (word, what))
    if not items:
        here('of no items')
    if len(items) > 1:
        here('of several items')
    for what, there in (('order', keys), ('skip', f[4] == '1'), ('limit', f[5] == '1'),
                        ('order, skip and limit', keys and f[4] + f[5] == '11')):
        if there:
            here(what)
    for item in items:
        alias, head = item.fields[1], item.children[0].fields[0]
        if alias == '-':
            here('no alias on ' + (head if head in ('var', 'prop', 'fn') else 'another'))
        else:
            here('empty alias' if alias == '=' else 'alias')
        if word == 'with' and is_aggregate(item.children[0]):
            tick('aggregates', 'aggregate in with')
    if any(holds_pat(each) for each in keys + counts):
        here('trailer with a pattern')
    if word == 'with':
        here('filter' if filters else 'no filter')
        if any(holds_pat(each) for each in filters):
            here('filter with a pattern')
    else:
        here('distinct' if f[2] == '1' else 'not distinct')
    for key in keys:
        tick('items and trailers', 'key descending' if key.fields[1] == '1' else 'key ascending')


def tick_aggregates(record, tick):
    items = parts_of_clause(record)[0]
    here = lambda what: tick('aggregates', what)
    aggregates = [item for item in items if is_aggregate(item.children[0])]
    others = [item for item in items if not is_aggregate(item.children[0])]
    met = set()
    for item in items:
        if is_aggregate(item.children[0]) and set(ids_of(item)) - met:
            here('variable first met in an aggregate')
        met |= set(ids_of(item))
    for item in aggregates:
        f = item.children[0].fields
        here('aggregate ' + f[1].lower())
        here('aggregate aliased' if item.fields[1] != '-' else 'aggregate not aliased')
        here('aggregate distinct' if f[3] == '1' else 'aggregate not distinct')
        if f[2] == '0':
            here('aggregate of no arguments')
        if int(f[2]) > 1:
            here('aggregate of several arguments')
        if f[1].isupper():
            here('aggregate in capitals')
        elif not f[1].islower():
            here('aggregate in mixed letters')
        if holds_pat(item):
            here('aggregate with a pattern')
        if sum(is_aggregate(each) for each in all_records(item)) > 1:
            here('aggregate inside an aggregate')
    for item in others:
        if any(is_aggregate(each) for each in all_records(item)):
            here('aggregate not outermost')
        if holds_pat(item):
            here('key of an aggregate with a pattern' if aggregates
                 else 'item with a pattern, no aggregates')
    if not aggregates:
        here('no aggregates')
    else:
        here('aggregates and keys' if others else 'aggregates and no keys')
        if len(aggregates) > 1:
            here('several aggregates')
        if len(others) > 1:
            here('several keys')


def tick_part(record, in_expression, tick):
    named = record.fields[1] != '-'
    shape = ''.join(child.fields[0][0] for child in record.children)
    has_var = lambda element: element.fields[1] != '-'
    has_props = lambda e: e.fields[3 if e.fields[0] == 'node' else 7] == '1'
    if record.fields[2] != '0':
        here = lambda what: tick('shortest', what)
        if shape == 'nrn':
            start, rel, end = record.children
            here('special named' if named else 'special unnamed')
            here('special all %d' % (record.fields[2] == '2'))
            for what, there in (
                    ('start with props', has_props(start)), ('rel with props', has_props(rel)),
                    ('end with labels', end.fields[2] != '0'),
                    ('end with props', has_props(end)), ('start unnamed', not has_var(start)),
                    ('rel unnamed', not has_var(rel)), ('end unnamed', not has_var(end)),
                    ('in an expression', in_expression)):
                if there:
                    here('special ' + what)
            return
        here('other shape named' if named else 'other shape unnamed')
        size = {1: 'one node', 3: 'of three elements', 5: 'of five elements'}.get(len(shape))
        if size:
            here('other shape ' + size)
    here = lambda what: tick('chain', what)
    here('part named' if named else 'part unnamed')
    for what, there in (('two rels running', 'rr' in shape), ('rel at the end', shape[-1:] == 'r'),
                        ('node after node', 'nn' in shape)):
        if there:
            here(what)
            if named:
                here('named, ' + what)
    if named and shape == 'n':
        here('named, one node')
    if named and shape == 'nrnrn':
        here('named, five elements')
    if any(not (has_var(a) or has_var(b) or has_var(c)) and (x, y, z) == tuple('nrn')
           for a, b, c, x, y, z in zip(record.children, record.children[1:], record.children[2:],
                                       shape, shape[1:], shape[2:])):
        here('node, rel and node all unnamed')
    for place, element in enumerate(record.children):
        before, after = shape[:place][-1:], shape[place + 1:][:1]
        if shape[place] == 'r':
            used = before and after == 'n'
            if used:
                here('rel named' if has_var(element) else 'rel unnamed')
            if has_props(element):
                here('rel with props' if used else 'dropped rel with props')
            if has_var(element) and not used:
                here('dropped rel with a variable')
            continue
        here('node named' if has_var(element) else 'node unnamed')
        if before == 'r':
            if has_props(element):
                here('far node with props')
            if element.fields[2] != '0':
                here('far node with labels')
        else:
            if has_props(element):
                here('later source with props' if before else 'start with props')
            here('source with ' + {'0': 'no labels', '1': 'one label'}.get(element.fields[2],
                                                                         'several labels'))


def tick_rel(f, tick):
    here = lambda what: tick('rel', what)
    here('direction ' + f[3])
    here({'0': 'no types', '1': 'one type'}.get(f[2], 'several types'))
    bounds = [int(bound) for bound in f[5:7] if bound != '-']
    if f[4] == 'one':
        here('one')
    else:
        here('var %s %s' % ('-' if f[5] == '-' else 'min', '-' if f[6] == '-' else 'max'))
    if len(bounds) == 2 and bounds[0] > bounds[1]:
        here('min above max')
    if any(bound >= 2**32 for bound in bounds):
        here('bound beyond 32 bits')
    if 2**64 - 1 in bounds:
        here('bound 18446744073709551615')


def tick_expression(record, tick):
    f = record.fields
    word = f[0]
    here = lambda what: tick('expression', what)
    if word in ('bin', 'un', 'isnull', 'bool', 'int'):
        here('%s %s' % (word, f[1]))
    if word == 'slice':
        here('slice %s %s' % (f[1], f[2]))
    if word == 'listp':
        here('listp ' + f[1])
        here('listp with predicate' if f[3] == '1' else 'listp without')
        if f[2] in ids_of(record.children[0]):
            here('listp variable also in its list')
    if word in ('list', 'map') and f[1] != '1':
        here('%s of %s' % (word, 'none' if f[1] == '0' else 'several'))
    if word == 'case':
        here('case scrutinee' if f[1] == '1' else 'case no scrutinee')
        here('case else' if f[3] == '1' else 'case no else')
        if f[2] != '1':
            here('case of no arms' if f[2] == '0' else 'case of several arms')
    if word == 'fn':
        if f[3] == '1' and not is_aggregate(record):
            here('fn distinct, no aggregate')
        if f[2] == '0':
            here('fn of no arguments')
    if word == 'float' and f[1] == '8000000000000000':
        here('float minus zero')
    if word == 'float' and int(f[1], 16) % 2**63 > 0x7ff0000000000000:
        here('float not a number')
    if word == 'pat' and f[1] != '1':
        here('pat of no parts' if f[1] == '0' else 'pat of several parts')
    if word == 'pat' and any(e.fields[0] == 'pat' for c in record.children
                             for e in all_records(c)):
        here('pat in pat')


def tick_names(f, tick):
    place = NAME_FIELDS.get(f[0])
    if place is None or f == ['item', '-']:
        return
    name = f[place][1:] if f[0] == 'item' else f[place]
    escapes = re.findall(r'\\(.)', name)
    for letter, what in (('t', 'tab'), ('n', 'line feed'), ('\\', 'backslash')):
        if letter in escapes:
            tick('name', what)
    if not name:
        tick('name', 'empty label or type' if f[0] == 'name' else 'empty')
    if not name.isascii():
        tick('name', 'beyond ASCII')


def tick_statement(stmt, tick):
    head = int(stmt.fields[1])
    groups = [stmt.children[:head]] + [arm.children for arm in stmt.children[head:]]
    if stmt.fields == ['stmt', '0', '0']:
        tick('clause', 'statement of no clauses')
    if len(groups) == 1:
        tick('union', 'no arms')
    if len(groups) > 2:
        tick('union', 'several arms')
    for arm in stmt.children[head:]:
        tick('union', 'all ' + arm.fields[1])
        tick('union', '%s head, %s arm' % ('full' if head or arm is not stmt.children[head]
                                           else 'empty', 'full' if arm.children else 'empty'))
        if {i for c in groups[0] for i in ids_of(c)} & set(ids_of(arm)):
            tick('union', 'variable in head and arm')
    for group in groups:
        for place, clause in enumerate(group):
            tick_clause(clause, place == 0, tick)
    met = set()
    for record in all_records(stmt):
        f = record.fields
        tick('record of the statement sheet', f[0])
        tick_names(f, tick)
        tick_expression(record, tick)
        if f[0] == 'rel':
            tick_rel(f, tick)
        place = ID_FIELDS.get(f[0])
        if place and f[place] != '-':
            if f[place] in met:
                what = {'node': 'node met again', 'rel': 'rel met again',
                        'part': 'part name met again'}.get(f[0])
                tick('chain', what) if what else tick('expression', 'variable met again')
                if f[0] == 'listp':
                    tick('expression', 'listp variable met before')
            met.add(f[place])
        for child in record.children:
            if child.fields[0] == 'part':
                tick_part(child, f[0] == 'pat', tick)
            if child.fields[0] == 'pat' and f[0] in ('node', 'rel'):
                tick('expression', 'pat in %s props' % f[0])


def path_to(record, wanted, above=()):
    """The records from the statement down to line `wanted`, by counting."""
    wanted[0] -= 1
    if wanted[0] == 0:
        return above + (record,)
    for child in record.children:
        found = path_to(child, wanted, above + (record,))
        if found:
            return found
    return None


def tick_refusal(stmt, answer, tick):
    found = violations(stmt)
    number, line = answer.split('\t')[1:3]
    if number == '9':
        return
    assert found[0].split()[0] == number, 'the refusal is not the first violation'
    tick('refusal', found[0])
    here = lambda what: tick('refusal, where', what)
    path = path_to(stmt, [int(line)])
    words = [record.fields[0] for record in path]
    clause = 2 if words[1] == 'arm' else 1
    here('in ' + words[clause])
    if words[1] == 'arm':
        here('in an arm')
    # An element's props: the record below it on the way is an expression.
    props = [p for p in range(len(words) - 1) if words[p] in ('node', 'rel')]
    for p in props:
        here('in %s props' % words[p])
    if 'pat' in words and not props:
        here('in a pattern in an expression')
        if words[-1] == 'part':
            here('part in a pattern in an expression')
    if any(words[p + 1] == 'pat' for p in props):
        here('in a pattern in props')
        if words[-1] == 'part':
            here('part in a pattern in props')
    if words[clause] in ('with', 'return'):
        trailers = parts_of_clause(path[clause])[2:]
        if any(path[clause + 1] is each for group in trailers for each in group):
            here('in order, skip or limit')
    if words[clause] == 'match' and path[clause + 1] is not path[clause].children[0]:
        here('in a part that is not its match\'s first')
    if len(words) > 8:
        here('deeper than 8')
    if len(found) > 1:
        here('several violations')
    if any(other.split()[0] != number for other in found):
        here('a later one of another number')


def tick_plan(answer, tick):
    words = [line.split('\t')[0] for line in answer.split('\n')]
    for word in words:
        if word in OPERATORS:
            tick('operator of the plan', word)
        if word in PLAN_RECORDS:
            tick('other record of the plan', word)
    for here, after in zip(words, words[1:]):
        if here in ('exists', 'optional'):
            tick('operator copied', '%s in %s' % (after, here))
    # A copied filter whose predicate is again a pattern.
    for three in zip(words, words[1:], words[2:]):
        if three == ('exists', 'filter', 'exists'):
            tick('operator copied', 'exists in exists')
        if three == ('optional', 'filter', 'exists'):
            tick('operator copied', 'exists inside a copy')


def cover(folder):
    counts = collections.Counter()
    paths = sorted(folder.glob('*.sheet'))
    sizes, refused = [], 0
    for path in paths:
        text = path.read_bytes()
        answer = path.with_suffix('.answer').read_bytes().decode('utf-8')
        stmt = read_sheet(text)
        sizes.append(count_records(stmt))
        ticked = set()
        tick = lambda group, what: ticked.add((group, what))
        tick_statement(stmt, tick)
        if answer.startswith('refused'):
            refused += 1
            # What a refused sheet holds is never lowered; it reaches no branch.
            ticked = {each for each in ticked if each[0] == 'record of the statement sheet'}
            tick_refusal(stmt, answer, lambda group, what: ticked.add((group, what)))
        else:
            assert not violations(stmt), 'accepted with a violation: %s' % path.name
            tick_plan(answer, tick)
        counts.update(ticked)
    missing = []
    for group, wanted in WANTED.items():
        print(group)
        for what in wanted:
            print('  %5d  %s' % (counts[group, what], what))
            if not counts[group, what]:
                missing.append('%s: %s' % (group, what))
    if sizes:
        print('%d sheets, %d of them refused; %d to %d records, the middle one %d' % (
            len(paths), refused, min(sizes), max(sizes), sorted(sizes)[len(sizes) // 2]))
    for each in missing:
        print('MISSING', each)
    if not missing:
        print('nothing missing')
    return 1 if missing else 0


def main():
    parser = argparse.ArgumentParser(description='Random statement sheets for the oracle.')
    commands = parser.add_subparsers(dest='command', required=True)
    making = commands.add_parser('make', help='write sheets')
    making.add_argument('folder', type=pathlib.Path)
    making.add_argument('--count', type=int, default=400)
    making.add_argument('--seed', type=int, default=1)
    making.add_argument('--max-records', type=int, default=40)
    covering = commands.add_parser('cover', help='count what sheets and answers reach')
    covering.add_argument('folder', type=pathlib.Path)
    given = parser.parse_args()
    if given.command == 'make':
        if given.max_records < 10:
            parser.error('--max-records has to be at least 10')
        make(given.folder, given.count, given.seed, given.max_records)
        return 0
    return cover(given.folder)


if __name__ == '__main__':
    sys.exit(main())
