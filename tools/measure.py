#!/usr/bin/env python3
"""All figures of docs/PERFORMANCE.md but those of tools/growth.py.

    (cd rust && cargo build --release -p compare)
    python3 tools/measure.py >docs/speed.txt
    python3 tools/measure.py --page docs/PERFORMANCE.md docs/speed.txt
    python3 rust/plot.py docs/speed.txt docs/speed.svg

The third puts the tables of the second into the page, each between a comment
with the first words of the table and the comment `end`.

Times come from `compare speed`, where the sides take turns and the best time of
each counts. Instructions come from `compare speed --count` under valgrind's
callgrind, which counts between entry and exit of the functions `side_*` alone:
nothing of the making of sheets. They are the same in every run but for a few in
a thousand of the Rust's, whose hash tables are seeded by chance. The profile
takes the calls that leave the outermost functions of a side and names each by
the crate or step it enters. What a function costs itself has in it what the
compiler put in place of calls.

    python3 tools/measure.py --seconds 10     each row of times in so long
    python3 tools/measure.py --no-times       instructions alone
    python3 tools/measure.py --quick          times that are not to be trusted, and the
                                              instructions of a few small rows, in
                                              seconds: to see that it works
"""
import argparse
import collections
import os
import platform
import re
import subprocess
import tempfile

COMPARE = 'target/rust/release/compare'
# What is counted: the loads, the one of them whose instructions are told by part and
# by function, and how many times each sheet is gone over.
Count = collections.namedtuple('Count', 'loads profiled rounds')
WHOLE = Count(['16', '64', '256', '1024', '2048', 'distinct', 'same', 'multiples', 'chain', 'text'], '2048', 3)
QUICK = Count(['16', '64'], '64', 1)
# A function is told if it costs so many instructions a record itself.
LEAST = 8
# What is counted: the function of each side, by the head of its column.
SIDES = {'sizing': 'side_sizing', 'ours': 'side_ours', 'tree ready': 'side_rust', 'with reading': 'side_with_reading'}
# The parts, by the crate or step that a call from the outermost functions enters.
PARTS = {
    'reading': {'record', 'line', 'sheet', 'step_read'},
    'check': {'precheck'},
    'lowering': {'context', 'lower', 'aggregate', 'projections', 'clauses', 'step_lower'},
    'writing': {'output', 'plan_line', 'plan_sheet', 'plan_writer', 'step_print'},
    'letting go': {'step_drop_plan', 'step_drop_tree'},
}
# Functions around the parts: what they cost themselves is the rest.
OUTER = re.compile(r'(compare::speed::side_|dresserhawk|library::|values::|statement::)')

ALLOCATION = re.compile(r'(_int_)?(malloc|free|realloc)|unlink_chunk|sysmalloc|systrim|__rust_\w*alloc|__rustc::__r\w+alloc|cfree')

POSITION = re.compile(r'(fn|cfn)=\((\d+)\)(?: (.*))?')
COST = re.compile(r'[-+*\d]\S* (\d+)')


def said(*command):
    run = subprocess.run(command, capture_output=True, text=True)
    return run.stdout.strip() if run.returncode == 0 else 'unknown'


class Profile:
    """What a file of callgrind says: the cost of each function itself, and of each call by caller and callee."""

    def __init__(self, path):
        self.own = collections.Counter()
        self.calls = collections.Counter()
        names, function, callee, call = {}, None, None, False
        with open(path, encoding='utf-8') as file:
            for line in file:
                if match := POSITION.match(line):
                    kind, number, name = match.groups()
                    name = names.setdefault(number, name)
                    if kind == 'fn':
                        function = name
                    else:
                        callee = name
                elif line.startswith('calls='):
                    call = True
                elif match := COST.match(line):
                    if call:
                        self.calls[function, callee] += int(match[1])
                        call = False
                    elif function is not None:
                        self.own[function] += int(match[1])

    def inclusive(self, word):
        """What a function costs with all that it calls: it is not called by itself."""
        return sum(cost for (_, callee), cost in self.calls.items() if word == last(callee))

    def parts(self, word):
        """The same by part."""
        parts, todo, done = collections.Counter(), [name for name in self.own if last(name) == word], set()
        while todo:
            outer = todo.pop()
            done.add(outer)
            parts['the rest'] += self.own[outer]
            for (caller, callee), cost in self.calls.items():
                if caller != outer or cost == 0:
                    continue
                if OUTER.match(callee):
                    todo += [] if callee in done or callee in todo else [callee]
                else:
                    parts[part_of(callee)] += cost
        return parts


def last(name):
    return name.split('::')[-1].split("'")[0]


def part_of(name):
    for part, members in PARTS.items():
        if name.split('::')[0] in members or last(name) in members:
            return part
    return 'the rest'


def profile(load, rounds, side='all'):
    """The load's name, its records in all, and callgrind's figures."""
    with tempfile.NamedTemporaryFile() as file:
        command = ['valgrind', '--tool=callgrind', f'--callgrind-out-file={file.name}', '--toggle-collect=compare::speed::side_*',
                   COMPARE, 'speed', '--count', side, '--load', load, '--rounds', str(rounds)]
        out = subprocess.run(command, capture_output=True, text=True, check=True).stdout
        name, records = re.search(r'(.*): (\d+) records in all', out).groups()
        return name, int(records) * rounds, Profile(file.name)


def instructions(profiles):
    heads = ''.join(f'{head:>14}' for head in SIDES)
    print(f"{'instructions a record':<25}{heads}{'ours/tree':>12}{'ours/reading':>14}")
    for name, records, found in profiles:
        each = {head: found.inclusive(word) / records for head, word in SIDES.items()}
        figures = ''.join(f'{figure:>14,.0f}' for figure in each.values())
        ratios = [each['ours'] / each[other] for other in ('tree ready', 'with reading')]
        print(f'{name:<25}{figures}{ratios[0]:>12.2f}{ratios[1]:>14.2f}', flush=True)


def by_part(name, records, found):
    each = {head: found.parts(word) for head, word in SIDES.items()}
    print(f"{'by part, ' + name:<25}" + ''.join(f'{head:>14}' for head in SIDES))
    for part in [*PARTS, 'the rest']:
        print(f'{part:<25}' + ''.join(f'{parts[part] / records:>14,.1f}' for parts in each.values()))
    print(f"{'in all':<25}" + ''.join(f'{sum(parts.values()) / records:>14,.1f}' for parts in each.values()))


def by_function(side, count):
    name, records, found = profile(count.profiled, count.rounds, side)
    own = collections.Counter()
    for function, cost in found.own.items():
        own['allocation' if ALLOCATION.match(function) else function.split("'")[0]] += cost / records
    print(f"{side + ' by function, ' + name:<75}{'itself':>14}")
    for function, cost in own.most_common():
        if cost >= LEAST:
            print(f'{function[:74]:<75}{cost:>14,.1f}')
    print(f"{'the others':<75}{sum(cost for cost in own.values() if cost < LEAST):>14,.1f}")


def as_markdown(block):
    rows = [re.split(r'\s{2,}', line) for line in block.splitlines()]
    rule = ['---'] + ['---:'] * (len(rows[0]) - 1)
    return ''.join('| ' + ' | '.join(row) + ' |\n' for row in [rows[0], rule, *rows[1:]])


def put(page, title, shown):
    """Puts a text into a page, between the comments for it; whether they are there."""
    with open(page, encoding='utf-8') as file:
        text = file.read()
    place = re.compile(rf'(<!-- {re.escape(title)} -->\n).*?(<!-- end -->)', re.DOTALL)
    text, times = place.subn(lambda match: match[1] + shown + match[2], text)
    with open(page, 'w', encoding='utf-8') as file:
        file.write(text)
    return times > 0


def put_into(page, source):
    """The tables of a file that this program has printed, put into the page."""
    with open(source, encoding='utf-8') as file:
        head, *blocks = file.read().strip().split('\n\n')
    tables = {block.split(',')[0].split('  ')[0].strip(): as_markdown(block) for block in blocks}
    put(page, 'measured at', f'{head}\n')
    for title, shown in tables.items():
        put(page, title, shown)


def commit():
    """The commit that is at hand, and whether something is changed."""
    changed = ' and changes' if said('git', 'status', '--porcelain', 'crates', 'rust') else ''
    return f"{said('git', 'rev-parse', '--short', 'HEAD')}{changed}"


def measure(count, seconds):
    """Prints all tables, those of times if they are to take some seconds a row."""
    model = re.search(r'model name\s*: (.*)', open('/proc/cpuinfo', encoding='utf-8').read())
    print(f"commit {commit()}; {said('rustc', '--version')}")
    print(f'{model[1] if model else platform.machine()}, {os.cpu_count()} cores, load {os.getloadavg()[0]:.1f} at the start\n', flush=True)
    if seconds is not None:
        subprocess.run([COMPARE, 'speed', '--seconds', seconds], check=True)
        print(flush=True)
    profiles = [profile(load, count.rounds) for load in count.loads]
    instructions(profiles)
    print()
    by_part(*profiles[count.loads.index(count.profiled)])
    for side in ('ours', 'rust-reading'):
        print()
        by_function(side, count)


def main():
    words = argparse.ArgumentParser()
    words.add_argument('--page', nargs=2, metavar=('PAGE', 'SOURCE'))
    words.add_argument('--seconds', default='5')
    words.add_argument('--no-times', action='store_true')
    words.add_argument('--quick', action='store_true')
    words = words.parse_args()
    if words.page:
        put_into(*words.page)
    elif words.quick:
        measure(QUICK, '0')
    else:
        measure(WHOLE, None if words.no_times else words.seconds)


if __name__ == '__main__':
    main()
