#!/usr/bin/env python3
"""Whether the cost of a record grows with the sheet.

    python3 tools/growth.py [--page docs/PERFORMANCE.md] [--quick]

makes sheets of many shapes, each in three sizes, has valgrind's callgrind count
the instructions of target/bin/plan on each (tools/plan.sh makes it), and
prints them for one record of the sheet and for one byte read or written, less
what the program needs for a sheet with no clause. A record's cost rises with the
length of the plan lines that it makes (numbers get more digits, copies nest);
the figure for a byte leaves that out. For both it prints the rise from the
smallest sheet to the largest, and whether that is within a tenth; what rises the
most for a record comes first.

`--page` puts the table into the page too, between the comments `growth` and
`end`. `--quick` counts three shapes: to see that it works.
"""

import argparse
import re
import subprocess

import measure

SIZES = [94, 375, 1500]
SPAN = (0, 1)
PROGRAM = "target/bin/plan"
# A rise of so much is within the aim.
TENTH = 0.1
QUICK = ["a chain", "yields", "55 deep"]


def record(*fields):
    return "\t".join(map(str, fields)) + "\n"


STMT = record("stmt", 1, 0)
NULL = record("null")
NODE = record("node", "-", 0, 0, *SPAN)


def rel(props):
    return record("rel", "-", 0, 0, "one", "-", "-", props, *SPAN)


def match(parts, optional=0):
    return record("match", optional, len(parts), *SPAN) + "".join(parts)


def part(elements, name="-", shortest=0):
    return record("part", name, shortest, len(elements)) + "".join(elements)


def where(expr):
    return record("where", *SPAN) + expr


def of_list(exprs):
    return record("list", len(exprs)) + "".join(exprs)


def projection(items, keys=()):
    return record("return", len(items), 0, len(keys), 0, 0, *SPAN) + "".join(items) + "".join(keys)


def clauses(cs):
    return record("stmt", len(cs), 0) + "".join(cs)


def nested(levels):
    """Patterns within the properties of a relationship, one in the other."""
    if levels == 0:
        return NULL
    return record("pat", 1) + part([NODE, rel(1) + nested(levels - 1), NODE])


def shapes(n):
    """Sheets of about n records by the name of their shape."""
    half, third = n // 2, n // 3
    chain = [rel(0) if i % 2 else NODE for i in range(half * 2 - 1)]
    single = part([NODE])
    return {
        "a chain": STMT + match([part(chain)]),
        "a chain with a path": STMT + match([part(chain, name=5)]),
        "parts": STMT + match([single] * half),
        "shortest parts": STMT + match([part([NODE, rel(0), NODE], shortest=1)] * (n // 4)),
        "matches": clauses([match([single])] * third),
        "optional matches": clauses([match([single], optional=1)] * third),
        "filters": clauses([where(NULL)] * half),
        "arms": record("stmt", 0, half) + (record("arm", 0, 1) + match([])) * half,
        "items": STMT + projection([record("item", "-") + record("prop", "t") + record("var", 7)] * third),
        "aggregates": STMT + projection([record("item", "-") + record("fn", "count", 1, 0) + NULL] * third),
        "items of a with": STMT + record("with", half, 0, 0, 0, 0, *SPAN) + (record("item", "=a") + NULL) * half,
        "keys": STMT + projection([], [record("key", 0) + NULL] * half),
        "labels": STMT + match([part([record("node", "-", n, 0, *SPAN) + record("name", "L") * n])]),
        "a list": STMT + where(of_list([NULL] * n)),
        "a map": STMT + where(record("map", half) + (record("name", "a") + NULL) * half),
        "a case": STMT + where(record("case", 0, half, 0) + NULL * (2 * half)),
        "yields": STMT + record("call", "p", 0, n, 0, *SPAN) + "".join(record("yield", "c", i) for i in range(n)),
        "variables": STMT + where(of_list([record("var", i) for i in range(n)])),
        "variables 1,024 apart": STMT + where(of_list([record("var", i * 1024) for i in range(n)])),
        "patterns": STMT + where(of_list([record("pat", 1) + single] * third)),
        "55 deep": STMT + where(of_list([record("un", 0) * 55 + NULL] * max(1, n // 56))),
        "nested patterns": STMT + where(of_list([nested(3)] * (n // 16))),
    }


def count(sheet):
    """Instructions and what the program prints."""
    command = ["valgrind", "--tool=callgrind", "--callgrind-out-file=/dev/null", PROGRAM]
    run = subprocess.run(command, input=sheet.encode(), capture_output=True, check=True)
    return int(re.search(r"Collected : (\d+)", run.stderr.decode()).group(1)), run.stdout


class Shape:
    """A shape's name, and its instructions for a record and for a byte at each size."""

    def __init__(self, name, sheets, start):
        self.name, self.record, self.octet = name, [], []
        for sheet in sheets:
            instructions, printed = count(sheet)
            if printed.startswith(b"refused"):
                raise SystemExit(f"{name}: {printed.decode()}")
            self.record.append((instructions - start) / sheet.count("\n"))
            self.octet.append((instructions - start) / (len(sheet) + len(printed)))


def rise(figures):
    return figures[-1] / figures[0] - 1


def verdict(figures):
    return "yes" if rise(figures) <= TENTH else "no"


def row(shape):
    """The cells of a shape's row."""
    records = [f"{figure:,.0f}" for figure in shape.record]
    octets = [f"{shape.octet[place]:.1f}" for place in (0, -1)]
    return [
        shape.name,
        *records,
        f"{rise(shape.record):.1%}",
        verdict(shape.record),
        *octets,
        f"{rise(shape.octet):.1%}",
        verdict(shape.octet),
    ]


def heads():
    sizes = [f"{size:,}" for size in SIZES]
    return ["for a record", *sizes, "rise", "in a tenth", f"a byte, {sizes[0]}", sizes[-1], "rise", "in a tenth"]


def summary(found):
    """A sentence for what rises by more than a tenth."""

    def beyond(what, figures):
        names = [shape.name for shape in found if verdict(figures(shape)) == "no"]
        return f"{len(names)} for {what}" + (f" ({'; '.join(names)})" if names else "")

    records = beyond("a record", lambda shape: shape.record)
    octets = beyond("a byte", lambda shape: shape.octet)
    return f"Counted at commit {measure.commit()}. Of {len(found)} shapes more than a tenth dearer at {SIZES[-1]:,} records than at {SIZES[0]}: {records}; {octets}."


def main():
    words = argparse.ArgumentParser()
    words.add_argument("--page")
    words.add_argument("--quick", action="store_true")
    words = words.parse_args()
    start, _ = count(record("stmt", 0, 0))
    sheets = [shapes(size) for size in SIZES]
    names = QUICK if words.quick else list(sheets[0])
    found = [Shape(name, [of_size[name] for of_size in sheets], start) for name in names]
    found.sort(key=lambda shape: rise(shape.record), reverse=True)
    table = "\n".join(f"{first:<24}" + "".join(f"{cell:>14}" for cell in rest) for first, *rest in [heads(), *map(row, found)])
    print(f"{summary(found)}\n\n{table}")
    if words.page and not measure.put(words.page, "growth", f"{summary(found)}\n\n{measure.as_markdown(table)}"):
        raise SystemExit(f"{words.page}: no comment `growth`")


if __name__ == "__main__":
    main()
