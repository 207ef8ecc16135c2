#!/usr/bin/env python3
"""Holds the tables of docs/FORMAT.md against the record table of the definitions: keywords, names and types of fields, children.

  python3 tools/format.py
"""
import re, sys

SPEC = open("crates/model/specs/Record.antt", encoding="utf-8").read()
PAGE = open("docs/FORMAT.md", encoding="utf-8").read()

# what a table calls a type: the forms of the definitions, where they have another name
TYPES = {"id": "var", "id?": "var_or_absent", "op": "op_id", "op?": "number_or_absent operator", "variable": "var_id"}
# what a table calls a group of children: their sorts in the statement sheet and in the plan sheet
SORTS = {
    "clauses": ("clause", None), "arms": ("union_arm", None), "parts": ("pattern_part", None),
    "items": ("projection", "plan_projection"), "keys": ("order_item", "order_key"), "yields": ("yield_item", "yield_item"),
    "elements": ("pattern_element", "path_element"), "labels": ("name", "name"), "types": ("name", "name"),
    "operators": (None, "read_op"), "mapped": (None, "mapped"), "aggs": (None, "agg_expr"),
}
ONES = {"one expression": "1", "two expressions": "2"}
ALONE = {"one `rel`": "rel_spec:1", "one `to`": "node_spec:1", "one operator, copied whole": "read_op:1"}


def definition(function):
    """The equations of a function of Record.antt: first argument, comment above, right side."""
    found = re.findall(rf"(?:^-- (.*)\n)?^{function} \(?([\w.]+)(?: h\))?(?: [^=\n]*)? = (.*)$", SPEC, re.M)
    return {argument.split(".")[-1]: (comment, right) for comment, argument, right in found}


def forms(right):
    return [f.strip() for f in right.split("∷")[:-1]]


def groups(right):
    """Children as sort:count, an expression's sort being `expr` in both sheets."""
    out = []
    for sort, count in re.findall(r"\((?:in_plan )?(\w+)?, ((?:[^()]|\([^()]*\))*)\)", right.replace("(in_plan ", "(")):
        sort = "expr" if sort == "plan_expr" else sort
        for term in terms(count):
            out.append(f"{sort}:{term}")
    return out


def terms(count):
    count = re.sub(r"suc \((.*)\)", r"1 + \1", count).replace("otherwise", "else").replace("variables", "mapped")
    return [t.strip() for t in count.split("+") if t.strip() != "0"]


def records():
    """Each sheet's records by the definition: keyword, then names (if the comment has them), forms and children."""
    table = {"statement": {}, "plan": {}}

    def add(sheet, keyword, names, right, children):
        table[sheet][re.search('"(.*)"', keyword).group(1)] = (names, forms(right), children)

    arity = definition("arity")
    for kind, (comment, right) in definition("same_forms").items():
        add("statement", definition("same_keyword")[kind][1], comment, right, [f"expr:{t}" for t in terms(arity[kind][1])])
    for sheet, some in (("statement", ("expr", "clause", "element")), ("plan", ("op", "plan_expr"))):
        for of in some:
            for kind, (comment, right) in definition(of + "_forms").items():
                if kind == "Over":
                    continue
                add(sheet, definition(of + "_keyword")[kind][1], comment, right, groups(definition(of + "_children")[kind][1]))
    for sheet, f, k, c in (("statement", "forms", "keyword", "children"), ("plan", "plan_forms", "plan_keyword", "plan_children")):
        for sort, (comment, right) in definition(f).items():
            if "∷" in right and sort not in ("entry", "plan_entry"):
                add(sheet, definition(k)[sort][1], comment, right, groups(definition(c)[sort][1]))
    # records of the statement sheet that stand in the plan sheet too; a yield's variable has its number there
    table["plan"]["name"] = table["statement"]["name"]
    names, types, children = table["statement"]["yield"]
    table["plan"]["yield"] = (names, [TYPES["variable"] if f == "var" else f for f in types], children)
    return table


def type_of(shown):
    steps = re.fullmatch(r"0\.\.(\d+)", shown)
    return f"num {steps.group(1)}" if steps else TYPES.get(shown, shown)


def fields_shown(cell):
    pairs = [] if cell == "none" else [re.fullmatch(r"(?:(\w+) )?`(.*?)`", part.strip()).groups() for part in cell.split(",")]
    return [name or shown for name, shown in pairs if shown != "span"], [type_of(shown) for _, shown in pairs]


def children_shown(cell, plan):
    out = []
    for part in re.sub(r" \(.*?\)", "", cell).split(";"):
        part = part.strip()
        if part == "none":
            continue
        flagged, many = re.fullmatch(r"(\w+) if flagged", part), re.fullmatch(r"(\w+) expressions", part)
        word = part.split(",")[0]
        if part in ONES or flagged or (many and part not in ONES):
            out.append("expr:" + (ONES.get(part) or (f"one {flagged.group(1)}" if flagged else many.group(1))))
        elif part in ALONE:
            out.append(ALONE[part])
        elif "each two expressions" in part:
            out.append(f"expr:{word} * 2")
        elif part.startswith("n keys"):
            out.append("entry:n")
        else:
            out.append(f"{SORTS[word][plan]}:{word}")
    return out


def compared(sheet, keyword, cell, kids, row):
    """What a row of the tables says otherwise than the definition."""
    (names, types), children = fields_shown(cell), children_shown(kids, sheet == "plan")
    comment, right, groups = row
    if types != right:
        yield f"{sheet} {keyword}: types {types}, by the definition {right}"
    if ", " in comment and names != comment.split(", "):
        yield f"{sheet} {keyword}: fields {names}, by the definition {comment}"
    if children != groups:
        yield f"{sheet} {keyword}: children {children}, by the definition {groups}"


def main():
    table, wrong, count = records(), [], 0
    statement, plan = PAGE.split("## The plan sheet")
    for sheet, text in (("statement", statement.split("## The statement sheet")[1]), ("plan", plan)):
        rows = re.findall(r"^\| `(\w+)` \| (.*?) \| (.*?) \|$", text, re.M)
        for keyword, cell, kids in rows:
            wrong += compared(sheet, keyword, cell, kids, table[sheet][keyword])
        # a plan's map is the statement's
        left_out = set(table[sheet]) - {keyword for keyword, _, _ in rows} - ({"map"} if sheet == "plan" else set())
        wrong += [f"{sheet} {keyword}: not in the tables" for keyword in sorted(left_out)]
        count += len(rows)
    print("\n".join(wrong) if wrong else f"docs/FORMAT.md: {count} records, fields, types and children as in Record.antt")
    sys.exit(1 if wrong else 0)


main()
