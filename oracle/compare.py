#!/usr/bin/env python3
"""Holds the definitions of crates/model against the Rust: every sheet and the Rust's answer to it become one equation, which the checker computes.

  python3 oracle/compare.py DIR [--first N]      DIR has sheets, NAME.sheet: all of them, or the first N by name
  python3 oracle/compare.py DIR --pairs N [--seed S]
                                                 N pairs of its sheets, chosen by the seed

`compare answer DIR` (rust/compare) is asked for the Rust's answers, NAME.answer, unless they are all there. A scratch repository, which
does not outlast the run, gets a copy of crates/model and a crate of equations `compute sheet slice ≡ what the Rust answered`, each proved
by `refl`; of pairs `compute_pair left right all slice ≡ ..`. Pairs and their answers are left in target/oracle/pairs. Prints each sheet or
pair whose equation is refused, and the counts last. Exit status 1 where there is one.
"""
import argparse, glob, os, random, re, shutil, subprocess, sys, tempfile

COMPARE = "target/rust/release/compare"
PAIRS = "target/oracle/pairs"
BATCH = 50


def listed(data):
    return "".join(f"{b} ∷ " for b in data) + "[]"


def equation(name, call, arguments, answer):
    """The plan slice is three bytes longer than the plan, so that what stands behind it is compared too."""
    if answer.startswith(b"refused\t"):
        number, line, start, end, kind = (int(x) for x in answer.split(b"\t")[1:6])
        want = f"record {{ answer = record {{ number = {number}; line = {line}; start = {start}; end = {end}; kind = {kind}; length = 0 }}; slice = replicate 3 255 }}"
        slice_ = "replicate 3 255"
    else:
        want = f"record {{ answer = record {{ number = 0; line = 0; start = 0; end = 0; kind = 0; length = {len(answer)} }}; slice = {listed(answer)[:-2]}replicate 3 255 }}"
        slice_ = f"replicate {len(answer) + 3} 255"
    return f"{name} : {call} {arguments} ({slice_}) ≡ {want}\nunfolding {call}\n{name} = refl\n"


def of_sheet(name, path):
    return equation(name, "compute", f"({listed(read(path))})", read(answer_to(path)))


def of_pair(name, path):
    """A well-formed sheet has no empty line."""
    all_, rest = read(path).split(b"\n", 1)
    left, right, behind = rest.split(b"\n\n")
    assert not behind
    flag = "true" if all_ == b"1" else "false"
    left, right = (listed(sheet + b"\n") for sheet in (left, right))
    return equation(name, "compute_pair", f"({left}) ({right}) {flag}", read(answer_to(path)))


def read(path):
    with open(path, "rb") as file:
        return file.read()


def answer_to(path):
    return os.path.splitext(path)[0] + ".answer"


def make_pairs(sheets, count, seed):
    """So many pairs: each sheet in turn on the left, with any on the right, now and then itself."""
    shutil.rmtree(PAIRS, ignore_errors=True)
    os.makedirs(PAIRS)
    chosen, paths = random.Random(seed), []
    lefts = chosen.sample(sheets, len(sheets))
    for number in range(count):
        left = lefts[number % len(lefts)]
        right = left if chosen.random() < 0.05 else chosen.choice(sheets)
        paths.append(f"{PAIRS}/{number:04}.pair")
        with open(paths[-1], "wb") as file:
            file.write(chosen.choice([b"0\n", b"1\n"]) + read(left) + b"\n" + read(right) + b"\n")
    return paths


def main():
    words = argparse.ArgumentParser()
    words.add_argument("folder")
    words.add_argument("--first", type=int)
    words.add_argument("--pairs", type=int)
    words.add_argument("--seed", type=int, default=1)
    words = words.parse_args()
    sheets = sorted(glob.glob(os.path.join(words.folder, "*.sheet")))[: words.first]
    if not sheets:
        raise SystemExit(f"{words.folder}: no sheets")
    if words.pairs:
        what, folder, asked, made = "pairs", PAIRS, make_pairs(sheets, words.pairs, words.seed), of_pair
    else:
        what, folder, asked, made = "sheets", words.folder, sheets, of_sheet
    if not all(os.path.exists(answer_to(path)) for path in asked):
        subprocess.run([COMPARE, "answer", folder], check=True)
    # Outside the repository, where `rt ci` allows no second crates.txt.
    with tempfile.TemporaryDirectory(prefix="equations-") as scratch:
        sys.exit(hold(asked, made, what, scratch))


def hold(asked, made, what, scratch):
    """Holds sheets or pairs in a scratch repository; 0 if no equation is refused."""
    specs = f"{scratch}/crates/compare/specs"
    os.makedirs(specs)
    os.makedirs(f"{scratch}/crates/compare/src")
    open(f"{scratch}/crates/compare/src/lib.rt", "w").write("// No code: the equations stand in specs/.\n#![tactic(auto)]\n")
    shutil.copytree("crates/model", f"{scratch}/crates/model", ignore=shutil.ignore_patterns("must-fail", "out"))
    open(f"{scratch}/crates.txt", "w").write("model:\ncompare: model\n")
    names, modules = {}, []
    for at in range(0, len(asked), BATCH):
        module = f"Batch{at // BATCH}"
        modules.append(module)
        text = [
            "use Rattle.std.specs.Prelude.{◌≡◌, refl, true, false, [], ◌∷◌, replicate}",
            "use Rattle.model.specs.Examples.{compute}",
            "use Rattle.model.specs.PairExamples.{compute_pair}",
            "",
        ]
        for i, path in enumerate(asked[at : at + BATCH]):
            name = f"e{at + i}"
            names[(module, name)] = path
            text.append(made(name, path))
        open(f"{specs}/{module}.antt", "w").write("\n".join(text))
    open(f"{specs}/Lib.antt", "w").write("".join(f"pub mod {m}\n" for m in modules))
    r = subprocess.run(["rt", "check"], cwd=f"{scratch}/crates/compare", capture_output=True, text=True)
    out = r.stdout + r.stderr
    bad = set()
    for m in re.finditer(r"(Batch\d+)\.antt:\d+:\d+: error: `(e\d+)`", out):
        bad.add(names[(m.group(1), m.group(2))])
    for path in sorted(bad):
        print("differs:", path)
    if r.returncode and not bad:
        print(out[-3000:])
    print(f"{len(asked)} {what}, {len(bad)} differences" + ("" if r.returncode == 0 or bad else ", check failed"))
    return 1 if r.returncode else 0


main()
