#!/usr/bin/env python3
"""Has the checker compute the worked examples of the definitions, then prints them: each sheet, and its plan or refusal.

  python3 tools/examples.py
"""
import re, subprocess, sys

r = subprocess.run(["rt", "check"], cwd="crates/model", capture_output=True, text=True)
if r.returncode:
    print(r.stdout + r.stderr)
    sys.exit(r.returncode)
text = open("crates/model/specs/Examples.antt", encoding="utf-8").read()
table = text[text.index("table =") : text.index("pub worked")]


def shown(quoted):
    lines = quoted.encode().decode("unicode_escape").split("\n")
    return "".join("    " + line.replace("\t", " ") + "\n" for line in lines if line) or "    (no bytes)\n"


count = 0
for note, row in re.findall(r"--\s*(.*)\n\s*(?:∷ )?((?:plans|refuses).*)", table):
    count += 1
    strings = re.findall(r'"((?:[^"\\]|\\.)*)"', row)
    print(note + "\n" + shown(strings[0]).rstrip("\n"))
    if row.startswith("plans"):
        print("  gives\n" + shown(strings[1]))
    else:
        print("  is refused: " + row[row.rindex('" ') + 2 :].strip("() ") + "\n")
print(f"{count} examples, computed from the definitions and equal to what is shown")
