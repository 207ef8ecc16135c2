#!/usr/bin/env python3
"""Runs the commands of the documents, so that none goes stale. The tests of the Rust crate call it.

  python3 tools/commands.py [--list] [--times] [DOCUMENT..]     all documents of the repository if none is named
  --list      runs nothing, and says which documents it looks at and which commands they have
  --times     says how long each block takes

It looks at every file *.md of the repository, in all folders but target/. In each it looks at

- the blocks that begin with ```sh. Each runs in a shell of its own at the repository's root. Every command has to
  end with status 0, in a pipe each program of it. A block that begins with ```text, with nothing but empty lines
  between it and the ```sh block before it, is what that block prints on standard output.
- commands in the text, as `rt all check`, and in a ```text block that nothing prints, as compare one FILE: a
  program of PROGRAMS and at least one word behind it. Its words, up to one that stands for something else (NAME,
  [..], ..), have to be words, in this order, of a command that is run or held; or rt's help has them. A script
  that is named by itself, as `tools/archive.sh`, has to be there.

What could be a command and is neither is a fault: a line that is set off by four blanks and begins like one, and a
block of a name that is not in NAMES (console, bash, or none).

No command is skipped. A comment line of a ```sh block is a mark for the command below it, and one of these; any
other is a fault:

  # run by .ci/run         the command is not run here, since these tests are a part of it, or of what it runs: it
                           is held to .ci/run, where it has to stand word for word
  # needs cyrs             it is left out, and that is said, where the source of cyrs is not at hand (CYRS_SRC, or
                           beside the repository)
  # needs valgrind         the same where there is no valgrind
  # ends with status N     it has to end with this status

A command must not change a file of the repository. Where a command uses target/bin/plan, tools/plan.sh is run
first, and where one uses the archive, tools/archive.sh if there is none. Behind `rt ci` that takes a second. In a
clone where nothing is proved it proves, which takes minutes: the documents' commands are of no use without the
program, so they are not left out there. The command `dresserhawk` is looked for where cargo puts it.
"""
import functools
import os
import pathlib
import re
import shlex
import shutil
import subprocess
import sys
import time

ROOT = pathlib.Path(__file__).resolve().parent.parent
# What runs these tests, and what that or they run: the first has the commands that are held.
GATE = [".ci/run", "tools/archive.sh", "tools/plan.sh"]
# A block that takes longer than this, in seconds, is ended: all documents together are to take under two minutes.
LONGEST = 300
# What the commands use of what rt makes.
PLAN, ARCHIVE = "target/bin/plan", "target/staticlib/libdresserhawk.a"
# What a block may be called.
NAMES = ("sh", "text", "c", "rust", "toml")
PROGRAMS = ("rt", "cargo", "rustc", "python3", "bash", "make", "cc", "git", "dresserhawk", "compare", "valgrind",
            "callgrind_annotate", "ulimit", "nm")
SCRIPT = re.compile(r"((tools|oracle|rust)/\w+\.(py|sh)|\.ci/\w+|tools/proof)$")
SET_OFF = re.compile(r" {4}(\$ |\(?cd |target/|tools/|(" + "|".join(PROGRAMS) + ") )")
FENCE = re.compile(r"( *)```(.*)$")
SPAN = re.compile(r"(?<!`)`([^`]+)`(?!`)")
# A word that stands for another.
ANY = re.compile(r"\[|\.\.|[A-Z][A-Z0-9_]*$")
HELD = "# run by .ci/run"
STATUS = re.compile(r"# ends with status (\d+)$")
NEEDS = {"# needs cyrs": "no cyrs at hand", "# needs valgrind": "no valgrind"}
# The gate and what it runs: such a command is held, and would not end here.
GATES = (["rt", "ci"], ["cargo", "test"], [".ci/run"])
SET_BY_CARGO = ("CARGO_PKG_", "CARGO_MANIFEST_", "CARGO_BIN_", "CARGO_CRATE_")


def documents():
    """Every document of the repository, what cargo and rt make left out."""
    found = sorted(ROOT.rglob("*.md"))
    return [path for path in found if "target" not in path.relative_to(ROOT).parts]


def missing():
    """Which needs are not met here."""
    cyrs = pathlib.Path(os.environ.get("CYRS_SRC", ROOT / "../shared/docs/src"))
    met = {"# needs cyrs": (cyrs / "crates").is_dir(), "# needs valgrind": shutil.which("valgrind")}
    return {need: said for need, said in NEEDS.items() if not met[need]}


class Block:
    """A fenced block: where it begins, what it is called, its lines."""

    def __init__(self, path, line, name, blanks):
        self.path, self.line, self.name, self.blanks = path, line, name, blanks
        self.lines = []
        # What it prints, if the document says so; and whether it is what another prints.
        self.due, self.printed = None, False

    def place(self, line=None):
        return f"{self.path.relative_to(ROOT)}:{line or self.line}"


class Document:
    """The blocks of a document, each ```sh block with what it prints; the paragraphs between them; and faults."""

    def __init__(self, path):
        self.path, self.blocks, self.paragraphs, self.faults = path, [], [], []
        block = last = None
        for number, line in enumerate(path.read_text(encoding="utf-8").splitlines(), 1):
            fence = FENCE.match(line)
            if block is None and fence:
                block = self.open(number, fence, last)
            elif block is None:
                last = None if line.strip() else last
                self.outside(number, line)
            elif fence:
                last, block = block, None
            else:
                block.lines.append(line.removeprefix(block.blanks))
        if block is not None:
            self.fault(block.line, "a block with no end")

    def open(self, number, fence, last):
        """A block begins. It is what the one before it prints if it is called text and nothing stands between."""
        block = Block(self.path, number, fence[2].strip(), fence[1])
        self.blocks.append(block)
        self.paragraphs.append((number, ""))
        if block.name == "text" and last is not None and last.name == "sh":
            last.due, block.printed = block.lines, True
        if block.name not in NAMES:
            self.fault(number, f"a block is called one of {', '.join(NAMES)}, and not '{block.name}'")
        return block

    def outside(self, number, line):
        """A line that is in no block."""
        if SET_OFF.match(line):
            self.fault(number, f"a command outside a ```sh block: {line.strip()}")
        if line.strip() and self.paragraphs and self.paragraphs[-1][1]:
            first, text = self.paragraphs.pop()
            self.paragraphs.append((first, f"{text}\n{line}"))
        else:
            self.paragraphs.append((number, line))

    def fault(self, number, what):
        self.faults.append(f"{self.path.relative_to(ROOT)}:{number}: {what}")

    def named(self):
        """What is named in the text or in a block that nothing prints and may be a command: line and words."""
        for first, text in self.paragraphs:
            for span in SPAN.finditer(text):
                yield first + text.count("\n", 0, span.start()), span[1].split()
        for block in self.blocks:
            if block.name == "text" and not block.printed:
                yield from ((number, line.split()) for number, line in enumerate(block.lines, block.line + 1) if line.strip())


def complete(text):
    """Whether the shell can read a text as commands."""
    return subprocess.run(["bash", "-n"], input=text, text=True, capture_output=True).returncode == 0


def commands(block):
    """The commands of a block: line, text and the comments above it."""
    marks, text, first = [], "", 0
    for number, line in enumerate(block.lines, block.line + 1):
        if not text and (line.startswith("#") or not line.strip()):
            marks += [line.strip()] if line.strip() else []
            continue
        first = first if text else number
        text += line + "\n"
        if not line.endswith("\\") and complete(text):
            yield first, text, marks
            marks, text = [], ""
    if text or marks:
        raise SystemExit(f"{block.place(first)}: not a complete command: {text}{' '.join(marks)}")


def stands_in_gate(text):
    """Whether .ci/run has this command: from a line's begin to its end, a pipe or a further command."""
    command = re.compile(r"\s*" + re.escape(text.strip()) + r"(\s+(2>&1\s+)?\|.*)?$")
    return any(command.match(line) for line in (ROOT / GATE[0]).read_text(encoding="utf-8").splitlines())


class Script:
    """What a block comes to as a shell script: which commands are run, held and left out, and faults."""

    def __init__(self, block, unmet):
        self.run, self.held, self.left_out, self.faults = [], [], [], []
        self.text = "set -o pipefail\n"
        # The words of all its commands.
        self.words = []
        for line, text, marks in commands(block):
            place = f"{block.place(line)}: {text.strip()}"
            words = simple_commands(text)
            self.words += words
            self.faults += [f"{block.place(line)}: no such mark: {mark}" for mark in marks if not known(mark)]
            wanting = [unmet[mark] for mark in marks if mark in unmet]
            if HELD in marks or any(each[: len(gate)] == gate for each in words for gate in GATES):
                self.held.append(place)
                self.faults += held(place, text, marks)
            elif wanting:
                self.left_out.append(f"{wanting[0]}: {place}")
            else:
                self.run.append(place)
                self.text += text + ending(block.place(line), marks)


def held(place, text, marks):
    """What is wrong with a command that is not run here."""
    faults = [] if marks == [HELD] else [f"{place}: to be marked: {HELD}"]
    return faults + ([] if stands_in_gate(text) else [f"{place}: .ci/run does not have this command"])


def known(mark):
    return mark == HELD or mark in NEEDS or STATUS.match(mark)


def ending(place, marks):
    """What stands behind a command in the script: its status is looked at."""
    due = next((match[1] for match in map(STATUS.match, marks) if match), "0")
    return f"__ended=$?\nif [ $__ended -ne {due} ]; then echo '{place}: status' $__ended 'and not {due}' >&2; exit 97; fi\n"


def simple_commands(text):
    """The simple commands of a shell text, each as its words."""
    lexer = shlex.shlex(text.replace("\\\n", " "), posix=True, punctuation_chars=True)
    lexer.whitespace_split = True
    found = [[]]
    for word in lexer:
        if word[0] in "();<>|&":
            found.append([])
        else:
            found[-1].append(word)
    return [words for words in found if words]


def of_gate():
    """The words of all commands that the gate's scripts have, each on a line of its own."""
    found = []
    for script in GATE:
        for line in (ROOT / script).read_text(encoding="utf-8").splitlines():
            try:
                found += simple_commands(line)
            except ValueError:
                pass  # A quotation over several lines is no command.
    return found


def program(word):
    return word.rsplit("/", 1)[-1]


def is_of(words, command):
    """Whether these are words of a command, in their order, from a place on where their program stands."""
    for at, word in enumerate(command):
        if program(word) == program(words[0]):
            rest = iter(command[at + 1 :])
            if all(word in rest for word in words[1:]):
                return True
    return False


@functools.cache
def help_of_rt():
    """The commands that rt's help has, each as its words: `rt check|run [NAME]` is two, `rt all [check|test]` two."""
    text = subprocess.run(["rt", "help"], capture_output=True, text=True).stderr if shutil.which("rt") else ""
    found = set()
    for line in text.splitlines():
        if usage := re.match(r"(?:usage:)? *rt ([a-z|-]+)(?: \[([a-z|]+)\])?", line):
            commands, kinds = (part.split("|") if part else [] for part in usage.groups())
            found |= {(command, *kind) for command in commands for kind in ([], *([each] for each in kinds))}
            found |= {(command, option) for command in commands for option in re.findall(r"\[(--[a-z-]+)", line)}
    return found


def stale(words, ran):
    """Whether something that is named in the text is a command that nothing runs, or a script that is not there."""
    while words and re.match(r"\w+=", words[0]):
        words = words[1:]
    if len(words) == 1:
        return SCRIPT.match(words[0]) and not (ROOT / words[0]).is_file()
    if not words or not (words[0] in PROGRAMS or SCRIPT.match(words[0])):
        return False
    sure = next((at for at, word in enumerate(words) if ANY.match(word)), len(words))
    words = words[:sure]
    return not any(is_of(words, command) for command in ran) and not (words[0] == "rt" and tuple(words[1:]) in help_of_rt())


def environment():
    """The environment of a command: that of the caller without what cargo sets for a test, and with our command at hand."""
    inherited = {name: value for name, value in os.environ.items() if not name.startswith(SET_BY_CARGO)}
    folders = [os.environ.get("DRESSERHAWK_BIN"), ROOT / "target/rust/release", ROOT / "target/rust/debug"]
    inherited["PATH"] = os.pathsep.join([str(folder) for folder in folders if folder] + [os.environ["PATH"]])
    return inherited


def changed():
    """How the repository differs from what is committed. Where there is no git nothing is said."""
    if not (ROOT / ".git").exists():
        return ""
    asked = [["git", "status", "--porcelain"], ["git", "diff"]]
    return "".join(subprocess.run(words, cwd=ROOT, capture_output=True, text=True, errors="replace").stdout for words in asked)


def shown(lines):
    """What is compared of lines: no blanks at their ends, no empty lines around them."""
    return "\n".join(line.rstrip() for line in lines).strip("\n")


def run(block, script):
    """Runs a block; what is wrong with it."""
    before = changed()
    try:
        ended = subprocess.run(["bash", "-c", script.text], cwd=ROOT, env=environment(), stdin=subprocess.DEVNULL, capture_output=True, text=True, errors="replace", timeout=LONGEST)
    except subprocess.TimeoutExpired:
        return [f"{block.place()}: over {LONGEST} seconds: let the document show a shorter run"]
    faults = []
    if ended.returncode != 0:
        faults.append(f"{block.place()}: {ended.stderr.strip()[-2000:]}\n{ended.stdout[-2000:]}")
    whole = not (faults or script.held or script.left_out)
    if whole and block.due is not None:
        printed, due = shown(ended.stdout.splitlines()), shown(block.due)
        faults += [] if printed == due else [f"{block.place()}: prints\n{printed}\nand the document has\n{due}"]
    if changed() != before:
        faults.append(f"{block.place()}: a command changes a file of the repository: have it write to target/")
    return faults


def prepare(paths):
    """Makes what the commands use: the program each time, the archive if it is not there."""
    used = "".join(path.read_text(encoding="utf-8") for path in paths)
    makers = [["tools/plan.sh"]] if PLAN in used else []
    makers += [["tools/archive.sh"]] if ARCHIVE in used and not (ROOT / ARCHIVE).exists() else []
    for maker in makers:
        made = subprocess.run(maker, cwd=ROOT, capture_output=True, text=True)
        if made.returncode != 0:
            raise SystemExit(f"{' '.join(maker)}: {made.stdout[-2000:]}{made.stderr}")


def main(words):
    options = [word for word in words if word in ("--list", "--times")]
    paths = [pathlib.Path(word).resolve() for word in words if word not in options] or documents()
    listing, began = "--list" in options, time.monotonic()
    found = [Document(path) for path in paths]
    unmet, faults = missing(), [fault for document in found for fault in document.faults]
    scripts = [(block, Script(block, unmet)) for document in found for block in document.blocks if block.name == "sh"]
    ran = of_gate() + [words for _, script in scripts for words in script.words]
    for document in found:
        faults += [f"{document.path.relative_to(ROOT)}:{number}: nothing runs this command: {' '.join(words)}" for number, words in document.named() if stale(words, ran)]
    if not listing:
        prepare(paths)
    for block, script in scripts:
        faults += script.faults
        at = time.monotonic()
        if script.run and not script.faults and not listing:
            faults += run(block, script)
        if "--times" in options:
            print(f"{time.monotonic() - at:6.1f} s  {block.place()}")
    count = {kind: [place for _, script in scripts for place in getattr(script, kind)] for kind in ("run", "held", "left_out")}
    for place in [f"document: {path.relative_to(ROOT)}" for path in paths] + count["run"] if listing else []:
        print(place)
    for place in count["held"]:
        print(f"held to .ci/run: {place}")
    for place in count["left_out"]:
        print(f"left out, {place}")
    for fault in faults:
        print(fault, file=sys.stderr)
    print(f"{len(paths)} documents: {len(count['run'])} commands {'found' if listing else 'run'}, {len(count['held'])} held to .ci/run, {len(count['left_out'])} left out, {len(faults)} faults, {time.monotonic() - began:.0f} s")
    return 1 if faults else 0


if __name__ == "__main__":
    sys.exit(main(sys.argv[1:]))
