//! Each command in a document runs: tools/commands.py runs them.

use std::path::{Path, PathBuf};
use std::process::{Command, Output};
use std::sync::Mutex;

const ROOT: &str = concat!(env!("CARGO_MANIFEST_DIR"), "/../..");

/// One test at a time: each looks whether the repository changes.
static ALONE: Mutex<()> = Mutex::new(());

/// Whether what the documents' commands need is at hand.
fn at_hand() -> bool {
    ["python3", "rt"].iter().all(|program| {
        let there = Command::new(program).arg("--help").output().is_ok();
        if !there {
            eprintln!("left out: no `{program}`");
        }
        there
    })
}

fn commands(words: &[&Path]) -> Output {
    let bin = Path::new(env!("CARGO_BIN_EXE_dresserhawk")).parent().expect("a folder");
    Command::new("python3")
        .arg(format!("{ROOT}/tools/commands.py"))
        .args(words)
        .env("DRESSERHAWK_BIN", bin)
        .output()
        .expect("python3 runs")
}

#[test]
fn each_command_in_a_document_runs() {
    if !at_hand() {
        return;
    }
    let _alone = ALONE.lock();
    let ended = commands(&[]);
    let said = String::from_utf8_lossy(&ended.stdout);
    println!("{said}");
    assert!(ended.status.success(), "{said}{}", String::from_utf8_lossy(&ended.stderr));
}

/// Every document that git knows is looked at, and none of their commands is left to a reader.
#[test]
fn each_document_is_looked_at() {
    let known = Command::new("git").args(["-C", ROOT, "ls-files", "*.md", "*.MD"]).output();
    let Some(known) = known.ok().filter(|known| known.status.success() && at_hand()) else {
        eprintln!("left out: no git, or no repository of its");
        return;
    };
    let listed = commands(&[Path::new("--list")]);
    let listed = String::from_utf8_lossy(&listed.stdout).into_owned();
    let known = String::from_utf8_lossy(&known.stdout).into_owned();
    assert!(known.lines().count() > 10, "{known}");
    for name in known.lines().filter(|name| Path::new(ROOT).join(name).exists()) {
        assert!(listed.contains(&format!("document: {name}\n")), "{name}: {listed}");
    }
}

/// A document with one fault each is found out.
#[test]
fn a_command_that_went_stale_is_found() {
    if !at_hand() {
        return;
    }
    let _alone = ALONE.lock();
    let folder = PathBuf::from(ROOT).join("target/documents");
    std::fs::create_dir_all(&folder).expect("made");
    let cases: &[(&str, &str, Option<&str>)] = &[
        ("right", "```sh\ntrue\n```\n", None),
        (
            "printed",
            "```sh\necho a  \nfor i in 1 2\ndo echo $i\ndone\n```\n\n```text\na\n1\n2\n```\n",
            None,
        ),
        ("fails", "```sh\ntrue\nfalse\n```\n", Some("fails.md:3: status 1 and not 0")),
        ("in a pipe", "```sh\nfalse | true\n```\n", Some("status 1 and not 0")),
        ("in a list", "1. words\n\n   ```sh\n   false\n   ```\n", Some("list.md:4: status 1")),
        ("status", "```sh\n# ends with status 3\n(exit 3)\n```\n", None),
        (
            "wrong status",
            "```sh\n# ends with status 3\n(exit 4)\n```\n",
            Some("status 4 and not 3"),
        ),
        ("other text", "```sh\necho a\n```\n\n```text\nb\n```\n", Some("and the document has\nb")),
        ("another text", "```sh\necho a\n```\nwords\n```text\nb\n```\n", None),
        ("outside", "words\n\n    rt ci\n", Some("a command outside a ```sh block: rt ci")),
        ("console", "```console\n$ true\n```\n", Some("and not 'console'")),
        ("no name", "```\ntrue\n```\n", Some("and not ''")),
        ("no end", "```sh\ntrue\n", Some("a block with no end")),
        ("writes", "```sh\necho >written.by.a.command\n```\n", Some("changes a file")),
        ("unknown", "```sh\ndresserhawk lower\n```\n", Some("status 2 and not 0")),
        // No command is skipped.
        (
            "skipped",
            "```sh\n# not run by the tests: takes minutes\ntrue\n```\n",
            Some("skipped.md:3: no such mark: # not run by the tests: takes minutes"),
        ),
        ("a remark", "```sh\n# takes minutes\ntrue\n```\n", Some("no such mark: # takes minutes")),
        ("mark alone", "```sh\n# needs cyrs\n```\n", Some("not a complete command: # needs cyrs")),
        ("needs", "```sh\n# needs cyrs\n# needs valgrind\ntrue\n```\n", None),
        // What the gate runs is held to it.
        ("held", "```sh\n# run by .ci/run\nrt ci\n```\n", None),
        (
            "held to a line",
            "```sh\n# run by .ci/run\n(cd rust && cargo test --release -p dresserhawk)\n```\n",
            None,
        ),
        (
            "held to less",
            "```sh\n# run by .ci/run\n(cd rust && cargo test --release)\n```\n",
            Some(".ci/run does not have this command"),
        ),
        (
            "held to a comment",
            "```sh\n# run by .ci/run\nThe gate\n```\n",
            Some(".ci/run does not have this command"),
        ),
        ("held and true", "```sh\n# run by .ci/run\ntrue\n```\n", Some(".ci/run does not have")),
        ("not marked", "```sh\nrt ci\n```\n", Some("to be marked: # run by .ci/run")),
        // Commands in the text.
        ("named", "`rt ci`, `echo b`\n\n```sh\necho a b\ntrue; make -v\n```\n`make -v`\n", None),
        (
            "for another",
            "`rt must-fail NAME`, `rt lib`, `rt all check`, `rt check [NAME...]`\n",
            None,
        ),
        (
            "named and stale",
            "words\nand `make\n-C nowhere`\n",
            Some("stale.md:2: nothing runs this command: make -C nowhere"),
        ),
        ("no such call", "`rt proof NAME`\n", Some("nothing runs this command: rt proof NAME")),
        ("other order", "`make b a`\n```sh\ntrue || make a b\n```\n", Some("make b a")),
        ("in two", "`make b`\n```sh\ntrue || make a && echo b\n```\n", Some("make b")),
        ("in a table", "```text\ncompare nothing FILE\n```\n", Some("compare nothing FILE")),
        ("script", "`tools/archive.sh`\n", None),
        ("no script", "`tools/nothing.sh`\n", Some("nothing runs this command")),
    ];
    for (name, text, due) in cases {
        let document = folder.join(format!("{name}.md"));
        std::fs::write(&document, text).expect("written");
        let ended = commands(&[&document]);
        let _ = std::fs::remove_file(format!("{ROOT}/written.by.a.command"));
        let error = String::from_utf8_lossy(&ended.stderr);
        assert_eq!(ended.status.success(), due.is_none(), "{name}: {error}");
        assert!(error.contains(due.unwrap_or_default()), "{name}: {error}");
    }
}
