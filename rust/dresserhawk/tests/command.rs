//! The command `dresserhawk`, as a shell meets it.

use std::fs::File;
use std::io::Write;
use std::path::PathBuf;
use std::process::{Command, Stdio};

const COMMAND: &str = env!("CARGO_BIN_EXE_dresserhawk");
const SHEET: &str = include_str!("../../../searches/titles.sheet");
const PLAN: &str = include_str!("../../../crates/plan/stdout");

/// Exit status, standard output and standard error.
fn run(words: &[&str], input: &[u8]) -> (i32, String, String) {
    let mut child = Command::new(COMMAND)
        .args(words)
        .current_dir(concat!(env!("CARGO_MANIFEST_DIR"), "/../.."))
        .stdin(Stdio::piped())
        .stdout(Stdio::piped())
        .stderr(Stdio::piped())
        .spawn()
        .expect("the command starts");
    // A command that reads nothing may have ended already.
    let _ = child.stdin.take().expect("piped").write_all(input);
    let output = child.wait_with_output().expect("the command ends");
    let text = |bytes| String::from_utf8(bytes).expect("UTF-8");
    (output.status.code().expect("a status"), text(output.stdout), text(output.stderr))
}

/// A file of this test run.
fn file(name: &str, text: &[u8]) -> String {
    let path = PathBuf::from(env!("CARGO_TARGET_TMPDIR")).join(name);
    std::fs::write(&path, text).expect("written");
    path.to_str().expect("UTF-8").to_string()
}

#[test]
fn an_accepted_sheet_ends_with_0_and_its_plan() {
    let accepted = (0, PLAN.to_string(), String::new());
    assert_eq!(run(&["plan", "searches/titles.sheet"], b""), accepted);
    assert_eq!(run(&["plan", "--", "searches/titles.sheet"], b""), accepted);
    assert_eq!(run(&["plan"], SHEET.as_bytes()), accepted);
    assert_eq!(run(&["plan", "-"], SHEET.as_bytes()), accepted);
    assert_eq!(run(&["size"], SHEET.as_bytes()), (0, "36\n".to_string(), String::new()));
}

#[test]
fn a_refused_sheet_ends_with_1_and_nothing_printed() {
    for word in ["plan", "size"] {
        let (status, out, error) = run(&[word], b"stmt\t1\t0\nwhere\t0\t9\nunres\tx\n");
        assert_eq!((status, &*out), (1, ""));
        assert!(error.starts_with("<stdin>:3: error: the name `x` was not resolved"), "{error}");
    }
}

#[test]
fn wrong_usage_ends_with_2() {
    for words in [&[][..], &["lower"], &["plan", "--fast"], &["plan", "-x"], &["--versions"]] {
        let (status, out, error) = run(words, SHEET.as_bytes());
        assert_eq!((status, &*out), (2, ""), "{words:?}");
        assert!(error.starts_with("dresserhawk: "), "{words:?}: {error}");
    }
}

#[test]
fn help_and_version_are_asked_for() {
    let (status, out, error) = run(&["--help"], b"");
    assert_eq!((status, &*error), (0, ""));
    for word in ["plan [FILE..]", "size [FILE..]", "--version", "Exit status"] {
        assert!(out.contains(word), "{out}");
    }
    assert!(out.contains("pair [--all] LEFT RIGHT"), "{out}");
    assert_eq!(run(&["plan", "--help"], b"").0, 0);
    assert_eq!(run(&["pair", "--all", "-h"], b"").0, 0);
    let due =
        format!("dresserhawk {}, proved with {}\n", env!("CARGO_PKG_VERSION"), dresserhawk::KIT);
    assert_eq!(run(&["--version"], b""), (0, due, String::new()));
    assert!(dresserhawk::KIT.len() > 3);
}

#[test]
fn each_of_several_files_is_answered_and_the_worst_counts() {
    let good = file("good.sheet", SHEET.as_bytes());
    let bad = file("bad.sheet", b"stmt\t0\n");
    let (status, out, error) = run(&["plan", &good, &bad, &good], b"");
    assert_eq!((status, out), (1, format!("{PLAN}{PLAN}")));
    assert!(error.starts_with(&format!("{bad}:1: error: ")), "{error}");
    let (status, out, error) =
        run(&["size", &good, "/nowhere/at.all", &bad, "-"], SHEET.as_bytes());
    assert_eq!((status, out), (2, format!("36\t{good}\n36\t<stdin>\n")));
    assert!(error.contains("/nowhere/at.all: ") && error.contains("bad.sheet:1"), "{error}");
}

#[test]
fn output_that_cannot_be_written_ends_with_2() {
    for words in [
        &["plan", "searches/titles.sheet"][..],
        &["size", "searches/titles.sheet"],
        &["pair", "searches/titles.sheet", "searches/titles.sheet"],
        &["--help"],
        &["--version"],
    ] {
        let full = File::options().write(true).open("/dev/full").expect("/dev/full");
        let output = Command::new(COMMAND)
            .args(words)
            .current_dir(concat!(env!("CARGO_MANIFEST_DIR"), "/../.."))
            .stdout(full)
            .output()
            .expect("the command ends");
        assert_eq!(output.status.code(), Some(2), "{words:?}");
        assert!(output.stderr.starts_with(b"dresserhawk: standard output: "), "{words:?}");
    }
}

#[test]
fn a_closed_pipe_or_output_ends_with_2() {
    let mut child = Command::new(COMMAND)
        .arg("plan")
        .stdin(Stdio::piped())
        .stdout(Stdio::piped())
        .stderr(Stdio::null())
        .spawn()
        .expect("the command starts");
    drop(child.stdout.take());
    child.stdin.take().expect("piped").write_all(SHEET.as_bytes()).expect("it reads");
    assert_eq!(child.wait().expect("it ends").code(), Some(2));
    for closed in ["0<&-", "1>&-"] {
        let words = if closed == "0<&-" { "plan" } else { "--help" };
        let status = Command::new("sh")
            .args(["-c", &format!("exec \"$0\" {words} {closed} 2>/dev/null"), COMMAND])
            .status()
            .expect("sh runs");
        assert_eq!(status.code(), Some(2), "{closed}");
    }
}

/// The plan of two empty sheets, with this flag.
fn empty_pair(all: u8) -> String {
    format!("plan\t3\t0\nsource\t0\t0\nsource\t0\t0\nunion\t0\t1\t{all}\n")
}

#[test]
fn two_files_have_one_plan() {
    let empty = &*file("empty.sheet", b"stmt\t0\t0\n");
    let input = b"stmt\t0\t0\n";
    let accepted = |all| (0, empty_pair(all), String::new());
    assert_eq!(run(&["pair", empty, empty], b""), accepted(0));
    assert_eq!(run(&["pair", "-", empty], input), accepted(0));
    assert_eq!(run(&["pair", empty, "-"], input), accepted(0));
    assert_eq!(run(&["pair", "--", empty, empty], b""), accepted(0));
    for words in [["--all", empty, empty], [empty, "--all", empty], [empty, empty, "--all"]] {
        assert_eq!(run(&[&["pair"], &words[..]].concat(), b""), accepted(1), "{words:?}");
    }
    // The first file is the left one.
    let (status, plan, _) = run(&["pair", "searches/titles.sheet", empty], b"");
    assert_eq!((status, plan.ends_with("union\t1\t2\t0\n")), (0, true), "{plan}");
    let (status, plan, _) = run(&["pair", empty, "searches/titles.sheet"], b"");
    assert_eq!((status, plan.ends_with("union\t2\t1\t0\nv\t0\t7\n")), (0, true), "{plan}");
}

#[test]
fn a_refused_pair_ends_with_1_and_tells_which_file() {
    let good = "searches/titles.sheet";
    let unresolved = "searches/refused/6-unresolved.sheet";
    let spaces = "searches/refused/3-spaces.sheet";
    let cases: &[([&str; 2], &[&str])] = &[
        (
            [unresolved, good],
            &[
                "searches/refused/6-unresolved.sheet:9: error: the name `b` was not resolved",
                "(refusal 6, left sheet)",
                "9 | unres\tb",
                "due here: a variable",
                "hint: ",
            ],
        ),
        ([good, unresolved], &["6-unresolved.sheet:9: error: ", "(refusal 6, right sheet)"]),
        // The earlier test, with its own file.
        (
            [unresolved, spaces],
            &[
                "searches/refused/3-spaces.sheet:1: error: ",
                "(refusal 3, right sheet)",
                "hint: the line has spaces where tabs are due",
            ],
        ),
        // The same file twice.
        ([unresolved, unresolved], &["6-unresolved.sheet:9: error: ", "(refusal 6, left sheet)"]),
        (
            [good, "/dev/zero"],
            &["/dev/zero: error: the sheet has over 32,768 bytes (refusal 2, right sheet)"],
        ),
    ];
    for (files, said) in cases {
        let (status, out, error) = run(&["pair", files[0], files[1]], b"");
        assert_eq!((status, &*out), (1, ""), "{files:?}");
        for words in *said {
            assert!(error.contains(words), "{files:?}: not `{words}` in\n{error}");
        }
    }
    // What is of neither is told of both.
    let large = format!("stmt\t1023\t0\n{}", "where\t0\t1\nnull\n".repeat(1_023));
    let large = file("large.sheet", large.as_bytes());
    let (status, out, error) = run(&["pair", &large, &large], b"");
    assert_eq!((status, &*out), (1, ""));
    let due = "the plan has over 2,048 operators or variables (refusal 9)";
    assert_eq!(error, format!("{large} and {large}: error: {due}\n"));
}

#[test]
fn a_pair_of_files_that_are_not_two_ends_with_2() {
    let good = "searches/titles.sheet";
    for (words, due) in [
        (&["pair"][..], "`pair` takes two files, LEFT and RIGHT, and not 0"),
        (&["pair", good], "and not 1"),
        (&["pair", good, good, good], "and not 3"),
        (&["pair", "-", "-"], "standard input can be LEFT or RIGHT, and not both"),
        (&["pair", "--both", good, good], "no option `--both`"),
        (&["plan", "--all", good], "no option `--all`"),
        (&["pair", "--", "--all", good], "--all: "),
        (&["pair", "/nowhere/at.all", good], "/nowhere/at.all: "),
        (&["pair", good, "/nowhere/at.all"], "/nowhere/at.all: "),
    ] {
        let (status, out, error) = run(words, SHEET.as_bytes());
        assert_eq!((status, &*out), (2, ""), "{words:?}");
        assert!(error.starts_with("dresserhawk: ") && error.contains(due), "{words:?}: {error}");
    }
    // Each that cannot be read is told.
    let (_, _, error) = run(&["pair", "/nowhere/one", "/nowhere/two"], b"");
    assert!(error.contains("/nowhere/one: ") && error.contains("/nowhere/two: "), "{error}");
}

#[test]
fn a_plan_may_have_any_length() {
    // As in the test of `Planner`: a plan of over six times 15,900 bytes.
    let name = "n".repeat(15_900);
    let sheet = format!(
        "stmt\t1\t0\nreturn\t3\t0\t0\t0\t0\t0\t9\nitem\t-\nprop\t{name}\nnull\nitem\t-\nprop\t{name}\nnull\n\
         item\t-\nfn\tcount\t0\t0\n"
    );
    let (status, plan, error) = run(&["plan"], sheet.as_bytes());
    assert_eq!((status, &*error), (0, ""));
    assert!(plan.len() > 65_536 && plan.ends_with('\n'), "{}", plan.len());
}

#[test]
fn an_input_without_end_is_refused() {
    let (status, _, error) = run(&["plan", "/dev/zero"], b"");
    assert_eq!(status, 1);
    assert!(
        error.starts_with("/dev/zero: error: the sheet has over 32,768 bytes (refusal 2)"),
        "{error}"
    );
}

/// Sheets with one mistake each, and what is said about it.
#[test]
fn a_mistake_is_told_with_its_line_what_was_due_and_a_hint() {
    let list = "list\t1\n".repeat(62);
    let cases: &[(&str, String, &[&str])] = &[
        (
            "spaces",
            SHEET.replace('\t', " "),
            &[
                "<stdin>:1: ",
                "1 | stmt 2 0",
                "due here: `stmt`",
                "hint: the line has spaces where tabs are due",
            ],
        ),
        (
            "spaces in one line",
            SHEET.replace("prop\t", "prop "),
            &["<stdin>:8: ", "hint: the line has spaces"],
        ),
        (
            "CR",
            SHEET.replace('\n', "\r\n"),
            &["<stdin>:1: ", "0\\r", "hint: the line ends in CR LF"],
        ),
        ("CR alone", SHEET.replace('\n', "\r"), &["<stdin>:1: ", "hint: the lines end in CR;"]),
        (
            "BOM",
            format!("\u{feff}{SHEET}"),
            &["<stdin>:1: ", "\\u{feff}stmt", "hint: the file begins with a byte order mark"],
        ),
        (
            "Cypher",
            "MATCH (a:Book) RETURN a.title\n".to_string(),
            &["1 | MATCH (a:Book)", "hint: this looks like Cypher text"],
        ),
        (
            "small Cypher",
            "match (a) return a".to_string(),
            &["<stdin>:1: ", "hint: this looks like Cypher text"],
        ),
        (
            "no last line feed",
            SHEET.trim_end().to_string(),
            &[
                "<stdin>:9: ",
                "9 | var\t7",
                "due here: a line feed",
                "hint: the last line feed is missing",
            ],
        ),
        (
            "nothing",
            String::new(),
            &["<stdin>:1: ", "(the sheet has ended)", "hint: the input is empty"],
        ),
        (
            "cut off",
            SHEET.replace("var\t7\n", ""),
            &[
                "<stdin>:9: ",
                "due here: an expression",
                "the target of `prop` in line 8",
                "hint: the sheet may be cut off",
            ],
        ),
        (
            "two sheets",
            format!("{SHEET}{SHEET}"),
            &[
                "<stdin>:10: ",
                "due here: nothing: by its counts the statement ends with line 9",
                "hint: two sheets",
            ],
        ),
        ("empty line", format!("{SHEET}\n"), &["<stdin>:10: ", "hint: a sheet has no empty line"]),
        ("a plan", PLAN.to_string(), &["hint: this looks like a plan sheet"]),
        (
            "capitals",
            SHEET.replace("prop", "Prop"),
            &[
                "<stdin>:8: ",
                "`Prop` is no record",
                "^^^^",
                "hint: the first word of a record is in lower case",
            ],
        ),
        (
            "another record",
            SHEET.replace("var\t7", "key\t0"),
            &["a `key` record is not due", "hint: a count"],
        ),
        (
            "a spare zero",
            SHEET.replace("node\t7\t1", "node\t7\t01"),
            &[
                "<stdin>:4: ",
                "field `labels` of `node`",
                "      |     \t \t^^\n",
                "due here: a count",
            ],
        ),
        (
            "a field less",
            SHEET.replace("\t6\t14", "\t14"),
            &[
                "`node` with 4 fields behind it, not 5",
                "due here: `node ID LABELS PROPS START END`",
            ],
        ),
        (
            "a tab more",
            SHEET.replace("name\tBook", "name\tBook\t"),
            &["<stdin>:5: ", "hint: a tab stands at the end"],
        ),
        (
            "a span turned round",
            SHEET.replace("\t6\t14", "\t14\t6"),
            &["field `span` of `node`", "the start at most the end"],
        ),
        (
            "deep",
            format!("stmt\t1\t0\nwhere\t0\t1\n{list}null\n"),
            &["<stdin>:65: ", "deeper than 64", "(refusal 4)", "depth 65"],
        ),
        (
            "write",
            "stmt\t1\t0\nwrite\t3\t9\n".to_string(),
            &[
                "<stdin>:2: ",
                "(refusal 5)",
                "due here: a clause that reads",
                "hint: only clauses that read",
            ],
        ),
        (
            "undesugared",
            SHEET.replace("var\t7", "undes\t2"),
            &["<stdin>:9: ", "MapProjection was not desugared", "(refusal 7)"],
        ),
        (
            "no elements",
            "stmt\t1\t0\nmatch\t0\t1\t3\t9\npart\t-\t0\t0\n".to_string(),
            &["<stdin>:3: ", "a part with no elements", "bytes 3 to 9", "(refusal 8)"],
        ),
        (
            "rel first",
            "stmt\t1\t0\nmatch\t0\t1\t3\t9\npart\t-\t0\t1\nrel\t-\t0\t0\tone\t-\t-\t0\t3\t4\n"
                .to_string(),
            &["<stdin>:3: ", "begins with a relationship"],
        ),
    ];
    for (name, sheet, said) in cases {
        let (status, out, error) = run(&["plan"], sheet.as_bytes());
        assert_eq!((status, &*out), (1, ""), "{name}");
        for words in *said {
            assert!(error.contains(words), "{name}: not `{words}` in\n{error}");
        }
    }
}

#[test]
fn no_control_character_of_a_sheet_reaches_the_terminal() {
    let (_, _, error) = run(&["plan"], b"stmt\x1b[31m\x07\xff\t0\t0\n");
    assert!(error.contains("stmt\\u{1b}[31m\\u{7}\\xff"), "{error}");
    assert!(!error.contains('\x1b') && !error.contains('\x07'));
}

#[test]
fn progress_is_shown_on_a_terminal_only() {
    let line = "[2/2] searches/recall.sheet";
    let words = ["size", "searches/titles.sheet", "searches/recall.sheet"];
    let (status, _, error) = run(&words, b"");
    assert_eq!((status, &*error), (0, ""));
    let command = format!("{COMMAND} {}", words.join(" "));
    let Ok(terminal) = Command::new("script")
        .args(["-qec", &command, "/dev/null"])
        .current_dir(concat!(env!("CARGO_MANIFEST_DIR"), "/../.."))
        .stdin(Stdio::null())
        .output()
    else {
        return eprintln!("left out: no `script`, which lends a terminal");
    };
    assert!(terminal.status.success());
    let shown = String::from_utf8_lossy(&terminal.stdout);
    assert!(shown.contains(line), "{shown}");
    assert!(shown.contains("\r\x1b[K36\tsearches/titles.sheet"), "{shown:?}");
}
