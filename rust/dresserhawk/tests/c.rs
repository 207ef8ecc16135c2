//! The calls from C: the header, the examples and the rules of docs/C.md, built
//! with c/Makefile; and that every declaration says what is exported.

use std::path::PathBuf;
use std::process::{Command, Stdio};

const C: &str = concat!(env!("CARGO_MANIFEST_DIR"), "/../../c");
const EXPORTED: &str = include_str!("../../../crates/library_c/src/lib.rt");
const HEADER: &str = include_str!("../../../c/dresserhawk.h");
const RAW: &str = include_str!("../src/raw.rs");

fn at_hand(program: &str) -> bool {
    let there = Command::new(program).arg("--version").stdout(Stdio::null()).status().is_ok();
    if !there {
        eprintln!("left out: no `{program}`");
    }
    there
}

#[test]
fn the_example_and_the_rules_are_built_and_run() {
    if !at_hand("make") {
        return;
    }
    let out = PathBuf::from(env!("CARGO_TARGET_TMPDIR")).join("c");
    // Built anew, with the archive that this crate links.
    let _ = std::fs::remove_dir_all(&out);
    let made = Command::new("make")
        .args(["-s", "-C", C, "check"])
        .arg(format!("OUT={}", out.display()))
        .arg(concat!("ARCHIVE=", env!("DRESSERHAWK_LINKED")))
        .output()
        .expect("make runs");
    let said = String::from_utf8_lossy(&made.stdout);
    assert!(made.status.success(), "{said}{}", String::from_utf8_lossy(&made.stderr));
    // docs/C.md asks for 64 KiB of stack, and 16 KiB for sizing.
    for (call, most) in [("sizing ", 1 << 14), ("lowering ", 1 << 16)] {
        let line = said.lines().find_map(|line| line.strip_prefix(call)).expect("a figure");
        let bytes: usize = line.split(' ').next().unwrap_or_default().parse().expect("a number");
        assert!((1_000..=most).contains(&bytes), "{call}{bytes}");
    }
    for (input, output, due) in [
        ("crates/plan/stdin", "/dev/null", 0),
        ("crates/plan/stdout", "/dev/null", 1),
        ("no/such.sheet", "/dev/null", 2),
        ("crates/plan/stdin", "/dev/full", 2),
    ] {
        let to = std::fs::File::options().write(true).open(output).expect("it opens");
        let input = format!("{C}/../{input}");
        let ended = Command::new(out.join("example"))
            .arg(&input)
            .stdout(to)
            .stderr(Stdio::null())
            .status()
            .expect("the example runs");
        assert_eq!(ended.code(), Some(due), "{input} to {output}");
    }
}

#[test]
fn the_example_of_a_pair_is_built_and_run() {
    if !at_hand("make") {
        return;
    }
    let out = PathBuf::from(env!("CARGO_TARGET_TMPDIR")).join("c-two");
    let _ = std::fs::remove_dir_all(&out);
    let made = Command::new("make")
        .args(["-s", "-C", C, "check"])
        .arg(format!("OUT={}", out.display()))
        .arg(concat!("ARCHIVE=", env!("DRESSERHAWK_LINKED")))
        .output()
        .expect("make runs");
    let said = String::from_utf8_lossy(&made.stdout);
    assert!(made.status.success(), "{said}{}", String::from_utf8_lossy(&made.stderr));
    // docs/C.md asks for 64 KiB of stack.
    let line = said.lines().find_map(|line| line.strip_prefix("pair ")).expect("a figure");
    let bytes: usize = line.split(' ').next().unwrap_or_default().parse().expect("a number");
    assert!((1_000..=1 << 16).contains(&bytes), "pair {bytes}");
    let (good, bad, none) = ("searches/titles.sheet", "crates/plan/stdout", "no/such.sheet");
    for (inputs, output, due) in [
        (&[good, good][..], "/dev/null", 0),
        (&[bad, good], "/dev/null", 1),
        (&[good, bad], "/dev/null", 1),
        (&[none, good], "/dev/null", 2),
        (&[good, none], "/dev/null", 2),
        (&[good], "/dev/null", 2),
        (&[good, good], "/dev/full", 2),
    ] {
        let to = std::fs::File::options().write(true).open(output).expect("it opens");
        let ended = Command::new(out.join("pair"))
            .args(inputs.iter().map(|input| format!("{C}/../{input}")))
            .stdout(to)
            .stderr(Stdio::null())
            .status()
            .expect("the example runs");
        assert_eq!(ended.code(), Some(due), "{inputs:?} to {output}");
    }
    // What `make check` has kept of the pair is what this crate's call says.
    let [left, right] = ["overdue", "reserved"]
        .map(|name| std::fs::read(format!("{C}/../searches/{name}.sheet")).expect("a search"));
    let plan = std::fs::read(out.join("pair.plan")).expect("kept");
    assert_eq!(Ok(&plan[..]), dresserhawk::Planner::new().plan_pair(&left, &right, false));
}

#[test]
fn the_example_of_a_pair_tells_the_side() {
    if !at_hand("make") {
        return;
    }
    let out = PathBuf::from(env!("CARGO_TARGET_TMPDIR")).join("c-pair");
    let _ = std::fs::remove_dir_all(&out);
    let program = out.join("pair");
    let made = Command::new("make")
        .args(["-s", "-C", C])
        .arg(format!("OUT={}", out.display()))
        .arg(concat!("ARCHIVE=", env!("DRESSERHAWK_LINKED")))
        .arg(&program)
        .status();
    assert!(made.expect("make runs").success());
    let (good, refused) = ("titles.sheet", "refused/7-undesugared.sheet");
    for (files, due) in [
        ([refused, good], "refused, left: number 7, line 8, span 15 to 32, kind 12\n"),
        ([good, refused], "refused, right: number 7, line 8, span 15 to 32, kind 22\n"),
        (
            ["refused/5-write.sheet", refused],
            "refused, left: number 5, line 6, span 0 to 0, kind 1\n",
        ),
    ] {
        let files = files.map(|name| format!("{C}/../searches/{name}"));
        let ended = Command::new(&program).args(files).output().expect("the example runs");
        assert_eq!(String::from_utf8_lossy(&ended.stderr), due);
    }
}

#[test]
fn the_header_is_cplusplus_too() {
    if !at_hand("c++") {
        return;
    }
    let status = Command::new("c++")
        .args(["-x", "c++", "-Wall", "-Wextra", "-Werror", "-pedantic", "-fsyntax-only"])
        .arg(format!("{C}/dresserhawk.h"))
        .status()
        .expect("c++ runs");
    assert!(status.success());
}

/// An exported function, and its slices by name and type.
struct Exported {
    name: &'static str,
    slices: Vec<(&'static str, &'static str)>,
}

/// What crates/library_c exports.
fn exported() -> Vec<Exported> {
    let heads = EXPORTED.split("pub extern \"C\" fn ").skip(1);
    heads
        .map(|text| {
            let (name, rest) = text.split_once('(').expect("arguments");
            let (slices, rest) = rest.split_once(") -> ").expect("a result");
            assert!(rest.starts_with("bool"), "{name}");
            let slices = slices.split(',').map(str::trim).filter(|slice| !slice.is_empty());
            Exported {
                name,
                slices: slices.map(|it| it.split_once(": ").expect("a type")).collect(),
            }
        })
        .collect()
}

/// A text with one blank for each run of them.
fn plain(text: &str) -> String {
    text.split_whitespace().collect::<Vec<_>>().join(" ").replace("( ", "(").replace(", )", ")")
}

#[test]
fn the_declarations_are_those_of_the_exported_functions() {
    let exported = exported();
    assert!(exported.len() >= 2);
    for Exported { name, slices } in &exported {
        let in_c = slices.iter().map(|(slice, kind)| {
            let kind = match *kind {
                "bool" => return format!("bool {slice}"),
                "&[u8]" => "const uint8_t",
                "&mut [u8]" => "uint8_t",
                "&mut [u32]" => "uint32_t",
                "&mut [usize]" => "size_t",
                other => panic!("{other} has no C type here"),
            };
            format!("{kind} *{slice}, size_t {slice}_len")
        });
        let due = format!("bool {name}({});", in_c.collect::<Vec<_>>().join(", "));
        assert!(plain(HEADER).contains(&due), "c/dresserhawk.h: not\n{due}");
        let in_rust = slices.iter().map(|(slice, kind)| {
            if *kind == "bool" {
                return format!("{slice}: bool");
            }
            let kind = kind.replace("&mut [", "*mut ").replace("&[", "*const ").replace(']', "");
            format!("{slice}: {kind}, {slice}_len: usize")
        });
        let due = format!("fn {name}({}) -> bool;", in_rust.collect::<Vec<_>>().join(", "));
        assert!(plain(RAW).contains(&due), "src/raw.rs: not\n{due}");
    }
    // And no others.
    assert_eq!(HEADER.matches("bool dresserhawk_").count(), exported.len());
    assert_eq!(RAW.matches("    fn dresserhawk_").count(), exported.len());
}

#[test]
fn the_numbers_in_the_header_are_those_of_the_crate() {
    let constant = |name: &str| {
        let line = HEADER.lines().find(|line| line.contains(name)).expect(name);
        let digits = |letter: char| letter.is_ascii_digit();
        let rest = &line[line.find(digits).expect("a number")..];
        rest[..rest.find(|it| !digits(it)).unwrap_or(rest.len())]
            .parse::<usize>()
            .expect("a number")
    };
    assert_eq!(constant("define DRESSERHAWK_SHEET_BYTES"), dresserhawk::grammar::MOST_BYTES);
    assert_eq!(constant("define DRESSERHAWK_WORK_WORDS"), dresserhawk::raw::WORK_WORDS);
    let span = dresserhawk::sheet::span(0, 0);
    use dresserhawk::Refusal::*;
    let kind = dresserhawk::Undesugared::MapProjection;
    for (name, refusal) in [
        ("SHORT_WORK", ShortWork),
        ("LONG_SHEET", LongSheet),
        ("BAD_LINE", BadLine { line: 1 }),
        ("BIG_TREE", BigTree { line: 1 }),
        ("WRITE_CLAUSE", WriteClause { line: 1 }),
        ("UNRESOLVED", Unresolved { line: 1, span }),
        ("UNDESUGARED", Undesugared { line: 1, span, kind }),
        ("EMPTY_PART", EmptyPart { line: 1, span }),
        ("PLAN_FULL", PlanFull),
        ("NO_ROOM", NoRoom),
    ] {
        assert_eq!(constant(&format!("DRESSERHAWK_{name} =")), refusal.number() as usize, "{name}");
    }
}

#[test]
fn the_sides_in_the_header_are_those_of_the_crate() {
    for (name, side) in [("LEFT", dresserhawk::Side::Left), ("RIGHT", dresserhawk::Side::Right)] {
        let header = plain(HEADER);
        let due = format!("DRESSERHAWK_{name} = {}", side as usize);
        let behind = header.split_once(&due).map(|(_, rest)| rest.chars().next());
        assert!(
            matches!(behind, Some(Some(c)) if !c.is_ascii_digit()),
            "c/dresserhawk.h: not {due}"
        );
    }
}
