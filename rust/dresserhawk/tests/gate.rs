//! The gate's script, .ci/run, with stand-ins for `rt` and `cargo`: what it runs,
//! what it says last, and how it ends.

use std::fs;
use std::os::unix::fs::{PermissionsExt, symlink};
use std::path::{Path, PathBuf};
use std::process::Command;

const ROOT: &str = concat!(env!("CARGO_MANIFEST_DIR"), "/../..");

/// What the scripts use besides.
const TOOLS: [&str; 16] = [
    "bash", "env", "dirname", "mktemp", "tee", "tail", "grep", "rm", "cp", "mv", "cat", "cmp",
    "mkdir", "make", "python3", "valgrind",
];

const RT: &str = r#"#!/bin/bash
case "$1" in
ci)
    [ $# -eq 1 ] || exit 2
    echo "rt: proving"
    [ "${CI_STATUS:-0}" -ne 0 ] || echo "rt: ok; handles allowed: none; must-fail edits: 9 refused${BAD:-}; all"
    echo "5 passed, ${FAILED:-0} failed"
    exit "${CI_STATUS:-0}"
    ;;
lib)
    echo "rt $* in ${PWD##*/}" >>../../called
    mkdir -p out
    echo archive >out/liblibrary_c.a
    ;;
version) echo "${KIT:-kit 1}" ;;
esac
"#;

const CARGO: &str = r#"#!/bin/bash
echo "cargo $* ${DRESSERHAWK_ARCHIVE##*/}" >>../called
for word in "$@"; do [ "$word" != "${FAILING:-none}" ] || exit 101; done
"#;

fn program(path: &Path, text: &str) {
    fs::write(path, text).expect("written");
    fs::set_permissions(path, fs::Permissions::from_mode(0o755)).expect("made a program");
}

/// A repository with the scripts and nothing else, and a folder of programs.
fn scene(name: &str, cargo: bool) -> PathBuf {
    let scene = PathBuf::from(env!("CARGO_TARGET_TMPDIR")).join("gate").join(name);
    let _ = fs::remove_dir_all(&scene);
    for folder in [".ci", "tools", "rust", "bin", "crates/library_c", "cyrs/crates"] {
        fs::create_dir_all(scene.join(folder)).expect("made");
    }
    for file in [".ci/run", "tools/archive.sh"] {
        fs::copy(Path::new(ROOT).join(file), scene.join(file)).expect("copied");
    }
    fs::write(scene.join("kit.txt"), "kit 1\n").expect("written");
    for tool in TOOLS {
        let found = std::env::split_paths(&std::env::var_os("PATH").expect("a path"))
            .map(|folder| folder.join(tool))
            .find(|path| path.exists());
        if let Some(found) = found {
            symlink(found, scene.join("bin").join(tool)).expect("linked");
        }
    }
    program(&scene.join("bin/rt"), RT);
    if cargo {
        program(&scene.join("bin/cargo"), CARGO);
    }
    scene
}

struct Ended {
    status: i32,
    said: String,
    called: String,
}

/// Runs the gate there with these variables.
fn gate(scene: &Path, variables: &[(&str, &str)]) -> Ended {
    let ended = Command::new(scene.join(".ci/run"))
        .env_clear()
        .env("PATH", scene.join("bin"))
        .envs(variables.iter().copied())
        .output()
        .expect("the gate runs");
    let text = |bytes: &[u8]| String::from_utf8_lossy(bytes).into_owned();
    Ended {
        status: ended.status.code().expect("a status"),
        said: text(&ended.stdout) + &text(&ended.stderr),
        called: fs::read_to_string(scene.join("called")).unwrap_or_default(),
    }
}

impl Ended {
    fn last(&self) -> &str {
        self.said.lines().rfind(|line| !line.contains("archive.sh:")).unwrap_or_default()
    }
}

#[test]
fn all_tests_follow_a_gate_that_passes() {
    let scene = scene("passes", true);
    let cyrs = scene.join("cyrs").display().to_string();
    let ended = gate(&scene, &[("CYRS_SRC", &cyrs)]);
    assert_eq!((ended.status, ended.last()), (0, "5 passed, 0 failed"), "{}", ended.said);
    let due = "rt lib in library_c\ncargo test --release -p dresserhawk libdresserhawk.a\n\
               cargo test --release -p cyrs-sheet -p compare libdresserhawk.a\n";
    assert_eq!(ended.called, due);
    assert!(!ended.said.contains("last proved with"), "{}", ended.said);
}

#[test]
fn a_gate_that_does_not_pass_ends_as_rt_does() {
    for status in ["1", "2", "3"] {
        let scene = scene(&format!("fails-{status}"), true);
        let ended = gate(&scene, &[("CI_STATUS", status), ("FAILED", "1")]);
        assert_eq!(
            (ended.status.to_string().as_str(), ended.last()),
            (status, "5 passed, 1 failed")
        );
        assert_eq!(ended.called, "", "nothing is tested then");
    }
}

/// `rt ci` passes an edit that it could not try. The gate does not.
#[test]
fn a_bad_edit_fails_the_gate() {
    let scene = scene("bad-edit", true);
    for bad in [", 1 bad", ", 2 of them only by a limit, 12 bad"] {
        let ended = gate(&scene, &[("BAD", bad)]);
        assert_eq!(ended.status, 1, "{}", ended.said);
        assert!(!ended.last().contains("passed, 0 failed"), "{}", ended.said);
        assert_eq!(ended.called, "", "nothing is tested then");
    }
}

#[test]
fn a_failing_test_fails_the_gate() {
    for failing in ["dresserhawk", "compare"] {
        let scene = scene(&format!("test-{failing}"), true);
        let cyrs = scene.join("cyrs").display().to_string();
        let ended = gate(&scene, &[("FAILING", failing), ("CYRS_SRC", &cyrs)]);
        assert_eq!(ended.status, 1, "{}", ended.said);
        assert!(!ended.last().contains("passed, 0 failed"), "{}", ended.said);
    }
}

#[test]
fn what_is_not_at_hand_is_said_and_left_out() {
    let ended = gate(&scene("no-cargo", false), &[]);
    assert_eq!((ended.status, ended.last()), (0, "5 passed, 0 failed"), "{}", ended.said);
    assert!(ended.said.contains("no cargo: the Rust side's tests are left out"), "{}", ended.said);
    assert_eq!(ended.called, "");

    let ended = gate(&scene("no-cyrs", true), &[("CYRS_SRC", "/nowhere")]);
    assert_eq!((ended.status, ended.last()), (0, "5 passed, 0 failed"), "{}", ended.said);
    assert!(ended.said.contains("the source of cyrs is not at hand"), "{}", ended.said);
    assert!(!ended.called.contains("compare"), "{}", ended.called);
}

#[test]
fn another_kit_is_told() {
    let scene = scene("kit", true);
    let ended = gate(&scene, &[("KIT", "kit 2"), ("CYRS_SRC", "/nowhere")]);
    assert_eq!(ended.status, 0, "{}", ended.said);
    let due = "proved with kit 2; the repository was last proved with kit 1";
    assert!(ended.said.contains(due), "{}", ended.said);
    assert_eq!(
        fs::read_to_string(scene.join("target/staticlib/libdresserhawk.kit")).unwrap(),
        "kit 2\n"
    );
}
