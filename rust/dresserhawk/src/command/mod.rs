//! What the words of the command line ask for, and how a run ends.

mod hint;
mod input;
mod progress;
mod report;
mod standard;

use dresserhawk::{KIT, Planner, Refusal};
use progress::Progress;
use std::ffi::{OsStr, OsString};
use std::io::Write;
use std::process::ExitCode;

/// How a run ends: its exit status. Of several sheets the worst counts.
#[derive(Debug, Clone, Copy, PartialEq, Eq, PartialOrd, Ord)]
enum Ended {
    Accepted = 0,
    Refused = 1,
    Failed = 2,
}

/// What ends a run at once, with status 2.
enum Stop {
    Usage(String),
    Output(std::io::Error),
}

/// What the command can do. A further call is a further row.
struct Subcommand {
    name: &'static str,
    arguments: &'static str,
    about: &'static str,
    run: fn(&[OsString]) -> Result<Ended, Stop>,
}

const SUBCOMMANDS: &[Subcommand] = &[
    Subcommand {
        name: "plan",
        arguments: "[FILE..]",
        about: "print the plan sheet of each statement sheet",
        run: plan,
    },
    Subcommand {
        name: "size",
        arguments: "[FILE..]",
        about: "check each statement sheet and print an upper bound of its plan's number of operators",
        run: size,
    },
    Subcommand {
        name: "pair",
        arguments: "[--all] LEFT RIGHT",
        about: "print one plan sheet for two statement sheets, joined as by UNION, or with --all by UNION ALL",
        run: pair,
    },
];

pub fn main() -> ExitCode {
    let words: Vec<OsString> = std::env::args_os().skip(1).collect();
    let ended = run(&words).unwrap_or_else(|stop| {
        match stop {
            Stop::Usage(what) => {
                say(&format!("dresserhawk: {what}\ndresserhawk --help says more\n"))
            }
            Stop::Output(error) => say(&format!("dresserhawk: standard output: {error}\n")),
        }
        Ended::Failed
    });
    ExitCode::from(ended as u8)
}

/// Writes to standard error. Where that cannot be written, nothing can be said.
fn say(text: &str) {
    let _ = std::io::stderr().write_all(text.as_bytes());
}

/// Writes to standard output, at once.
fn print(bytes: &[u8]) -> Result<(), Stop> {
    standard::output()
        .and_then(|mut out| out.write_all(bytes).and_then(|()| out.flush()))
        .map_err(Stop::Output)
}

fn run(words: &[OsString]) -> Result<Ended, Stop> {
    let Some((first, rest)) = words.split_first() else {
        return Err(Stop::Usage("a subcommand is missing".to_string()));
    };
    let first = first.to_string_lossy();
    match &*first {
        "--help" | "-h" => print(help().as_bytes()).map(|()| Ended::Accepted),
        "--version" | "-V" => {
            let version = env!("CARGO_PKG_VERSION");
            print(format!("dresserhawk {version}, proved with {KIT}\n").as_bytes())
                .map(|()| Ended::Accepted)
        }
        name => match SUBCOMMANDS.iter().find(|known| known.name == name) {
            Some(subcommand) if asks_for_help(rest) => {
                print(usage(subcommand).as_bytes()).map(|()| Ended::Accepted)
            }
            Some(subcommand) => (subcommand.run)(rest),
            None => Err(Stop::Usage(format!("no subcommand `{name}`"))),
        },
    }
}

/// Whether `--help` stands among the options.
fn asks_for_help(words: &[OsString]) -> bool {
    words.iter().take_while(|&word| word != "--").any(|word| word == "--help" || word == "-h")
}

fn usage(subcommand: &Subcommand) -> String {
    let Subcommand { name, arguments, about, .. } = subcommand;
    format!("dresserhawk {name} {arguments}\n    {about}\n")
}

fn help() -> String {
    let mut text =
        "Lowers resolved Cypher statements (statement sheets) to plan sheets, by proved code.\n\n"
            .to_string();
    text.extend(SUBCOMMANDS.iter().map(usage));
    text += "dresserhawk --help | --version\n\n\
        A FILE that is `-`, or none, is standard input; so is LEFT or RIGHT, not both, that is `-`.\n\
        `--` ends the options. What is asked for goes to standard output in the order of the files,\n\
        what is wrong to standard error.\n\
        Exit status: 0 all accepted; 1 some sheet refused; 2 wrong usage, or input or output failed.\n";
    text
}

/// What follows a subcommand: files, and the options among them, of those that it knows.
fn parted(
    words: &[OsString],
    known: &[&'static str],
) -> Result<(Vec<OsString>, Vec<&'static str>), Stop> {
    let (mut files, mut options) = (Vec::new(), Vec::new());
    let mut words = words.iter();
    while let Some(word) = words.next() {
        if word == "--" {
            files.extend(words.by_ref().cloned());
        } else if let Some(option) = known.iter().find(|&option| word == option) {
            options.push(*option);
        } else if word != "-" && word.as_encoded_bytes().starts_with(b"-") {
            return Err(Stop::Usage(format!("no option `{}`", word.to_string_lossy())));
        } else {
            files.push(word.clone());
        }
    }
    Ok((files, options))
}

/// The files of a subcommand that has no options; standard input if there is none.
fn files(words: &[OsString]) -> Result<Vec<OsString>, Stop> {
    let (mut files, _) = parted(words, &[])?;
    if files.is_empty() {
        files.push("-".into());
    }
    Ok(files)
}

fn plan(words: &[OsString]) -> Result<Ended, Stop> {
    each_sheet(&files(words)?, |planner, sheet, _| planner.plan(sheet).map(<[u8]>::to_vec))
}

fn size(words: &[OsString]) -> Result<Ended, Stop> {
    let files = files(words)?;
    each_sheet(&files, |planner, sheet, name| {
        let figure = planner.size(sheet)?;
        Ok(if files.len() == 1 { format!("{figure}\n") } else { format!("{figure}\t{name}\n") }
            .into_bytes())
    })
}

fn pair(words: &[OsString]) -> Result<Ended, Stop> {
    let (files, options) = parted(words, &["--all"])?;
    let [left, right] = &files[..] else {
        let count = files.len();
        return Err(Stop::Usage(format!(
            "`pair` takes two files, LEFT and RIGHT, and not {count}"
        )));
    };
    if left == "-" && right == "-" {
        let what = "standard input can be LEFT or RIGHT, and not both";
        return Err(Stop::Usage(what.to_string()));
    }
    // Both are read before either is looked at, so that each that cannot be read is told.
    let (Some(left), Some(right)) = (named_sheet(left), named_sheet(right)) else {
        return Ok(Ended::Failed);
    };
    match Planner::new().plan_pair(&left.1, &right.1, options.contains(&"--all")) {
        Ok(plan) => print(plan).map(|()| Ended::Accepted),
        Err(refused) => {
            say(&report::pair_refusal(&left, &right, refused));
            Ok(Ended::Refused)
        }
    }
}

/// A file's name and sheet. That it cannot be read is told.
fn named_sheet(file: &OsStr) -> Option<(String, Vec<u8>)> {
    let name = input::name(file);
    match input::read(file) {
        Ok(sheet) => Some((name, sheet)),
        Err(error) => {
            say(&unread(&name, &error));
            None
        }
    }
}

/// What is said about a file that cannot be read.
fn unread(name: &str, error: &std::io::Error) -> String {
    format!("dresserhawk: {name}: {error}\n")
}

/// Asks about each file's sheet and its name, and prints the answers. A refused
/// sheet or a file that cannot be read is told, and the next one follows.
fn each_sheet(
    files: &[OsString],
    answer: impl Fn(&mut Planner, &[u8], &str) -> Result<Vec<u8>, Refusal>,
) -> Result<Ended, Stop> {
    let mut planner = Planner::new();
    let mut progress = Progress::new(files.len());
    let mut ended = Ended::Accepted;
    for file in files {
        let name = input::name(file);
        progress.next(&name);
        let sheet = match input::read(file) {
            Ok(sheet) => sheet,
            Err(error) => {
                progress.clear();
                say(&unread(&name, &error));
                ended = Ended::Failed;
                continue;
            }
        };
        let answer = answer(&mut planner, &sheet, &name);
        progress.clear();
        match answer {
            Ok(bytes) => print(&bytes)?,
            Err(refusal) => {
                say(&report::refusal(&name, &sheet, refusal));
                ended = ended.max(Ended::Refused);
            }
        }
    }
    Ok(ended)
}
