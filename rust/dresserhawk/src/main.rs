//! The command `dresserhawk`: the proved calls for a shell. `--help` says how.

mod command;

fn main() -> std::process::ExitCode {
    command::main()
}
