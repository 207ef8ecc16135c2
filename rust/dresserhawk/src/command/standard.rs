//! Standard input and output, told apart from closed ones. Before `main` the
//! Rust runtime opens /dev/null in the place of what is closed, so that output
//! would be lost in silence; whether it was open is asked before that.

use std::io::{Error, Read, Write};
use std::sync::atomic::{AtomicBool, Ordering};

static CLOSED: [AtomicBool; 2] = [const { AtomicBool::new(false) }; 2];

const F_GETFD: i32 = 1;

unsafe extern "C" {
    fn fcntl(descriptor: i32, command: i32) -> i32;
}

extern "C" fn look() {
    for (descriptor, closed) in CLOSED.iter().enumerate() {
        // F_GETFD only asks; of a closed descriptor the answer is -1.
        let answer = unsafe { fcntl(descriptor as i32, F_GETFD) };
        closed.store(answer == -1, Ordering::Relaxed);
    }
}

/// Run by the loader before the Rust runtime starts.
#[used]
#[unsafe(link_section = ".init_array")]
static LOOK: extern "C" fn() = look;

fn open(descriptor: usize) -> std::io::Result<()> {
    if CLOSED[descriptor].load(Ordering::Relaxed) {
        Err(Error::other("it is closed"))
    } else {
        Ok(())
    }
}

pub fn input() -> std::io::Result<impl Read> {
    open(0).map(|()| std::io::stdin().lock())
}

pub fn output() -> std::io::Result<impl Write> {
    open(1).map(|()| std::io::stdout().lock())
}
