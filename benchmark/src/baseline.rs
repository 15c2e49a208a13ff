//! The baseline as a program: it reads standard input and prints as the proved
//! programs do.

use benchmark::plain::{shelf, Session};
use std::io::{self, BufRead, Read, Write};

/// How much is read and printed at a time.
const BUFFER_SIZE: usize = 1 << 16;

pub fn run_shelf() -> io::Result<()> {
    let mut text = Vec::with_capacity(BUFFER_SIZE);
    io::stdin().lock().read_to_end(&mut text)?;
    let mut out = Vec::with_capacity(BUFFER_SIZE);
    shelf(&text, &mut out);
    io::stdout().lock().write_all(&out)
}

pub fn run_replay() -> io::Result<()> {
    let mut input = io::BufReader::with_capacity(BUFFER_SIZE, io::stdin().lock());
    let mut output = io::stdout().lock();
    let mut session = Session::default();
    let mut line = Vec::new();
    let mut out = Vec::with_capacity(2 * BUFFER_SIZE);
    while input.read_until(b'\n', &mut line)? > 0 {
        session.line(&line, &mut out);
        line.clear();
        if out.len() >= BUFFER_SIZE {
            output.write_all(&out)?;
            out.clear();
        }
    }
    output.write_all(&out)
}
