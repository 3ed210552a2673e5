//! The same job in plain Rust: reads frames from standard input, a line of hexadecimal digits each,
//! and writes a line of answer for each to standard output.

mod book;
mod curve;
mod frame;
mod instrument;
mod refusal;
mod session;
mod terms;

use std::io::{self, Read, Write};

use session::Session;

fn main() -> io::Result<()> {
    let mut input = Vec::new();
    io::stdin().lock().read_to_end(&mut input)?;
    let mut answers = Vec::new();
    if !input.is_empty() {
        let text = input.strip_suffix(b"\n").unwrap_or(&input);
        let mut session = Session::default();
        for line in text.split(|&byte| byte == b'\n') {
            session.answer(line, &mut answers);
        }
    }
    io::stdout().lock().write_all(&answers)
}
