//! Answers one line for each question on standard input. `oracle/README.md` has the table of questions.
//!
//! With the argument `--reasons`, why the Rust panics goes to standard error.

mod answer;
mod base;
mod calculator;
mod domain;
mod fault;
mod guard;
mod line;
mod question;
mod round;
mod rule;
mod table;
mod wide;
mod words;

use line::Line;
use std::io::{self, BufRead, BufWriter, Write};

fn main() -> io::Result<()> {
    if std::env::args().nth(1).as_deref() != Some("--reasons") {
        std::panic::set_hook(Box::new(|_| {}));
    }
    let mut input = io::stdin().lock();
    let mut output = BufWriter::new(io::stdout().lock());
    let mut bytes = Vec::new();
    for number in 1.. {
        bytes.clear();
        if input.read_until(b'\n', &mut bytes)? == 0 {
            break;
        }
        let answered = match line::read(&bytes) {
            Line::PassedOver => continue,
            Line::Unreadable => Err("unreadable".to_string()),
            Line::Words(words) => {
                question::answer(&words).map_err(|fault| fault.reason().to_string())
            }
        };
        match answered {
            Ok(answer) => writeln!(output, "{answer}")?,
            Err(reason) => writeln!(output, "line {number}: {reason}")?,
        }
    }
    output.flush()
}
