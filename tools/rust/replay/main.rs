//! Does what `crates/thin_replay` does, over Rust's `Vec`: reads commands from standard input, one
//! on each line, carries them out, and prints the reply and the length of the list after each
//! command. The line `items` prints the items.
//!
//! With `--cfg over_crate` it does so over the `ThinVec` of the Rust crate thin-vec, and prints the
//! capacities too. `tools/compare_with_rust` compiles it.

mod answer;
mod carry_out;
mod hinted;
mod judge;
mod line;
mod list;

use crate::carry_out::carry_out;
use crate::line::Line;
use crate::list::List;
use std::io::{self, BufRead, BufWriter, Write};

fn main() -> io::Result<()> {
    carry_out::silence_overflows();
    let mut out = BufWriter::new(io::stdout().lock());
    let mut list = List::new();
    for line in io::stdin().lock().lines() {
        answer_line(&mut out, &mut list, Line::parse(&line?))?;
    }
    out.flush()
}

/// Does what the line asks for, and prints what came of it.
fn answer_line(out: &mut impl Write, list: &mut List, line: Line) -> io::Result<()> {
    match line {
        Line::Help => return answer::write_help(out),
        Line::Items => return answer::write_items(out, list),
        Line::New => {
            *list = List::new();
            write!(out, "new")?;
        }
        Line::Call(command) => answer::write_reply(out, carry_out(list, command))?,
    }
    answer::write_state(out, list)
}
