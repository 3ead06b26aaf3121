//! What the program prints after a command.

use crate::carry_out::Reply;
use crate::line::{FORMS, NOTES};
use crate::list::{List, capacity_of};
use std::io::{self, Write};

/// Writes the forms of the lines, one on each line, and what their words mean.
pub fn write_help(out: &mut impl Write) -> io::Result<()> {
    for form in FORMS {
        writeln!(out, "{form}")?;
    }
    writeln!(out)?;
    for note in NOTES {
        writeln!(out, "{note}")?;
    }
    Ok(())
}

/// Writes the items of the list, and ends the line.
pub fn write_items(out: &mut impl Write, list: &List) -> io::Result<()> {
    writeln!(out, "items {list:?}")
}

/// Writes the length and the capacity of the list, and ends the line.
pub fn write_state(out: &mut impl Write, list: &List) -> io::Result<()> {
    let (length, capacity) = (list.len(), capacity_of(list));
    writeln!(out, "; length {length}{capacity}")
}

/// Writes the reply.
pub fn write_reply(out: &mut impl Write, reply: Reply) -> io::Result<()> {
    match reply {
        Reply::Done => write!(out, "done"),
        Reply::Item(item) => write!(out, "item {item:?}"),
        Reply::Answers(answers) => write!(out, "answers {answers:?}"),
        Reply::Made(list) => write!(out, "list {list:?}{}", capacity_of(&list)),
        Reply::Other(other) => write!(out, "other {other:?}{}", capacity_of(&other)),
        Reply::Overflow => write!(out, "failed: capacity overflow"),
        Reply::Stopped { answers, rest } => {
            let front = "failed: capacity overflow; answers";
            write!(out, "{front} {answers:?}; held []; in hand None; rest")?;
            for item in rest {
                write!(out, " {item:?}")?;
            }
            Ok(())
        }
        Reply::OutOfRange => write!(out, "out of range"),
    }
}
