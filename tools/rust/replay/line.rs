//! The lines of the input.

use crate::judge::Judge;
use std::fmt::Debug;
use std::str::FromStr;

pub enum Step {
    Front,
    Back,
}

/// A command, with its words as values. A judge stands last.
pub enum Command {
    Push(u64),
    Pop,
    Insert(usize, u64),
    Remove(usize),
    SwapRemove(usize),
    Set(usize, u64),
    Truncate(usize),
    Clear,
    Reserve(usize),
    ReserveExact(usize),
    ShrinkToFit,
    Resize(usize, u64),
    ExtendFromSlice(Vec<u64>),
    Extend(usize, Vec<u64>),
    Append(Vec<u64>),
    SplitOff(usize),
    Clone,
    Retain(Judge),
    RetainMut(Judge),
    Dedup,
    DedupBy(Judge),
    DedupByKey(Judge),
    Drain(usize, usize, Vec<Step>),
    ExtractIf(usize, usize, usize, Judge),
    Splice(usize, usize, Vec<Step>, usize, Vec<u64>),
}

pub enum Line {
    Help,
    New,
    Items,
    Call(Command),
}

/// The forms of the lines, each with the name of the command as its first word.
pub const FORMS: [&str; 28] = [
    "help",
    "new",
    "items",
    "push ITEM",
    "pop",
    "insert INDEX ITEM",
    "remove INDEX",
    "swap_remove INDEX",
    "set INDEX ITEM",
    "truncate LENGTH",
    "clear",
    "reserve COUNT",
    "reserve_exact COUNT",
    "shrink_to_fit",
    "resize LENGTH ITEM",
    "extend_from_slice ITEM ..",
    "extend HINT ITEM ..",
    "append ITEM ..",
    "split_off INDEX",
    "clone",
    "retain DIVISOR STRIDE ADDED",
    "retain_mut DIVISOR STRIDE ADDED",
    "dedup",
    "dedup_by DIVISOR STRIDE ADDED",
    "dedup_by_key DIVISOR STRIDE ADDED",
    "drain START END STEPS",
    "extract_if START END CALLS DIVISOR STRIDE ADDED",
    "splice START END STEPS HINT ITEM ..",
];

/// What the words of the forms mean.
pub const NOTES: [&str; 11] = [
    "All numbers are from 0 to 18446744073709551615.",
    "STEPS is `-`, or a word of the letters `f` (a call of `next`) and `b` (of `next_back`).",
    "CALLS is the number of calls of `next`.",
    "HINT is the lower bound of the iterator's size hint.",
    "DIVISOR, STRIDE and ADDED describe a closure. Call k, from 0, computes n = item + k * STRIDE.",
    "It returns n / DIVISOR for `dedup_by_key`, n % DIVISOR == kept % DIVISOR for `dedup_by`, and",
    "n % DIVISOR == 0 otherwise. It then adds ADDED to each item that it may change, which are all",
    "but those of `retain`. Sums are modulo 2^64.",
    "All lines are read, and kept in memory, before the first command is carried out.",
    "A reply takes 16 bytes of memory for each call of `next` and `next_back`.",
    "`rt try` gives no answer after 60 seconds, or past 1 MiB of output; `rt run` has no limits.",
];

impl Line {
    /// Parses a line. Panics if it is none of the forms.
    pub fn parse(text: &str) -> Line {
        let words: Vec<&str> = text.split_whitespace().collect();
        match words[..] {
            ["help"] => Line::Help,
            ["new"] => Line::New,
            ["items"] => Line::Items,
            _ => Line::Call(command(&words)),
        }
    }
}

fn command(words: &[&str]) -> Command {
    match *words {
        ["push", item] => Command::Push(number(item)),
        ["pop"] => Command::Pop,
        ["insert", index, item] => Command::Insert(number(index), number(item)),
        ["remove", index] => Command::Remove(number(index)),
        ["swap_remove", index] => Command::SwapRemove(number(index)),
        ["set", index, item] => Command::Set(number(index), number(item)),
        ["truncate", length] => Command::Truncate(number(length)),
        ["clear"] => Command::Clear,
        ["reserve", count] => Command::Reserve(number(count)),
        ["reserve_exact", count] => Command::ReserveExact(number(count)),
        ["shrink_to_fit"] => Command::ShrinkToFit,
        ["resize", length, item] => Command::Resize(number(length), number(item)),
        ["extend_from_slice", ref items @ ..] => Command::ExtendFromSlice(items_of(items)),
        ["extend", hint, ref items @ ..] => Command::Extend(number(hint), items_of(items)),
        ["append", ref items @ ..] => Command::Append(items_of(items)),
        ["split_off", index] => Command::SplitOff(number(index)),
        ["clone"] => Command::Clone,
        ["retain", ref judge @ ..] => Command::Retain(judge_of(judge)),
        ["retain_mut", ref judge @ ..] => Command::RetainMut(judge_of(judge)),
        ["dedup"] => Command::Dedup,
        ["dedup_by", ref judge @ ..] => Command::DedupBy(judge_of(judge)),
        ["dedup_by_key", ref judge @ ..] => Command::DedupByKey(judge_of(judge)),
        ["drain", start, end, steps] => Command::Drain(number(start), number(end), steps_of(steps)),
        ["extract_if", start, end, calls, ref judge @ ..] => {
            Command::ExtractIf(number(start), number(end), number(calls), judge_of(judge))
        }
        ["splice", start, end, steps, hint, ref items @ ..] => Command::Splice(
            number(start),
            number(end),
            steps_of(steps),
            number(hint),
            items_of(items),
        ),
        _ => panic!("no form: {words:?}"),
    }
}

fn number<N: FromStr<Err: Debug>>(word: &str) -> N {
    word.parse().unwrap()
}

fn items_of(words: &[&str]) -> Vec<u64> {
    words.iter().map(|word| number(word)).collect()
}

fn judge_of(words: &[&str]) -> Judge {
    let [divisor, stride, added] = words else {
        panic!("no judge: {words:?}");
    };
    Judge {
        divisor: number(divisor),
        stride: number(stride),
        added: number(added),
        offset: 0,
    }
}

fn steps_of(word: &str) -> Vec<Step> {
    let letters = if word == "-" { "" } else { word };
    letters.chars().map(step_of).collect()
}

fn step_of(letter: char) -> Step {
    match letter {
        'f' => Step::Front,
        'b' => Step::Back,
        _ => panic!("no step: {letter}"),
    }
}
