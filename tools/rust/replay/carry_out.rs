//! Carries out commands.

use crate::hinted::Hinted;
use crate::judge::Judge;
use crate::line::{Command, Step};
use crate::list::{List, reserve_for_hint};
use std::any::Any;
use std::mem;
use std::panic::{self, AssertUnwindSafe};

/// What a call returned, or that it panicked because the capacity would overflow.
pub enum Reply {
    Done,
    Item(Option<u64>),
    Answers(Vec<Option<u64>>),
    Made(List),
    Other(List),
    Overflow,
    /// The iterator still yields the items of `rest`.
    Stopped {
        answers: Vec<Option<u64>>,
        rest: Hinted,
    },
    OutOfRange,
}

/// The message with which the methods of a list panic.
const OVERFLOW: &str = "capacity overflow";

/// Keeps the panics of `attempt` from printing their messages.
pub fn silence_overflows() {
    let print = panic::take_hook();
    panic::set_hook(Box::new(move |info| {
        if !is_overflow(info.payload()) {
            print(info);
        }
    }));
}

/// Carries out a command.
pub fn carry_out(list: &mut List, command: Command) -> Reply {
    if !is_in_range(list, &command) {
        return Reply::OutOfRange;
    }
    match command {
        Command::Push(item) => done(|| list.push(item)),
        Command::Pop => Reply::Item(list.pop()),
        Command::Insert(index, item) => done(|| list.insert(index, item)),
        Command::Remove(index) => Reply::Item(Some(list.remove(index))),
        Command::SwapRemove(index) => Reply::Item(Some(list.swap_remove(index))),
        Command::Set(index, item) => Reply::Item(Some(mem::replace(&mut list[index], item))),
        Command::Truncate(length) => done(|| list.truncate(length)),
        Command::Clear => done(|| list.clear()),
        Command::Reserve(count) => done(|| list.reserve(count)),
        Command::ReserveExact(count) => done(|| list.reserve_exact(count)),
        Command::ShrinkToFit => done(|| list.shrink_to_fit()),
        Command::Resize(length, item) => done(|| list.resize(length, item)),
        Command::ExtendFromSlice(items) => done(|| list.extend_from_slice(&items)),
        Command::Extend(hint, items) => extend(list, Hinted::new(items, hint), hint),
        Command::Append(items) => append(list, items),
        Command::SplitOff(index) => Reply::Made(list.split_off(index)),
        Command::Clone => Reply::Made(list.clone()),
        Command::Retain(mut judge) => done(|| list.retain(|item| judge.look(item))),
        Command::RetainMut(mut judge) => done(|| list.retain_mut(|item| judge.keep(item))),
        Command::Dedup => done(|| list.dedup()),
        Command::DedupBy(mut judge) => done(|| list.dedup_by(|x, y| judge.same(x, y))),
        Command::DedupByKey(mut judge) => done(|| list.dedup_by_key(|item| judge.key(item))),
        Command::Drain(start, end, steps) => {
            let mut drain = list.drain(start..end);
            Reply::Answers(walk(&mut drain, &steps))
        }
        Command::ExtractIf(start, end, calls, judge) => extract(list, start, end, calls, judge),
        Command::Splice(start, end, steps, hint, items) => {
            splice(list, start, end, &steps, Hinted::new(items, hint))
        }
    }
}

/// Returns whether the index or the range of a command is within the list.
fn is_in_range(list: &List, command: &Command) -> bool {
    match *command {
        Command::Insert(index, _) | Command::SplitOff(index) => index <= list.len(),
        Command::Remove(index) | Command::SwapRemove(index) => index < list.len(),
        Command::Set(index, _) => index < list.len(),
        Command::Drain(start, end, _)
        | Command::ExtractIf(start, end, ..)
        | Command::Splice(start, end, ..) => start <= end && end <= list.len(),
        _ => true,
    }
}

fn extend(list: &mut List, mut items: Hinted, hint: usize) -> Reply {
    let filled = attempt(|| {
        reserve_for_hint(list, hint);
        list.extend(&mut items);
    });
    match filled {
        Ok(()) => Reply::Done,
        Err(Overflowed) => Reply::Stopped {
            answers: Vec::new(),
            rest: items,
        },
    }
}

fn append(list: &mut List, items: Vec<u64>) -> Reply {
    let mut other = List::new();
    for item in items {
        other.push(item);
    }
    list.append(&mut other);
    Reply::Other(other)
}

fn extract(list: &mut List, start: usize, end: usize, calls: usize, mut judge: Judge) -> Reply {
    let mut extract = list.extract_if(start..end, |item| judge.keep(item));
    Reply::Answers((0..calls).map(|_| extract.next()).collect())
}

/// A splice is finished when it is dropped.
fn splice(list: &mut List, start: usize, end: usize, steps: &[Step], mut items: Hinted) -> Reply {
    let mut answers = Vec::new();
    let finished = attempt(|| {
        let mut splice = list.splice(start..end, &mut items);
        answers = walk(&mut splice, steps);
    });
    match finished {
        Ok(()) => Reply::Answers(answers),
        Err(Overflowed) => Reply::Stopped {
            answers,
            rest: items,
        },
    }
}

/// Returns what the steps of a walk yield.
fn walk(items: &mut impl DoubleEndedIterator<Item = u64>, steps: &[Step]) -> Vec<Option<u64>> {
    let answer = |step: &Step| match step {
        Step::Front => items.next(),
        Step::Back => items.next_back(),
    };
    steps.iter().map(answer).collect()
}

fn done(call: impl FnOnce()) -> Reply {
    match attempt(call) {
        Ok(()) => Reply::Done,
        Err(Overflowed) => Reply::Overflow,
    }
}

struct Overflowed;

/// Makes a call. Fails if the call panics because the capacity would overflow.
fn attempt(call: impl FnOnce()) -> Result<(), Overflowed> {
    match panic::catch_unwind(AssertUnwindSafe(call)) {
        Ok(()) => Ok(()),
        Err(payload) if is_overflow(&*payload) => Err(Overflowed),
        Err(payload) => panic::resume_unwind(payload),
    }
}

fn is_overflow(payload: &dyn Any) -> bool {
    let text = payload.downcast_ref::<&str>().copied();
    let owned = payload.downcast_ref::<String>().map(String::as_str);
    text.or(owned) == Some(OVERFLOW)
}
