//! The workloads of `crates/thin_speed` over Rust's `Vec`, or over the list of the Rust crate thin-vec if it is compiled with
//! `--cfg over_crate`. Runs one workload for each line of the input, and prints the sum that it computes.
use std::io::{Write, stdin};
#[cfg(over_crate)]
use thin_vec::ThinVec as Vec;

fn main() {
    for line in stdin().lines() {
        match asked(&line.expect("a line")) {
            Some(sum) => println!("{sum}"),
            None => println!("no workload"),
        }
    }
}

// Does what a line asks for: which list, which workload, of what size and how often.
fn asked(line: &str) -> Option<u64> {
    let words: Vec<&str> = line.split_whitespace().collect();
    let ["rust" | "crate", workload, size, times] = words[..] else {
        return None;
    };
    Some(named(workload)?(size.parse().ok()?, times.parse().ok()?))
}

fn named(workload: &str) -> Option<fn(usize, usize) -> u64> {
    Some(match workload {
        "push" => |size, times| push(size, times, Vec::new, in_turn),
        "push_u8" => |size, times| push(size, times, Vec::new, |number| number as u8),
        "push_u16" => |size, times| push(size, times, Vec::new, |number| number as u16),
        "push_u32" => |size, times| push(size, times, Vec::new, |number| number as u32),
        "push_u128" => |size, times| push(size, times, Vec::new, sixteen),
        "push_3" => |size, times| push(size, times, Vec::new, |number| [number as u8; 3]),
        "push_5" => |size, times| push(size, times, Vec::new, |number| [number as u8; 5]),
        "push_12" => |size, times| push(size, times, Vec::new, |number| [number as u32; 3]),
        "push_20" => |size, times| push(size, times, Vec::new, |number| [number as u32; 5]),
        "push_triples" => |size, times| push(size, times, Vec::new, wide::<2>),
        "push_wide" => |size, times| push(size, times, Vec::new, wide::<39>),
        "push_strings" => |size, times| push(size, times, Vec::new, word),
        "push_reserved" => |size, times| push(size, times, || Vec::with_capacity(size), in_turn),
        "push_reserved_24" => |size, times| push(size, times, || Vec::with_capacity(size), wide::<2>),
        "push_pop" => push_pop,
        "extend_hinted" => extend_hinted,
        "extend_unhinted" => extend_unhinted,
        "extend_filter" => extend_filter,
        "collect_few" => collect,
        "extend_slice" => extend_slice,
        "resize" => resize,
        "clone" => clone,
        "write_five" => write_five,
        "into_iter" => into_iter,
        "refill" => |size, times| refill_alone(size, times, in_turn),
        "refill_u128" => |size, times| refill_alone(size, times, sixteen),
        "refill_pairs" => |size, times| refill_alone(size, times, half),
        "refill_wide" => |size, times| refill_alone(size, times, wide::<39>),
        "insert_front" => insert_front,
        "remove_front" => remove_front,
        "swap_remove" => swap_remove,
        "split_append" => split_append,
        "drain" => drain,
        "drain_inner" => drain_inner,
        "splice_two" => splice_two,
        "splice_more" => splice_more,
        "splice_hinted" => splice_hinted,
        "splice_unhinted" => splice_unhinted,
        "replace_more" => replace_more,
        "shrink_push" => shrink_push,
        "retain_half" => |size, times| retain(size, times, in_turn, is_even),
        "retain_random" => |size, times| retain(size, times, in_turn, is_random),
        "retain_all" => |size, times| retain(size, times, in_turn, is_small),
        "retain_none" => |size, times| retain(size, times, in_turn, |number| number > 1_000_000),
        "wide_half" => |size, times| retain(size, times, wide::<39>, is_even),
        "wide_runs" => |size, times| retain(size, times, wide::<39>, is_in_a_run),
        "dedup" => dedup,
        "extract_if" => |size, times| extract(size, times, in_turn, is_even),
        "extract_most" => |size, times| extract(size, times, in_turn, is_not_one),
        "extract_u128" => |size, times| extract(size, times, sixteen, is_even),
        "extract_most_u128" => |size, times| extract(size, times, sixteen, is_not_one),
        "empty_lists" => empty_lists,
        "sparse_lists" => sparse_lists,
        "styles" => styles,
        "undo" => undo,
        "tree" => |depth, times| tree(depth, 10, times),
        "leaves" => |count, times| tree(1, count, times),
        _ => return None,
    })
}

fn mixed(sum: u64, number: u64) -> u64 {
    sum.wrapping_mul(31).wrapping_add(number)
}

// What tells an item from others.
trait Item {
    fn number(&self) -> u64;
}

// The number of the item in the middle, or 0, and the length.
fn seen<T: Item>(items: &[T]) -> u64 {
    let middle = items.get(items.len() / 2).map_or(0, |item| item.number());
    middle.wrapping_add(items.len() as u64)
}

const FOUR: [u64; 4] = [7; 4];

// An item of several words of 8 bytes.
struct Wide<const REST: usize> {
    number: u64,
    _rest: [u64; REST],
}

impl Item for u64 {
    fn number(&self) -> u64 {
        *self
    }
}

impl Item for u8 {
    fn number(&self) -> u64 {
        *self as u64
    }
}

impl Item for u16 {
    fn number(&self) -> u64 {
        *self as u64
    }
}

impl Item for u32 {
    fn number(&self) -> u64 {
        *self as u64
    }
}

impl Item for u128 {
    fn number(&self) -> u64 {
        *self as u64
    }
}

impl<const N: usize> Item for [u8; N] {
    fn number(&self) -> u64 {
        self.first().map_or(0, |byte| *byte as u64)
    }
}

impl<const N: usize> Item for [u32; N] {
    fn number(&self) -> u64 {
        self.first().map_or(0, |word| *word as u64)
    }
}

impl<const REST: usize> Item for Wide<REST> {
    fn number(&self) -> u64 {
        self.number
    }
}

impl Item for String {
    fn number(&self) -> u64 {
        self.len() as u64
    }
}

fn in_turn(number: usize) -> u64 {
    number as u64
}

fn half(number: usize) -> u64 {
    number as u64 / 2
}

fn sixteen(number: usize) -> u128 {
    number as u128
}

fn wide<const REST: usize>(number: usize) -> Wide<REST> {
    let number = number as u64;
    Wide { number, _rest: [number; REST] }
}

fn word(_number: usize) -> String {
    String::from("a word of some length")
}

// The numbers from `next` up to `end`, of which nothing is known beforehand.
struct Unhinted {
    next: u64,
    end: u64,
}

impl Iterator for Unhinted {
    type Item = u64;

    fn next(&mut self) -> Option<u64> {
        if self.next < self.end {
            self.next += 1;
            return Some(self.next - 1);
        }
        None
    }
}

fn unhinted_below(end: usize) -> Unhinted {
    Unhinted { next: 0, end: end as u64 }
}

fn is_even(number: u64) -> bool {
    number & 1 == 0
}

fn is_random(number: u64) -> bool {
    number.wrapping_mul(0x9e37_79b9_7f4a_7c15) >> 63 == 0
}

fn is_not_one(number: u64) -> bool {
    number != 1
}

fn is_small(number: u64) -> bool {
    number < 1_000_000
}

fn is_in_a_run(number: u64) -> bool {
    number & 15 != 15
}

#[inline(never)]
fn filled(size: usize) -> Vec<u64> {
    let mut list = Vec::with_capacity(size);
    for number in 0..size {
        list.push(number as u64);
    }
    list
}

#[inline(never)]
fn refill<T>(list: &mut Vec<T>, size: usize, item: impl Fn(usize) -> T) {
    list.clear();
    for number in 0..size {
        list.push(item(number));
    }
}

// The sum of so many runs of a closure that makes a new list and answers what is seen of it.
#[inline(always)]
fn sum_of(times: usize, mut run: impl FnMut() -> u64) -> u64 {
    (0..times).fold(0, |sum, _| mixed(sum, run()))
}

#[inline(always)]
fn push<T: Item>(size: usize, times: usize, make: impl Fn() -> Vec<T>, item: impl Fn(usize) -> T) -> u64 {
    sum_of(times, || {
        let mut list = make();
        for number in 0..size {
            list.push(item(number));
        }
        seen(&list)
    })
}

#[inline(never)]
fn push_pop(size: usize, times: usize) -> u64 {
    let mut sum = 0;
    for _ in 0..times {
        let mut list = Vec::new();
        for number in 0..size {
            list.push(number as u64);
        }
        for _ in 0..size {
            if let Some(number) = list.pop() {
                sum = mixed(sum, number);
            }
        }
    }
    sum
}

#[inline(never)]
fn extend_hinted(size: usize, times: usize) -> u64 {
    sum_of(times, || {
        let mut list = Vec::new();
        list.extend((0..size).map(|number| number as u64));
        seen(&list)
    })
}

#[inline(never)]
fn extend_unhinted(size: usize, times: usize) -> u64 {
    sum_of(times, || {
        let mut list = Vec::new();
        list.extend(unhinted_below(size));
        seen(&list)
    })
}

#[inline(never)]
fn extend_filter(size: usize, times: usize) -> u64 {
    let source = filled(size);
    sum_of(times, || {
        let mut list = Vec::new();
        list.extend(source.iter().copied().filter(|number| *number & 1 == 0));
        seen(&list)
    })
}

#[inline(never)]
fn collect(size: usize, times: usize) -> u64 {
    sum_of(times, || seen(&(0..size).map(|number| number as u64).collect::<Vec<u64>>()))
}

#[inline(never)]
fn extend_slice(size: usize, times: usize) -> u64 {
    let source = filled(size);
    sum_of(times, || {
        let mut list = Vec::new();
        list.extend_from_slice(&source);
        seen(&list)
    })
}

#[inline(never)]
fn resize(size: usize, times: usize) -> u64 {
    sum_of(times, || {
        let mut list = Vec::new();
        list.resize(size, 7u64);
        seen(&list)
    })
}

#[inline(never)]
fn clone(size: usize, times: usize) -> u64 {
    let source = filled(size);
    sum_of(times, || seen(&source.clone()))
}

#[inline(never)]
fn write_five(size: usize, times: usize) -> u64 {
    sum_of(times, || {
        let mut list: Vec<u8> = Vec::new();
        for _ in 0..size {
            if list.write_all(b"hello").is_err() {
                return 0;
            }
        }
        list.len() as u64
    })
}

#[inline(never)]
fn into_iter(size: usize, times: usize) -> u64 {
    let mut sum = 0;
    for _ in 0..times {
        for number in filled(size) {
            sum = mixed(sum, number);
        }
    }
    sum
}

// The same of a list that is filled anew each time.
#[inline(always)]
fn sum_of_refilled<T: Item>(
    size: usize,
    times: usize,
    item: impl Fn(usize) -> T,
    mut edit: impl FnMut(&mut Vec<T>),
) -> u64 {
    let mut list = Vec::with_capacity(size);
    sum_of(times, || {
        refill(&mut list, size, &item);
        edit(&mut list);
        seen(&list)
    })
}

#[inline(always)]
fn refill_alone<T: Item>(size: usize, times: usize, item: impl Fn(usize) -> T) -> u64 {
    sum_of_refilled(size, times, item, |_list| ())
}

#[inline(never)]
fn insert_front(size: usize, times: usize) -> u64 {
    let mut list = filled(size);
    let mut sum = 0;
    for number in 0..times {
        list.insert(0, number as u64);
        if let Some(last) = list.pop() {
            sum = mixed(sum, last);
        }
    }
    mixed(sum, seen(&list))
}

#[inline(never)]
fn remove_front(size: usize, times: usize) -> u64 {
    let mut list = filled(size);
    let mut sum = 0;
    for _ in 0..times {
        if !list.is_empty() {
            let number = list.remove(0);
            sum = mixed(sum, number);
            list.push(number.wrapping_add(1));
        }
    }
    mixed(sum, seen(&list))
}

#[inline(never)]
fn swap_remove(size: usize, times: usize) -> u64 {
    let mut list = filled(size);
    let mut sum = 0;
    for _ in 0..times {
        refill(&mut list, size, in_turn);
        for _ in 0..size {
            let len = list.len();
            if len > 0 {
                sum = mixed(sum, list.swap_remove(len / 2));
            }
        }
    }
    sum
}

#[inline(never)]
fn split_append(size: usize, times: usize) -> u64 {
    let mut list = filled(size);
    sum_of(times, || {
        let mut tail = list.split_off(list.len() / 2);
        list.append(&mut tail);
        seen(&list)
    })
}

#[inline(never)]
fn drain(size: usize, times: usize) -> u64 {
    let mut list = filled(size);
    let mut sum = 0;
    for _ in 0..times {
        refill(&mut list, size, in_turn);
        let start = list.len() / 4;
        for number in list.drain(start..list.len() - start) {
            sum = mixed(sum, number);
        }
        sum = mixed(sum, seen(&list));
    }
    sum
}

#[inline(never)]
fn drain_inner(size: usize, times: usize) -> u64 {
    let mut list = filled(size);
    let mut sum = 0;
    for number in 0..times {
        if list.len() >= 5 {
            for number in list.drain(3..5) {
                sum = mixed(sum, number);
            }
        }
        for more in 3..5usize {
            list.push(number.wrapping_add(more) as u64);
        }
    }
    mixed(sum, seen(&list))
}

#[inline(never)]
fn splice_two(size: usize, times: usize) -> u64 {
    let mut list = filled(size);
    for first in 0..times {
        if list.len() >= 5 {
            drop(list.splice(3..5, (0..2usize).map(|number| number.wrapping_add(first) as u64)));
        }
    }
    seen(&list)
}

#[inline(never)]
fn splice_more(size: usize, times: usize) -> u64 {
    let mut list = filled(size);
    let mut sum = 0;
    for first in 0..times {
        if !list.is_empty() {
            drop(list.splice(0..1, (0..3usize).map(|number| number.wrapping_add(first) as u64)));
        }
        sum = pop_two(&mut list, sum);
    }
    mixed(sum, seen(&list))
}

#[inline(never)]
fn replace_more(size: usize, times: usize) -> u64 {
    let mut list = filled(size);
    let mut sum = 0;
    for number in 0..times {
        let start = 5 + (number & 1);
        replace(&mut list, start, start + 2, &FOUR);
        sum = pop_two(&mut list, sum);
    }
    mixed(sum, seen(&list))
}

#[inline(never)]
fn replace(list: &mut Vec<u64>, start: usize, end: usize, items: &[u64]) {
    if start <= end && end <= list.len() {
        drop(list.splice(start..end, items.iter().copied()));
    }
}

#[inline(never)]
fn shrink_push(size: usize, times: usize) -> u64 {
    let mut list = filled(size);
    let mut sum = 0;
    for number in 0..times {
        list.shrink_to_fit();
        list.push(number as u64);
        if let Some(last) = list.pop() {
            sum = mixed(sum, last);
        }
    }
    mixed(sum, seen(&list))
}

#[inline(always)]
fn pop_two(list: &mut Vec<u64>, sum: u64) -> u64 {
    let mut sum = sum;
    for _ in 0..2 {
        if let Some(last) = list.pop() {
            sum = mixed(sum, last);
        }
    }
    sum
}

#[inline(never)]
fn splice_hinted(size: usize, times: usize) -> u64 {
    sum_of_refilled(size, times, in_turn, |list| {
        let start = list.len() / 4;
        drop(list.splice(start..list.len() - start, (0..size).map(|number| number as u64)));
    })
}

#[inline(never)]
fn splice_unhinted(size: usize, times: usize) -> u64 {
    sum_of_refilled(size, times, in_turn, |list| {
        let start = list.len() / 4;
        drop(list.splice(start..list.len() - start, unhinted_below(size)));
    })
}

#[inline(always)]
fn retain<T: Item>(size: usize, times: usize, item: impl Fn(usize) -> T, keep: impl Fn(u64) -> bool) -> u64 {
    sum_of_refilled(size, times, item, |list| list.retain(|item| keep(item.number())))
}

#[inline(never)]
fn dedup(size: usize, times: usize) -> u64 {
    sum_of_refilled(size, times, half, |list| list.dedup())
}

#[inline(always)]
fn extract<T: Item>(size: usize, times: usize, item: impl Fn(usize) -> T, take: impl Fn(u64) -> bool) -> u64 {
    let mut list = Vec::with_capacity(size);
    let mut sum = 0;
    for _ in 0..times {
        refill(&mut list, size, &item);
        for item in list.extract_if(.., |item| take(item.number())) {
            sum = mixed(sum, item.number());
        }
        sum = mixed(sum, seen(&list));
    }
    sum
}

#[inline(never)]
fn empty_lists(size: usize, times: usize) -> u64 {
    sum_of(times, || {
        let mut lists: Vec<Vec<u64>> = Vec::new();
        for _ in 0..size {
            lists.push(Vec::new());
        }
        items_of(&lists)
    })
}

#[inline(never)]
fn sparse_lists(size: usize, times: usize) -> u64 {
    sum_of(times, || {
        let mut lists: Vec<Vec<u64>> = Vec::new();
        for number in 0..size {
            let mut list = Vec::new();
            if number & 15 == 0 {
                list.push(number as u64);
                list.push(1);
                list.push(2);
            }
            lists.push(list);
        }
        items_of(&lists)
    })
}

// The number of lists, and the sum of all items.
fn items_of(lists: &Vec<Vec<u64>>) -> u64 {
    let mut sum = lists.len() as u64;
    for list in lists {
        for number in list {
            sum = sum.wrapping_add(*number);
        }
    }
    sum
}

#[inline(never)]
fn styles(size: usize, times: usize) -> u64 {
    sum_of(times, || {
        let mut styles = Vec::new();
        for number in 0..size {
            styles.push(style(number));
        }
        repeated(&styles)
    })
}

fn style(number: usize) -> Vec<u32> {
    let mut style = Vec::new();
    for rule in 0..number & 3 {
        style.push(rule as u32);
    }
    if number & 7 == 7 {
        style.insert(0, 9);
    }
    style
}

// How many styles are equal to the one before.
fn repeated(styles: &[Vec<u32>]) -> u64 {
    let mut same = 0u64;
    for at in 1..styles.len() {
        if styles[at] == styles[at - 1] {
            same = same.wrapping_add(1);
        }
    }
    same
}

#[inline(never)]
fn undo(size: usize, times: usize) -> u64 {
    let mut steps: Vec<Vec<u8>> = Vec::new();
    let mut sum = 0;
    for _ in 0..times {
        for number in 0..size {
            let mut step = Vec::new();
            step.push(number as u8);
            step.push(1);
            steps.push(step);
            if number % 5 == 4
                && let Some(undone) = steps.pop()
            {
                sum = mixed(sum, undone.len() as u64);
            }
        }
        steps.clear();
    }
    sum
}

struct Node {
    depth: u64,
    children: Vec<Node>,
}

#[inline(never)]
fn tree(depth: usize, width: usize, times: usize) -> u64 {
    sum_of(times, || depths(&build(depth, width)))
}

// Builds a tree of this depth, in which each node above the leaves has `width` children.
fn build(depth: usize, width: usize) -> Node {
    let mut children = Vec::new();
    if depth > 0 {
        for _ in 0..width {
            children.push(build(depth - 1, width));
        }
    }
    Node { depth: depth as u64, children }
}

// The sum of the depths of all nodes.
fn depths(node: &Node) -> u64 {
    let mut sum = node.depth;
    for child in &node.children {
        sum = sum.wrapping_add(depths(child));
    }
    sum
}
