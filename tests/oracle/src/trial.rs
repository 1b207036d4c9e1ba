//! The program `trial`: a run of requests, each a 4-byte length and its bytes; one answer for each,
//! closed by a line with a dot.

use crate::blocks::occurrences;
use crate::book::check_book;
use crate::build::{build, Lent};
use crate::refusal::{refuse, Refusal};
use crate::sheet::{read_sheet, settings};
use crate::walk::{number_sheet, Tables};
use std::fmt::Display;

/// The room for each argument, in elements: a request over one of them is refused with 30.
pub mod room {
    pub const BOOK: usize = 40_000;
    pub const SHEET: usize = 5_000;
    pub const SETS: usize = 2_200;
    pub const COUNTS: usize = 64;
    pub const UP: usize = 16_384;
    pub const DOWN: usize = 131_072;
    pub const NODES: usize = 12_500;
    pub const GROUPS: usize = 33_000;
}

/// What is left of a request's arguments.
struct Arguments<'a>(&'a [u8]);

impl<'a> Arguments<'a> {
    /// The next argument's bytes: elements of `width` bytes, at most `room` of them.
    fn next(&mut self, width: usize, room: usize) -> Option<&'a [u8]> {
        let (length, rest) = cut_length(self.0)?;
        let bytes = rest.get(..length)?;
        self.0 = &rest[length..];
        (length % width == 0 && length / width <= room).then_some(bytes)
    }

    fn bytes(&mut self, room: usize) -> Option<Vec<u8>> {
        self.next(1, room).map(<[u8]>::to_vec)
    }

    fn numbers<T>(&mut self, room: usize, narrow: impl Fn(u64) -> T) -> Option<Vec<T>> {
        let width = std::mem::size_of::<T>();
        let element = |bytes: &[u8]| narrow(bytes.iter().rev().fold(0, |n, &byte| n << 8 | byte as u64));
        Some(self.next(width, room)?.chunks(width).map(element).collect())
    }

    /// All arguments have been taken.
    fn end(&self) -> Option<()> {
        self.0.is_empty().then_some(())
    }
}

fn cut_length(bytes: &[u8]) -> Option<(usize, &[u8])> {
    let (length, rest) = (bytes.get(..4)?, &bytes[4..]);
    Some((u32::from_le_bytes(length.try_into().ok()?) as usize, rest))
}

fn line<T: Display>(elements: &[T]) -> String {
    let words: Vec<String> = elements.iter().map(T::to_string).collect();
    words.join(" ") + "\n"
}

fn outcome<T>(answer: Result<T, Refusal>, accepted: impl Fn(T) -> String) -> String {
    answer.map_or_else(|refusal| format!("{refusal}\n"), |counts| format!("ok {}\n", accepted(counts)))
}

fn book_call(mut arguments: Arguments) -> Option<String> {
    let book = arguments.bytes(room::BOOK)?;
    arguments.end()?;
    Some(outcome(check_book(&book), |g| format!("{} {}", g.kinds.len(), g.productions.len())))
}

fn sheet_check_call(mut arguments: Arguments) -> Option<String> {
    let (book, sheet) = (arguments.bytes(room::BOOK)?, arguments.bytes(room::SHEET)?);
    arguments.end()?;
    let read = check_book(&book).and_then(|grammar| {
        let nodes = read_sheet(&grammar, &sheet)?;
        Ok((nodes.len(), settings(&grammar, &nodes)))
    });
    Some(outcome(read, |(nodes, settings)| format!("{nodes} {settings}")))
}

fn build_call(mut arguments: Arguments) -> Option<String> {
    let book = arguments.bytes(room::BOOK)?;
    let mut lent = Lent {
        plausible: arguments.numbers(room::SETS, |n| n as u32)?,
        plausible_counts: arguments.bytes(room::COUNTS)?,
        feasible: arguments.numbers(room::SETS, |n| n as u32)?,
        feasible_counts: arguments.bytes(room::COUNTS)?,
        up: arguments.bytes(room::UP)?,
        down: arguments.bytes(room::DOWN)?,
    };
    arguments.end()?;
    let mut text = outcome(build(&book, &mut lent), |(up, down)| format!("{up} {down}"));
    text += &line(&lent.plausible);
    text += &line(&lent.plausible_counts);
    text += &line(&lent.feasible);
    text += &line(&lent.feasible_counts);
    text += &line(&lent.up);
    text += &line(&lent.down);
    Some(text)
}

fn number_call(mut arguments: Arguments) -> Option<String> {
    let (book, sheet) = (arguments.bytes(room::BOOK)?, arguments.bytes(room::SHEET)?);
    let tables = Tables {
        plausible_counts: arguments.bytes(room::COUNTS)?,
        feasible_counts: arguments.bytes(room::COUNTS)?,
        up: arguments.bytes(room::UP)?,
        down: arguments.bytes(room::DOWN)?,
    };
    let mut nodes = arguments.numbers(room::NODES, |n| n)?;
    let mut groups = arguments.numbers(room::GROUPS, |n| n as u16)?;
    arguments.end()?;
    let answer = number_sheet(&book, &sheet, &tables, &mut nodes, &mut groups);
    let mut text = outcome(answer, |(nodes, settings, groups)| format!("{nodes} {settings} {groups}"));
    text += &line(&nodes);
    text += &line(&groups);
    Some(text)
}

fn blocks_call(mut arguments: Arguments) -> Option<String> {
    let down = arguments.bytes(room::DOWN)?;
    let (entry, label) = (arguments.numbers(1, |n| n)?, arguments.bytes(1)?);
    arguments.end()?;
    let set = occurrences(&down, *entry.first()?, *label.first()?);
    Some(format!("{set} {} {}\n", set.count_ones(), set.trailing_zeros()))
}

/// The answer to one request, its dot included.
pub fn answer(request: &[u8]) -> String {
    let text = request.split_first().and_then(|(call, rest)| match call {
        1 => book_call(Arguments(rest)),
        2 => sheet_check_call(Arguments(rest)),
        3 => build_call(Arguments(rest)),
        4 => number_call(Arguments(rest)),
        5 => blocks_call(Arguments(rest)),
        _ => None,
    });
    let malformed = || outcome(refuse(30, 0), |()| String::new());
    text.unwrap_or_else(malformed) + ".\n"
}

/// The answer that C gets to calls 1 and 2, as `tests/c/answers.c` prints it: no counts, and no other calls.
pub fn check_answer(request: &[u8]) -> String {
    let known = matches!(request.first(), Some(1 | 2));
    let text = answer(if known { request } else { &[] });
    if text.starts_with("ok ") {
        "ok\n.\n".to_string()
    } else {
        text
    }
}

/// The answers to a run of requests. A last request that is cut off is malformed.
pub fn answers(mut input: &[u8], answer: impl Fn(&[u8]) -> String) -> String {
    let mut text = String::new();
    while !input.is_empty() {
        let whole = cut_length(input).and_then(|(length, rest)| Some((rest.get(..length)?, &rest[length..])));
        let (request, rest) = whole.unwrap_or((&[], &[]));
        text += &answer(request);
        input = rest;
    }
    text
}
