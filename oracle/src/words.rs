//! Words of case lines, told by what they stand for.

use std::ops::RangeInclusive;

use crate::case_line::{times, word};
use crate::command::Command;

pub fn leaf(code: u16) -> String {
    word(&Command::Leaf { code }.encode())
}

pub fn node(code: u16, rank: u8, points: u8) -> String {
    word(&Command::Node { code, rank, points }.encode())
}

pub fn sum() -> String {
    word(&Command::Sum.encode())
}

pub fn product(code: u16) -> String {
    word(&Command::Product { code }.encode())
}

pub fn closure(code: u16) -> String {
    word(&Command::Closure { code }.encode())
}

/// A leaf for every code, all left pending.
pub fn leaves(codes: RangeInclusive<u16>) -> String {
    codes.map(leaf).collect()
}

/// A closure for every code; the number pending stays as it is.
pub fn closures(codes: RangeInclusive<u16>) -> String {
    codes.map(closure).collect()
}

/// So many nodes of one code and rank 1; the number pending stays as it is.
pub fn chain(code: u16, nodes: usize) -> String {
    times(&node(code, 1, 0), nodes)
}

/// Bytes that need be no command: `hex` is written as it is.
pub fn raw(hex: &str) -> String {
    hex.to_string()
}

/// A case line in which commands are told in short: `7` is the leaf 7, `5/2` the
/// node 5 of rank 2, `5/2:9` the same with 9 points, `+` the sum, `.7` the product
/// at 7 and `*7` the closure at 7.
pub fn postfix(text: &str) -> String {
    let words: Vec<String> = text.split(' ').map(postfix_word).collect();
    case(&words)
}

fn postfix_word(text: &str) -> String {
    let number = |digits: &str| -> u16 { digits.parse().expect("a number in a hand-picked case") };
    if text == "+" {
        return sum();
    }
    if let Some(code) = text.strip_prefix('.') {
        return product(number(code));
    }
    if let Some(code) = text.strip_prefix('*') {
        return closure(number(code));
    }
    let Some((code, rank)) = text.split_once('/') else {
        return leaf(number(text));
    };
    let (rank, points) = rank.split_once(':').unwrap_or((rank, "0"));
    node(number(code), number(rank) as u8, number(points) as u8)
}

/// The file that `postfix` makes a case line of.
#[cfg(test)]
pub fn postfix_file(text: &str) -> Vec<u8> {
    crate::case_line::parse_line(&postfix(text)).expect("words make a case line")
}

/// A case line of these words.
pub fn case(words: &[String]) -> String {
    words.join(" ")
}
