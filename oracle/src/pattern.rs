//! Reading a pattern file: the expression it holds, or why it is refused.
//!
//! Every kind of refusal has its own pass over the whole file that finds the
//! first command it fits, as if there were no other kind. Only then is the
//! earliest command chosen, and the least number among those that fit it.

use std::collections::BTreeSet;

use crate::command::{self, ByteFault, Command};
use crate::expression::{self, Expression};

pub const MOST_BYTES: usize = 65_536;
pub const MOST_POSITIONS: usize = 64;
pub const MOST_COMMANDS: usize = 512;
pub const MOST_RANK: u8 = 4;

/// A file that was accepted.
#[derive(Debug, PartialEq, Eq)]
pub struct Pattern {
    pub expression: Expression,
    pub positions: Vec<Position>,
}

#[derive(Clone, Copy, Debug, PartialEq, Eq)]
pub enum Position {
    Constant { code: u16 },
    Node { code: u16, rank: u8, points: u8 },
}

impl Position {
    pub fn rank(self) -> usize {
        match self {
            Position::Constant { .. } => 0,
            Position::Node { rank, .. } => rank.into(),
        }
    }
}

#[derive(Clone, Copy, Debug, PartialEq, Eq)]
pub struct Refusal {
    pub reason: Reason,
    pub at: usize,
}

/// The kinds of refusal; the derived order is the order of their numbers.
#[derive(Clone, Copy, Debug, PartialEq, Eq, PartialOrd, Ord)]
pub enum Reason {
    NoCommand,
    OperandsMissing,
    CodeZero,
    RankOutside,
    PartsMissing,
    NotOnePart { pending: usize },
    TooManyPositions,
    TooManyCommands,
    TooManyBytes,
}

impl Reason {
    pub fn number(self) -> u32 {
        match self {
            Reason::NoCommand => 1,
            Reason::OperandsMissing => 2,
            Reason::CodeZero => 3,
            Reason::RankOutside => 4,
            Reason::PartsMissing => 5,
            Reason::NotOnePart { .. } => 6,
            Reason::TooManyPositions => 7,
            Reason::TooManyCommands => 8,
            Reason::TooManyBytes => 17,
        }
    }
}

pub fn read(file: &[u8]) -> Result<Pattern, Refusal> {
    if file.len() > MOST_BYTES {
        return Err(Refusal {
            reason: Reason::TooManyBytes,
            at: MOST_BYTES,
        });
    }
    let split = command::split(file);
    if let Some((index, reason)) = first_refused_command(&split) {
        return Err(Refusal {
            reason,
            at: split.places[index],
        });
    }

    let mut pending = expression::build(&split.commands);
    if pending.len() != 1 {
        let reason = Reason::NotOnePart {
            pending: pending.len(),
        };
        return Err(Refusal {
            reason,
            at: file.len(),
        });
    }
    let expression = pending.remove(0);

    // From here on the tree alone stands for the file.
    assert_eq!(expression.encode(), file, "the tree re-encodes to the file");
    let positions = positions(&expression.commands());
    Ok(Pattern {
        expression,
        positions,
    })
}

/// The index of the first command refused, with the reason of least number.
fn first_refused_command(split: &command::Split) -> Option<(usize, Reason)> {
    let commands = &split.commands;
    let first_fits = [
        (
            byte_fault_index(split, ByteFault::NoCommand),
            Reason::NoCommand,
        ),
        (
            byte_fault_index(split, ByteFault::OperandsMissing),
            Reason::OperandsMissing,
        ),
        (first_code_zero(commands), Reason::CodeZero),
        (first_rank_outside(commands), Reason::RankOutside),
        (first_parts_missing(commands), Reason::PartsMissing),
        (
            position_openings(commands).get(MOST_POSITIONS).copied(),
            Reason::TooManyPositions,
        ),
        (first_beyond_table(commands), Reason::TooManyCommands),
    ];
    // Pairs compare by index first and by reason at the same index.
    first_fits
        .into_iter()
        .filter_map(|(index, reason)| Some((index?, reason)))
        .min()
}

/// The command that could not be split off comes after all those that were.
fn byte_fault_index(split: &command::Split, fault: ByteFault) -> Option<usize> {
    (split.fault == Some(fault)).then_some(split.commands.len())
}

fn first_code_zero(commands: &[Command]) -> Option<usize> {
    commands
        .iter()
        .position(|command| command.code() == Some(0))
}

fn first_rank_outside(commands: &[Command]) -> Option<usize> {
    commands.iter().position(
        |command| matches!(command, Command::Node { rank, .. } if !(1..=MOST_RANK).contains(rank)),
    )
}

/// The commands before command `i` left `i` parts in all, so the commands up to
/// and with it may together take no more than that.
fn first_parts_missing(commands: &[Command]) -> Option<usize> {
    let taken_after = commands.iter().scan(0, |taken: &mut usize, command| {
        *taken += command.takes();
        Some(*taken)
    });
    taken_after
        .enumerate()
        .find(|(index, taken)| taken > index)
        .map(|(index, _)| index)
}

fn first_beyond_table(commands: &[Command]) -> Option<usize> {
    (commands.len() > MOST_COMMANDS).then_some(MOST_COMMANDS)
}

/// The indices of the commands that name a new position, in order.
fn position_openings(commands: &[Command]) -> Vec<usize> {
    let mut constants = BTreeSet::new();
    let opens = |command: &Command| match command.constant() {
        Some(code) => constants.insert(code),
        None => matches!(command, Command::Node { .. }),
    };
    let opening: Vec<bool> = commands.iter().map(opens).collect();
    (0..commands.len())
        .filter(|&index| opening[index])
        .collect()
}

fn positions(commands: &[Command]) -> Vec<Position> {
    let position = |index: usize| match commands[index] {
        Command::Node { code, rank, points } => Position::Node { code, rank, points },
        Command::Leaf { code } | Command::Product { code } | Command::Closure { code } => {
            Position::Constant { code }
        }
        Command::Sum => unreachable!("a sum names no position"),
    };
    position_openings(commands)
        .into_iter()
        .map(position)
        .collect()
}

#[cfg(test)]
mod tests {
    use super::*;

    fn refusal(file: &[u8]) -> Option<(u32, usize)> {
        read(file)
            .err()
            .map(|refusal| (refusal.reason.number(), refusal.at))
    }

    #[test]
    fn accepts_and_refuses() {
        assert_eq!(refusal(b"L\0\x01"), None);
        assert_eq!(refusal(b""), Some((6, 0)));
        assert_eq!(refusal(b"L\0\x01l"), Some((1, 3)));
        assert_eq!(refusal(b"N\0\0\x09"), Some((2, 0)));
        assert_eq!(refusal(b"N\0\0\x09\0"), Some((3, 0)));
        assert_eq!(refusal(b"N\0\x01\x05\0"), Some((4, 0)));
        assert_eq!(refusal(b"L\0\x01+l"), Some((5, 3)));
        assert_eq!(refusal(b"L\0\x01L\0\x01"), Some((6, 6)));
    }

    #[test]
    fn keeps_the_limits() {
        let constants = |count: u8| -> Vec<u8> { (1..=count).flat_map(|c| [b'L', 0, c]).collect() };
        assert_eq!(refusal(&constants(64)), Some((6, 192)));
        assert_eq!(refusal(&constants(65)), Some((7, 192)));
        assert_eq!(refusal(&b"L\0\x01".repeat(512)), Some((6, 1536)));
        assert_eq!(refusal(&b"L\0\x01".repeat(513)), Some((8, 1536)));
        assert_eq!(refusal(&[0; MOST_BYTES]), Some((1, 0)));
        assert_eq!(refusal(&[0; MOST_BYTES + 1]), Some((17, MOST_BYTES)));
    }
}
