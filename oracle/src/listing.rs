//! The text printed for a pattern file.

use crate::climb;
use crate::command::Command;
use crate::parts::parts;
use crate::pattern::{self, Pattern, Position, Reason, Refusal};
use crate::slots::{Link, Slot, members, slots};

/// The whole listing of a file, as the program prints it; every line ends with byte 10.
pub fn listing(file: &[u8]) -> String {
    told(file, Detail::Positions)
}

/// The same with a line for each slot and its link, which the program does not print yet.
pub fn listing_with_links(file: &[u8]) -> String {
    told(file, Detail::Links)
}

/// How far a listing goes.
#[derive(Clone, Copy, PartialEq)]
enum Detail {
    Positions,
    Links,
}

fn told(file: &[u8], detail: Detail) -> String {
    let lines = match pattern::read(file) {
        Ok(pattern) => accepted_lines(&pattern, detail),
        Err(refusal) => vec![
            format!("fault P {} {}", refusal.reason.number(), refusal.at),
            sentence(&refusal),
        ],
    };
    lines
        .into_iter()
        .flat_map(|line| [line, "\n".to_string()])
        .collect()
}

/// Everything is told from the tree, the places too: each command begins where
/// the bytes of the one before it end.
fn accepted_lines(pattern: &Pattern, detail: Detail) -> Vec<String> {
    let commands = pattern.expression.commands();
    let mut lines = Vec::new();
    let mut at = 0;
    for command in &commands {
        lines.push(format!("at {at}: {}", command_words(command)));
        at += command.encode().len();
    }
    for (number, position) in pattern.positions.iter().enumerate() {
        lines.push(format!("position {number}: {}", position_words(position)));
    }
    let (commands, positions) = (commands.len(), pattern.positions.len());
    if detail == Detail::Positions {
        lines.push(format!(
            "{commands} commands, {positions} positions, {at} bytes"
        ));
        return lines;
    }
    let slots = slots(&pattern.positions);
    let links = climb::links(&parts(pattern), &pattern.positions);
    for (number, (slot, link)) in slots.iter().zip(links).enumerate() {
        let slot = slot_words(slot, &pattern.positions);
        let link = link_words(link, &pattern.positions);
        lines.push(format!("slot {number}: {slot}, link {link}"));
    }
    let slots = slots.len();
    lines.push(format!(
        "{commands} commands, {positions} positions, {slots} slots, {at} bytes"
    ));
    lines
}

fn command_words(command: &Command) -> String {
    match command {
        Command::Leaf { code } => format!("leaf {code}"),
        Command::Node { code, rank, points } => {
            format!("node {code}, rank {rank}, points {points}")
        }
        Command::Sum => "sum".to_string(),
        Command::Product { code } => format!("product at {code}"),
        Command::Closure { code } => format!("closure at {code}"),
    }
}

fn position_words(position: &Position) -> String {
    match position {
        // A constant bears no points.
        Position::Constant { code } => format!("constant {code}, points 0"),
        Position::Node { code, rank, points } => {
            format!("node {code}, rank {rank}, points {points}")
        }
    }
}

fn slot_words(slot: &Slot, positions: &[Position]) -> String {
    match slot {
        Slot::Root => "root".to_string(),
        Slot::Child { number, of } => {
            format!("child {number} of {}", numbered_words(*of, positions))
        }
    }
}

fn link_words(link: Link, positions: &[Position]) -> String {
    if link == 0 {
        return "0: none".to_string();
    }
    let members: Vec<String> = members(link)
        .map(|number| numbered_words(number, positions))
        .collect();
    format!("{link}: {}", members.join(", "))
}

/// A position by its number, with what it is in short.
fn numbered_words(number: usize, positions: &[Position]) -> String {
    match positions[number] {
        Position::Constant { code } => format!("{number} (constant {code})"),
        Position::Node { code, .. } => format!("{number} (node {code})"),
    }
}

fn sentence(refusal: &Refusal) -> String {
    let at = refusal.at;
    match refusal.reason {
        Reason::NoCommand => {
            format!("No pattern command begins at byte {at}: expected L, N, +, . or *.")
        }
        Reason::OperandsMissing => {
            format!("The file ends inside the operands of the command at byte {at}.")
        }
        Reason::CodeZero => {
            format!("The command at byte {at} has the code 0: a code is 1 to 65535.")
        }
        Reason::RankOutside => format!("The node at byte {at} has a rank outside 1 to 4."),
        Reason::PartsMissing => {
            format!("The command at byte {at} takes more parts than are pending.")
        }
        Reason::NotOnePart { pending } => format!(
            "The file ends at byte {at} with {pending} parts pending: a pattern is one part."
        ),
        Reason::TooManyPositions => {
            format!("The command at byte {at} names a 65th position: a pattern has at most 64.")
        }
        Reason::TooManyCommands => format!(
            "The command at byte {at} finds no entry free in the table: \
             a pattern has at most 512 commands."
        ),
        Reason::TooManyBytes => "The file has more than 65536 bytes.".to_string(),
    }
}

#[cfg(test)]
mod tests {
    use super::*;
    use crate::words;

    const SAMPLE: &[u8] = b"L\x00\x0bN\x00\x14\x01\x07L\x00\x0aN\x00\x01\x02\x00*\x00\x0a";

    #[test]
    fn lists_the_sample() {
        let expected = "\
at 0: leaf 11
at 3: node 20, rank 1, points 7
at 8: leaf 10
at 11: node 1, rank 2, points 0
at 16: closure at 10
position 0: constant 11, points 0
position 1: node 20, rank 1, points 7
position 2: constant 10, points 0
position 3: node 1, rank 2, points 0
5 commands, 4 positions, 19 bytes
";
        assert_eq!(listing(SAMPLE), expected);
    }

    #[test]
    fn lists_the_links_of_the_sample() {
        let expected = "\
slot 0: root, link 12: 2 (constant 10), 3 (node 1)
slot 1: child 1 of 1 (node 20), link 1: 0 (constant 11)
slot 2: child 1 of 3 (node 1), link 2: 1 (node 20)
slot 3: child 2 of 3 (node 1), link 12: 2 (constant 10), 3 (node 1)
5 commands, 4 positions, 4 slots, 19 bytes
";
        let text = listing_with_links(SAMPLE);
        let slots: String = text.split_inclusive('\n').skip(9).collect();
        assert_eq!(slots, expected);
    }

    #[test]
    fn lists_an_empty_link() {
        let text = listing_with_links(&words::postfix_file("10 12 20/1 .11"));
        let slots: Vec<&str> = text.lines().skip(8).collect();
        let expected = [
            "slot 0: root, link 1: 0 (constant 10)",
            "slot 1: child 1 of 2 (node 20), link 0: none",
            "4 commands, 4 positions, 2 slots, 14 bytes",
        ];
        assert_eq!(slots, expected);
    }

    #[test]
    fn lists_a_refusal() {
        let expected = "\
fault P 6 0
The file ends at byte 0 with 0 parts pending: a pattern is one part.
";
        assert_eq!(listing(b""), expected);
    }
}
