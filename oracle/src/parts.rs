//! The parts of a numbered pattern: each command's part with the position it
//! names, the parts it takes and the part that takes it.

use crate::command::Command;
use crate::pattern::{Pattern, Position};

#[derive(Debug, PartialEq, Eq)]
pub struct Part {
    pub command: Command,
    /// The position that the command names; a sum names none.
    pub names: Option<usize>,
    /// The numbers of the parts taken, in their order.
    pub takes: Vec<usize>,
    /// Who takes this part; nobody takes the last, the whole pattern.
    pub taken: Option<Taken>,
}

#[derive(Clone, Copy, Debug, PartialEq, Eq)]
pub struct Taken {
    pub by: usize,
    /// Which of the parts taken this one is, counted from 0.
    pub index: usize,
}

impl Part {
    /// The position, for the commands that name one.
    pub fn position(&self) -> usize {
        self.names.expect("all commands but sums name a position")
    }
}

/// The parts in the order of the commands.
pub fn parts(pattern: &Pattern) -> Vec<Part> {
    let commands = pattern.expression.commands();
    let names = named_positions(&commands, &pattern.positions);
    let mut parts: Vec<Part> = Vec::new();
    let mut pending: Vec<usize> = Vec::new();
    for (number, (&command, names)) in commands.iter().zip(names).enumerate() {
        let takes = pending.split_off(pending.len() - command.takes());
        for (index, &part) in takes.iter().enumerate() {
            parts[part].taken = Some(Taken { by: number, index });
        }
        pending.push(number);
        parts.push(Part {
            command,
            names,
            takes,
            taken: None,
        });
    }
    parts
}

/// For each command the position it names. The node positions come in the order
/// of their commands; a constant is found by its code.
fn named_positions(commands: &[Command], positions: &[Position]) -> Vec<Option<usize>> {
    let is_node = |&number: &usize| matches!(positions[number], Position::Node { .. });
    let mut nodes = (0..positions.len()).filter(is_node);
    let mut named = |command: &Command| match (command, command.constant()) {
        (Command::Node { .. }, _) => nodes.next(),
        (_, None) => None,
        (_, Some(code)) => positions
            .iter()
            .position(|&position| position == Position::Constant { code }),
    };
    commands.iter().map(&mut named).collect()
}

#[cfg(test)]
mod tests {
    use super::*;
    use crate::pattern;
    use crate::words;

    #[test]
    fn knows_positions_and_neighbours() {
        let file = words::postfix_file("1 5/1 2 + *1");
        let pattern = pattern::read(&file).expect("a pattern");
        let parts = parts(&pattern);
        let names: Vec<Option<usize>> = parts.iter().map(|part| part.names).collect();
        assert_eq!(names, [Some(0), Some(1), Some(2), None, Some(0)]);
        let takes: Vec<&[usize]> = parts.iter().map(|part| &part.takes[..]).collect();
        assert_eq!(takes, [&[][..], &[0], &[], &[1, 2], &[3]]);
        let taken: Vec<Option<(usize, usize)>> = parts
            .iter()
            .map(|part| part.taken.map(|taken| (taken.by, taken.index)))
            .collect();
        assert_eq!(
            taken,
            [Some((1, 0)), Some((3, 0)), Some((3, 1)), Some((4, 0)), None]
        );
    }
}
