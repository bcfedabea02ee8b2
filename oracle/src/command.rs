//! The commands of a pattern file, and the split of a file into commands.

/// One command with its operands, as written: nothing is judged yet.
#[derive(Clone, Copy, Debug, PartialEq, Eq)]
pub enum Command {
    Leaf { code: u16 },
    Node { code: u16, rank: u8, points: u8 },
    Sum,
    Product { code: u16 },
    Closure { code: u16 },
}

/// Why a file can't be split any further.
#[derive(Clone, Copy, Debug, PartialEq, Eq)]
pub enum ByteFault {
    NoCommand,
    OperandsMissing,
}

/// The commands of a file up to the first byte fault, if there is one.
#[derive(Debug, PartialEq, Eq)]
pub struct Split {
    pub commands: Vec<Command>,
    /// The place of each command; with a fault, its place is the last one.
    pub places: Vec<usize>,
    pub fault: Option<ByteFault>,
}

impl Command {
    /// Reads the command at the front of `bytes`.
    fn read(bytes: &[u8]) -> Result<Command, ByteFault> {
        let code = |high: u8, low: u8| u16::from_be_bytes([high, low]);
        match *bytes {
            [b'L', high, low, ..] => Ok(Command::Leaf {
                code: code(high, low),
            }),
            [b'N', high, low, rank, points, ..] => Ok(Command::Node {
                code: code(high, low),
                rank,
                points,
            }),
            [b'+', ..] => Ok(Command::Sum),
            [b'.', high, low, ..] => Ok(Command::Product {
                code: code(high, low),
            }),
            [b'*', high, low, ..] => Ok(Command::Closure {
                code: code(high, low),
            }),
            // The letters with operands that did not fit above.
            [b'L' | b'N' | b'.' | b'*', ..] => Err(ByteFault::OperandsMissing),
            _ => Err(ByteFault::NoCommand),
        }
    }

    pub fn encode(self) -> Vec<u8> {
        let with_code = |letter: u8, code: u16| {
            let [high, low] = code.to_be_bytes();
            vec![letter, high, low]
        };
        match self {
            Command::Leaf { code } => with_code(b'L', code),
            Command::Node { code, rank, points } => {
                let mut bytes = with_code(b'N', code);
                bytes.extend([rank, points]);
                bytes
            }
            Command::Sum => vec![b'+'],
            Command::Product { code } => with_code(b'.', code),
            Command::Closure { code } => with_code(b'*', code),
        }
    }

    /// How many pending parts the command takes.
    pub fn takes(self) -> usize {
        match self {
            Command::Leaf { .. } => 0,
            Command::Node { rank, .. } => usize::from(rank),
            Command::Sum | Command::Product { .. } => 2,
            Command::Closure { .. } => 1,
        }
    }

    /// The code among the operands; a sum has none.
    pub fn code(self) -> Option<u16> {
        match self {
            Command::Sum => None,
            Command::Leaf { code }
            | Command::Node { code, .. }
            | Command::Product { code }
            | Command::Closure { code } => Some(code),
        }
    }

    /// The constant the command names; the symbol of a node is no constant.
    pub fn constant(self) -> Option<u16> {
        match self {
            Command::Node { .. } => None,
            _ => self.code(),
        }
    }
}

/// Splits a file into commands by their widths alone.
pub fn split(file: &[u8]) -> Split {
    let mut split = Split {
        commands: Vec::new(),
        places: Vec::new(),
        fault: None,
    };
    let mut at = 0;
    while at < file.len() {
        split.places.push(at);
        match Command::read(&file[at..]) {
            Ok(command) => {
                at += command.encode().len();
                split.commands.push(command);
            }
            Err(fault) => {
                split.fault = Some(fault);
                break;
            }
        }
    }
    split
}

#[cfg(test)]
mod tests {
    use super::*;

    #[test]
    fn splits_every_command() {
        let file = b"L\x01\x02N\x03\x04\x05\x06+.\x07\x08*\x09\x0a";
        let split = split(file);
        let expected = [
            Command::Leaf { code: 0x0102 },
            Command::Node {
                code: 0x0304,
                rank: 5,
                points: 6,
            },
            Command::Sum,
            Command::Product { code: 0x0708 },
            Command::Closure { code: 0x090a },
        ];
        assert_eq!(split.commands, expected);
        assert_eq!(split.places, [0, 3, 8, 9, 12]);
        assert_eq!(split.fault, None);
    }

    #[test]
    fn stops_at_the_first_byte_fault() {
        let missing = split(b"+N\0\x01\x01");
        assert_eq!(missing.places, [0, 1]);
        assert_eq!(missing.fault, Some(ByteFault::OperandsMissing));
        let unknown = split(b"++l+");
        assert_eq!(unknown.places, [0, 1, 2]);
        assert_eq!(unknown.fault, Some(ByteFault::NoCommand));
    }
}
