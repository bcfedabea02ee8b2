//! Expressions as trees, built from commands and turned back into them.

use crate::command::Command;

#[derive(Clone, Debug, PartialEq, Eq)]
pub enum Expression {
    Leaf {
        code: u16,
    },
    /// The rank is the number of parts.
    Node {
        code: u16,
        points: u8,
        parts: Vec<Expression>,
    },
    Sum {
        left: Box<Expression>,
        right: Box<Expression>,
    },
    Product {
        code: u16,
        left: Box<Expression>,
        right: Box<Expression>,
    },
    Closure {
        code: u16,
        inner: Box<Expression>,
    },
}

impl Expression {
    pub fn sum(left: Expression, right: Expression) -> Expression {
        Expression::Sum {
            left: Box::new(left),
            right: Box::new(right),
        }
    }

    pub fn product(code: u16, left: Expression, right: Expression) -> Expression {
        Expression::Product {
            code,
            left: Box::new(left),
            right: Box::new(right),
        }
    }

    pub fn closure(code: u16, inner: Expression) -> Expression {
        Expression::Closure {
            code,
            inner: Box::new(inner),
        }
    }

    /// The commands of the expression, children before parents.
    pub fn commands(&self) -> Vec<Command> {
        let mut commands = Vec::new();
        self.append_commands(&mut commands);
        commands
    }

    fn append_commands(&self, commands: &mut Vec<Command>) {
        let command = match self {
            Expression::Leaf { code } => Command::Leaf { code: *code },
            Expression::Node {
                code,
                points,
                parts,
            } => {
                for part in parts {
                    part.append_commands(commands);
                }
                let rank = u8::try_from(parts.len()).expect("a rank fits in one byte");
                Command::Node {
                    code: *code,
                    rank,
                    points: *points,
                }
            }
            Expression::Sum { left, right } => {
                left.append_commands(commands);
                right.append_commands(commands);
                Command::Sum
            }
            Expression::Product { code, left, right } => {
                left.append_commands(commands);
                right.append_commands(commands);
                Command::Product { code: *code }
            }
            Expression::Closure { code, inner } => {
                inner.append_commands(commands);
                Command::Closure { code: *code }
            }
        };
        commands.push(command);
    }

    pub fn encode(&self) -> Vec<u8> {
        self.commands()
            .into_iter()
            .flat_map(Command::encode)
            .collect()
    }
}

/// Builds the trees that are pending after the last command, first one first.
/// Every command must find the parts it takes.
pub fn build(commands: &[Command]) -> Vec<Expression> {
    let mut pending: Vec<Expression> = Vec::new();
    for command in commands {
        let first_part = pending
            .len()
            .checked_sub(command.takes())
            .expect("commands that take too much were refused before");
        let mut parts = pending.split_off(first_part);
        // Taken from the end, so that the right part comes before the left one.
        let mut last_part = || Box::new(parts.pop().expect("the number of parts is known"));
        let tree = match *command {
            Command::Leaf { code } => Expression::Leaf { code },
            Command::Node { code, points, .. } => Expression::Node {
                code,
                points,
                parts,
            },
            Command::Sum => {
                let (right, left) = (last_part(), last_part());
                Expression::Sum { left, right }
            }
            Command::Product { code } => {
                let (right, left) = (last_part(), last_part());
                Expression::Product { code, left, right }
            }
            Command::Closure { code } => Expression::Closure {
                code,
                inner: last_part(),
            },
        };
        pending.push(tree);
    }
    pending
}

#[cfg(test)]
mod tests {
    use super::*;

    #[test]
    fn keeps_the_order_of_the_parts() {
        let commands = [
            Command::Leaf { code: 1 },
            Command::Leaf { code: 2 },
            Command::Product { code: 3 },
            Command::Leaf { code: 4 },
            Command::Node {
                code: 5,
                rank: 2,
                points: 6,
            },
        ];
        let product = Expression::Product {
            code: 3,
            left: Box::new(Expression::Leaf { code: 1 }),
            right: Box::new(Expression::Leaf { code: 2 }),
        };
        let parts = vec![product, Expression::Leaf { code: 4 }];
        let tree = Expression::Node {
            code: 5,
            points: 6,
            parts,
        };
        assert_eq!(tree.commands(), commands);
        assert_eq!(build(&commands), [tree]);
    }
}
