//! Random expressions of a given size.

use crate::command::Command;
use crate::expression::Expression;
use crate::pattern::{MOST_POSITIONS, MOST_RANK};
use crate::random::Random;

/// Where the size goes when an expression is made of several parts.
#[derive(Clone, Copy)]
enum Shape {
    First,
    Last,
    Even,
    Any,
}

/// What one random expression may be made of.
pub struct Stock {
    pub constants: Vec<u16>,
    pub nodes_left: usize,
    shape: Shape,
    /// How many of a hundred commands shall be nodes, and closures among the rest.
    node_share: usize,
    closure_share: usize,
}

/// An expression of exactly so many commands with at most 64 positions.
pub fn expression(random: &mut Random, size: usize) -> Expression {
    let most_constants = if random.percent(60) { 4 } else { 40 };
    let constants = codes(random, most_constants);
    let mut stock = Stock {
        // Constants and nodes together stay within the positions.
        nodes_left: random.within(0..=MOST_POSITIONS - constants.len()),
        constants,
        shape: random.pick(&[
            Shape::First,
            Shape::Last,
            Shape::Even,
            Shape::Any,
            Shape::Any,
        ]),
        node_share: random.pick(&[0, 20, 40, 70]),
        closure_share: random.pick(&[5, 20, 60]),
    };
    stock.grow(random, size)
}

/// Up to `most` different codes: small ones, all kinds, or equal in one byte.
fn codes(random: &mut Random, most: usize) -> Vec<u16> {
    let style = random.within(0..=2);
    let mut codes: Vec<u16> = Vec::new();
    for _ in 0..random.within(1..=most) {
        let code = match style {
            0 => random.within(1..=40),
            1 => random.within(1..=0xffff),
            _ => random.within(0..=3) * 0x100 + random.within(1..=3),
        } as u16;
        if !codes.contains(&code) {
            codes.push(code);
        }
    }
    codes
}

impl Stock {
    /// A few constants of small codes, and no shape that stands out.
    pub fn few_constants(random: &mut Random, most: usize) -> Stock {
        let first = random.within(1..=9) as u16;
        let constants: Vec<u16> = (first..).take(random.within(1..=most)).collect();
        Stock {
            nodes_left: MOST_POSITIONS - constants.len(),
            constants,
            shape: Shape::Any,
            node_share: random.pick(&[30, 50, 70]),
            closure_share: random.pick(&[15, 30]),
        }
    }

    pub fn grow(&mut self, random: &mut Random, size: usize) -> Expression {
        let code = random.pick(&self.constants);
        let rest = size - 1;
        if rest == 0 {
            return Expression::Leaf { code };
        }
        if self.nodes_left > 0 && random.percent(self.node_share) {
            let rank = random.within(1..=rest.min(MOST_RANK.into()));
            self.nodes_left -= 1;
            let parts = self.parts(random, rest, rank);
            return self.node(random, parts);
        }
        if rest == 1 || random.percent(self.closure_share) {
            return Expression::Closure {
                code,
                inner: Box::new(self.grow(random, rest)),
            };
        }
        let mut parts = self.parts(random, rest, 2).into_iter().map(Box::new);
        let (Some(left), Some(right)) = (parts.next(), parts.next()) else {
            unreachable!("two parts were grown");
        };
        if random.percent(50) {
            Expression::Sum { left, right }
        } else {
            Expression::Product { code, left, right }
        }
    }

    /// A node of any symbol and points, whose position is not taken off the stock.
    pub fn node(&self, random: &mut Random, parts: Vec<Expression>) -> Expression {
        // Now and then the symbol has the code of a constant.
        let code = if random.percent(20) {
            random.pick(&self.constants)
        } else {
            random.within(1..=0xffff) as u16
        };
        let points = if random.percent(50) { 0 } else { random.byte() };
        Expression::Node {
            code,
            points,
            parts,
        }
    }

    /// So many expressions whose sizes together are `total`.
    fn parts(&mut self, random: &mut Random, total: usize, count: usize) -> Vec<Expression> {
        let mut spare = total - count;
        let mut parts = Vec::new();
        for after in (0..count).rev() {
            let extra = match self.shape {
                _ if after == 0 => spare,
                Shape::First => spare,
                Shape::Last => 0,
                Shape::Even => spare / (after + 1),
                Shape::Any => random.within(0..=spare),
            };
            spare -= extra;
            parts.push(self.grow(random, extra + 1));
        }
        parts
    }
}

/// The commands of an expression with exactly so many positions, by constants,
/// nodes or both.
pub fn with_positions(random: &mut Random, positions: usize) -> Vec<Command> {
    let node_share = random.pick(&[0, 30, 60, 100]);
    let mut commands = vec![Command::Leaf { code: 1 }];
    let (mut pending, mut constants, mut named) = (1, 1, 1);
    while named < positions {
        // Names again what was named, without a new position.
        if random.percent(15) {
            commands.push(Command::Closure {
                code: random.within(1..=constants) as u16,
            });
        }
        named += 1;
        if random.percent(node_share) {
            let rank = random.within(1..=pending.min(MOST_RANK.into()));
            pending = pending - rank + 1;
            let (code, rank) = (random.within(1..=99) as u16, rank as u8);
            commands.push(Command::Node {
                code,
                rank,
                points: random.byte(),
            });
            continue;
        }
        constants += 1;
        let code = constants as u16;
        match random.within(0..=3) {
            0 => commands.push(Command::Closure { code }),
            1 if pending > 1 => {
                pending -= 1;
                commands.push(Command::Product { code });
            }
            _ => {
                pending += 1;
                commands.push(Command::Leaf { code });
            }
        }
    }
    commands.extend(vec![Command::Sum; pending - 1]);
    commands
}

#[cfg(test)]
mod tests {
    use super::*;
    use crate::pattern;

    #[test]
    fn expressions_are_accepted() {
        let mut random = Random::new(7);
        for size in 1..=500 {
            let expression = expression(&mut random, size);
            assert_eq!(expression.commands().len(), size);
            let pattern = pattern::read(&expression.encode()).expect("it keeps all rules");
            assert_eq!(pattern.expression, expression);
        }
    }

    #[test]
    fn positions_are_as_many_as_asked() {
        let mut random = Random::new(7);
        for positions in 1..=MOST_POSITIONS {
            let commands = with_positions(&mut random, positions);
            let file: Vec<u8> = commands.into_iter().flat_map(Command::encode).collect();
            let pattern = pattern::read(&file).expect("it keeps all rules");
            assert_eq!(pattern.positions.len(), positions);
        }
    }
}
