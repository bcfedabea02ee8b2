//! Random patterns in which links are easily got wrong.

use crate::command::Command;
use crate::expression::Expression;
use crate::grow::{self, Stock};
use crate::pattern::{MOST_COMMANDS, MOST_POSITIONS, MOST_RANK};
use crate::random::Random;

/// A way to make a pattern.
pub type Shape = fn(&mut Random) -> Expression;

/// Patterns small enough that their trees can be listed far enough.
pub const SMALL_SHAPES: [Shape; 9] = [
    any,
    never_put_in,
    nested_closures,
    comes_back,
    same_constant,
    sums_under_closure,
    product_and_closure,
    deep,
    wide,
];

/// A code that no stock of few constants has.
const OTHER_CODE: u16 = 99;

fn any(random: &mut Random) -> Expression {
    let size = random.within(1..=16);
    Maker::new(random).part(size)
}

/// A product whose first part does not have the constant, or has it no more.
fn never_put_in(random: &mut Random) -> Expression {
    let mut maker = Maker::new(random);
    let (constant, other) = (maker.constant(), maker.constant());
    let first = if maker.random.percent(40) {
        maker.small()
    } else {
        let holding = maker.holding(constant);
        Expression::product(constant, holding, Expression::Leaf { code: other })
    };
    let code = maker.random.pick(&[OTHER_CODE, constant]);
    let second = maker.holding(other);
    let product = Expression::product(code, first, second);
    maker.wrapped(product, 3)
}

fn nested_closures(random: &mut Random) -> Expression {
    let mut maker = Maker::new(random);
    let mut code = maker.constant();
    let mut pattern = maker.holding(code);
    for _ in 0..maker.random.within(2..=4) {
        pattern = maker.wrapped(pattern, 1);
        if maker.random.percent(50) {
            code = maker.constant();
        }
        pattern = Expression::closure(code, pattern);
    }
    maker.wrapped(pattern, 1)
}

/// A constant gives way to another, which gives way to the first again.
fn comes_back(random: &mut Random) -> Expression {
    let mut maker = Maker::new(random);
    let (one, two) = (maker.constant(), maker.constant());
    let mut pattern = maker.holding(one);
    for turn in 0..maker.random.within(2..=4) {
        let (code, next) = if turn % 2 == 0 {
            (one, two)
        } else {
            (two, one)
        };
        let second = maker.holding(next);
        pattern = Expression::product(code, pattern, second);
        pattern = maker.wrapped(pattern, 1);
    }
    pattern
}

/// Products at one constant, in each other's first and second parts.
fn same_constant(random: &mut Random) -> Expression {
    let mut maker = Maker::new(random);
    let code = maker.constant();
    let mut pattern = maker.holding(code);
    for _ in 0..maker.random.within(2..=4) {
        let other = if maker.random.percent(80) {
            maker.holding(code)
        } else {
            maker.small()
        };
        pattern = if maker.random.percent(60) {
            Expression::product(code, pattern, other)
        } else {
            Expression::product(code, other, pattern)
        };
    }
    maker.wrapped(pattern, 2)
}

fn sums_under_closure(random: &mut Random) -> Expression {
    let mut maker = Maker::new(random);
    let code = maker.constant();
    let mut pattern = maker.small();
    for _ in 0..maker.random.within(1..=3) {
        let other = if maker.random.percent(60) {
            maker.holding(code)
        } else {
            maker.small()
        };
        pattern = Expression::sum(pattern, other);
    }
    pattern = Expression::closure(code, pattern);
    maker.wrapped(pattern, 2)
}

/// A closure about a product, or in one of its parts, mostly at one constant.
fn product_and_closure(random: &mut Random) -> Expression {
    let mut maker = Maker::new(random);
    let code = maker.constant();
    let again = if maker.random.percent(70) {
        code
    } else {
        maker.constant()
    };
    let (first, second) = (maker.holding(code), maker.holding(again));
    let pattern = match maker.random.within(0..=2) {
        0 => Expression::closure(again, Expression::product(code, first, second)),
        1 => Expression::product(code, Expression::closure(again, first), second),
        _ => Expression::product(code, first, Expression::closure(again, second)),
    };
    maker.wrapped(pattern, 3)
}

fn deep(random: &mut Random) -> Expression {
    let mut maker = Maker::new(random);
    let leaf = maker.part(1);
    maker.wrapped(leaf, 14)
}

/// A node of rank 3 or 4 whose children differ.
fn wide(random: &mut Random) -> Expression {
    let mut maker = Maker::new(random);
    let rank = maker.random.within(3..=MOST_RANK.into());
    let parts: Vec<Expression> = (0..rank).map(|_| maker.small()).collect();
    let node = maker.node(parts);
    maker.wrapped(node, 3)
}

/// 63 nodes of rank 4 over one constant: the most slots there can be.
pub fn most_slots(random: &mut Random) -> Expression {
    let stock = Stock::few_constants(random, 1);
    let code = stock.constants[0];
    let (inner_share, closure_share) = (random.pick(&[10, 40, 90]), random.pick(&[0, 3, 10]));
    let mut pending: Vec<Expression> = Vec::new();
    for _ in 0..stock.nodes_left {
        let parts = (0..MOST_RANK).map(|_| {
            if !pending.is_empty() && random.percent(inner_share) {
                pending.swap_remove(random.within(0..=pending.len() - 1))
            } else {
                Expression::Leaf { code }
            }
        });
        let parts = parts.collect();
        let mut part = stock.node(random, parts);
        if random.percent(closure_share) {
            part = Expression::closure(code, part);
        }
        pending.push(part);
    }
    let joined = pending.into_iter().reduce(|left, right| {
        if random.percent(50) {
            Expression::sum(left, right)
        } else {
            Expression::product(code, left, right)
        }
    });
    joined.expect("there are nodes")
}

/// Patterns with the most slots, the most commands or the most positions.
pub fn at_a_limit(random: &mut Random) -> Vec<Command> {
    match random.within(0..=2) {
        0 => most_slots(random).commands(),
        1 => grow::expression(random, MOST_COMMANDS).commands(),
        _ => grow::with_positions(random, MOST_POSITIONS),
    }
}

/// So many patterns to check links with: the small shapes in turn, now and then a
/// larger one, and few at a limit.
pub fn files(seed: u64, count: u64) -> impl Iterator<Item = Vec<u8>> {
    let mut random = Random::new(seed);
    let shapes = SMALL_SHAPES.into_iter().cycle();
    (1..=count).zip(shapes).map(move |(number, shape)| {
        let commands = if number % 100 == 0 {
            at_a_limit(&mut random)
        } else if number % 10 == 0 {
            let size = random.within(15..=120);
            grow::expression(&mut random, size).commands()
        } else {
            shape(&mut random).commands()
        };
        commands.into_iter().flat_map(Command::encode).collect()
    })
}

/// Makes one pattern.
struct Maker<'a> {
    random: &'a mut Random,
    stock: Stock,
}

impl Maker<'_> {
    fn new(random: &mut Random) -> Maker<'_> {
        let mut stock = Stock::few_constants(random, 4);
        // One of the positions is for the other code.
        stock.nodes_left -= 1;
        Maker { random, stock }
    }

    fn constant(&mut self) -> u16 {
        self.random.pick(&self.stock.constants)
    }

    /// Anything of so many commands.
    fn part(&mut self, size: usize) -> Expression {
        self.stock.grow(self.random, size)
    }

    fn small(&mut self) -> Expression {
        let size = self.random.pick(&[1, 1, 2, 3, 4]);
        self.part(size)
    }

    /// A part whose trees have the leaf of this constant, not all of them perhaps.
    fn holding(&mut self, constant: u16) -> Expression {
        let mut part = Expression::Leaf { code: constant };
        for _ in 0..self.random.within(0..=2) {
            part = if self.random.percent(75) {
                self.node_about(part)
            } else {
                self.sum_with(part)
            };
        }
        part
    }

    /// The part with up to so many commands of any kind about it.
    fn wrapped(&mut self, part: Expression, most: usize) -> Expression {
        let times = self.random.within(0..=most);
        (0..times).fold(part, |part, _| match self.random.within(0..=9) {
            0..=3 => self.node_about(part),
            4..=5 => self.sum_with(part),
            6 => {
                let (code, second) = (self.constant(), self.small());
                Expression::product(code, part, second)
            }
            7 => {
                let code = self.constant();
                let first = self.holding(code);
                Expression::product(code, first, part)
            }
            _ => Expression::closure(self.constant(), part),
        })
    }

    /// A node with the part at any of its slots. Without nodes left, a closure.
    fn node_about(&mut self, part: Expression) -> Expression {
        let rank = self.random.pick(&[1, 1, 1, 2, 2, 2, 3, 4]);
        let mut parts: Vec<Expression> = (1..rank).map(|_| self.part(1)).collect();
        parts.insert(self.random.within(0..=rank - 1), part);
        self.node(parts)
    }

    fn node(&mut self, mut parts: Vec<Expression>) -> Expression {
        if self.stock.nodes_left == 0 {
            return Expression::closure(self.constant(), parts.remove(0));
        }
        self.stock.nodes_left -= 1;
        self.stock.node(self.random, parts)
    }

    fn sum_with(&mut self, part: Expression) -> Expression {
        let other = self.small();
        if self.random.percent(50) {
            Expression::sum(part, other)
        } else {
            Expression::sum(other, part)
        }
    }
}

#[cfg(test)]
mod tests {
    use super::*;
    use crate::pattern;
    use crate::slots::slots;

    #[test]
    fn all_are_accepted() {
        let mut random = Random::new(3);
        for shape in SMALL_SHAPES {
            for _ in 0..50 {
                let file = shape(&mut random).encode();
                assert!(pattern::read(&file).is_ok());
            }
        }
        for _ in 0..20 {
            let commands = at_a_limit(&mut random).into_iter();
            let file: Vec<u8> = commands.flat_map(Command::encode).collect();
            assert!(pattern::read(&file).is_ok());
        }
    }

    #[test]
    fn most_slots_are_most() {
        let mut random = Random::new(3);
        for _ in 0..10 {
            let pattern = pattern::read(&most_slots(&mut random).encode()).expect("a pattern");
            assert_eq!(slots(&pattern.positions).len(), 253);
        }
    }
}
