//! The trees that links allow: those whose root is in the link of slot 0 and
//! whose every child is in the link of its slot. They must be the numbered trees.

use crate::pattern::Position;
use crate::slots::{Link, members, slots_of_positions};

/// A number of nodes that no tree has.
const NEVER: usize = usize::MAX;
/// Numbers of nodes above this one are not told apart.
const MANY: usize = 1_000_000;

/// The sum of two numbers of nodes.
fn plus(one: usize, other: usize) -> usize {
    match (one, other) {
        (NEVER, _) | (_, NEVER) => NEVER,
        _ => MANY.min(one + other),
    }
}

/// A sum that stays at the largest number when it would be larger.
fn total(counts: impl Iterator<Item = u128>) -> u128 {
    counts.fold(0, u128::saturating_add)
}

pub struct Allowed<'a> {
    positions: &'a [Position],
    links: &'a [Link],
    slots_of: Vec<Vec<usize>>,
}

impl<'a> Allowed<'a> {
    pub fn new(positions: &'a [Position], links: &'a [Link]) -> Allowed<'a> {
        Allowed {
            positions,
            links,
            slots_of: slots_of_positions(positions),
        }
    }

    /// How many trees of at most so many nodes are allowed. Numbers that would be
    /// too large stay at the largest.
    pub fn count(&self, most_nodes: usize) -> u128 {
        // The ways to fill each slot with a subtree, and each position's first
        // slots with a row of subtrees, by the number of nodes.
        let mut fills: Vec<Vec<u128>> = vec![Vec::new(); self.links.len()];
        let mut rows: Vec<Vec<Vec<u128>>> = Vec::new();
        for slots in &self.slots_of {
            rows.push(vec![Vec::new(); slots.len() + 1]);
        }
        for nodes in 0..=most_nodes {
            for (slot, &link) in self.links.iter().enumerate() {
                // A tree has one node more than the row of its root's children.
                let with_root = |position: usize| match nodes {
                    0 => 0,
                    _ => rows[position][self.slots_of[position].len()][nodes - 1],
                };
                fills[slot].push(total(members(link).map(with_root)));
            }
            for (position, slots) in self.slots_of.iter().enumerate() {
                rows[position][0].push(u128::from(nodes == 0));
                for (index, &slot) in slots.iter().enumerate() {
                    let shorter = &rows[position][index];
                    let ways = (0..=nodes)
                        .map(|last| fills[slot][last].saturating_mul(shorter[nodes - last]));
                    let ways = total(ways);
                    rows[position][index + 1].push(ways);
                }
            }
        }
        total(fills[0].iter().copied())
    }

    /// The least number of nodes by which every position of every link has stood
    /// there in some tree; none, if one of them can't.
    pub fn enough_nodes(&self) -> Option<usize> {
        let least = self.least_with_root();
        let around = self.least_around(&least);
        let mut enough = 1;
        for (slot, others) in self.slots_with_others(&least, &around) {
            for position in members(self.links[slot]) {
                enough = enough.max(plus(others, least[position]));
            }
        }
        (enough != NEVER).then_some(enough)
    }

    /// For each position the least number of nodes of a tree with it at the root.
    fn least_with_root(&self) -> Vec<usize> {
        let mut least = vec![NEVER; self.positions.len()];
        loop {
            let next: Vec<usize> = self
                .slots_of
                .iter()
                .map(|slots| plus(1, self.least_rows(slots, &least)))
                .collect();
            if next == least {
                return least;
            }
            least = next;
        }
    }

    /// The least number of nodes that fill these slots.
    fn least_rows(&self, slots: &[usize], least: &[usize]) -> usize {
        let fill = |slot: &usize| {
            let fills = members(self.links[*slot]).map(|position| least[position]);
            fills.min().unwrap_or(NEVER)
        };
        slots.iter().map(fill).fold(0, plus)
    }

    /// For each position the least number of nodes of a whole tree that has it,
    /// without those of its own subtree.
    fn least_around(&self, least: &[usize]) -> Vec<usize> {
        let mut around = vec![NEVER; self.positions.len()];
        loop {
            let mut next = around.clone();
            for (slot, others) in self.slots_with_others(least, &around) {
                for position in members(self.links[slot]) {
                    next[position] = next[position].min(others);
                }
            }
            if next == around {
                return around;
            }
            around = next;
        }
    }

    /// Each slot with the least number of nodes of a whole tree that has it,
    /// without those of the subtree that stands there.
    fn slots_with_others(&self, least: &[usize], around: &[usize]) -> Vec<(usize, usize)> {
        let mut pairs = vec![(0, 0)];
        for (position, slots) in self.slots_of.iter().enumerate() {
            for &slot in slots {
                let siblings: Vec<usize> = slots.iter().copied().filter(|&s| s != slot).collect();
                let others = plus(1, self.least_rows(&siblings, least));
                pairs.push((slot, plus(around[position], others)));
            }
        }
        pairs
    }
}

#[cfg(test)]
mod tests {
    use super::*;
    use crate::pattern;
    use crate::words;

    #[test]
    fn tells_the_trees_of_the_sample() {
        let file = words::postfix_file("11 20/1:7 10 1/2 *10");
        let pattern = pattern::read(&file).expect("a pattern");
        let links = [12, 1, 2, 12];
        let allowed = Allowed::new(&pattern.positions, &links);
        // 2, 3(1(0), 2) and 3(1(0), 3(1(0), 2)).
        let counts: Vec<u128> = (0..=8).map(|nodes| allowed.count(nodes)).collect();
        assert_eq!(counts, [0, 1, 1, 1, 2, 2, 2, 3, 3]);
        assert_eq!(allowed.enough_nodes(), Some(7));
    }

    #[test]
    fn branches_count_apart() {
        let pattern = pattern::read(&words::postfix_file("10 10 2/2 *10")).expect("a pattern");
        let allowed = Allowed::new(&pattern.positions, &[3, 3, 3]);
        let counts: Vec<u128> = (0..=7).map(|nodes| allowed.count(nodes)).collect();
        assert_eq!(counts, [0, 1, 1, 2, 2, 4, 4, 9]);
        assert_eq!(allowed.enough_nodes(), Some(5));
    }

    #[test]
    fn finds_a_position_without_a_tree() {
        let pattern = pattern::read(&words::postfix_file("1 2/1")).expect("a pattern");
        assert_eq!(
            Allowed::new(&pattern.positions, &[2, 2]).enough_nodes(),
            None
        );
        assert_eq!(
            Allowed::new(&pattern.positions, &[2, 0]).enough_nodes(),
            None
        );
    }
}
