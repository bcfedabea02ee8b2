//! The slots of a pattern, and links as numbers.

use crate::pattern::Position;

/// A set of positions, in which position b counts 2 to the power b.
pub type Link = u64;

/// Where a position can stand in a numbered tree.
#[derive(Clone, Copy, Debug, PartialEq, Eq)]
pub enum Slot {
    Root,
    /// Slot `number`, counted from 1, of the node position `of`.
    Child {
        number: usize,
        of: usize,
    },
}

/// The slots in the order of their numbers.
pub fn slots(positions: &[Position]) -> Vec<Slot> {
    let children = positions.iter().enumerate().flat_map(|(of, position)| {
        (1..=position.rank()).map(move |number| Slot::Child { number, of })
    });
    [Slot::Root].into_iter().chain(children).collect()
}

/// For each position the numbers of its slots, first one first.
pub fn slots_of_positions(positions: &[Position]) -> Vec<Vec<usize>> {
    let mut numbers = vec![Vec::new(); positions.len()];
    for (number, slot) in slots(positions).into_iter().enumerate() {
        if let Slot::Child { of, .. } = slot {
            numbers[of].push(number);
        }
    }
    numbers
}

/// The link that holds this position alone.
pub fn only(position: usize) -> Link {
    1 << position
}

/// The positions of a link, in rising order.
pub fn members(link: Link) -> impl Iterator<Item = usize> {
    (0..64).filter(move |&position| link & only(position) != 0)
}

#[cfg(test)]
mod tests {
    use super::*;

    #[test]
    fn numbers_the_slots() {
        let node = |rank| Position::Node {
            code: 1,
            rank,
            points: 0,
        };
        let positions = [node(2), Position::Constant { code: 1 }, node(1)];
        let child = |number, of| Slot::Child { number, of };
        assert_eq!(
            slots(&positions),
            [Slot::Root, child(1, 0), child(2, 0), child(1, 2)]
        );
        assert_eq!(
            slots_of_positions(&positions),
            [vec![1, 2], vec![], vec![3]]
        );
    }

    #[test]
    fn links_reach_the_last_position() {
        let link = only(0) + only(5) + only(63);
        assert_eq!(link, 9_223_372_036_854_775_841);
        assert_eq!(members(link).collect::<Vec<_>>(), [0, 5, 63]);
    }
}
