//! The numbered trees of a pattern, listed by what each part denotes.
//!
//! No command makes a tree smaller, so the trees of a part with at most so many
//! nodes come from trees of its own parts with at most as many. The listing up to
//! a size is therefore complete, and finite.

use std::collections::BTreeSet;

use crate::command::Command;
use crate::parts::Part;
use crate::pattern::Position;
use crate::slots::{Link, only, slots, slots_of_positions};

/// The positions of a tree in map order. They tell the tree, since each position
/// has a rank.
pub type Tree = Vec<u8>;

pub type Trees = BTreeSet<Tree>;

/// The listing would take more work than allowed.
#[derive(Debug, PartialEq, Eq)]
pub struct TooMuch;

struct Lister {
    most_nodes: usize,
    work_left: usize,
}

/// All trees of the pattern with at most so many nodes. The work is the number of
/// nodes written down on the way.
pub fn trees(parts: &[Part], most_nodes: usize, most_work: usize) -> Result<Trees, TooMuch> {
    let mut lister = Lister {
        most_nodes,
        work_left: most_work,
    };
    let mut pending: Vec<Trees> = Vec::new();
    for part in parts {
        let taken = pending.split_off(pending.len() - part.takes.len());
        pending.push(lister.of_part(part, taken)?);
    }
    Ok(pending.pop().expect("a pattern leaves one part"))
}

/// What stands in each slot in any of these trees.
pub fn links(trees: &Trees, positions: &[Position]) -> Vec<Link> {
    let slots_of = slots_of_positions(positions);
    let mut links = vec![0; slots(positions).len()];
    for tree in trees {
        let mut pending: Vec<usize> = Vec::new();
        for position in tree.iter().copied().map(usize::from) {
            let children = pending.split_off(pending.len() - positions[position].rank());
            for (&slot, &child) in slots_of[position].iter().zip(&children) {
                links[slot] |= only(child);
            }
            pending.push(position);
        }
        assert_eq!(pending.len(), 1, "{tree:?} is one tree");
        links[0] |= only(pending[0]);
    }
    links
}

impl Lister {
    fn of_part(&mut self, part: &Part, mut taken: Vec<Trees>) -> Result<Trees, TooMuch> {
        let position = |part: &Part| part.position() as u8;
        match part.command {
            Command::Leaf { .. } => Ok(self.leaf(position(part))),
            Command::Node { .. } => self.node(position(part), &taken),
            Command::Sum => {
                let [mut left, mut right] = [taken.remove(0), taken.remove(0)];
                left.append(&mut right);
                Ok(left)
            }
            Command::Product { .. } => self.product(position(part), &taken[0], &taken[1]),
            Command::Closure { .. } => self.closure(position(part), &taken[0]),
        }
    }

    fn leaf(&self, constant: u8) -> Trees {
        let leaf = (self.most_nodes > 0).then(|| vec![constant]);
        leaf.into_iter().collect()
    }

    /// Every choice of a tree for each child.
    fn node(&mut self, position: u8, children: &[Trees]) -> Result<Trees, TooMuch> {
        let mut rows: Vec<Tree> = vec![Vec::new()];
        for trees in children {
            let trees = by_size(trees);
            let mut longer = Vec::new();
            for row in &rows {
                // The node itself comes on top.
                let most_nodes = self.most_nodes;
                let fits = |tree: &&&Tree| row.len() + tree.len() < most_nodes;
                for tree in trees.iter().take_while(fits) {
                    self.work(row.len() + tree.len())?;
                    longer.push([&row[..], &tree[..]].concat());
                }
            }
            rows = longer;
        }
        let trees = rows.into_iter().map(|mut row| {
            row.push(position);
            row
        });
        Ok(trees.collect())
    }

    fn product(&mut self, constant: u8, first: &Trees, second: &Trees) -> Result<Trees, TooMuch> {
        let second = by_size(second);
        let mut made = Trees::new();
        for tree in first {
            let spare = self.most_nodes - tree.len();
            self.put_in(&mut Vec::new(), tree, spare, constant, &second, &mut made)?;
        }
        Ok(made)
    }

    /// Adds every tree that begins with `begun` and goes on with `rest`, in which
    /// each leaf of the constant gets a choice of its own. In map order a leaf is
    /// one entry, and a tree in its stead the entries of that tree.
    fn put_in(
        &mut self,
        begun: &mut Tree,
        rest: &[u8],
        spare: usize,
        constant: u8,
        second: &[&Tree],
        made: &mut Trees,
    ) -> Result<(), TooMuch> {
        let Some(leaf) = rest.iter().position(|&position| position == constant) else {
            self.work(begun.len() + rest.len())?;
            made.insert([&begun[..], rest].concat());
            return Ok(());
        };
        let length = begun.len();
        for tree in second.iter().take_while(|tree| tree.len() - 1 <= spare) {
            self.work(leaf + tree.len())?;
            begun.extend(&rest[..leaf]);
            begun.extend(*tree);
            let spare = spare - (tree.len() - 1);
            self.put_in(begun, &rest[leaf + 1..], spare, constant, second, made)?;
            begun.truncate(length);
        }
        Ok(())
    }

    /// Step after step, until a step adds no tree of the size looked at.
    fn closure(&mut self, constant: u8, inner: &Trees) -> Result<Trees, TooMuch> {
        let mut step = self.leaf(constant);
        loop {
            let before = step.len();
            let mut made = self.product(constant, inner, &step)?;
            step.append(&mut made);
            if step.len() == before {
                return Ok(step);
            }
        }
    }

    fn work(&mut self, nodes: usize) -> Result<(), TooMuch> {
        self.work_left = self.work_left.checked_sub(nodes).ok_or(TooMuch)?;
        Ok(())
    }
}

/// Smallest first, so that a search can stop at the first one too large.
fn by_size(trees: &Trees) -> Vec<&Tree> {
    let mut trees: Vec<&Tree> = trees.iter().collect();
    trees.sort_by_key(|tree| tree.len());
    trees
}

#[cfg(test)]
mod tests {
    use super::*;
    use crate::parts::parts;
    use crate::pattern;
    use crate::words;

    fn listed(postfix: &str, most_nodes: usize) -> Vec<Tree> {
        let pattern = pattern::read(&words::postfix_file(postfix)).expect("a pattern");
        let trees = trees(&parts(&pattern), most_nodes, 1000).expect("little work");
        trees.into_iter().collect()
    }

    #[test]
    fn lists_the_sample() {
        let sample = "11 20/1:7 10 1/2 *10";
        assert_eq!(listed(sample, 3), [vec![2]]);
        let up_to_seven = [vec![0, 1, 0, 1, 2, 3, 3], vec![0, 1, 2, 3], vec![2]];
        assert_eq!(listed(sample, 7), up_to_seven);
    }

    #[test]
    fn leaves_choose_apart() {
        let product = "10 10 2/2 11 12 + .10";
        let four = [vec![2, 2, 1], vec![2, 3, 1], vec![3, 2, 1], vec![3, 3, 1]];
        assert_eq!(listed(product, 9), four);
        let closure = "10 10 2/2 *10";
        let up_to_five = [
            vec![0],
            vec![0, 0, 0, 1, 1],
            vec![0, 0, 1],
            vec![0, 0, 1, 0, 1],
        ];
        assert_eq!(listed(closure, 5), up_to_five);
    }

    #[test]
    fn stops_at_the_work_allowed() {
        let pattern = pattern::read(&words::postfix_file("1 1 2/2 *1")).expect("a pattern");
        assert_eq!(trees(&parts(&pattern), 40, 1000), Err(TooMuch));
    }
}
