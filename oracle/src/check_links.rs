//! The two ways to the links, one checked against the other.

use crate::allowed::Allowed;
use crate::case_line;
use crate::climb;
use crate::parts::{Part, parts};
use crate::pattern::{self, Pattern};
use crate::slots::Link;
use crate::trees::{self, Trees};

/// How much work one listing may be.
const MOST_WORK: usize = 200_000;
/// How many nodes the trees listed may have at most.
const MOST_NODES: usize = 300;
/// How many nodes more than enough are listed, in case enough was not enough.
const NODES_BEYOND: usize = 2;

/// How far the listing came, when nothing was wrong.
#[derive(Clone, Copy, Debug, PartialEq, Eq)]
pub enum Agreement {
    /// Far enough: both ways give the same links.
    Whole,
    /// The listing gives some of the links' positions and none besides.
    AsFarAsListed,
}

/// What came out for many patterns.
#[derive(Debug, Default, PartialEq, Eq)]
pub struct Tally {
    pub patterns: usize,
    pub slots: usize,
    pub empty_links: usize,
    pub trees: usize,
    pub whole: usize,
    pub as_far_as_listed: usize,
}

impl Tally {
    pub fn text(&self) -> String {
        format!(
            "{} patterns with {} slots, {} of them empty; {} trees listed\n\
             {} patterns with equal links, {} with equal trees as far as they were listed\n",
            self.patterns,
            self.slots,
            self.empty_links,
            self.trees,
            self.whole,
            self.as_far_as_listed
        )
    }
}

/// Checks the links of all these patterns, which are to be accepted.
pub fn check_all(files: impl IntoIterator<Item = Vec<u8>>) -> Result<Tally, String> {
    let mut tally = Tally::default();
    for file in files {
        let pattern = pattern::read(&file).expect("a pattern to check");
        let wrong = |fault: String| format!("{fault}\n{}", case_line::line(&file));
        check(&pattern, &mut tally).map_err(wrong)?;
    }
    Ok(tally)
}

fn check(pattern: &Pattern, tally: &mut Tally) -> Result<Agreement, String> {
    let parts = parts(pattern);
    let links = climb::links(&parts, &pattern.positions);
    let allowed = Allowed::new(&pattern.positions, &links);
    let enough = allowed
        .enough_nodes()
        .ok_or("a position of a link has no tree")?;
    let (trees, nodes) = largest_listing(&parts, MOST_NODES.min(enough + NODES_BEYOND));

    let listed = trees::links(&trees, &pattern.positions);
    if !within(&listed, &links) {
        return Err(format!("listed {listed:?}, but followed {links:?}"));
    }
    // No listed tree is outside the links, so equal numbers mean equal trees.
    let count = allowed.count(nodes);
    if count != trees.len() as u128 {
        return Err(format!(
            "{} trees of at most {nodes} nodes listed, but {count} allowed by {links:?}",
            trees.len()
        ));
    }
    let agreement = if nodes < enough {
        Agreement::AsFarAsListed
    } else if listed == links {
        Agreement::Whole
    } else {
        return Err(format!("listed only {listed:?}, but followed {links:?}"));
    };

    tally.patterns += 1;
    tally.slots += links.len();
    tally.empty_links += links.iter().filter(|&&link| link == 0).count();
    tally.trees += trees.len();
    match agreement {
        Agreement::Whole => tally.whole += 1,
        Agreement::AsFarAsListed => tally.as_far_as_listed += 1,
    }
    Ok(agreement)
}

/// The trees up to the greatest number of nodes that is no more than `most_nodes`
/// and not too much work, and that number.
fn largest_listing(parts: &[Part], most_nodes: usize) -> (Trees, usize) {
    let listing = |nodes: usize| trees::trees(parts, nodes, MOST_WORK);
    if let Ok(trees) = listing(most_nodes) {
        return (trees, most_nodes);
    }
    let mut largest = (Trees::new(), 0);
    let mut too_many = most_nodes;
    while largest.1 + 1 < too_many {
        let nodes = (largest.1 + too_many) / 2;
        match listing(nodes) {
            Ok(trees) => largest = (trees, nodes),
            Err(trees::TooMuch) => too_many = nodes,
        }
    }
    largest
}

/// Whether each link of the one list is part of that of the other.
fn within(some: &[Link], all: &[Link]) -> bool {
    some.iter().zip(all).all(|(some, all)| some & !all == 0)
}

#[cfg(test)]
mod tests {
    use super::*;
    use crate::shapes;

    #[test]
    fn both_ways_agree() {
        let tally = check_all(shapes::files(1, 2000)).expect("both ways agree");
        assert!(tally.whole > 1500, "{tally:?}");
    }
}
