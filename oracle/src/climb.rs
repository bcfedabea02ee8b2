//! The links of a pattern, exactly: what comes to stand in a slot is followed
//! through the pattern until it is a position.
//!
//! A tree of some part is to stand in a slot. If the part is a node, the node
//! stands there. If it is a leaf, the leaf climbs: it leaves its part, then the
//! part that took that one, and so on up to the whole pattern. A product at its
//! constant, left from the first part, puts a tree of the second part in its
//! stead. A closure at its constant either puts another tree of its own part
//! there or lets the leaf out. A leaf that leaves the whole pattern stands there
//! itself.
//!
//! Which products and closures a leaf meets depends on its place in the pattern
//! alone, never on how a tree got there, since a part's own products and closures
//! are done with before the tree is put anywhere. So all ways can be followed in
//! one finite graph. Each way can be completed to a whole tree, as every part has
//! a tree.

use std::collections::BTreeSet;

use crate::command::Command;
use crate::parts::Part;
use crate::pattern::Position;
use crate::slots::{Link, only, slots, slots_of_positions};

/// Something on its way to a slot.
#[derive(Clone, Copy, Debug, PartialEq, Eq, PartialOrd, Ord)]
enum Coming {
    /// A tree of this part.
    Tree { of: usize },
    /// The leaf of this constant, just let out by this part.
    Leaf { constant: usize, out_of: usize },
}

/// Something that stands in a slot for good.
#[derive(Clone, Copy, Debug, PartialEq, Eq)]
enum Standing {
    Node { part: usize },
    Constant { position: usize },
}

enum Step {
    Then(Vec<Coming>),
    Stands(Standing),
}

/// The link of every slot, in the order of the slots.
pub fn links(parts: &[Part], positions: &[Position]) -> Vec<Link> {
    let slots_of = slots_of_positions(positions);
    let mut links = vec![0; slots(positions).len()];
    let mut met_nodes = BTreeSet::new();
    // The whole pattern's trees are to stand at the root. The parts of a node are
    // looked at only once the node stands somewhere.
    let mut to_fill = vec![(0, parts.len() - 1)];
    while let Some((slot, part)) = to_fill.pop() {
        for standing in all_standing(parts, part) {
            match standing {
                Standing::Constant { position } => links[slot] |= only(position),
                Standing::Node { part } => {
                    let position = parts[part].position();
                    links[slot] |= only(position);
                    if met_nodes.insert(part) {
                        let children = slots_of[position].iter().copied();
                        to_fill.extend(children.zip(parts[part].takes.iter().copied()));
                    }
                }
            }
        }
    }
    links
}

/// All that may stand where a tree of this part is to stand.
fn all_standing(parts: &[Part], part: usize) -> Vec<Standing> {
    let start = Coming::Tree { of: part };
    let mut met = BTreeSet::from([start]);
    let mut to_follow = vec![start];
    let mut standing = Vec::new();
    while let Some(coming) = to_follow.pop() {
        match step(parts, coming) {
            Step::Stands(found) => standing.push(found),
            Step::Then(next) => {
                to_follow.extend(next.into_iter().filter(|&coming| met.insert(coming)));
            }
        }
    }
    standing
}

fn step(parts: &[Part], coming: Coming) -> Step {
    match coming {
        Coming::Tree { of } => of_tree(parts, of),
        Coming::Leaf { constant, out_of } => of_leaf(parts, constant, out_of),
    }
}

fn of_tree(parts: &[Part], of: usize) -> Step {
    let part = &parts[of];
    let tree = |index: usize| Coming::Tree {
        of: part.takes[index],
    };
    // A leaf, or step 0 of a closure: the leaf is let out as it is.
    let leaf = || Coming::Leaf {
        constant: part.position(),
        out_of: of,
    };
    Step::Then(match part.command {
        Command::Node { .. } => return Step::Stands(Standing::Node { part: of }),
        Command::Leaf { .. } => vec![leaf()],
        Command::Sum => vec![tree(0), tree(1)],
        // The root of a product's tree is that of its first part, unless that is
        // a leaf, which meets the product on its way out.
        Command::Product { .. } => vec![tree(0)],
        Command::Closure { .. } => vec![leaf(), tree(0)],
    })
}

fn of_leaf(parts: &[Part], constant: usize, out_of: usize) -> Step {
    let Some(taken) = parts[out_of].taken else {
        return Step::Stands(Standing::Constant { position: constant });
    };
    let outer = &parts[taken.by];
    let on = Coming::Leaf {
        constant,
        out_of: taken.by,
    };
    let same_constant = outer.names == Some(constant);
    Step::Then(match outer.command {
        Command::Product { .. } if same_constant && taken.index == 0 => {
            vec![Coming::Tree { of: outer.takes[1] }]
        }
        Command::Closure { .. } if same_constant => vec![on, Coming::Tree { of: out_of }],
        _ => vec![on],
    })
}
