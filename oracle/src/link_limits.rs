//! The hand-picked cases for links at the limits: the most slots, the last
//! positions' places in a link, and the most commands.

use crate::case_line::times;
use crate::words::{case, chain, closure, leaf, leaves, node, product, sum};

pub fn lines() -> Vec<String> {
    [most_slots(), last_positions(), many_commands()].concat()
}

/// 63 nodes of rank 4 over one constant have 253 slots.
fn most_slots() -> Vec<String> {
    let three_leaves = [leaf(1).repeat(3), node(2, 4, 0)].concat();
    let four_leaves = [leaf(1).repeat(4), node(2, 4, 0)].concat();
    // Each node is the first, or the last, child of the next.
    let first_children = case(&[leaf(1), times(&three_leaves, 63)]);
    let last_children = case(&[times(&leaf(1), 190), times(&node(2, 4, 0), 63)]);
    // All nodes beside each other: a closure then fills every link.
    let beside = case(&[times(&four_leaves, 63), times(&sum(), 62)]);
    let put_in = [four_leaves.clone(), product(1)].concat();
    vec![
        first_children.clone(),
        case(&[first_children, closure(1)]),
        last_children.clone(),
        case(&[last_children, closure(1)]),
        beside.clone(),
        case(&[beside, closure(1)]),
        // Each node in the stead of all leaves of the one before.
        case(&[leaf(1), times(&put_in, 63)]),
        // The last node in the stead of all leaves of all others, then of its own.
        case(&[
            times(&four_leaves, 62),
            times(&sum(), 61),
            four_leaves.clone(),
            product(1),
        ]),
        // Nearly as many slots, all but the root empty.
        case(&[
            leaf(3),
            times(&four_leaves, 62),
            times(&sum(), 61),
            product(1),
        ]),
    ]
}

/// Positions about the 32nd and the 64th, where numbers of fewer bits end.
fn last_positions() -> Vec<String> {
    let sum_of_63 = case(&[leaves(1..=63), times(&sum(), 62)]);
    let node_chain = case(&[leaf(1), chain(2, 62)]);
    vec![
        case(&[leaf(1), chain(2, 30), closure(1)]),
        case(&[leaf(1), chain(2, 31), closure(1)]),
        case(&[leaf(1), chain(2, 32), closure(1)]),
        case(&[leaf(1), chain(2, 33), closure(1), chain(3, 30)]),
        case(&[leaf(1), chain(2, 63), closure(1)]),
        // The last position is a node, and what a closure, a leaf, a product names.
        case(&[sum_of_63.clone(), node(7, 1, 0), closure(63)]),
        case(&[sum_of_63.clone(), node(7, 1, 0), closure(1)]),
        case(&[sum_of_63.clone(), closure(64)]),
        case(&[sum_of_63.clone(), leaf(64), sum(), closure(64)]),
        case(&[sum_of_63, leaf(1), product(64)]),
        case(&[node_chain.clone(), leaf(9), product(1)]),
        case(&[node_chain.clone(), leaf(9), closure(9), product(1)]),
        case(&[node_chain.clone(), closure(9)]),
        // It is taken out again.
        case(&[node_chain.clone(), leaf(9), sum(), leaf(1), product(9)]),
        case(&[node_chain, closure(9), leaf(1), product(9)]),
        case(&[
            leaves(1..=64),
            times(&sum(), 63),
            leaf(1),
            leaf(2),
            sum(),
            product(64),
        ]),
    ]
}

fn many_commands() -> Vec<String> {
    let leaf_put_in = [leaf(1), product(1)].concat();
    let both_closures = [closure(1), closure(2)].concat();
    // Every node's first child may be any node further up.
    let node_and_closure = [leaf(2), node(3, 2, 0), closure(1)].concat();
    let node_and_product = [leaf(1), leaf(2), node(3, 2, 0), product(2)].concat();
    vec![
        case(&[leaf(1), chain(2, 63), times(&leaf_put_in, 224)]),
        case(&[
            times(&leaf(1), 255),
            leaf(2),
            times(&product(1), 255),
            closure(2),
        ]),
        case(&[
            leaf(1),
            leaf(2),
            node(3, 2, 0),
            times(&both_closures, 254),
            closure(1),
        ]),
        case(&[leaf(1), times(&node_and_closure, 62)]),
        case(&[
            leaf(2),
            times(&node_and_product, 62),
            closure(1),
            closure(2),
        ]),
    ]
}

#[cfg(test)]
mod tests {
    use super::*;
    use crate::case_line::parse_line;
    use crate::check_links;

    #[test]
    fn both_ways_agree() {
        let files = lines()
            .into_iter()
            .map(|line| parse_line(&line).expect("words make a case line"));
        let tally = check_links::check_all(files).expect("both ways agree");
        assert_eq!(tally.patterns, lines().len());
    }
}
