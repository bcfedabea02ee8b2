//! The hand-picked cases for the three limits: positions, commands and bytes.

use crate::case_line::times;
use crate::pattern::MOST_BYTES;
use crate::words::{case, chain, closure, closures, leaf, leaves, node, product, raw, sum};

pub fn lines() -> Vec<String> {
    [
        position_rules(),
        most_positions(),
        most_commands(),
        most_bytes(),
    ]
    .concat()
}

/// What is a position of its own and what is not.
fn position_rules() -> Vec<String> {
    vec![
        // A constant named again by a leaf, a product, a closure.
        case(&[leaf(1), leaf(1), sum()]),
        case(&[leaf(1), leaf(2), product(1)]),
        case(&[leaf(1), leaf(2), product(2), closure(2), closure(1)]),
        // Constants that no leaf names.
        case(&[leaf(1), closure(2)]),
        case(&[leaf(1), leaf(1), product(2)]),
        case(&[
            leaf(1),
            closure(2),
            closure(3),
            leaf(3),
            product(4),
            leaf(4),
            sum(),
            closure(2),
        ]),
        // A symbol and a constant of the same code; equal nodes.
        case(&[leaf(5), node(5, 1, 0)]),
        case(&[leaf(5), node(6, 1, 0), closure(6)]),
        case(&[leaf(5), node(6, 1, 0), leaf(6), product(5)]),
        case(&[leaf(5), node(6, 1, 3), node(6, 1, 3)]),
        case(&[leaf(5), leaf(5), node(5, 2, 3), closure(5), node(5, 1, 3)]),
        // The order of first naming is not the order of the codes.
        case(&[
            leaf(9),
            leaf(3),
            leaf(0x0301),
            leaf(0x0103),
            node(2, 4, 1),
            closure(1),
        ]),
    ]
}

fn most_positions() -> Vec<String> {
    let leaf_constants = case(&[leaves(1..=64), times(&sum(), 63)]);
    let closure_constants = case(&[leaf(1), closures(2..=64)]);
    let product_constants = {
        let products: String = (2..=64)
            .map(|code| [leaf(1), product(code)].concat())
            .collect();
        case(&[leaf(1), products])
    };
    let nodes = case(&[leaf(1), chain(1, 63)]);
    let mixed = case(&[
        leaves(1..=32),
        chain(7, 20),
        times(&sum(), 31),
        closures(53..=64),
    ]);
    let wide_nodes = case(&[leaves(1..=49), times(&node(3, 4, 9), 15), times(&sum(), 3)]);

    let mut lines = Vec::new();
    for full in [
        leaf_constants,
        closure_constants,
        product_constants,
        nodes,
        mixed,
        wide_nodes,
    ] {
        lines.push(full.clone());
        // The 65th position by each command that can name one.
        lines.push(case(&[full.clone(), leaf(99)]));
        lines.push(case(&[full.clone(), leaf(1), product(99)]));
        lines.push(case(&[full.clone(), closure(99)]));
        lines.push(case(&[full.clone(), node(1, 1, 0)]));
        // A constant named before adds none.
        lines.push(case(&[
            full,
            leaf(1),
            product(1),
            closure(1),
            leaf(1),
            sum(),
        ]));
    }
    lines.extend([
        // One short of the limit, and up to it by each command.
        case(&[leaf(1), closures(2..=63)]),
        case(&[leaf(1), closures(2..=63), node(1, 1, 0)]),
        case(&[leaves(1..=63), times(&sum(), 62), leaf(64), sum()]),
        // The codes of nodes are no constants until a command names them so.
        case(&[leaf(1), chain(2, 62), closure(2)]),
        case(&[leaf(1), chain(2, 62), closure(2), closure(1), closure(2)]),
        case(&[leaf(1), chain(2, 62), closure(2), closure(3)]),
        case(&[leaf(1), chain(2, 63), closure(2)]),
        // Far beyond.
        leaves(1..=200),
        chain(1, 100),
        case(&[leaf(1), chain(1, 100)]),
    ]);
    lines
}

fn most_commands() -> Vec<String> {
    let one_position = case(&[leaf(1), times(&closure(1), 511)]);
    let sums = case(&[times(&leaf(1), 256), times(&sum(), 255), closure(2)]);
    let products = case(&[
        leaf(3),
        closure(2),
        times(&[leaf(4), product(3)].concat(), 255),
    ]);
    let all_nodes = case(&[leaf(1), chain(1, 63), times(&closure(1), 448)]);
    let all_constants = case(&[leaves(1..=64), times(&sum(), 63), times(&closure(9), 385)]);

    let mut lines = Vec::new();
    for full in [one_position, sums, products, all_nodes, all_constants] {
        lines.push(full.clone());
        lines.push(case(&[full.clone(), closure(1)]));
        lines.push(case(&[full.clone(), leaf(1)]));
        lines.push(case(&[full, leaf(1), sum()]));
    }
    lines.extend([
        case(&[leaf(1), times(&closure(1), 510)]),
        case(&[leaf(1), times(&closure(1), 510), leaf(1)]),
        case(&[leaf(1), times(&closure(1), 510), leaf(1), sum()]),
        case(&[times(&leaf(1), 257), times(&sum(), 256)]),
        times(&leaf(1), 513),
        times(&leaf(1), 600),
    ]);
    lines
}

/// Files at the limit are judged by what they hold, files above it are not.
fn most_bytes() -> Vec<String> {
    let mut lines = Vec::new();
    for length in [MOST_BYTES, MOST_BYTES + 1] {
        lines.extend([
            times("00", length),
            times("4c", length),
            times(&sum(), length),
            // A pattern by itself, but for what follows.
            case(&[leaf(1), times("00", length - 3)]),
            case(&[times(&leaf(1), 256), times(&sum(), length - 768)]),
            // Nothing wrong until the table is full; the sums make up the length.
            case(&[
                leaf(1),
                times(&closure(1), (length - 4) / 3),
                times(&sum(), (length - 4) % 3 + 1),
            ]),
        ]);
    }
    lines.extend([
        times(&leaf(1), 21_845),
        case(&[times(&leaf(1), 21_845), raw("00")]),
        case(&[times(&leaf(1), 21_845), raw("0000")]),
        times(&sum(), 65_535),
        times(&sum(), 65_538),
        times(&leaf(1), 65_537),
        times("00", 131_072),
        times("00", 131_073),
    ]);
    lines
}
