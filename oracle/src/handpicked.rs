//! The hand-picked cases for what a command may be: letters, operands, parts
//! and the order in which faults are told.

use crate::case_line::{line, parse_line, times, word};
use crate::words::{case, chain, closure, leaf, leaves, node, product, raw, sum};

pub fn lines() -> Vec<String> {
    [
        plain(),
        truncated(),
        unknown_bytes(),
        operands(),
        pending(),
        first_number(),
        first_command(),
    ]
    .concat()
}

fn sample() -> String {
    case(&[
        leaf(11),
        node(20, 1, 7),
        leaf(10),
        node(1, 2, 0),
        closure(10),
    ])
}

/// A byte that begins no command.
fn unknown() -> String {
    raw("23")
}

/// The sample, the empty file, each command alone and with its parts.
fn plain() -> Vec<String> {
    vec![
        sample(),
        line(&[]),
        leaf(1),
        node(1, 1, 0),
        sum(),
        product(1),
        closure(1),
        case(&[leaf(1), node(2, 1, 3)]),
        case(&[leaf(1), leaf(2), sum()]),
        case(&[leaf(1), leaf(2), product(1)]),
        case(&[leaf(1), closure(1)]),
        // The same parts in other orders and nestings.
        case(&[leaf(2), leaf(1), product(1)]),
        case(&[leaf(1), leaf(2), leaf(3), sum(), product(2)]),
        case(&[leaf(1), leaf(2), sum(), leaf(3), product(2)]),
        case(&[leaf(1), leaf(2), leaf(3), leaf(4), sum(), sum(), sum()]),
        case(&[leaf(1), leaf(2), sum(), leaf(3), leaf(4), sum(), sum()]),
        case(&[
            leaf(7),
            closure(7),
            closure(7),
            closure(8),
            node(7, 1, 1),
            closure(7),
        ]),
    ]
}

/// Every prefix of the sample and of each command.
fn truncated() -> Vec<String> {
    let bytes_of = |case: String| parse_line(&case).expect("words make a case line");
    let sample = bytes_of(sample());
    let mut lines: Vec<String> = (0..sample.len()).map(|end| line(&sample[..end])).collect();
    for command in [
        node(0x1234, 1, 9),
        leaf(0x1234),
        product(0x1234),
        closure(0x1234),
    ] {
        let bytes = bytes_of(command);
        for end in 1..bytes.len() {
            lines.push(word(&bytes[..end]));
            // Here nothing but the missing operands is wrong.
            lines.push(case(&[leaf(1), leaf(2), word(&bytes[..end])]));
        }
    }
    lines
}

fn unknown_bytes() -> Vec<String> {
    // Neighbours of the letters, letters of the other case, and other likely ones.
    let likely = b"\x00\x01\x0a\x0d\x20#),-/KMO1eln\xab\xac\xcc\xce\xff";
    let alone = likely.iter().map(|&byte| word(&[byte]));
    let behind_others = [
        case(&[leaf(1), unknown()]),
        case(&[leaf(1), raw("0a")]),
        case(&[sample(), raw("00")]),
        case(&[sample(), raw("0d0a")]),
        case(&[leaf(1), leaf(2), unknown(), sum()]),
    ];
    // Operands may look like commands and like unknown bytes.
    let as_operands = [
        leaf(0x4c4c),
        leaf(0x2b23),
        leaf(0x0a0a),
        case(&[
            leaf(0x2b2b),
            leaf(0x2e2e),
            product(0x2a2a),
            node(0x2b2a, 1, 0x4c),
        ]),
        case(&[leaf(0x4e4e), closure(0x2b2b), node(0x4c4c, 1, 0x2b)]),
    ];
    alone.chain(behind_others).chain(as_operands).collect()
}

/// Codes, ranks and points at their edges.
fn operands() -> Vec<String> {
    let mut lines = Vec::new();
    for code in [0, 1, 255, 256, 257, 0x7fff, 0x8000, 0xff00, 65535] {
        lines.push(leaf(code));
        lines.push(case(&[leaf(9), node(code, 1, 0)]));
        lines.push(case(&[leaf(9), leaf(8), product(code)]));
        lines.push(case(&[leaf(9), closure(code)]));
    }
    for rank in [0, 1, 2, 3, 4, 5, 255] {
        lines.push(node(300, rank, 1));
        // With one too few, just enough and one too many pending.
        let enough = u16::from(rank.clamp(1, 5));
        for pending in enough.max(2) - 1..=enough + 1 {
            lines.push(case(&[leaves(1..=pending), node(300, rank, 1)]));
        }
    }
    for points in [0, 1, 127, 128, 255] {
        lines.push(case(&[leaf(1), node(1, 1, points)]));
    }
    // Codes that differ in which byte is high.
    lines.extend([
        case(&[leaf(0x0100), leaf(0x0001), sum()]),
        case(&[leaf(0x0100), closure(0x0001), closure(0x0100)]),
        case(&[leaf(0x0102), leaf(0x0201), product(0x0102)]),
        case(&[leaf(0x0001), leaf(0xff01), product(0x01ff)]),
    ]);
    lines
}

/// Files that end with other than one part.
fn pending() -> Vec<String> {
    vec![
        case(&[leaf(1), leaf(1)]),
        case(&[leaf(1), leaf(2), leaf(3)]),
        case(&[leaf(1), leaf(2), leaf(3), sum()]),
        case(&[leaf(1), leaf(2), leaf(3), leaf(4), node(1, 3, 0)]),
        case(&[sample(), sample()]),
        case(&[sample(), sample(), sample()]),
        times(&leaf(5), 255),
        times(&leaf(5), 256),
        times(&leaf(5), 300),
        times(&leaf(5), 512),
        case(&[times(&leaf(5), 255), times(&sum(), 255)]),
        case(&[times(&leaf(5), 257), times(&sum(), 255)]),
    ]
}

/// A command that deserves several numbers gets the first of them.
fn first_number() -> Vec<String> {
    let before = [
        // All positions named, one part pending; then the same with many.
        case(&[leaf(1), chain(1, 63)]),
        case(&[times(&leaf(1), 9), chain(1, 63)]),
        // The table full, one part pending; then the same with many.
        case(&[leaf(1), times(&closure(1), 511)]),
        times(&leaf(1), 512),
        // Both full, one part pending; then the same with many.
        case(&[leaf(1), chain(1, 63), times(&closure(1), 448)]),
        case(&[times(&leaf(1), 449), chain(1, 63)]),
    ];
    let commands = [
        unknown(),
        raw("4c00"),
        raw("2e00"),
        raw("4e0000"),
        raw("4e000109"),
        leaf(0),
        product(0),
        closure(0),
        node(0, 9, 0),
        node(0, 2, 0),
        node(1, 0, 0),
        node(1, 5, 0),
        node(1, 4, 0),
        node(1, 1, 0),
        sum(),
        product(1),
        product(99),
        leaf(1),
        leaf(99),
        closure(1),
        closure(99),
    ];
    let mut lines = commands.to_vec();
    for words in before {
        lines.extend(
            commands
                .iter()
                .map(|command| case(&[words.clone(), command.clone()])),
        );
    }
    lines
}

/// A greater number at an earlier command wins against a lesser one later.
fn first_command() -> Vec<String> {
    let positions_beyond = case(&[leaf(1), chain(1, 64)]);
    let commands_beyond = case(&[leaf(1), times(&closure(1), 512)]);
    let mut lines = Vec::new();
    for words in [
        leaf(0),
        node(1, 9, 0),
        node(1, 0, 0),
        sum(),
        positions_beyond,
        commands_beyond,
    ] {
        for later in [
            unknown(),
            raw("4c00"),
            leaf(0),
            node(1, 9, 0),
            node(1, 4, 0),
            leaves(2..=70),
        ] {
            lines.push(case(&[words.clone(), later]));
        }
    }
    lines.extend([
        // Parts that come too late don't help.
        case(&[closure(1), leaf(1)]),
        case(&[leaf(1), sum(), leaf(2)]),
        // The count of the parts at the end is judged last.
        case(&[leaf(1), leaf(2), leaf(0)]),
        case(&[leaf(1), leaf(2), node(1, 9, 0)]),
        case(&[leaf(1), leaf(2), raw("4c")]),
    ]);
    lines
}
