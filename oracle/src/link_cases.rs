//! The hand-picked cases for links, each with the links worked by hand.
//!
//! The patterns are told in short: `5/1` is the node 5 of rank 1, all else is
//! written as in the docs, parts before the command that takes them.

use crate::words::postfix;

/// A pattern in short and its links.
type LinkCase = (&'static str, &'static [u64]);

pub fn lines() -> Vec<String> {
    all().iter().map(|(text, _)| postfix(text)).collect()
}

fn all() -> Vec<LinkCase> {
    [
        WORKED,
        LEAVES,
        NODES,
        SUMS,
        PRODUCTS,
        UNREACHED,
        REACHED_DEEP,
        PRODUCTS_OF_PRODUCTS,
        CLOSURES,
        NESTED_CLOSURES,
        PRODUCTS_AND_CLOSURES,
    ]
    .concat()
}

/// Those of the docs.
const WORKED: &[LinkCase] = &[
    ("11 20/1:7 10 1/2 *10", &[12, 1, 2, 12]),
    ("11 20/1:7 11 20/1:3 +", &[6, 1, 1]),
    ("11 11 +", &[1]),
    ("10 10 2/2 *10", &[3, 3, 3]),
    ("10 10 2/2 11 12 + .10", &[2, 12, 12]),
    ("10 12 20/1 .11", &[1, 0]),
    ("11 20/1 11 20/1 + *11", &[7, 7, 7]),
];

/// Leaves only: the root is the only slot.
const LEAVES: &[LinkCase] = &[
    ("1", &[1]),
    ("1 2 .1", &[2]),
    ("1 2 .2", &[1]),
    ("1 2 .3", &[1]),
    ("1 1 .1", &[1]),
    ("1 2 + 3 .1", &[6]),
    ("1 2 + 3 .2", &[5]),
    ("1 2 3 + .1", &[6]),
    ("1 2 1 + .1", &[3]),
    ("1 *1", &[1]),
    ("2 *1", &[3]),
    ("1 2 + *2", &[3]),
    ("1 *2 *3", &[7]),
    ("1 *2 *3 4 .2", &[13]),
];

/// The order of the children, and nodes that look alike.
const NODES: &[LinkCase] = &[
    ("1 2 3 5 4/4", &[16, 1, 2, 4, 8]),
    ("1 2 1 4/3", &[4, 1, 2, 1]),
    ("1 2 4/2 2 1 5/2 +", &[12, 1, 2, 2, 1]),
    ("1 4/1 1 5/1 1 6/1 7/3", &[16, 1, 1, 1, 2, 4, 8]),
    ("1 4/1 1 5/2 1 2 6/2 7/2", &[32, 1, 2, 1, 1, 8, 4, 16]),
    ("1 4/1 4/1", &[4, 1, 2]),
    ("1 4/1 1 4/1 4/2", &[8, 1, 1, 2, 4]),
    // The leaf 5 and the node 5 have nothing to do with each other.
    ("5 5/1 *5", &[3, 3]),
    ("5 5/1 6 .5", &[2, 4]),
    ("6 5/1 7 .5", &[2, 1]),
];

const SUMS: &[LinkCase] = &[
    ("1 2 3 + +", &[7]),
    ("1 2 + 3 +", &[7]),
    ("1 4/1 2 5/1 + 3 6/1 +", &[42, 1, 4, 16]),
    ("1 2 + 3 4/2", &[8, 3, 4]),
    ("1 2 3 + 4/2", &[8, 1, 6]),
    ("1 4/1 1 + 2 1 + 5/2", &[8, 1, 3, 5]),
];

/// What becomes of the constant, and of the same constant in the second part.
const PRODUCTS: &[LinkCase] = &[
    ("1 5/1 2 .1", &[2, 4]),
    ("1 1 5/1 + 2 .1", &[6, 4]),
    ("1 5/1 1 .1", &[2, 1]),
    ("1 5/1 1 6/1 .1", &[2, 4, 1]),
    ("1 2 5/2 1 3 6/2 .1", &[4, 16, 2, 1, 8]),
    ("1 2 1 4/3 3 5/1 .1", &[4, 16, 2, 16, 8]),
    ("1 4/1 1 2 + .1", &[2, 5]),
    ("1 4/1 1 1 5/1 + .1", &[2, 5, 1]),
    // The first part is nothing but the constant.
    ("1 2 3 5/2 .1", &[8, 2, 4]),
    ("1 1 2 5/2 .1", &[4, 1, 2]),
    // The constant stays where the product does not reach.
    ("1 4/1 2 .1 1 5/2", &[8, 4, 2, 1]),
    ("1 4/1 2 .1 1 5/1 +", &[10, 4, 1]),
];

/// Second parts that are never put in.
const UNREACHED: &[LinkCase] = &[
    ("1 2 5/1 .3", &[1, 0]),
    ("1 2 .1 3 5/1 .1", &[2, 0]),
    ("1 2 .9 3 5/1 .2", &[1, 0]),
    ("1 2 5/1 3 6/1 .2 .4", &[1, 0, 0]),
    ("1 2 5/1 .9 3 6/1 .2", &[1, 0, 0]),
    ("1 2 5/1 .9 3 +", &[17, 0]),
    ("1 2 5/1 .9 *2", &[3, 0]),
    ("1 2 5/1 *2 .9", &[1, 0]),
    ("1 4/1 2 5/1 .2 3 6/1 .1", &[2, 32, 0, 16]),
    ("1 4/1 2 1 5/2 .2", &[2, 1, 0, 0]),
    // The constant is only in the second part itself.
    ("1 2 5/1 .2", &[1, 0]),
    // Never put in by this product, but its constants come from elsewhere.
    ("1 4/1 2 5/1 .2 2 +", &[6, 1, 0]),
    ("1 4/1 2 5/1 .2 2 6/1 .1", &[2, 16, 0, 4]),
];

/// Second parts that are put in only far below the root, or through others.
const REACHED_DEEP: &[LinkCase] = &[
    ("1 4/1 5/1 6/1 2 7/1 .1", &[8, 32, 2, 4, 16]),
    ("1 2 4/1 .1 3 5/1 .2", &[4, 16, 8]),
    ("1 2 3 4/1 .2 .1", &[8, 4]),
    ("1 2 4/2 *1 3 5/1 .2", &[5, 5, 16, 8]),
    ("3 1 2 4/1 .1 + 2 5/1 .2", &[9, 16, 4]),
    ("1 4/1 2 5/1 .1 3 6/1 .2 4 7/1 .3", &[2, 8, 32, 128, 64]),
];

/// Constants that are replaced once, again, and come back.
const PRODUCTS_OF_PRODUCTS: &[LinkCase] = &[
    ("1 4/1 1 5/1 .1 1 6/1 .1", &[2, 4, 8, 1]),
    ("1 4/1 1 5/1 1 6/1 .1 .1", &[2, 4, 8, 1]),
    ("1 4/1 2 5/1 .1 1 6/1 .1", &[2, 8, 4, 0]),
    ("1 4/1 2 5/1 1 6/1 .1 .1", &[2, 8, 4, 0]),
    ("1 4/1 2 .1 1 .2", &[2, 1]),
    ("1 2 4/2 3 .1 1 .2 2 .3", &[4, 2, 1]),
    ("1 2 4/2 2 .1 1 .2", &[4, 1, 1]),
    ("1 4/1 2 5/1 .1 1 6/1 .2 3 .1", &[2, 8, 16, 32]),
];

const CLOSURES: &[LinkCase] = &[
    ("1 4/1 *1", &[3, 3]),
    ("2 4/1 *1", &[6, 1]),
    ("1 4/1 1 + *1", &[3, 3]),
    ("2 4/1 3 + *3", &[6, 1]),
    ("1 2 4/2 *1", &[5, 5, 2]),
    ("1 2 4/2 *2", &[6, 1, 6]),
    ("1 4/1 2 5/1 + *1", &[11, 11, 4]),
    ("1 4/1 1 5/1 + *1", &[7, 7, 7]),
    ("1 4/1 5/1 *1", &[5, 5, 2]),
    ("1 1 2 + 4/2 *1", &[5, 5, 7]),
];

/// Closures about closures, at the same and at other constants.
const NESTED_CLOSURES: &[LinkCase] = &[
    ("1 4/1 *1 *1", &[3, 3]),
    ("1 2 4/2 *1 *2", &[7, 5, 7]),
    ("1 2 4/2 *2 *1", &[7, 7, 6]),
    ("1 4/1 *2 *1", &[7, 7]),
    ("1 4/1 *1 5/1 *1", &[5, 7, 7]),
    ("1 2 4/2 *1 5/1 *2", &[10, 5, 10, 5]),
    ("1 4/1 *1 1 5/1 *1 +", &[7, 3, 5]),
    ("1 4/1 *1 1 5/1 *1 + *1", &[7, 7, 7]),
    ("1 4/1 *1 1 5/1 *1 6/2 *1", &[9, 11, 13, 11, 13]),
];

/// Products in closures, and closures in either part of a product.
const PRODUCTS_AND_CLOSURES: &[LinkCase] = &[
    ("1 4/1 *1 2 .1", &[6, 6]),
    ("1 4/1 *2 3 .1", &[6, 8]),
    ("1 4/1 *2 3 .2", &[10, 1]),
    ("2 4/1 *1 3 .1", &[10, 1]),
    ("1 4/1 2 5/1 *2 .1", &[2, 12, 12]),
    ("1 4/1 1 5/1 *1 .1", &[2, 5, 5]),
    ("1 4/1 2 5/1 *1 .1", &[2, 9, 4]),
    ("1 4/1 1 5/1 .1 *1", &[3, 4, 3]),
    ("1 4/1 2 .1 *1", &[3, 4]),
    ("1 4/1 2 .1 *2", &[6, 6]),
    ("1 2 4/2 3 .1 *2", &[6, 8, 6]),
    ("1 4/1 *1 1 5/1 .1", &[6, 6, 1]),
    ("1 4/1 *1 1 5/1 .1 *1", &[7, 6, 7]),
    ("1 4/1 1 5/1 *1 .1 *1", &[3, 7, 7]),
    ("1 4/1 1 5/1 .1 *1 1 6/1 .1", &[10, 4, 10, 1]),
    ("1 4/1 *1 1 5/1 *1 .1", &[7, 7, 5]),
    // The closure adds the constant that the product then finds.
    ("2 4/1 *1 3 5/1 .1", &[18, 1, 8]),
    ("1 4/1 2 5/1 .3 *3 6 7/1 .3", &[66, 1, 0, 32]),
];

#[cfg(test)]
mod tests {
    use super::*;
    use crate::case_line::parse_line;
    use crate::check_links;
    use crate::climb;
    use crate::parts::parts;
    use crate::pattern;

    #[test]
    fn links_are_as_worked_by_hand() {
        for (text, links) in all() {
            let file = parse_line(&postfix(text)).expect("words make a case line");
            let pattern = pattern::read(&file).expect("a pattern");
            let followed = climb::links(&parts(&pattern), &pattern.positions);
            assert_eq!(followed, links, "{text}");
        }
    }

    #[test]
    fn listings_give_the_same_links() {
        let files = lines()
            .into_iter()
            .map(|line| parse_line(&line).expect("words make a case line"));
        let tally = check_links::check_all(files).expect("both ways agree");
        assert_eq!(tally.whole, all().len());
    }
}
