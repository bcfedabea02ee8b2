//! A program's answers to a list of cases, compared with the oracle's.

use std::iter;

use crate::case_line;
use crate::listing::listing;
use crate::pattern;

/// How many of the cases that differ are told in full.
const MOST_TOLD: usize = 5;

pub struct Comparison {
    pub cases: usize,
    pub accepted: usize,
    pub differ: usize,
    /// The first cases that differ, told.
    pub told: String,
}

impl Comparison {
    pub fn text(&self) -> String {
        format!(
            "{}{} cases, {} accepted, {} differ\n",
            self.told, self.cases, self.accepted, self.differ
        )
    }
}

/// Each answer is a listing and an empty line. An answer that is missing or cut
/// short differs, and so does one too many.
pub fn compare(cases: &str, answers: &str) -> Result<Comparison, String> {
    let files = case_line::parse_list(cases)?;
    // A listing has no empty line of its own.
    let mut answers = answers.split_inclusive("\n\n");
    let mut comparison = Comparison {
        cases: files.len(),
        accepted: 0,
        differ: 0,
        told: String::new(),
    };
    for (file, case) in files.iter().zip(cases.lines()) {
        comparison.accepted += usize::from(pattern::read(file).is_ok());
        let expected = listing(file) + "\n";
        let answer = answers.next().unwrap_or("");
        if answer != expected {
            comparison.differs(&format!(
                "case {case}\n{}",
                first_difference(&expected, answer)
            ));
        }
    }
    for answer in answers {
        comparison.differs(&format!("an answer without a case: {answer:?}\n"));
    }
    Ok(comparison)
}

impl Comparison {
    fn differs(&mut self, words: &str) {
        self.differ += 1;
        if self.differ <= MOST_TOLD {
            self.told += words;
        }
    }
}

fn first_difference(expected: &str, answer: &str) -> String {
    let ends = || iter::once("(nothing)");
    let mut pairs = expected
        .lines()
        .chain(ends())
        .zip(answer.lines().chain(ends()));
    match pairs.find(|(expected, answer)| expected != answer) {
        Some((expected, answer)) => format!("  expected: {expected}\n  answered: {answer}\n"),
        None => "  the ends of the lines differ\n".to_string(),
    }
}

#[cfg(test)]
mod tests {
    use super::*;

    fn differ(cases: &str, answers: &str) -> usize {
        compare(cases, answers).expect("good case lines").differ
    }

    #[test]
    fn counts_what_differs() {
        let cases = "e\n4c0001\n";
        let [empty, leaf] = [&b""[..], b"L\0\x01"].map(|file| listing(file) + "\n");
        let good = [&empty[..], &leaf].concat();
        let comparison = compare(cases, &good).expect("good case lines");
        assert_eq!(comparison.text(), "2 cases, 1 accepted, 0 differ\n");
        assert_eq!(differ(cases, &[&leaf[..], &empty].concat()), 2);
        assert_eq!(differ(cases, &empty), 1);
        assert_eq!(differ(cases, ""), 2);
        assert_eq!(differ(cases, &good[..good.len() - 1]), 1);
        assert_eq!(differ(cases, &[&good[..], &leaf].concat()), 1);
        assert!(compare("x\n", "").is_err());
    }
}
