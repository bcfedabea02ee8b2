//! An independent oracle for pattern files: it says what must be printed for
//! a file, and makes the cases on which a program is to be compared with it.

mod allowed;
mod case_line;
mod check_links;
mod climb;
mod command;
mod compare;
mod expression;
mod generate;
mod grow;
mod handpicked;
mod limits;
mod link_cases;
mod link_limits;
mod listing;
mod parts;
mod pattern;
mod random;
mod shapes;
mod slots;
mod trees;
mod words;

use std::ffi::{OsStr, OsString};
use std::io::{self, Write};
use std::process::ExitCode;
use std::{env, fs};

const USAGE: &str = "usage: oracle inspect FILE
       oracle inspect-links FILE
       oracle inspect-cases SEED COUNT
       oracle random-cases SEED COUNT
       oracle answer-cases < CASES
       oracle compare-answers CASES ANSWERS
       oracle check-links SEED COUNT";

/// What a call prints, and whether all it looked at was as it should be.
struct Printed {
    text: String,
    good: bool,
}

fn main() -> ExitCode {
    let arguments: Vec<OsString> = env::args_os().skip(1).collect();
    let written = run(&arguments).and_then(|printed| {
        io::stdout()
            .write_all(printed.text.as_bytes())
            .map_err(|fault| fault.to_string())?;
        Ok(printed.good)
    });
    match written {
        Ok(true) => ExitCode::SUCCESS,
        Ok(false) => ExitCode::FAILURE,
        Err(fault) => {
            eprintln!("{fault}");
            ExitCode::FAILURE
        }
    }
}

/// What to print, or what is wrong with the call.
fn run(arguments: &[OsString]) -> Result<Printed, String> {
    let arguments: Vec<&OsStr> = arguments.iter().map(OsString::as_os_str).collect();
    let [command, operands @ ..] = &arguments[..] else {
        return Err(USAGE.to_string());
    };
    let good = |text: String| Ok(Printed { text, good: true });
    match (command.to_str(), operands) {
        (Some("inspect"), [file]) => {
            // A file that can't be read counts as empty.
            good(listing::listing(&fs::read(file).unwrap_or_default()))
        }
        (Some("inspect-links"), [file]) => good(listing::listing_with_links(
            &fs::read(file).unwrap_or_default(),
        )),
        (Some("inspect-cases"), [seed, count]) => {
            let random = generate::lines(number(seed)?, number(count)?);
            good(ended(handpicked_lines().into_iter().chain(random)))
        }
        (Some("random-cases"), [seed, count]) => {
            good(ended(generate::lines(number(seed)?, number(count)?)))
        }
        (Some("answer-cases"), []) => {
            let cases = io::read_to_string(io::stdin()).map_err(|fault| fault.to_string())?;
            good(answers(&cases)?)
        }
        (Some("compare-answers"), [cases, answers]) => {
            let comparison = compare::compare(&text(cases)?, &text(answers)?)?;
            Ok(Printed {
                text: comparison.text(),
                good: comparison.differ == 0,
            })
        }
        (Some("check-links"), [seed, count]) => {
            let files = shapes::files(number(seed)?, number(count)?);
            good(check_links::check_all(files)?.text())
        }
        _ => Err(USAGE.to_string()),
    }
}

fn number(operand: &OsStr) -> Result<u64, String> {
    let text = operand.to_string_lossy();
    text.parse()
        .map_err(|_| format!("`{text}` is no number\n{USAGE}"))
}

/// What a file holds, whatever bytes that are.
fn text(path: &OsStr) -> Result<String, String> {
    let bytes = fs::read(path).map_err(|fault| format!("{}: {fault}", path.display()))?;
    Ok(String::from_utf8_lossy(&bytes).into_owned())
}

fn handpicked_lines() -> Vec<String> {
    [
        handpicked::lines(),
        limits::lines(),
        link_cases::lines(),
        link_limits::lines(),
    ]
    .concat()
}

fn ended(lines: impl IntoIterator<Item = String>) -> String {
    lines
        .into_iter()
        .flat_map(|line| [line, "\n".to_string()])
        .collect()
}

/// The listing of every case, each followed by an empty line.
fn answers(cases: &str) -> Result<String, String> {
    let files = case_line::parse_list(cases)?;
    Ok(files
        .iter()
        .flat_map(|file| [listing::listing(file), "\n".to_string()])
        .collect())
}
