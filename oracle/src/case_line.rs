//! Case lines: files written as text, one file a line.
//!
//! A line is words parted by one space. A word is lower-case hex, two digits a
//! byte, or such hex, `*` and a decimal number of times. The line `e` is the
//! empty file.

const EMPTY_FILE: &str = "e";

/// One word for these bytes; there must be at least one.
pub fn word(bytes: &[u8]) -> String {
    assert!(!bytes.is_empty(), "a word stands for at least one byte");
    bytes.iter().map(|byte| format!("{byte:02x}")).collect()
}

/// The word for `word` so many times.
pub fn times(word: &str, count: usize) -> String {
    format!("{word}*{count}")
}

/// The line for a file, as a single word.
pub fn line(file: &[u8]) -> String {
    if file.is_empty() {
        EMPTY_FILE.to_string()
    } else {
        word(file)
    }
}

/// Reads a list of case lines, each ended by byte 10.
pub fn parse_list(text: &str) -> Result<Vec<Vec<u8>>, String> {
    text.split_inclusive('\n')
        .enumerate()
        .map(|(index, ended_line)| {
            let file = match ended_line.strip_suffix('\n') {
                Some(line) => parse_line(line),
                None => Err("the end of the line is missing".to_string()),
            };
            file.map_err(|fault| format!("case line {}: {fault}", index + 1))
        })
        .collect()
}

pub fn parse_line(line: &str) -> Result<Vec<u8>, String> {
    if line == EMPTY_FILE {
        return Ok(Vec::new());
    }
    let files: Result<Vec<Vec<u8>>, String> = line.split(' ').map(parse_word).collect();
    Ok(files?.concat())
}

fn parse_word(word: &str) -> Result<Vec<u8>, String> {
    let Some((hex, count)) = word.split_once('*') else {
        return parse_hex(word);
    };
    let bytes = parse_hex(hex)?;
    let fault = || format!("`{count}` is no decimal number of times");
    // The number reader of the library would let a sign pass.
    if !count.bytes().all(|digit| digit.is_ascii_digit()) {
        return Err(fault());
    }
    let count: usize = count.parse().map_err(|_| fault())?;
    let length = bytes.len().checked_mul(count).ok_or_else(fault)?;
    let mut repeated = Vec::new();
    repeated.try_reserve_exact(length).map_err(|_| fault())?;
    repeated.extend(bytes.iter().cycle().take(length));
    Ok(repeated)
}

fn parse_hex(hex: &str) -> Result<Vec<u8>, String> {
    let fault = || format!("`{hex}` is no lower-case hex of two digits a byte");
    let digits: Option<Vec<u8>> = hex.bytes().map(digit_value).collect();
    let digits = digits.ok_or_else(fault)?;
    if digits.is_empty() || digits.len() % 2 != 0 {
        return Err(fault());
    }
    Ok(digits
        .chunks_exact(2)
        .map(|pair| pair[0] << 4 | pair[1])
        .collect())
}

fn digit_value(digit: u8) -> Option<u8> {
    match digit {
        b'0'..=b'9' => Some(digit - b'0'),
        b'a'..=b'f' => Some(digit - b'a' + 10),
        _ => None,
    }
}

#[cfg(test)]
mod tests {
    use super::*;

    #[test]
    fn reads_what_it_writes() {
        for file in [&b""[..], b"\0", b"L\x01\xfe"] {
            assert_eq!(parse_line(&line(file)).as_deref(), Ok(file));
        }
        assert_eq!(
            parse_line("4c00 2b*3 01").as_deref(),
            Ok(&b"L\0+++\x01"[..])
        );
        assert_eq!(parse_list("e\n2b\n"), Ok(vec![vec![], vec![b'+']]));
        assert_eq!(parse_list(""), Ok(vec![]));
    }

    #[test]
    fn refuses_anything_else() {
        for line in [
            "", " ", "e e", "4", "4C", "2b  2b", "2b ", " 2b", "2b\r", "2b*", "2b*+1",
        ] {
            assert!(parse_line(line).is_err(), "{line:?}");
        }
        for line in [
            "*3",
            "2b*1*1",
            "2b*-1",
            "2b*1a",
            "2b*99999999999999999999",
            "zz",
        ] {
            assert!(parse_line(line).is_err(), "{line:?}");
        }
        assert!(parse_list("2b").is_err());
        assert!(parse_list("2b\n\n").is_err());
    }
}
