//! What the program `bind` makes of a text: a list on each line, its words in decimal.

use crate::album::{self, MAX_LISTS};
use crate::field::P;
use crate::model::{self, List, MAX_WORDS};

/// The most bytes of a text. The program reads one more, to see that a text is longer.
pub const MAX_TEXT: usize = 262_144;

/// The lists that a text says, or the number of its refusal.
pub fn lists(text: &[u8]) -> Result<Vec<List>, u8> {
    let read = &text[..text.len().min(MAX_TEXT + 1)];
    let shown = String::from_utf8_lossy(read);
    let lines: Vec<Vec<&str>> = shown.split_terminator('\n').map(fields).collect();
    let other = |byte: &u8| !byte.is_ascii_digit() && *byte != b' ' && *byte != b'\n';
    let words: Vec<Option<List>> = lines.iter().map(|line| line.iter().map(|digits| word(digits)).collect()).collect();
    model::refuse(&[
        (1, lines.is_empty() || lines.len() > MAX_LISTS),
        (2, read.len() > MAX_TEXT || read.iter().any(other)),
        (4, lines.iter().any(|line| line.is_empty() || line.len() > MAX_WORDS)),
        (5, words.contains(&None)),
    ])?;
    Ok(words.into_iter().flatten().collect())
}

fn fields(line: &str) -> Vec<&str> {
    line.split(' ').filter(|field| !field.is_empty()).collect()
}

/// The coefficient that digits say, if they say one: less the zeros in front it has at most five digits.
fn word(digits: &str) -> Option<u32> {
    match digits.trim_start_matches('0') {
        "" => Some(0),
        significant if significant.len() > 5 => None,
        significant => significant.parse().ok().filter(|&number| number < P),
    }
}

/// What the program writes to standard output and to standard error.
pub fn output(text: &[u8]) -> [Vec<u8>; 2] {
    match lists(text) {
        Ok(lists) => [album::written(&lists), vec![]],
        Err(number) => [vec![], format!("refused {number}\n").into_bytes()],
    }
}
