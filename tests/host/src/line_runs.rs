//! The program `line` compared with the model: its input is a line of algebra, byte 0A, and an album.

use crate::album::{self, MAX_BYTES};
use crate::calls::Name;
use crate::line::{self, MAX_LINE};
use crate::model::{List, MAX_WORDS};
use crate::random::Random;
use crate::{Tally, engine, lines, noise};
use std::{collections::BTreeMap, fs, path::Path};

const RUNS: usize = 400;
const DAMAGED_RUNS: usize = 200;

/// The most bytes that the program reads: one more than the longest line, 0A and the largest album have.
const MAX_INPUT: usize = MAX_LINE + 1 + MAX_BYTES + 1;

/// The list that an input gives, or the number of its refusal.
fn value(input: &[u8]) -> Result<List, u8> {
    let read = &input[..input.len().min(MAX_INPUT)];
    let mut parts = read.splitn(2, |&byte| byte == b'\n');
    let (line, album) = (parts.next().unwrap_or(&[]), parts.next().unwrap_or(&[]));
    line::value(album, line, MAX_WORDS)
}

/// What the program writes to standard output.
fn text(input: &[u8]) -> String {
    match value(input) {
        Ok(list) => list.iter().map(u32::to_string).collect::<Vec<_>>().join(" ") + "\n",
        Err(number) => format!("refused {number}\n"),
    }
}

/// A line, 0A and an album.
fn input(line: &[u8], album: &[u8]) -> Vec<u8> {
    [line, b"\n", album].concat()
}

pub fn compare(tally: &mut Tally) {
    let mut random = Random(18);
    for k in 0..RUNS + DAMAGED_RUNS {
        let mut memory = random.public_call(Name::LineValue).memory;
        if k >= RUNS {
            lines::damage(&mut random, &mut memory.line);
        }
        compare_input(tally, &input(&memory.line, &memory.album), usize::MAX);
    }
    let edges = edges();
    for (input, number) in &edges {
        compare_input(tally, input, usize::MAX);
        tally.check(&shown(input), value(input).err().unwrap_or(0) == *number);
    }
    let largest = input(&longest_line(), &largest_album());
    let in_pieces = [(input(b"(0+1)*D 2-3", &lists_album()), 1), (largest.clone(), 250), (largest, 4_097)];
    for (input, piece) in &in_pieces {
        compare_input(tally, input, *piece);
    }
    let samples = compare_samples(tally);
    tally.print_numbers("line", &[0, 1, 2, 3, 5, 6, 12, 13], 20);
    let (edges, pieces) = (edges.len(), in_pieces.len());
    println!("  of the inputs {edges} are edges, {pieces} were written in small pieces, and {samples} are those of samples/");
}

/// The front of an input, and its length.
fn shown(input: &[u8]) -> String {
    let front = String::from_utf8_lossy(&input[..input.len().min(1_000)]);
    format!("the input {front:?} of {} bytes", input.len())
}

/// What is wrong with what was written to standard output and to standard error on an input.
fn fault(input: &[u8], output: &[Vec<u8>; 2]) -> Option<String> {
    let right = [text(input).into_bytes(), vec![]];
    let written =
        |[out, said]: &[Vec<u8>; 2]| format!("{:?} and {:?}", String::from_utf8_lossy(out), String::from_utf8_lossy(said));
    if *output == right { None } else { Some(format!("line writes {}, and not {}", written(output), written(&right))) }
}

fn compare_input(tally: &mut Tally, input: &[u8], piece: usize) {
    let fault = match engine::line_in_pieces(input, piece) {
        Ok(output) => fault(input, &output),
        Err(said) => Some(said),
    };
    if let Some(fault) = fault {
        tally.fault(&shown(input), &fault);
    }
    tally.count("line", value(input).err().unwrap_or(0));
}

fn lists_album() -> Vec<u8> {
    album::written(&lines::LISTS.map(<[u32]>::to_vec))
}

fn largest_album() -> Vec<u8> {
    album::written(&(1..=16).map(|seed| noise(MAX_WORDS, seed)).collect::<Vec<_>>())
}

/// A line of 256 bytes over 16 lists.
fn longest_line() -> Vec<u8> {
    let line = "15-00+".repeat(42) + "D 14";
    assert_eq!(line.len(), MAX_LINE);
    line.into_bytes()
}

/// Inputs with the number that each gives, 0 for a list.
fn edges() -> Vec<(Vec<u8>, u8)> {
    let (album, largest) = (lists_album(), largest_album());
    let spaces = |bytes: usize| vec![b' '; bytes];
    let mut edges = vec![
        // without a line end, or without an album
        (vec![], 1),
        (b"\n".to_vec(), 1),
        (b"0".to_vec(), 1),
        (b"0\n".to_vec(), 1),
        (b"(0+1)*D 2-3".to_vec(), 1),
        (album.clone(), 1),
        (spaces(100_000), 1),
        (b"0".repeat(100_000), 1),
        (input(b"", &album), 12),
        // the second 0A is the album's first byte, and so is 30
        (input(b"0\n", &album), 2),
        (input(b"\n0", &album), 1),
        (input(b"0\r", &album), 12),
        (input(b"0\t", &album), 12),
        // bytes after an album, or too few
        (input(b"0", &[&album[..], &[0]].concat()), 2),
        (input(b"0", &[&album[..], b"\n"].concat()), 2),
        (input(b"0", &[&album[..], &vec![0; 40_000]].concat()), 2),
        (input(b"0+", &[&album[..], &[0]].concat()), 2),
        (input(b"0", &album[..album.len() - 1]), 2),
        (input(b"0", &album[..1]), 2),
        // the longest line, and the largest album
        (input(&longest_line(), &album), 3),
        (input(&longest_line(), &largest), 0),
        (input(b"0", &largest), 0),
        (input(b"0*1", &largest), 6),
        (input(b"16", &largest), 3),
        (input(&[longest_line(), spaces(1)].concat(), &largest), 12),
        (input(&longest_line(), &[&largest[..], &[0]].concat()), 2),
        (input(b"0", &[&largest[..], &[0]].concat()), 2),
        (input(&spaces(MAX_LINE + 2), &largest), 2),
        (input(&spaces(MAX_INPUT - 1), &album), 1),
        (input(&spaces(MAX_INPUT), &album), 1),
        (input(&spaces(MAX_INPUT - 1 - album.len()), &album), 12),
        (input(&spaces(MAX_INPUT - album.len()), &album), 2),
        // a loose word, and a line of 13
        (input(b"0", &album::written(&[vec![1], vec![65_521]])), 5),
        (input(b"1", &album::written(&[vec![1], vec![65_535, 1]])), 5),
        (input(b"1+", &album::written(&[vec![1], vec![65_535, 1]])), 12),
    ];
    let one_line = lines::edges().into_iter().filter(|(line, _)| !line.contains(&b'\n') && line.len() < 1_000);
    edges.extend(one_line.map(|(line, number)| (input(&line, &album), number)));
    edges.extend(lines::VALUES.map(|(line, _)| (input(line.as_bytes(), &album), 0)));
    edges
}

/// The lines of the repository's folder samples/, by their names.
fn samples() -> BTreeMap<String, Vec<u8>> {
    let files = fs::read_dir("samples").expect("the folder samples/").map(|entry| entry.expect("a file").path());
    let found = files.filter(|path| path.extension().is_some_and(|end| end == "line"));
    let name = |path: &Path| path.file_stem().expect("a name").to_string_lossy().into_owned();
    found.map(|path| (name(&path), fs::read(path).expect("a line"))).collect()
}

/// samples/README.md has a row for each line, which names an album and says what is printed; gives the number of lines.
fn compare_samples(tally: &mut Tally) -> usize {
    let samples = samples();
    let table = fs::read_to_string("samples/README.md").expect("a table");
    let row = |name: &str| table.lines().find(|row| row.starts_with(&format!("| `{name}.line` |")));
    for (name, line) in &samples {
        let cells: Vec<&str> = row(name).unwrap_or("").split('|').map(|cell| cell.trim().trim_matches('`')).collect();
        let album = cells.get(2).and_then(|album| fs::read(format!("samples/{album}")).ok());
        let input = [&line[..], &album.clone().unwrap_or_default()].concat();
        compare_input(tally, &input, usize::MAX);
        let printed = cells.get(3).map(|printed| format!("{printed}\n"));
        tally.check(&format!("samples/README.md on {name}.line"), album.is_some() && printed == Some(text(&input)));
    }
    samples.len()
}

/// A way to break a copy of what was written to standard output and to standard error, where it can be broken so: true if it was.
type Break = fn(&mut [Vec<u8>; 2]) -> bool;

const BREAKS: [(&str, Break); 6] = [
    ("a digit of the last word", |[out, _]| {
        let digit = out.iter_mut().rev().nth(1);
        digit.map(|digit| *digit ^= 1).is_some()
    }),
    ("a word left out", |[out, _]| {
        let space = out.iter().rposition(|&byte| byte == b' ');
        space.map(|at| drop(out.drain(at..out.len() - 1))).is_some()
    }),
    ("two spaces between words", |[out, _]| {
        let space = out.iter().position(|&byte| byte == b' ');
        space.map(|at| out.insert(at, b' ')).is_some()
    }),
    ("a space at the end", |[out, _]| {
        out.insert(out.len() - 1, b' ');
        true
    }),
    ("no line end", |[out, _]| out.pop().is_some()),
    ("everything on standard error", |output| {
        output.swap(0, 1);
        true
    }),
];

/// Tries broken copies of what the program wrote; an error names the first way to break that is not noticed.
pub fn try_broken_copies() -> Result<String, String> {
    let mut tried = [0; BREAKS.len()];
    for (input, _) in edges().iter().take(40) {
        let output = engine::line_in_pieces(input, usize::MAX)?;
        for ((what, break_copy), count) in BREAKS.iter().zip(&mut tried) {
            let mut copy = output.clone();
            if break_copy(&mut copy) {
                fault(input, &copy).ok_or(format!("not noticed: {what}, on {}", shown(input)))?;
                *count += 1;
            }
        }
    }
    let said: Vec<String> = BREAKS.iter().zip(tried).map(|((what, _), count)| format!("{what} ({count})")).collect();
    if tried.contains(&0) { Err(format!("some break was never tried: {}", said.join(", "))) } else { Ok(said.join(", ")) }
}
