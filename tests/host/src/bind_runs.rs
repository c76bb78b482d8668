//! The program `bind` compared with the model, and the script bin/bind that gives it a status.

use crate::random::Random;
use crate::{Tally, bind, engine, report, texts};
use std::fs::{self, File};
use std::path::{Path, PathBuf};
use std::process::{Command, Stdio};

const TEXTS: usize = 800;

pub fn compare(tally: &mut Tally) {
    let mut random = Random(9);
    for _ in 0..TEXTS {
        compare_text(tally, &texts::text(&mut random), usize::MAX);
    }
    let edges = texts::edges();
    for (text, number) in &edges {
        compare_text(tally, text, usize::MAX);
        tally.check(&shown(text), bind::lists(text).err().unwrap_or(0) == *number);
    }
    let largest = fs::read("samples/largest.txt").expect("a sample");
    let long = [largest.clone(), vec![b' '; 200_000]].concat();
    let in_pieces: [(&[u8], usize); 4] = [(b"0 1\n0 0 1\n", 1), (&largest, 400), (&largest, 4_097), (&long, 4_096)];
    for (text, piece) in in_pieces {
        compare_text(tally, text, piece);
    }
    let samples = samples();
    samples.iter().for_each(|path| compare_sample(tally, path));
    tally.print_numbers("bind", &[0, 1, 2, 4, 5], 20);
    let (edges, pieces, samples) = (edges.len(), in_pieces.len(), samples.len());
    println!("  of the texts {edges} are edges, {pieces} were written in small pieces, and {samples} are those of samples/");
    compare_script(tally);
}

/// The front of a text, and its length.
fn shown(text: &[u8]) -> String {
    let front = String::from_utf8_lossy(&text[..text.len().min(1_000)]);
    format!("the text {front:?} of {} bytes", text.len())
}

/// What is wrong with what was written to standard output and to standard error on a text.
fn fault(text: &[u8], output: &[Vec<u8>; 2]) -> Option<String> {
    let right = bind::output(text);
    let written = |[album, said]: &[Vec<u8>; 2]| format!("{album:02X?} and {:?}", String::from_utf8_lossy(said));
    if *output == right { None } else { Some(format!("bind writes {}, and not {}", written(output), written(&right))) }
}

fn compare_text(tally: &mut Tally, text: &[u8], piece: usize) {
    let fault = match engine::bind_in_pieces(text, piece) {
        Ok(output) => fault(text, &output),
        Err(said) => Some(said),
    };
    if let Some(fault) = fault {
        tally.fault(&shown(text), &fault);
    }
    tally.count("bind", bind::lists(text).err().unwrap_or(0));
}

/// The texts of the repository's folder samples/.
fn samples() -> Vec<PathBuf> {
    let files = fs::read_dir("samples").expect("the folder samples/").map(|entry| entry.expect("a file").path());
    files.filter(|path| path.extension().is_some_and(|end| end == "txt")).collect()
}

/// A sample's text gives the album of its name; where there is none, it is refused.
fn compare_sample(tally: &mut Tally, path: &Path) {
    let text = fs::read(path).expect("a text");
    compare_text(tally, &text, usize::MAX);
    let album = fs::read(path.with_extension("album")).ok();
    let right = bind::output(&text);
    if right[0] != album.unwrap_or_default() {
        tally.fault(&path.display().to_string(), "the model makes another album of it");
    }
}

/// bin/bind passes on what the program writes, and ends with status 0 or 1; what it writes can be piped to `report`.
fn compare_script(tally: &mut Tally) {
    if engine::stand_in("bind").is_some() {
        println!("bin/bind: not compared, as it runs crates/bind/out/bind and BIND names another program");
        return;
    }
    for (sample, status) in [("samples/example.txt", 0), ("samples/empty_line.txt", 1)] {
        let ended = script(sample, Stdio::piped()).wait_with_output().expect("bin/bind ends");
        let output = [ended.stdout, ended.stderr];
        if ended.status.code() != Some(status) || output != bind::output(&fs::read(sample).expect("a sample")) {
            tally.fault(&format!("bin/bind <{sample}"), &format!("{}, and it writes {output:02X?}", ended.status));
        }
    }
    let full = File::options().write(true).open("/dev/full").expect("the device /dev/full");
    let ended = script("samples/example.txt", full.into()).wait_with_output().expect("bin/bind ends");
    if ended.status.code() != Some(1) || ended.stderr.is_empty() {
        tally.fault("bin/bind <samples/example.txt >/dev/full", &format!("{}", ended.status));
    }
    let mut bound = script("samples/shared_factor.txt", Stdio::piped());
    let text = engine::report_on(bound.stdout.take().expect("a pipe"));
    let status = bound.wait().expect("bin/bind ends");
    let album = fs::read("samples/shared_factor.album").expect("a sample");
    if !status.success() || text != report::text(&album).into_bytes() {
        tally.fault("bin/bind <samples/shared_factor.txt | report", &format!("it prints {:?}", String::from_utf8_lossy(&text)));
    }
    println!("bin/bind: its status where an album is made, refused and cannot be written, and what report says of its album");
}

fn script(sample: &str, output: Stdio) -> std::process::Child {
    let text = File::open(sample).expect("a sample");
    Command::new("bin/bind").stdin(text).stdout(output).stderr(Stdio::piped()).spawn().expect("bin/bind starts")
}

/// A way to break a copy of what was written to standard output and to standard error, where it can be broken so: true if it was.
type Break = fn(&mut [Vec<u8>; 2]) -> bool;

const BREAKS: [(&str, Break); 5] = [
    ("a byte of an album", |[album, _]| album.last_mut().map(|byte| *byte ^= 1).is_some()),
    ("a byte after an album", |[album, _]| {
        album.push(0);
        album.len() > 1
    }),
    ("another number of a refused text", |[_, said]| said.iter_mut().rev().nth(1).map(|digit| *digit ^= 1).is_some()),
    ("a refusal on standard output", |output| {
        output.swap(0, 1);
        output[1].is_empty()
    }),
    ("an album and a refusal", |[album, said]| {
        said.extend(b"refused 5\n");
        !album.is_empty()
    }),
];

/// Tries broken copies of what the program wrote; an error names the first way to break that is not noticed.
pub fn try_broken_copies() -> Result<String, String> {
    let mut tried = [0; BREAKS.len()];
    for (text, _) in texts::edges() {
        let output = engine::bind_in_pieces(&text, usize::MAX)?;
        for ((what, break_copy), count) in BREAKS.iter().zip(&mut tried) {
            let mut copy = output.clone();
            if break_copy(&mut copy) {
                fault(&text, &copy).ok_or(format!("not noticed: {what}, on {}", shown(&text)))?;
                *count += 1;
            }
        }
    }
    let said: Vec<String> = BREAKS.iter().zip(tried).map(|((what, _), count)| format!("{what} ({count})")).collect();
    if tried.contains(&0) { Err(format!("some break was never tried: {}", said.join(", "))) } else { Ok(said.join(", ")) }
}
