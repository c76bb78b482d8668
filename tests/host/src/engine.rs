//! The engine: its three functions for a C host, and the programs `report`, `bind` and `line`.

use crate::album::bytes;
use crate::lent::Lent;
use crate::model::MAX_WORDS;
use std::fs::{self, File};
use std::io::{Seek, Write};
use std::process::{ChildStdout, Command, Stdio};
use std::{env, thread, time::Duration};

#[derive(Clone, Copy, Debug, PartialEq)]
pub enum Operation {
    Product,
    Division,
    Gcd,
}

/// One call: its lists in the order of the parameters (a division has g first), and what its result slices hold before.
#[derive(Clone, Debug)]
pub struct Call {
    pub operation: Operation,
    pub lists: [Vec<u8>; 2],
    pub results: Vec<Vec<u8>>,
}

impl Call {
    /// A call on two lists of words, with result slices that fit, full of zeros.
    pub fn fitting(operation: Operation, first: &[u32], second: &[u32]) -> Call {
        let words = match operation {
            Operation::Product => vec![first.len() + second.len() - 1],
            Operation::Division => vec![(first.len() + 1).saturating_sub(second.len()), second.len() - 1],
            Operation::Gcd => vec![MAX_WORDS, 3],
        };
        let results = words.iter().map(|n| vec![0; 2 * n]).collect();
        Call { operation, lists: [bytes(first), bytes(second)], results }
    }
}

/// What is there after a call. `stray` says that a byte beside a list or a result was changed.
#[derive(Clone, Debug, PartialEq)]
pub struct Answer {
    pub number: u8,
    pub lists: [Vec<u8>; 2],
    pub results: Vec<Vec<u8>>,
    pub stray: bool,
}

type In = *const u8;
type Out = *mut u8;

#[link(name = "bernstein", kind = "static")]
unsafe extern "C" {
    fn bernstein_product(f: In, f_len: usize, g: In, g_len: usize, out: Out, out_len: usize) -> u8;
    fn bernstein_division(g: In, g_len: usize, f: In, f_len: usize, q: Out, q_len: usize, r: Out, r_len: usize) -> u8;
    fn bernstein_gcd(f: In, f_len: usize, g: In, g_len: usize, h: Out, h_len: usize, answer: Out, answer_len: usize) -> u8;
}

pub fn run(call: &Call) -> Answer {
    let mut lists = call.lists.each_ref().map(|list| Lent::new(list));
    let mut results: Vec<Lent<u8>> = call.results.iter().map(|result| Lent::new(result)).collect();
    let number = call_host(call.operation, lists.each_mut().map(Lent::part), results.iter_mut().map(Lent::part).collect());
    Answer {
        number,
        stray: lists.iter().chain(&results).any(Lent::is_stray),
        lists: lists.each_mut().map(|list| list.part().to_vec()),
        results: results.iter_mut().map(|result| result.part().to_vec()).collect(),
    }
}

fn call_host(operation: Operation, lists: [&mut [u8]; 2], mut results: Vec<&mut [u8]>) -> u8 {
    let [first, second] = lists;
    let (x, x_len, y, y_len) = (first.as_ptr(), first.len(), second.as_ptr(), second.len());
    let mut result = |i: usize| (results[i].as_mut_ptr(), results[i].len());
    // SAFETY: each pointer goes with the length of a slice that is borrowed until the call returns, and no two overlap.
    match operation {
        Operation::Product => {
            let (out, out_len) = result(0);
            unsafe { bernstein_product(x, x_len, y, y_len, out, out_len) }
        }
        Operation::Division => {
            let ((q, q_len), (r, r_len)) = (result(0), result(1));
            unsafe { bernstein_division(x, x_len, y, y_len, q, q_len, r, r_len) }
        }
        Operation::Gcd => {
            let ((h, h_len), (answer, answer_len)) = (result(0), result(1));
            unsafe { bernstein_gcd(x, x_len, y, y_len, h, h_len, answer, answer_len) }
        }
    }
}

/// The file that the environment variable REPORT, BIND or LINE names, to be taken for that program.
pub fn stand_in(name: &str) -> Option<String> {
    env::var(name.to_uppercase()).ok().filter(|file| !file.is_empty())
}

fn program(name: &str) -> String {
    stand_in(name).unwrap_or(format!("crates/{name}/out/{name}"))
}

/// What a program writes to standard output and to standard error when it is started with these arguments on no input.
pub fn run_with(name: &str, arguments: &[&str]) -> [Vec<u8>; 2] {
    let ended = Command::new(program(name)).args(arguments).stdin(Stdio::null()).output().expect("the program runs");
    [ended.stdout, ended.stderr]
}

/// What a program writes to standard error on this input, where standard output is this file.
pub fn run_to(name: &str, input: File, output: File) -> Vec<u8> {
    Command::new(program(name)).stdin(input).stdout(output).output().expect("the program runs").stderr
}

/// How many bytes a program reads of a file of so many. The place in it that the program leaves is shared with it.
pub fn bytes_read(name: &str, bytes: usize) -> usize {
    let path = "target/comparer/input";
    fs::write(path, vec![b'1'; bytes]).expect("a file");
    let mut file = File::open(path).expect("the same file");
    let input = file.try_clone().expect("a second handle");
    Command::new(program(name)).stdin(input).output().expect("the program runs");
    file.stream_position().expect("a place in the file") as usize
}

/// What `report` writes on this input.
pub fn report(input: &[u8]) -> Result<Vec<u8>, String> {
    report_in_pieces(input, usize::MAX)
}

/// The same with the input written in pieces.
pub fn report_in_pieces(input: &[u8], size: usize) -> Result<Vec<u8>, String> {
    let [text, said] = run_on("report", input, size)?;
    if said.is_empty() { Ok(text) } else { Err(format!("report says {:?}", String::from_utf8_lossy(&said))) }
}

/// What `report` writes where its input is what a command writes.
pub fn report_on(source: ChildStdout) -> Vec<u8> {
    Command::new(program("report")).stdin(source).output().expect("report runs").stdout
}

/// What `bind` writes to standard output and to standard error on this text, written in pieces.
pub fn bind_in_pieces(text: &[u8], size: usize) -> Result<[Vec<u8>; 2], String> {
    run_on("bind", text, size)
}

/// What `line` writes to standard output and to standard error on this input, written in pieces.
pub fn line_in_pieces(input: &[u8], size: usize) -> Result<[Vec<u8>; 2], String> {
    run_on("line", input, size)
}

/// What a program writes to standard output and to standard error on an input that is written in pieces, a moment apart, so that
/// the program's reads are short.
fn run_on(name: &str, input: &[u8], size: usize) -> Result<[Vec<u8>; 2], String> {
    let program = program(name);
    let started = Command::new(&program).stdin(Stdio::piped()).stdout(Stdio::piped()).stderr(Stdio::piped()).spawn();
    let mut child = started.map_err(|error| format!("{program}: {error}"))?;
    let mut pipe = child.stdin.take().expect("a pipe");
    for (i, piece) in input.chunks(size).enumerate() {
        if i > 0 {
            thread::sleep(Duration::from_millis(1));
        }
        // the program need not read all of an input that is too long, and may have ended
        if pipe.write_all(piece).is_err() {
            break;
        }
    }
    drop(pipe);
    let ended = child.wait_with_output().expect("the program ends");
    if ended.status.success() { Ok([ended.stdout, ended.stderr]) } else { Err(format!("{program}: {}", ended.status)) }
}
