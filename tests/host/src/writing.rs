//! The call that writes an album, compared in both directions: what the engine writes the model reads (`public::fault`), and what
//! the model writes the engine reads and writes again.

use crate::album::{self, ENTRY_BYTES, MAX_BYTES, MAX_LISTS};
use crate::calls::{self, Answer, Name, PublicCall};
use crate::model::{List, MAX_WORDS};
use crate::public::list;
use crate::random::Random;
use crate::{Tally, compare_printed, compare_public, example, noise, public};
use std::process::exit;

const WRITINGS: usize = 10_000;
const ROUND_TRIPS: usize = 5_000;

pub fn compare(tally: &mut Tally) {
    compare_calls(tally);
    compare_edges(tally);
    let mut random = Random(7);
    let mut lists = 0;
    for _ in 0..ROUND_TRIPS {
        let album = random.lists_to_write();
        lists += album.len();
        if let Err(fault) = round_trip(&album) {
            tally.fault(&format!("the album of {album:?}"), &fault);
        }
    }
    println!("  written by the model, read by the engine and written again: {ROUND_TRIPS} albums of {lists} lists");
}

fn compare_calls(tally: &mut Tally) {
    let mut random = Random(6);
    let (mut largest, mut longer) = (0, 0);
    let mut pairs = vec![0; PAIRS.len()];
    for _ in 0..WRITINGS {
        let call = random.public_call(Name::WriteAlbum);
        compare_public(tally, &call);
        let outcome = public::outcome(&call);
        tally.count("WriteAlbum", *outcome.as_ref().err().unwrap_or(&0));
        largest += usize::from(outcome.as_ref().is_ok_and(|done| done.part.len() == MAX_BYTES));
        longer += usize::from(outcome.is_ok() && call.memory.part.len() > MAX_BYTES);
        let applying = applying(&call);
        for (pair, count) in PAIRS.iter().zip(&mut pairs) {
            *count += usize::from(pair.iter().all(|number| applying.contains(number)));
        }
    }
    let row = calls::CALLS.iter().find(|(name, _)| *name == Name::WriteAlbum);
    tally.print_numbers("WriteAlbum", row.expect("the call").1, 100);
    let shown: Vec<String> = PAIRS.iter().zip(&pairs).map(|([a, b], count)| format!("{a} and {b}: {count}")).collect();
    println!("  of the written albums {largest} are largest ones, and {longer} have a longer target than any album needs");
    println!("  calls to which two numbers apply: {}", shown.join(", "));
    if pairs.iter().chain([&largest, &longer]).any(|&count| count < 30) {
        println!("some of these occur fewer than 30 times");
        exit(1);
    }
}

const PAIRS: [[u8; 2]; 10] = [[1, 2], [1, 4], [1, 5], [1, 10], [2, 4], [2, 5], [2, 10], [4, 5], [4, 10], [5, 10]];

/// The numbers that apply to a call that writes an album.
fn applying(call: &PublicCall) -> Vec<u8> {
    let memory = &call.memory;
    let rows = album::write_rows(&list(&memory.lists[0]), &memory.degrees, memory.part.len());
    rows.iter().filter(|row| row.1).map(|row| row.0).collect()
}

/// A call with these words and degrees, and a target of so many bytes, none of them 0.
fn call_on(words: &[u16], degrees: &[u16], target: usize) -> PublicCall {
    let mut call = public::writing(&[]);
    call.memory.lists[0] = words.to_vec();
    call.memory.degrees = degrees.to_vec();
    call.memory.part = vec![0xC3; target];
    call
}

/// The album that document 01 prints, the largest one, and each number at its edge, where others apply too.
fn compare_edges(tally: &mut Tally) {
    let written = |part: Vec<u8>| Ok(public::Done { values: vec![part.len()], part, ..public::Done::default() });
    let (words, degrees) = ([0, 1, 0, 0, 1], [1, 2]);
    compare_printed(tally, "document 01's example", &call_on(&words, &degrees, MAX_BYTES), written(example()));
    compare_printed(tally, "document 01's example", &call_on(&words, &degrees, 70_000), written(example()));
    let full: Vec<List> = (1..=16).map(|seed| noise(MAX_WORDS, seed)).collect();
    assert_eq!(album::written(&full).len(), MAX_BYTES);
    compare_printed(tally, "the largest album", &public::writing(&full), written(album::written(&full)));
    // degrees of one byte and of two, on both sides of 255 and at the bound
    let long: Vec<List> = [256, 257, 1, 1_023, 1_024].iter().map(|&words| noise(words, 3)).collect();
    let long_album = [
        vec![5, 0xFF, 0, 0x15, 0, 0, 1, 0x15, 2, 0, 0, 0x17, 4, 0xFE, 3, 0x19, 4, 0xFF, 3, 0x17, 0x0C],
        album::bytes(&long.concat()),
    ];
    compare_printed(tally, "lists of up to 1,024 words", &public::writing(&long), written(long_album.concat()));
    let refused = [
        (call_on(&words, &degrees, MAX_BYTES - 1), 10),
        (call_on(&words, &degrees, example().len()), 10),
        (call_on(&words, &degrees, 0), 10),
        (call_on(&[0, 65_521, 0, 0, 1], &degrees, MAX_BYTES), 5),
        (call_on(&[0, 1, 0, 0, 65_535], &degrees, MAX_BYTES - 1), 5),
        (call_on(&words[1..], &degrees, MAX_BYTES), 4),
        (call_on(&words, &degrees[1..], MAX_BYTES), 4),
        (call_on(&[], &[0], MAX_BYTES), 4),
        (call_on(&[1, 65_521], &[0], 0), 4),
        (call_on(&[1; 1_024], &[1_022], MAX_BYTES), 4),
        // as a byte this degree is 0
        (call_on(&[1], &[256], MAX_BYTES), 4),
        (call_on(&[1; 1_025], &[1_024], MAX_BYTES), 2),
        (call_on(&[1; 1_026], &[0, 1_024], MAX_BYTES), 2),
        (call_on(&[1; 1_026], &[1_024, 0], MAX_BYTES), 2),
        (call_on(&[1; 1_024], &[1_024], MAX_BYTES), 2),
        (call_on(&[1], &[1_024], MAX_BYTES), 2),
        (call_on(&[], &[65_535], MAX_BYTES), 2),
        (call_on(&[1; 65_536], &[65_535], 200_000), 2),
        (call_on(&[65_521, 1, 2], &[2, 1_024], 0), 2),
        (call_on(&[], &[], MAX_BYTES), 1),
        (call_on(&[65_521], &[], 0), 1),
        (call_on(&[1; MAX_LISTS + 1], &[0; MAX_LISTS + 1], MAX_BYTES), 1),
        (call_on(&[1; 257], &[0; 257], MAX_BYTES), 1),
        (call_on(&[65_521], &[0; 300], 0), 1),
        (call_on(&[65_521], &[1_024; 17], 0), 1),
    ];
    for (call, number) in &refused {
        compare_printed(tally, &format!("{number} is due to {}", public::shown(call)), call, Err(*number));
    }
    println!("  edges of writing an album: {}", 4 + refused.len());
}

/// The model writes the album of these lists, the engine checks and reads each list of it and writes an album of what it read.
pub fn round_trip(lists: &[List]) -> Result<(), String> {
    let album = album::written(lists);
    let (mut words, mut degrees) = (vec![], vec![]);
    for i in 0..lists.len() {
        let checked = calls::run(&public::fitting(Name::Check, &[], &album, &[i]));
        let read = calls::run(&public::fitting(Name::ReadList, &[], &album, &[i]));
        let degree = read.memory.answer[0];
        if checked.returned != 0 || read.returned != 0 || degree >= MAX_WORDS {
            return Err(format!("list {i}: checked {}, read {}, degree {degree}", checked.returned, read.returned));
        }
        words.extend(&read.memory.results[0][..=degree]);
        degrees.push(degree as u16);
    }
    let answer = calls::run(&call_on(&words, &degrees, MAX_BYTES));
    let again = answer.returned == 0 && answer.memory.answer == [album.len()] && answer.memory.part.starts_with(&album);
    if again { Ok(()) } else { Err(format!("written again it is not the same: returned {}", answer.returned)) }
}

/// A way to break a copy of an answer, where it can be broken so: true if it was.
type Break = fn(&PublicCall, &mut Answer) -> bool;

const BREAKS: [(&str, Break); 12] = [
    ("the next list's offset that of the list before", |_, answer| {
        let can = answer.returned == 0 && answer.memory.degrees.len() > 1;
        if can {
            answer.memory.part.copy_within(3..5, 7);
        }
        can
    }),
    ("an offset's high byte first", |_, answer| answer.returned == 0 && swap(&mut answer.memory.part, 3)),
    ("a degree's high byte first", |_, answer| answer.returned == 0 && swap(&mut answer.memory.part, 1)),
    ("a degree's high byte left out", |_, answer| {
        let high = answer.memory.degrees.iter().position(|&degree| degree > 255).filter(|_| answer.returned == 0);
        high.map(|k| answer.memory.part[2 + ENTRY_BYTES * k] = 0).is_some()
    }),
    ("a word's high byte first", |_, answer| {
        let first_word = 1 + ENTRY_BYTES * answer.memory.degrees.len();
        answer.returned == 0 && swap(&mut answer.memory.part, first_word)
    }),
    ("a byte after the album cleared", |_, answer| {
        let size = public::album_size(&answer.memory);
        let byte = answer.memory.part.get_mut(size).filter(|byte| answer.returned == 0 && **byte != 0);
        byte.map(|byte| *byte = 0).is_some()
    }),
    ("a target one byte short taken", |call, answer| {
        let can = call.memory.part.len() == MAX_BYTES - 1 && applying(call) == [10];
        can && write_anyway(call, answer)
    }),
    ("a degree of 1,024 taken", |call, answer| {
        let can = call.memory.degrees.iter().max() == Some(&1_024) && applying(call) == [2];
        can && write_anyway(call, answer)
    }),
    ("4 before 2", |call, answer| instead(call, answer, 2, 4)),
    ("5 before 4", |call, answer| instead(call, answer, 4, 5)),
    ("a byte written on refusal", |_, answer| {
        let byte = answer.memory.part.first_mut().filter(|_| answer.returned != 0);
        byte.map(|byte| *byte ^= 1).is_some()
    }),
    ("the target's length answered", |_, answer| {
        let length = answer.memory.part.len();
        let value = answer.memory.answer.first_mut().filter(|value| answer.returned == 0 && **value < length);
        value.map(|value| *value = length).is_some()
    }),
];

/// Breaks that the model's reader shows without the model's writer.
const BREAKS_OF_READING: [&str; 5] = [
    "the next list's offset that of the list before",
    "an offset's high byte first",
    "a degree's high byte first",
    "a degree's high byte left out",
    "a word's high byte first",
];

/// Swaps a byte and the next where they differ.
fn swap(bytes: &mut [u8], at: usize) -> bool {
    bytes.swap(at, at + 1);
    bytes[at] != bytes[at + 1]
}

/// Gives the second number instead of the first where both apply.
fn instead(call: &PublicCall, answer: &mut Answer, first: u8, second: u8) -> bool {
    let can = applying(call).starts_with(&[first]) && applying(call).contains(&second);
    if can {
        answer.returned = usize::from(second);
    }
    can
}

/// Writes the album of a refused call, where the target has room.
fn write_anyway(call: &PublicCall, answer: &mut Answer) -> bool {
    let album = album::written(&album::cut(&list(&call.memory.lists[0]), &call.memory.degrees));
    let Some(front) = answer.memory.part.get_mut(..album.len()) else { return false };
    front.copy_from_slice(&album);
    answer.returned = 0;
    true
}

/// Tries broken copies of real answers; an error names the first way to break that is not noticed.
pub fn try_broken_copies(random: &mut Random) -> Result<String, String> {
    let mut tried = [0; BREAKS.len()];
    for _ in 0..4_000 {
        let call = random.public_call(Name::WriteAlbum);
        let answer = calls::run(&call);
        for ((what, break_copy), count) in BREAKS.iter().zip(&mut tried) {
            let mut copy = answer.clone();
            if !break_copy(&call, &mut copy) {
                continue;
            }
            let unseen = |by| format!("not noticed{by}: {what}, in the answer to {}", public::shown(&call));
            public::fault(&call, &copy).ok_or_else(|| unseen(""))?;
            if BREAKS_OF_READING.contains(what) {
                public::read_back_fault(&copy.memory).ok_or_else(|| unseen(" by reading"))?;
            }
            *count += 1;
        }
    }
    let said: Vec<String> = BREAKS.iter().zip(tried).map(|((what, _), count)| format!("{what} ({count})")).collect();
    let few = tried.iter().any(|&count| count < 20);
    if few { Err(format!("some break was tried fewer than 20 times: {}", said.join(", "))) } else { Ok(said.join(", ")) }
}
