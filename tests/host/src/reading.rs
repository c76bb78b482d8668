//! Naive degrees of two bytes in an album's entries: albums at their edges, and wrong readers of them that have to be noticed.

use crate::album::{self, ReadDegree, word};
use crate::calls::{self, Name};
use crate::model::MAX_WORDS;
use crate::random::Random;
use crate::{Tally, compare_public, compare_report, public};

/// An album of one list, its words 1, with this naive degree in the entry.
fn alone(degree: u32, words: usize) -> Vec<u8> {
    let mut album = album::written(&[vec![1; words]]);
    album[1..3].copy_from_slice(&album::bytes(&[degree]));
    album
}

/// Albums with the number that reading them gives.
fn edges() -> Vec<(&'static str, Vec<u8>, u8)> {
    let changed = |at: usize, byte: u8| {
        let mut album = alone(1_024, 1_025);
        album[at] = byte;
        album
    };
    let (one, too_long) = (vec![1], vec![1; 1_025]);
    vec![
        ("256 words", alone(255, 256), 0),
        ("257 words", alone(256, 257), 0),
        ("1,023 words", alone(1_022, 1_023), 0),
        ("1,024 words", alone(1_023, 1_024), 0),
        ("1,025 words", alone(1_024, 1_025), 2),
        ("65,536 words", alone(65_535, 65_536), 2),
        ("1,025 words before another list", album::written(&[too_long.clone(), one.clone()]), 2),
        ("1,025 words after another list", album::written(&[one.clone(), too_long.clone()]), 2),
        ("1,024 words, and one more to come", alone(1_024, 1_024), 2),
        ("1,025 words, one more than the degree says", alone(1_023, 1_025), 2),
        ("one word, as the low byte says", alone(256, 1), 2),
        ("one word, as the low byte of 1,024 says", alone(1_024, 1), 2),
        ("256 words, as the low byte says", alone(1_023, 256), 2),
        ("256 words, as the low byte of 65,535 says", alone(65_535, 256), 2),
        ("two words, as the bytes say with the high one first", alone(256, 2), 2),
        ("257 words, as the bytes say with the high one first", alone(1, 257), 2),
        ("1,025 words in the wrong place", changed(3, 6), 2),
        ("1,025 words, one of them loose", changed(6, 0xFF), 2),
        ("1,025 words and no count", changed(0, 0), 1),
        ("1,025 words and a count of 17", changed(0, 17), 1),
        // the example as document 01 prints it
        ("entries of three bytes", vec![2, 1, 7, 0, 2, 0x0B, 0, 0, 0, 1, 0, 0, 0, 0, 0, 1, 0], 2),
    ]
}

pub fn compare(tally: &mut Tally) {
    let edges = edges();
    for (what, album, number) in &edges {
        compare_report(tally, album, usize::MAX);
        for i in [0, 1, 16] {
            for name in [Name::Check, Name::Body, Name::ReadList] {
                compare_public(tally, &public::fitting(name, &[], album, &[i]));
            }
            compare_public(tally, &public::line(album, i.to_string().as_bytes()));
        }
        for name in [Name::Contents, Name::GcdOfAlbum] {
            compare_public(tally, &public::fitting(name, &[], album, &[]));
        }
        let read = album::read(album).err().unwrap_or(0);
        // 3 comes after 1 and 2
        let checked = album::check(album, 16).err();
        tally.check(what, read == *number && checked == Some(if *number == 0 { 3 } else { *number }));
    }
    println!("degrees of two bytes: {} albums, with every call that reads one and with report", edges.len());
}

const WRONG_READERS: [(&str, ReadDegree); 5] = [
    ("a degree's high byte ignored", |low, _| Some(usize::from(low))),
    ("a degree's high byte first", |low, high| Some(word(high, low) as usize).filter(|&n| n < MAX_WORDS)),
    ("a degree above 255 refused", |low, high| Some(usize::from(low)).filter(|_| high == 0)),
    ("a degree of 1,024 taken", |low, high| Some(word(low, high) as usize).filter(|&n| n <= MAX_WORDS)),
    ("every degree taken", |low, high| Some(word(low, high) as usize)),
];

/// Tries what wrong readers would answer to drawn calls; an error names the first that is not noticed.
pub fn try_wrong_readers(random: &mut Random) -> Result<String, String> {
    let mut tried = [0; WRONG_READERS.len()];
    for _ in 0..2_500 {
        let call = random.public_call(Name::Check);
        let answer = calls::run(&call);
        for ((what, degree), count) in WRONG_READERS.iter().zip(&mut tried) {
            let mut copy = answer.clone();
            copy.returned = usize::from(album::check_with(&call.memory.album, call.numbers[0], *degree).err().unwrap_or(0));
            if copy != answer {
                public::fault(&call, &copy).ok_or(format!("not noticed: {what}, in the answer to {call:?}"))?;
                *count += 1;
            }
        }
    }
    let said: Vec<String> = WRONG_READERS.iter().zip(tried).map(|((what, _), count)| format!("{what} ({count})")).collect();
    let few = tried.iter().any(|&count| count < 20);
    if few { Err(format!("some reader was told apart fewer than 20 times: {}", said.join(", "))) } else { Ok(said.join(", ")) }
}
