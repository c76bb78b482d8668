//! The call for a line of algebra, of order 6, compared on drawn lines and on damaged ones, and wrong models of it.

use crate::calls::{self, Name, PublicCall};
use crate::line::{self, DERIVATIVES, Level, MAX_LINE, MAX_OPEN, PRODUCTS, Place, RULES, Rules, SUMS};
use crate::model::{List, MAX_WORDS};
use crate::public::Done;
use crate::random::Random;
use crate::{Tally, album, compare_printed, compare_public, lines, public};
use std::process::exit;

const READINGS: usize = 5_000;
const LINES: usize = 8_000;
const DAMAGED_LINES: usize = 5_000;

pub fn compare(tally: &mut Tally) {
    compare_readings(tally);
    compare_calls(tally);
    compare_edges(tally);
    compare_lengths(tally);
}

/// The model reads a line as what it was written from.
fn compare_readings(tally: &mut Tally) {
    let mut random = Random(15);
    let mut too_long = 0;
    for _ in 0..READINGS {
        let reading = lines::reading(&mut random, 100);
        let line = lines::line(&mut random, &reading);
        let short = line.len() <= MAX_LINE;
        too_long += usize::from(!short);
        tally.check(&format!("{:?}", String::from_utf8_lossy(&line)), RULES.reading(&line) == short.then_some(reading));
    }
    println!("lines written from readings: {READINGS} read by the model; {too_long} of them are too long");
}

/// The numbers that apply to a call, in the order in which they are given.
fn applying(call: &PublicCall) -> Vec<u8> {
    let memory = &call.memory;
    let rows = line::rows(&RULES, &memory.album, &memory.line, memory.results[0].len());
    RULES.order.into_iter().filter(|&number| rows.contains(&(number, true))).collect()
}

/// A call with a damaged line.
fn damaged(random: &mut Random) -> PublicCall {
    let mut call = random.public_call(Name::LineValue);
    for _ in 0..1 + random.below(2) {
        lines::damage(random, &mut call.memory.line);
    }
    call
}

/// Pairs of numbers of which the first is given where both apply.
const PAIRS: [[u8; 2]; 14] = [
    [1, 12],
    [1, 10],
    [2, 12],
    [2, 13],
    [2, 10],
    [12, 13],
    [12, 3],
    [12, 5],
    [12, 10],
    [13, 3],
    [13, 5],
    [3, 5],
    [5, 10],
    [10, 6],
];

fn compare_calls(tally: &mut Tally) {
    let mut random = Random(16);
    let (mut longest, mut long_results, mut still_lines) = (0, 0, 0);
    let mut pairs = [0; PAIRS.len()];
    for k in 0..LINES + DAMAGED_LINES {
        let call = if k < LINES { random.public_call(Name::LineValue) } else { damaged(&mut random) };
        let answer = compare_public(tally, &call);
        let applying = applying(&call);
        let completed = applying.is_empty();
        tally.count("LineValue", *applying.first().unwrap_or(&0));
        longest += usize::from(completed && call.memory.line.len() == MAX_LINE);
        long_results += usize::from(completed && answer.memory.answer.iter().any(|&degree| degree > 255 && degree < MAX_WORDS));
        still_lines += usize::from(completed && k >= LINES);
        for (pair, count) in PAIRS.iter().zip(&mut pairs) {
            *count += usize::from(pair.iter().all(|number| applying.contains(number)));
        }
    }
    let row = calls::CALLS.iter().find(|(name, _)| *name == Name::LineValue);
    tally.print_numbers("LineValue", row.expect("the call").1, 100);
    println!(
        "  of the lines {LINES} were drawn from the grammar and {DAMAGED_LINES} damaged; {still_lines} of these give a list still"
    );
    println!("  of the lines that give one {longest} have {MAX_LINE} bytes, and {long_results} give more than 256 words");
    let shown: Vec<String> = PAIRS.iter().zip(pairs).map(|([a, b], count)| format!("{a} and {b}: {count}")).collect();
    println!("  calls to which two numbers apply: {}", shown.join(", "));
    if pairs.iter().chain([&longest, &long_results, &still_lines]).any(|&count| count < 20) {
        println!("some of these occur fewer than 20 times");
        exit(1);
    }
}

fn album_of(lists: &[&[u32]]) -> Vec<u8> {
    album::written(&lists.iter().map(|list| list.to_vec()).collect::<Vec<List>>())
}

/// The same call with a slice of this length, full of words that are not 0.
fn with_slice(mut call: PublicCall, length: usize) -> PublicCall {
    call.memory.results[0] = vec![0xC3C3; length];
    call
}

/// Results by hand, each number at its edge, and calls to which several numbers apply.
fn compare_edges(tally: &mut Tally) {
    let album = album_of(&lines::LISTS);
    for (line, list) in lines::VALUES {
        let call = with_slice(public::line(&album, line.as_bytes()), MAX_WORDS);
        compare_printed(tally, line, &call, Ok(Done::listed(list.to_vec())));
    }
    let judged = lines::edges();
    let calls = judged.iter().map(|(line, number)| (public::line(&album, line), *number));
    let more: Vec<_> = over_many_lists().into_iter().chain(over_long_lists()).chain(refused_for_several(&album)).collect();
    for (call, number) in calls.chain(more.iter().cloned()) {
        let answer = compare_public(tally, &call);
        tally.check(&format!("{number} is due to {}", public::shown(&call)), answer.returned == usize::from(number));
    }
    println!("  edges of lines: {}", lines::VALUES.len() + judged.len() + more.len());
}

/// Operands of two digits.
fn over_many_lists() -> Vec<(PublicCall, u8)> {
    let lists: Vec<List> = (1..=16).map(|word| vec![word; 3]).collect();
    let rows =
        [(16, "15", 0), (16, "10*11-09", 0), (16, "16", 3), (16, "015", 12), (16, "1 5", 12), (10, "09", 0), (10, "10", 3)];
    rows.map(|(count, line, number)| (public::line(&album::written(&lists[..count]), line.as_bytes()), number)).to_vec()
}

/// Products of 1,024 words and of more, in either operand; lists of 513, 512, 1,024 and 1 words.
fn over_long_lists() -> Vec<(PublicCall, u8)> {
    let album = album_of(&[&[2; 513], &[3; 512], &[4; 1_024], &[5]]);
    let rows = [
        ("0*1", 0),
        ("2*3", 0),
        ("3*2-0*1", 0),
        ("D 0*0", 0),
        ("D(0*1)*3", 0),
        ("D(0*1)*D D 0", 6),
        ("0*0", 6),
        ("2*2", 6),
        ("0*0+3", 6),
        ("3+0*0", 6),
        ("0*0-2*2", 6),
        ("D(0*0)", 6),
        ("(0*0)*3", 6),
        ("3*(0*0)", 6),
        ("0*1*3*1", 6),
        ("1*(3*0)*3", 0),
        ("0-0*0-0", 6),
        ("(0+2)*0", 6),
        ("0+4*4", 3),
        ("0*0+4", 3),
        ("2*2+", 12),
    ];
    rows.map(|(line, number)| (public::line(&album, line.as_bytes()), number)).to_vec()
}

/// Calls to which several numbers apply: the first of the stated order is due.
fn refused_for_several(album: &[u8]) -> Vec<(PublicCall, u8)> {
    let changed = |at: usize, byte: u8| {
        let mut album = album.to_vec();
        album[at] = byte;
        album
    };
    let (uncounted, misplaced) = (changed(0, 17), changed(3, 0));
    let mut loose = album.to_vec();
    let last = loose.len() - 2;
    loose[last..].copy_from_slice(&[0xF1, 0xFF]);
    let long = album_of(&[&[1; 513], &[1, 65_521]]);
    let over = album_of(&[&[1; 513]]);
    let deep = "(".repeat(MAX_OPEN + 1) + "99" + &")".repeat(MAX_OPEN + 1);
    let rows: [(&[u8], &str, usize, u8); 29] = [
        (&[], "", 0, 1),
        (&[], "0", MAX_WORDS, 1),
        (&[0], "0+", MAX_WORDS, 1),
        (&uncounted, "0+", MAX_WORDS, 1),
        (&uncounted, &deep, 5, 1),
        (&misplaced, "0", MAX_WORDS, 2),
        (&misplaced, "0+", MAX_WORDS, 2),
        (&misplaced, "99", MAX_WORDS, 2),
        (&misplaced, &deep, 0, 2),
        (&album[..album.len() - 1], "1 2", MAX_WORDS, 2),
        (&loose, "99+", 3, 12),
        (&loose, "0+", MAX_WORDS, 12),
        (album, "0+", 1_023, 12),
        (album, "99 99", MAX_WORDS, 12),
        (album, &deep, MAX_WORDS, 13),
        (&loose, &deep, 0, 13),
        (&loose, "4", MAX_WORDS, 3),
        (album, "4", 1_025, 3),
        (&loose, "0*4", 7, 3),
        // the loose word is in list 3
        (&loose, "0", MAX_WORDS, 5),
        (&loose, "3", MAX_WORDS, 5),
        (&loose, "0", 2, 5),
        (&long, "0*0", MAX_WORDS, 5),
        (&long, "0*0", 1_025, 5),
        (&over, "0*0", 1_025, 10),
        (&over, "0*0", 0, 10),
        (album, "0", 1_023, 10),
        (album, "0", 1_025, 10),
        (album, "(0+1)*D 2-3", 3, 10),
    ];
    rows.map(|(album, line, slice, number)| (with_slice(public::line(album, line.as_bytes()), slice), number)).to_vec()
}

/// Every operation at each length, alone and in one line; the product of the two lists fits.
fn compare_lengths(tally: &mut Tally) {
    let mut random = Random(17);
    for words in 1..=MAX_WORDS {
        let other = 1 + random.below((MAX_WORDS + 1 - words).min(40));
        let album = album::written(&[random.list(words), random.list(other)]);
        let line = ["0", "D 0", "1+0", "0-1", "0*1", "1*0-D 0", "D(0*1)+D 0*1", "1-(0-D 1)"][words % 8];
        let call = with_slice(public::line(&album, line.as_bytes()), MAX_WORDS);
        if compare_public(tally, &call).returned != 0 {
            tally.fault(&public::shown(&call), "it is refused");
        }
    }
    println!("  lines over lists of each length from 1 to {MAX_WORDS}: completed and compared");
}

const WRONG_RULES: [(&str, Rules); 14] = [
    ("- grouped from the right", Rules { levels: &[Level { place: Place::First, ..SUMS }, PRODUCTS, DERIVATIVES], ..RULES }),
    ("* as weak as +", Rules { levels: &[Level { operators: b"+-*", place: Place::Last }, DERIVATIVES], ..RULES }),
    ("* weaker than +", Rules { levels: &[PRODUCTS, SUMS, DERIVATIVES], ..RULES }),
    ("D over a product", Rules { levels: &[SUMS, DERIVATIVES, PRODUCTS], ..RULES }),
    ("D over a sum", Rules { levels: &[DERIVATIVES, SUMS, PRODUCTS], ..RULES }),
    ("a line of 257 bytes taken", Rules { most_bytes: MAX_LINE + 1, ..RULES }),
    ("33 open parentheses taken", Rules { most_open: MAX_OPEN + 1, ..RULES }),
    ("32 open parentheses refused", Rules { most_open: MAX_OPEN - 1, ..RULES }),
    ("12 before 2", Rules { order: [1, 12, 2, 13, 3, 5, 10, 6], ..RULES }),
    ("13 before 12", Rules { order: [1, 2, 13, 12, 3, 5, 10, 6], ..RULES }),
    ("3 before 12", Rules { order: [1, 2, 3, 12, 13, 5, 10, 6], ..RULES }),
    ("5 before 3", Rules { order: [1, 2, 12, 13, 5, 3, 10, 6], ..RULES }),
    ("6 before 10", Rules { order: [1, 2, 12, 13, 3, 5, 6, 10], ..RULES }),
    ("the lowest number", Rules { order: [1, 2, 3, 5, 6, 10, 12, 13], ..RULES }),
];

/// What a call does by these rules and for this line.
fn outcome_by(rules: &Rules, call: &PublicCall, line: &[u8]) -> Result<Done, u8> {
    line::value_by(rules, &call.memory.album, line, call.memory.results[0].len()).map(Done::listed)
}

/// A wrong outcome of a call, made from the line or from the right outcome.
type Wrong = fn(&PublicCall) -> Result<Done, u8>;

const WRONG_OUTCOMES: [(&str, Wrong); 4] = [
    ("spaces inside a number", |call| {
        let line = &call.memory.line;
        let close: Vec<u8> = line.iter().copied().filter(|&byte| byte != b' ').collect();
        outcome_by(&RULES, call, if line.len() <= MAX_LINE { &close } else { line })
    }),
    ("a tab for a space", |call| {
        let line: Vec<u8> = call.memory.line.iter().map(|&byte| if byte == b'\t' { b' ' } else { byte }).collect();
        outcome_by(&RULES, call, &line)
    }),
    ("the degree one off", |call| {
        let mut done = public::outcome(call)?;
        done.values[0] += 1;
        Ok(done)
    }),
    ("no zeros after the list", |call| {
        let mut done = public::outcome(call)?;
        let words = done.values[0] + 1;
        done.results[0].truncate(words);
        done.results[0].extend(call.memory.results[0][words..].iter().map(|&word| u32::from(word)));
        Ok(done)
    }),
];

/// Tries what wrong models would answer to drawn calls; an error names the first that is not noticed.
pub fn try_wrong_models(random: &mut Random) -> Result<String, String> {
    let names: Vec<&str> = WRONG_RULES.iter().map(|row| row.0).chain(WRONG_OUTCOMES.iter().map(|row| row.0)).collect();
    let mut tried = vec![0; names.len()];
    for k in 0..10_000 {
        let call = if k % 2 == 0 { random.public_call(Name::LineValue) } else { damaged(random) };
        let answer = calls::run(&call);
        let by_rules = WRONG_RULES.iter().map(|(_, rules)| outcome_by(rules, &call, &call.memory.line));
        let outcomes = by_rules.chain(WRONG_OUTCOMES.iter().map(|(_, wrong)| wrong(&call)));
        for ((what, outcome), count) in names.iter().zip(outcomes).zip(&mut tried) {
            let copy = public::answer(&call, outcome);
            if copy != answer {
                public::fault(&call, &copy).ok_or(format!("not noticed: {what}, in the answer to {}", public::shown(&call)))?;
                *count += 1;
            }
        }
    }
    let said: Vec<String> = names.iter().zip(&tried).map(|(what, count)| format!("{what} ({count})")).collect();
    let few = tried.iter().any(|&count| count < 20);
    if few { Err(format!("some model was told apart fewer than 20 times: {}", said.join(", "))) } else { Ok(said.join(", ")) }
}
