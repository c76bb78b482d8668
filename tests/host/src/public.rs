//! What document 01 and the orders after it say of every public call, compared with what the engine answers.

use crate::album;
use crate::calls::{self, Answer, Memory, Name, PublicCall};
use crate::field::{add, mul, sub};
use crate::line;
use crate::model::{self, Gcd, List, MAX_WORDS};
use crate::poly::{of_list, one_minus_t, plus, times};
use crate::random::Random;

/// What a call that completes writes and hands back: the words of its results, its values, and of a body or a written album the
/// bytes.
#[derive(Debug, Default, PartialEq)]
pub struct Done {
    pub results: Vec<List>,
    pub values: Vec<usize>,
    pub part: Vec<u8>,
}

impl Done {
    fn results(results: impl Into<Vec<List>>) -> Done {
        Done { results: results.into(), ..Done::default() }
    }

    fn value(value: u32) -> Done {
        Done { values: vec![value as usize], ..Done::default() }
    }

    /// A list with zeros after it, and its naive degree.
    pub fn listed(list: List) -> Done {
        Done { values: vec![list.len() - 1], results: vec![padded(list)], ..Done::default() }
    }

    /// h with zeros after it; w, c and rounds.
    pub fn gcd(gcd: Gcd) -> Done {
        let values = vec![gcd.h.len() - 1, gcd.c, gcd.rounds];
        Done { results: vec![padded(gcd.h)], values, ..Done::default() }
    }
}

fn padded(mut list: List) -> List {
    list.resize(MAX_WORDS, 0);
    list
}

pub fn words(list: &[u32]) -> Vec<u16> {
    list.iter().map(|&word| word as u16).collect()
}

pub fn list(words: &[u16]) -> List {
    words.iter().map(|&word| u32::from(word)).collect()
}

/// The number of values that a call hands back.
pub fn values(name: Name) -> usize {
    match name {
        Name::FieldSum | Name::FieldDifference | Name::FieldProduct | Name::Inverse => 1,
        Name::FindExtent | Name::Searched | Name::Evaluate | Name::ReadList | Name::WriteAlbum | Name::LineValue => 1,
        Name::Gcd | Name::Cofactors | Name::GcdOfAlbum => 3,
        _ => 0,
    }
}

/// A call with slices that fit, full of zeros.
pub fn fitting(name: Name, lists: &[List], album: &[u8], numbers: &[usize]) -> PublicCall {
    let length = |k: usize| lists[k].len();
    let room = match name {
        Name::Product => vec![length(0) + length(1) - 1],
        Name::Raise => vec![numbers[0].saturating_add(1).min(2 * MAX_WORDS)],
        Name::Sum | Name::Difference => vec![length(0).max(length(1))],
        Name::Trim => vec![model::extent(&lists[0]).map_or(1, |x| x + 1)],
        Name::Derivative => vec![length(0).max(2) - 1],
        Name::Divide => vec![(length(0) + 1).saturating_sub(length(1)), length(1) - 1],
        Name::DivideOrdinary => vec![length(0); 2],
        Name::Gcd | Name::ReadList | Name::GcdOfAlbum | Name::LineValue => vec![MAX_WORDS],
        Name::Contents => vec![2 * album::MAX_LISTS],
        Name::Cofactors => {
            let m = model::cofactor_degree(&lists[0], &lists[1]);
            vec![MAX_WORDS, m + 2 - length(0), m + 2 - length(1)]
        }
        _ => vec![],
    };
    let part = if name == Name::Body { album::body(album, numbers[0]).map_or(4, |part| part.len()) } else { 0 };
    let memory = Memory {
        lists: lists.iter().map(|list| words(list)).collect(),
        album: album.to_vec(),
        results: room.into_iter().map(|length| vec![0; length]).collect(),
        part: vec![0; part],
        answer: vec![usize::MAX; values(name)],
        ..Memory::default()
    };
    PublicCall { name, numbers: numbers.to_vec(), memory }
}

/// The call that writes the album of these lists, with the shortest target that is taken, full of zeros.
pub fn writing(lists: &[List]) -> PublicCall {
    let memory = Memory {
        lists: vec![words(&lists.concat())],
        degrees: lists.iter().map(|list| (list.len() - 1) as u16).collect(),
        part: vec![0; album::MAX_BYTES],
        answer: vec![usize::MAX; values(Name::WriteAlbum)],
        ..Memory::default()
    };
    PublicCall { name: Name::WriteAlbum, numbers: vec![], memory }
}

/// The call for a line over an album, with slices that fit, full of zeros.
pub fn line(album: &[u8], line: &[u8]) -> PublicCall {
    let mut call = fitting(Name::LineValue, &[], album, &[]);
    call.memory.line = line.to_vec();
    call
}

/// What the call does, or the number of its refusal.
pub fn outcome(call: &PublicCall) -> Result<Done, u8> {
    let lists: Vec<List> = call.memory.lists.iter().map(|words| list(words)).collect();
    let (number, word) = (|k: usize| call.numbers[k], |k: usize| call.numbers[k] as u32);
    let room = |k: usize| call.memory.results[k].len();
    let album = &call.memory.album[..];
    let one = |list: List| Done::results([list]);
    match call.name {
        Name::FieldSum => model::coefficients(word(0), word(1), add).map(Done::value),
        Name::FieldDifference => model::coefficients(word(0), word(1), sub).map(Done::value),
        Name::FieldProduct => model::coefficients(word(0), word(1), mul).map(Done::value),
        Name::Inverse => model::inverse(word(0)).map(Done::value),
        Name::Product => model::product(&lists[0], &lists[1], room(0)).map(one),
        Name::Raise => model::raise(&lists[0], number(0), room(0)).map(one),
        Name::Sum => model::sum(&lists[0], &lists[1], room(0)).map(one),
        Name::Difference => model::difference(&lists[0], &lists[1], room(0)).map(one),
        Name::FindExtent => model::find_extent(&lists[0]).map(|x| Done { values: x.into_iter().collect(), ..Done::default() }),
        Name::Searched => model::searched(&lists[0]).map(|n| Done { values: vec![n], ..Done::default() }),
        Name::Trim => model::remove_top_zeros(&lists[0], room(0)).map(one),
        Name::Derivative => model::derivative(&lists[0], room(0)).map(one),
        Name::Evaluate => model::evaluate(&lists[0], word(0)).map(Done::value),
        Name::Divide => model::divide(&lists[0], &lists[1], room(0), room(1)).map(|(q, r)| Done::results([q, r])),
        Name::DivideOrdinary => {
            model::divide_ordinary(&lists[0], &lists[1], room(0), room(1)).map(|(q, r)| Done::results([q, r]))
        }
        Name::Gcd => model::gcd(&lists[0], &lists[1], room(0)).map(Done::gcd),
        Name::Cofactors => model::cofactors(&lists[0], &lists[1], room(0), room(1), room(2)).map(|(gcd, a, b)| {
            let mut done = Done::gcd(gcd);
            done.results.extend([a, b]);
            done
        }),
        Name::Check => album::check(album, number(0)).map(|_| Done::default()),
        Name::Body => album::body(album, number(0)).map(|part| Done { part, ..Done::default() }),
        Name::ReadList => album::read_list(album, number(0), room(0)).map(Done::listed),
        Name::Contents => album::contents(album, room(0) / 2).map(one),
        Name::GcdOfAlbum => album::gcd_of_album(album, room(0)).map(Done::gcd),
        Name::WriteAlbum => album::write(&lists[0], &call.memory.degrees, call.memory.part.len()).map(|part| Done {
            values: vec![part.len()],
            part,
            ..Done::default()
        }),
        Name::LineValue => line::value(album, &call.memory.line, room(0)).map(Done::listed),
    }
}

/// The answer that the call has to give.
pub fn expected(call: &PublicCall) -> Answer {
    answer(call, outcome(call))
}

/// The answer of a call that has this outcome. Values are written where their slice has room for exactly them, and so is a body; an
/// album is written to the front of its target.
pub fn answer(call: &PublicCall, outcome: Result<Done, u8>) -> Answer {
    let mut memory = call.memory.clone();
    let returned = match outcome {
        Ok(done) => {
            memory.results = done.results.iter().map(|result| words(result)).collect();
            if memory.answer.len() == done.values.len() {
                memory.answer = done.values;
            }
            let bytes = done.part.len();
            if memory.part.len() == bytes || call.name == Name::WriteAlbum {
                memory.part[..bytes].copy_from_slice(&done.part);
            }
            if call.name == Name::Body { bytes } else { 0 }
        }
        Err(_) if call.name == Name::Body => 0,
        Err(number) => usize::from(number),
    };
    Answer { returned, memory, stray: false }
}

/// What is wrong with an answer of the engine, if anything is.
pub fn fault(call: &PublicCall, answer: &Answer) -> Option<String> {
    let expected = expected(call);
    if *answer != expected {
        return Some(difference(call.name, answer, &expected));
    }
    match call.name {
        Name::Cofactors if answer.returned == 0 => cofactor_fault(&answer.memory),
        Name::DivideOrdinary if answer.returned == 0 => ordinary_fault(&answer.memory),
        Name::WriteAlbum if answer.returned == 0 => read_back_fault(&answer.memory),
        _ => None,
    }
}

/// The call; of one that writes an album or works out a line, without what its target or its slice holds.
pub fn shown(call: &PublicCall) -> String {
    let Memory { lists, degrees, album, line, results, part, answer } = &call.memory;
    match call.name {
        Name::WriteAlbum => {
            let (words, target) = (&lists[0], part.len());
            format!("WriteAlbum of {words:?}, degrees {degrees:?}, target of {target} bytes, answer of {}", answer.len())
        }
        Name::LineValue => {
            let (line, slice) = (String::from_utf8_lossy(line), results[0].len());
            format!("LineValue of {line:?} over {album:02X?}, slice of {slice} words, answer of {}", answer.len())
        }
        _ => format!("{call:?}"),
    }
}

/// What is different; of a call that writes an album, the numbers and where the target differs first.
fn difference(name: Name, answer: &Answer, right: &Answer) -> String {
    if name != Name::WriteAlbum {
        return format!("{answer:?}, and not {right:?}");
    }
    let numbers = |answer: &Answer| format!("returned {}, answer {:?}", answer.returned, answer.memory.answer);
    let place = answer.memory.part.iter().zip(&right.memory.part).position(|(byte, right)| byte != right);
    let inputs = answer.stray || answer.memory.lists != right.memory.lists || answer.memory.degrees != right.memory.degrees;
    let more = if inputs { "; an input, or something beside a slice, is changed" } else { "" };
    format!("{}, and not {}; the target differs at byte {place:?}{more}", numbers(answer), numbers(right))
}

/// Demand 3's identity of the cofactors, between polynomials in t: a f + b g = (1-t)^(m-w) h.
pub fn cofactor_fault(memory: &Memory) -> Option<String> {
    let ([f, g], [h, a, b]) = (&memory.lists[..], &memory.results[..]) else { panic!("two lists and three results") };
    let [f, g, h, a, b] = [f, g, h, a, b].map(|words| list(words));
    let m = model::cofactor_degree(&f, &g);
    let w = model::extent(&h).unwrap_or(0);
    let left = plus(&times(&of_list(&a), &of_list(&f)), &times(&of_list(&b), &of_list(&g)));
    let right = times(&one_minus_t(m - w), &of_list(&h[..=w]));
    if left == right { None } else { Some("a f + b g is not (1-t)^(m-w) h".into()) }
}

/// Order 2's sentence on ordinary division, between polynomials in t: g = q f + r, r is 0 or has a smaller degree than f, and q and
/// r are as long as g.
pub fn ordinary_fault(memory: &Memory) -> Option<String> {
    let ([g, f], [q, r]) = (&memory.lists[..], &memory.results[..]) else { panic!("two lists and two results") };
    if q.len() != g.len() || r.len() != g.len() {
        return Some("q or r is not as long as g".into());
    }
    let [g, f, q, r] = [g, f, q, r].map(|words| of_list(&list(words)));
    if g != plus(&times(&q, &f), &r) {
        return Some("g is not q f + r".into());
    }
    if r.len() < f.len() { None } else { Some("the degree in t of r is not smaller than that of f".into()) }
}

/// The number of bytes of the album that a call writes.
pub fn album_size(memory: &Memory) -> usize {
    1 + album::ENTRY_BYTES * memory.degrees.len() + 2 * memory.lists[0].len()
}

/// A written album, read by the model's reader, has the lists that it was written from.
pub fn read_back_fault(memory: &Memory) -> Option<String> {
    let read = match album::read(&memory.part[..album_size(memory)]) {
        Ok(read) => read,
        Err(number) => return Some(format!("the written album is refused with {number}")),
    };
    let same_degrees = read.iter().map(List::len).eq(memory.degrees.iter().map(|&n| usize::from(n) + 1));
    let same_words = words(&read.concat()) == memory.lists[0];
    if same_degrees && same_words { None } else { Some(format!("the written album reads as {read:?}")) }
}

/// A way to break a copy of an answer, where it can be broken so: true if it was.
type Break = fn(&mut Answer) -> bool;

const BREAKS: [(&str, Break); 7] = [
    ("another number", |answer| {
        answer.returned += 1;
        true
    }),
    ("one word of a result", |answer| {
        answer.memory.results.last_mut().and_then(|r| r.first_mut()).map(|word| *word ^= 1).is_some()
    }),
    ("a value", |answer| answer.memory.answer.last_mut().map(|value| *value ^= 1).is_some()),
    ("one word of a list", |answer| answer.memory.lists.last_mut().and_then(|l| l.last_mut()).map(|word| *word ^= 1).is_some()),
    ("a byte of an album", |answer| answer.memory.album.last_mut().map(|byte| *byte ^= 1).is_some()),
    ("a byte of a line", |answer| answer.memory.line.last_mut().map(|byte| *byte ^= 1).is_some()),
    ("a byte of a body or of a target", |answer| answer.memory.part.last_mut().map(|byte| *byte ^= 1).is_some()),
];

/// Tries broken copies of real answers, of each call; an error names the first that is not noticed.
pub fn try_broken_copies(random: &mut Random) -> Result<String, String> {
    let mut tried = [0; BREAKS.len()];
    for (name, _) in calls::CALLS {
        for _ in 0..10 {
            let call = random.public_call(name);
            let answer = calls::run(&call);
            for ((what, break_copy), count) in BREAKS.iter().zip(&mut tried) {
                let mut copy = answer.clone();
                if break_copy(&mut copy) {
                    fault(&call, &copy).ok_or(format!("not noticed: {what} changed in the answer to {call:?}"))?;
                    *count += 1;
                }
            }
        }
    }
    let said: Vec<String> = BREAKS.iter().zip(tried).map(|((what, _), count)| format!("{what} ({count})")).collect();
    if tried.contains(&0) { Err(format!("some break was never tried: {}", said.join(", "))) } else { Ok(said.join(", ")) }
}
