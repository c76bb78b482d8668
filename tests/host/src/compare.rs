//! The comparisons. Each takes an answer as a value, so that a broken copy of a real answer can be tried as well.

use crate::album::{bytes, words};
use crate::engine::{self, Answer, Call, Operation};
use crate::field::{P, add};
use crate::model::{self, List, MAX_WORDS};
use crate::poly::{self, divides, of_list, one_minus_t, plus, times};
use crate::random::Random;
use crate::report;

/// The answer that document 01 gives.
pub fn expected(call: &Call) -> Answer {
    let [x, y] = call.lists.each_ref().map(|list| words_of_list(list));
    let lengths: Vec<usize> = call.results.iter().map(|result| words_of_result(result)).collect();
    let completed = match call.operation {
        Operation::Product => model::product(&x, &y, lengths[0]).map(|out| vec![out]),
        Operation::Division => model::divide(&x, &y, lengths[0], lengths[1]).map(|(q, r)| vec![q, r]),
        Operation::Gcd => model::host_gcd(&x, &y, lengths[0], lengths[1]).map(gcd_results),
    };
    let (number, results) = match completed {
        Ok(results) => (0, results.iter().map(|result| bytes(result)).collect()),
        Err(number) => (number, call.results.clone()),
    };
    Answer { number, lists: call.lists.clone(), results, stray: false }
}

/// An odd number of bytes is refused as a list of no words is, with 4.
fn words_of_list(list: &[u8]) -> List {
    if list.len() % 2 == 0 { words(list) } else { vec![] }
}

/// An odd number of bytes fits nothing: it counts as more words than any result has.
fn words_of_result(result: &[u8]) -> usize {
    if result.len() % 2 == 0 { result.len() / 2 } else { 1_000_000 }
}

pub fn gcd_results(gcd: model::Gcd) -> Vec<List> {
    let answer = [gcd.h.len() - 1, gcd.c, gcd.rounds].map(|n| n as u32).to_vec();
    let mut h = gcd.h;
    h.resize(MAX_WORDS, 0);
    vec![h, answer]
}

/// What is wrong with an answer of the engine, if anything is.
pub fn call_fault(call: &Call, answer: &Answer) -> Option<String> {
    let expected = expected(call);
    if answer.number != expected.number {
        return Some(format!("number {}, and not {}", answer.number, expected.number));
    }
    if answer.lists != call.lists || answer.stray {
        return Some("a list, or a byte beside a slice, is changed".into());
    }
    if let Some((result, right)) = answer.results.iter().zip(&expected.results).find(|(result, right)| result != right) {
        return Some(format!("number {}, result {result:02X?}, and not {right:02X?}", answer.number));
    }
    if answer.number == 0 { identity_fault(call, answer) } else { None }
}

/// What is wrong with a completed answer by demand 3's identities between polynomials in t, whatever the model says.
pub fn identity_fault(call: &Call, answer: &Answer) -> Option<String> {
    let [x, y] = call.lists.each_ref().map(|list| of_list(&words(list)));
    let results: Vec<List> = answer.results.iter().map(|result| words(result)).collect();
    let fault = match call.operation {
        Operation::Product if times(&x, &y) != of_list(&results[0]) => "the product is not f times g",
        Operation::Division => {
            let (q, r) = (of_list(&results[0]), if results[1].is_empty() { vec![] } else { of_list(&results[1]) });
            if x == plus(&times(&q, &y), &times(&one_minus_t(results[0].len()), &r)) {
                return None;
            }
            "g is not q f + (1-t)^(e-d+1) r"
        }
        Operation::Gcd => return gcd_identity_fault(&[x, y], &results[0], results[1][0] as usize, results[1][1] as usize),
        _ => return None,
    };
    Some(fault.into())
}

fn gcd_identity_fault(lists: &[poly::Poly; 2], h: &[u32], w: usize, c: usize) -> Option<String> {
    if w >= MAX_WORDS || c >= MAX_WORDS || h[w] != 1 || !model::is_zero(&h[w + 1..]) {
        return Some("h does not end in 1 at word w, or w or c is out of range".into());
    }
    let common = times(&one_minus_t(c), &of_list(&h[..=w]));
    if !lists.iter().all(|list| divides(&common, list)) {
        return Some("(1-t)^c h does not divide both".into());
    }
    let greatest = poly::monic(&common) == poly::gcd(&lists[0], &lists[1]);
    if greatest { None } else { Some("(1-t)^c h is not the greatest common divisor".into()) }
}

/// What is wrong with the text that `report` wrote, where this one is right.
pub fn report_fault(right: &str, text: &[u8]) -> Option<String> {
    if text == right.as_bytes() { None } else { Some(format!("report {:?}, and not {right:?}", String::from_utf8_lossy(text))) }
}

/// A way to break a copy of an answer, where it can be broken so: true if it was.
type Break = fn(&Call, &mut Answer) -> bool;

const BREAKS: [(&str, Break); 12] = [
    ("a wrong w", |call, answer| bump_result(call, answer, Operation::Gcd, 1, |_| 0)),
    ("a wrong c", |call, answer| bump_result(call, answer, Operation::Gcd, 1, |_| 1)),
    ("a wrong rounds", |call, answer| bump_result(call, answer, Operation::Gcd, 1, |_| 2)),
    ("one word of h off by one", |call, answer| {
        let w = answer.results.get(1).filter(|part| part.len() == 6).map_or(0, |part| words(part)[0] as usize);
        call.operation == Operation::Gcd && answer.number == 0 && bump(&mut answer.results[0], w / 2)
    }),
    ("one word of q off by one", |call, answer| bump_result(call, answer, Operation::Division, 0, |n| n / 2)),
    ("one word of r off by one", |call, answer| bump_result(call, answer, Operation::Division, 1, |n| n / 2)),
    ("one word of a product off by one", |call, answer| bump_result(call, answer, Operation::Product, 0, |n| n / 2)),
    ("a byte written on refusal", |_, answer| {
        let refused = answer.number != 0;
        let byte = answer.results.iter_mut().flatten().last().filter(|_| refused);
        byte.map(|byte| *byte ^= 1).is_some()
    }),
    ("a wrong refusal number", |_, answer| {
        answer.number += u8::from(answer.number != 0);
        answer.number != 0
    }),
    ("a refusal for a completed call", |_, answer| {
        let completed = answer.number == 0;
        answer.number = 10;
        completed
    }),
    ("a byte beside a slice written", |_, answer| {
        answer.stray = true;
        true
    }),
    ("a byte of a list changed", |_, answer| answer.lists[1].first_mut().map(|byte| *byte ^= 1).is_some()),
];

/// Breaks that the identities show without the model.
const BREAKS_OF_IDENTITIES: [&str; 5] = [
    "a wrong c",
    "one word of h off by one",
    "one word of q off by one",
    "one word of r off by one",
    "one word of a product off by one",
];

/// Adds 1 to a word of a completed result, word(n) of its n words.
fn bump_result(call: &Call, answer: &mut Answer, operation: Operation, which: usize, word: fn(usize) -> usize) -> bool {
    if call.operation != operation || answer.number != 0 {
        return false;
    }
    let length = answer.results[which].len() / 2;
    bump(&mut answer.results[which], word(length))
}

fn bump(result: &mut [u8], k: usize) -> bool {
    let Some(word) = result.get_mut(2 * k..2 * k + 2) else { return false };
    let more = add(words(word)[0] % P, 1);
    word.copy_from_slice(&bytes(&[more]));
    true
}

/// Tries broken copies of real answers. Says for each way to break how many of them are noticed; an error names the first that is
/// not.
pub fn try_broken_copies(random: &mut Random) -> Result<String, String> {
    let operations = [Operation::Product, Operation::Division, Operation::Gcd];
    let calls: Vec<Call> = operations.iter().flat_map(|&operation| vec![operation; 150]).map(|op| random.call(op)).collect();
    let answers: Vec<Answer> = calls.iter().map(engine::run).collect();
    let mut said = vec![];
    for (name, break_copy) in BREAKS {
        let mut noticed = 0;
        for (call, answer) in calls.iter().zip(&answers) {
            let mut copy = answer.clone();
            if !break_copy(call, &mut copy) {
                continue;
            }
            let unseen = |by| Err(format!("not noticed{by}: {name}, in the answer to {call:?}"));
            if call_fault(call, &copy).is_none() {
                return unseen("");
            }
            if BREAKS_OF_IDENTITIES.contains(&name) && identity_fault(call, &copy).is_none() {
                return unseen(" by the identities");
            }
            noticed += 1;
        }
        if noticed < 20 {
            return Err(format!("{name} was tried on {noticed} answers only"));
        }
        said.push(format!("{name} ({noticed})"));
    }
    said.push(format!("one byte of a report changed ({})", try_broken_reports(random)?));
    Ok(said.join(", "))
}

fn try_broken_reports(random: &mut Random) -> Result<usize, String> {
    let mut noticed = 0;
    for _ in 0..20 {
        let album = random.album();
        let (right, text) = (report::text(&album), engine::report(&album)?);
        for at in 0..text.len() {
            let mut copy = text.clone();
            copy[at] ^= 1;
            if report_fault(&right, &copy).is_none() {
                return Err(format!("not noticed: byte {at} of the report on {album:?} changed"));
            }
            noticed += 1;
        }
    }
    Ok(noticed)
}
