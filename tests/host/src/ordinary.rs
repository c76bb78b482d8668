//! Division in the usual sense, of order 2, compared on pairs of every kind, and the degree in t that it goes by.

use crate::calls::{self, Answer, Name, PublicCall};
use crate::field::{P, add};
use crate::model::{self, List, MAX_WORDS, is_zero};
use crate::poly::{self, Poly, of_list, to_list};
use crate::public::{self, list, words};
use crate::random::Random;
use crate::{Tally, compare_printed, compare_public, lists_of, on_lists};
use std::{collections::BTreeSet, process::exit};

/// Calls on drawn pairs, about one in three of them damaged.
const ORDINARY_CALLS: usize = 10_000;

/// So many pairs at least have to be divided, in those calls and in the calls on lists of each length.
const ORDINARY_PAIRS: usize = 6_000;

const DEGREES: usize = 3_000;

pub fn compare(tally: &mut Tally) {
    compare_calls(tally);
    compare_edges(tally);
    compare_degrees(tally);
}

/// A pair that was divided, its polynomials in t, and what came back.
struct Divided {
    g: List,
    f: List,
    g_in_t: Poly,
    f_in_t: Poly,
    q: List,
    r: List,
}

impl Divided {
    fn new(answer: &Answer) -> Divided {
        let [g, f] = [0, 1].map(|k| list(&answer.memory.lists[k]));
        let [q, r] = [0, 1].map(|k| list(&answer.memory.results[k]));
        Divided { g_in_t: of_list(&g), f_in_t: of_list(&f), g, f, q, r }
    }
}

/// Raised from a smaller degree in t, without a word that is 0 to show it.
fn is_raised(list: &[u32], in_t: &[u32]) -> bool {
    !list.contains(&0) && 1 < in_t.len() && in_t.len() < list.len()
}

type Kind = fn(&Divided) -> bool;

const KINDS: [(&str, Kind); 15] = [
    ("a raised constant as divisor", |d| d.f.len() > 1 && d.f_in_t.len() == 1),
    ("a longer divisor that divides", |d| d.f.len() > d.g.len() && !is_zero(&d.q)),
    ("a longer divisor of higher degree", |d| d.f.len() > d.g.len() && d.f_in_t.len() > d.g_in_t.len()),
    ("a divisor that vanishes at 1", |d| d.f.last() == Some(&0)),
    ("a divisor of full degree", |d| d.f.len() > 1 && d.f_in_t.len() == d.f.len()),
    ("a raised divisor without a word 0", |d| is_raised(&d.f, &d.f_in_t)),
    ("a raised dividend without a word 0", |d| is_raised(&d.g, &d.g_in_t)),
    ("a zero dividend", |d| d.g_in_t.is_empty()),
    ("a dividend of smaller degree", |d| !d.g_in_t.is_empty() && d.g_in_t.len() < d.f_in_t.len()),
    ("a dividend of the same degree", |d| d.g_in_t.len() == d.f_in_t.len()),
    ("no remainder by a divisor that is no constant", |d| d.f_in_t.len() > 1 && !is_zero(&d.q) && is_zero(&d.r)),
    ("a quotient and a remainder", |d| !is_zero(&d.q) && !is_zero(&d.r)),
    ("a dividend of 1,024 words", |d| d.g.len() == MAX_WORDS),
    ("a divisor of 1,024 words", |d| d.f.len() == MAX_WORDS),
    ("both of 1,024 words", |d| d.g.len() == MAX_WORDS && d.f.len() == MAX_WORDS),
];

/// Numbers that apply together.
const MIXTURES: [&[u8]; 7] = [&[4, 5], &[4, 9], &[4, 10], &[5, 9], &[5, 10], &[9, 10], &[4, 5, 10]];

/// The numbers that apply to a call, the lowest first.
fn applying(call: &PublicCall) -> Vec<u8> {
    let [g, f] = [0, 1].map(|k| list(&call.memory.lists[k]));
    let [q, r] = [0, 1].map(|k| call.memory.results[k].len());
    model::ordinary_rows(&g, &f, q, r).iter().filter(|row| row.1).map(|row| row.0).collect()
}

#[derive(Default)]
struct Counts {
    divided: usize,
    kinds: [usize; KINDS.len()],
    mixtures: [usize; MIXTURES.len()],
    /// the lengths of divided dividends and of their divisors
    lengths: [BTreeSet<usize>; 2],
}

impl Counts {
    fn compare(&mut self, tally: &mut Tally, call: &PublicCall) {
        let answer = compare_public(tally, call);
        let applying = applying(call);
        tally.count("DivideOrdinary", *applying.first().unwrap_or(&0));
        for (mixture, count) in MIXTURES.iter().zip(&mut self.mixtures) {
            *count += usize::from(mixture.iter().all(|number| applying.contains(number)));
        }
        if !applying.is_empty() {
            return;
        }
        let divided = Divided::new(&answer);
        self.divided += 1;
        self.lengths[0].insert(divided.g.len());
        self.lengths[1].insert(divided.f.len());
        for ((_, is_of), count) in KINDS.iter().zip(&mut self.kinds) {
            *count += usize::from(is_of(&divided));
        }
    }

    /// Each kind of pair and each mixture has to occur often enough to mean something, and each length at all.
    fn print(&self) {
        let kinds: Vec<String> = KINDS.iter().zip(self.kinds).map(|((kind, _), count)| format!("{kind}: {count}")).collect();
        println!("  of the divided pairs: {}", kinds.join(", "));
        let [dividends, divisors] = self.lengths.each_ref().map(BTreeSet::len);
        println!("  dividends of {dividends} lengths and divisors of {divisors}");
        let together = |numbers: &[u8]| numbers.iter().map(u8::to_string).collect::<Vec<_>>().join(" and ");
        let mixtures: Vec<String> =
            MIXTURES.iter().zip(self.mixtures).map(|(mixture, count)| format!("{}: {count}", together(mixture))).collect();
        println!("  calls to which several numbers apply: {}", mixtures.join(", "));
        let few_kinds = self.kinds.iter().any(|&count| count < 100);
        let few_mixtures = self.mixtures.iter().any(|&count| count < 30);
        if self.divided < ORDINARY_PAIRS || [dividends, divisors] != [MAX_WORDS; 2] || few_kinds || few_mixtures {
            println!(
                "fewer than {ORDINARY_PAIRS} pairs are divided, some kind occurs fewer than 100 times, some mixture fewer than 30"
            );
            println!("times, or some length from 1 to {MAX_WORDS} is missing");
            exit(1);
        }
    }
}

fn compare_calls(tally: &mut Tally) {
    let mut random = Random(9);
    let mut counts = Counts::default();
    for _ in 0..ORDINARY_CALLS {
        counts.compare(tally, &random.public_call(Name::DivideOrdinary));
    }
    for length in 1..=MAX_WORDS {
        let other = 1 + random.below(MAX_WORDS);
        let mut pairs = vec![[length, other], [other, length]];
        if length % 8 == 0 {
            pairs.push([MAX_WORDS; 2]);
        }
        for lengths in pairs {
            counts.compare(tally, &public::fitting(Name::DivideOrdinary, &random.raised_pair(lengths), &[], &[]));
        }
    }
    let row = calls::CALLS.iter().find(|(name, _)| *name == Name::DivideOrdinary);
    tally.print_numbers("DivideOrdinary", row.expect("the call").1, 100);
    counts.print();
}

fn on_pair(g: &[u32], f: &[u32]) -> PublicCall {
    on_lists(Name::DivideOrdinary, &[g, f], &[])
}

/// The same with slices of these lengths, full of words that are not 0.
fn with_slices(g: &[u32], f: &[u32], slices: [usize; 2]) -> PublicCall {
    let mut call = on_pair(g, f);
    call.memory.results = slices.map(|length| vec![0xC3C3; length]).to_vec();
    call
}

/// Sums by hand, and each number at its edge, where others apply too.
fn compare_edges(tally: &mut Tally) {
    type Sum<'a> = (&'a [u32], &'a [u32], &'a [u32], &'a [u32]);
    let sums: [Sum; 13] = [
        // the divisor is the constant 1, 3 or 2 at a higher naive degree
        (&[1, 0, 1], &[1, 1], &[1, 0, 1], &[0, 0, 0]),
        (&[6, 9], &[3, 3], &[2, 3], &[0, 0]),
        (&[4], &[2, 2, 2], &[2], &[0]),
        (&[3, 3], &[3, 3], &[1, 1], &[0, 0]),
        (&[0, 0, 1], &[1], &[0, 0, 1], &[0, 0, 0]),
        // a degree below the divisor's
        (&[1, 2], &[0, 0, 1], &[0, 0], &[1, 2]),
        (&[0, 0], &[0, 1], &[0, 0], &[0, 0]),
        (&[5], &[0, 1], &[0], &[5]),
        // document 01's division refuses these with 8 and 7: 1 by 1-t
        (&[1, 1], &[1, 0], &[0, 0], &[1, 1]),
        (&[1], &[1, 0], &[0], &[1]),
        // t by 2t, which is written longer
        (&[0, 1], &[0, 1, 2], &[32_761, 32_761], &[0, 0]),
        // t^2 = (-1-t)(1-t) + 1, and 1+t+t^2 = t(1+t) + 1 with the divisor raised once
        (&[0, 0, 1], &[1, 0], &[65_520, 32_759, 65_519], &[1, 1, 1]),
        (&[1, 32_762, 3], &[1, 32_762, 2], &[0, 32_761, 1], &[1, 1, 1]),
    ];
    for (g, f, q, r) in &sums {
        compare_printed(tally, &format!("{g:?} by {f:?}"), &on_pair(g, f), lists_of(&[q, r]));
    }
    let (full, long) = (vec![1; MAX_WORDS], vec![1; MAX_WORDS + 1]);
    let divided = [on_pair(&full, &full), on_pair(&full, &[65_520]), on_pair(&[65_520], &full)];
    for call in &divided {
        compare_public(tally, call);
        tally.check(&format!("{call:?}"), applying(call).is_empty());
    }
    let refused = [
        (on_pair(&[], &[1]), 4),
        (on_pair(&[1], &[]), 4),
        (on_pair(&long, &[1]), 4),
        (on_pair(&[1], &long), 4),
        (with_slices(&[65_521], &[], [3, 3]), 4),
        (with_slices(&long, &[0], [0, 1]), 4),
        (on_pair(&[1, 65_521], &[1]), 5),
        (on_pair(&[1, 2], &[65_535, 0]), 5),
        (with_slices(&[65_521], &[0, 0], [1, 1]), 5),
        (with_slices(&[65_521], &[0, 0], [2, 0]), 5),
        (on_pair(&[1, 2], &[0]), 9),
        (on_pair(&[1], &[0, 0, 0]), 9),
        (on_pair(&[0], &[0, 0]), 9),
        (with_slices(&[1, 2], &[0], [2, 1]), 9),
        (with_slices(&[1, 2], &[1, 0], [1, 2]), 10),
        (with_slices(&[1, 2], &[1, 0], [3, 2]), 10),
        (with_slices(&[1, 2], &[1, 0], [2, 1]), 10),
        (with_slices(&[1, 2], &[1, 0], [2, 3]), 10),
        // as document 01's division has them, and as long as the divisor
        (with_slices(&[1, 2, 3], &[1, 1], [2, 1]), 10),
        (with_slices(&[1], &[0, 1, 2], [3, 3]), 10),
    ];
    for (call, number) in &refused {
        compare_printed(tally, &format!("{number} is due to {call:?}"), call, Err(*number));
    }
    println!("  edges of ordinary division: {}", sums.len() + divided.len() + refused.len());
}

fn compare_degrees(tally: &mut Tally) {
    let by_hand: [(&[u32], usize); 9] = [
        (&[], 0),
        (&[0], 0),
        (&[7], 0),
        (&[0, 0, 0], 0),
        (&[3, 3], 0),
        (&[1, 0], 1),
        (&[0, 1, 2], 1),
        (&[0, 0, 1], 2),
        (&[1; MAX_WORDS + 1], 0),
    ];
    for (list, degree) in by_hand {
        compare_degree(tally, list);
        tally.check(&format!("the degree in t of {list:?}"), model::degree_in_t(list) == degree);
    }
    let mut random = Random(10);
    let (mut raised, mut full, mut too_long) = (0, 0, 0);
    for i in 0..DEGREES {
        let mut list = random.raised_list(1 + i % 1_200);
        if random.percent(5) {
            list.fill(0);
        }
        let degree = compare_degree(tally, &list);
        too_long += usize::from(list.len() > MAX_WORDS);
        raised += usize::from(list.len() <= MAX_WORDS && degree + 1 < list.len());
        full += usize::from(degree + 1 == list.len());
    }
    println!(
        "the degree in t: {DEGREES} lists compared, {raised} of them raised, {full} not, {too_long} of more than 1,024 words"
    );
    if [raised, full, too_long].iter().any(|&count| count < 100) {
        println!("some of these occur fewer than 100 times");
        exit(1);
    }
}

/// Compares the engine's degree in t of a list with the model's, and gives the model's.
fn compare_degree(tally: &mut Tally, list: &[u32]) -> usize {
    let right = model::degree_in_t(list);
    let degree = calls::degree_in_t(&words(list));
    if degree != Some(right) {
        tally.fault(&format!("the degree in t of {list:?}"), &format!("{degree:?}, and not {right}"));
    }
    right
}

/// A wrong answer made from a real one, where there is one of this kind.
type Break = fn(&PublicCall, &Answer) -> Option<Answer>;

const BREAKS: [(&str, Break); 11] = [
    ("document 01's division", |call, answer| document_01(call, answer, |_, r| r)),
    // q f + r is g, but the degree in t of r is too high
    ("document 01's division, the factor (1-t)^(e-d+1) in r", |call, answer| {
        document_01(call, answer, |k, r| poly::times(&poly::one_minus_t(k), &r))
    }),
    ("one word of q off by one", |_, answer| bump(answer, 0)),
    ("one word of r off by one", |_, answer| bump(answer, 1)),
    // q - 1 and r + f
    ("f left in r", |_, answer| {
        let [_, f, q, r] = in_t(answer)?;
        with_results(answer, poly::minus(&q, &[1]), poly::plus(&r, &f))
    }),
    ("q and r exchanged", |_, answer| {
        let [_, _, q, r] = in_t(answer)?;
        with_results(answer, r, q)
    }),
    ("q not raised, zeros after it", |_, answer| unraised(answer, 0)),
    ("r not raised, zeros after it", |_, answer| unraised(answer, 1)),
    ("7 or 8, as document 01's division refuses", |call, answer| {
        let [g, f] = &call.memory.lists[..] else { return None };
        let number = if g.len() < f.len() { 7 } else { 8 };
        let applies = answer.returned == 0 && (number == 7 || f.last() == Some(&0));
        applies.then(|| Answer { returned: number, memory: call.memory.clone(), stray: false })
    }),
    ("a higher number that applies too", |call, answer| {
        let second = *applying(call).get(1)?;
        Some(Answer { returned: usize::from(second), ..answer.clone() })
    }),
    ("a word written on refusal", |_, answer| {
        let mut copy = answer.clone();
        let word = copy.memory.results.iter_mut().flatten().last().filter(|_| answer.returned != 0)?;
        *word ^= 1;
        Some(copy)
    }),
];

/// Breaks that order 2's sentence shows without the model.
const BREAKS_OF_IDENTITY: usize = 8;

/// g, f, q and r of a completed call as polynomials in t.
fn in_t(answer: &Answer) -> Option<[Poly; 4]> {
    let memory = &answer.memory;
    let all = [&memory.lists[0], &memory.lists[1], &memory.results[0], &memory.results[1]];
    (answer.returned == 0).then(|| all.map(|words| of_list(&list(words))))
}

/// The answer with these two for q and r, where they have room and are others.
fn with_results(answer: &Answer, q: Poly, r: Poly) -> Option<Answer> {
    let length = answer.memory.lists[0].len();
    let has_room = answer.returned == 0 && q.len() <= length && r.len() <= length;
    let mut copy = answer.clone();
    if has_room {
        copy.memory.results = [q, r].map(|p| words(&to_list(&p, length - 1))).to_vec();
    }
    (copy != *answer).then_some(copy)
}

/// What document 01's division gives, raised to g's naive degree; k is e-d+1.
fn document_01(call: &PublicCall, answer: &Answer, rest: fn(usize, Poly) -> Poly) -> Option<Answer> {
    let [g, f] = [0, 1].map(|k| list(&call.memory.lists[k]));
    let k = (g.len() + 1).checked_sub(f.len())?;
    let (q, r) = model::divide(&g, &f, k, f.len().checked_sub(1)?).ok()?;
    let r = if r.is_empty() { vec![] } else { of_list(&r) };
    with_results(answer, of_list(&q), rest(k, r))
}

/// Adds 1 to the word in the middle of a result.
fn bump(answer: &Answer, which: usize) -> Option<Answer> {
    let mut copy = answer.clone();
    let result = &mut copy.memory.results[which];
    let middle = result.len() / 2;
    let word = result.get_mut(middle).filter(|_| answer.returned == 0)?;
    *word = add(u32::from(*word) % P, 1) as u16;
    Some(copy)
}

/// A result as a list of its own degree in t, with zeros after it.
fn unraised(answer: &Answer, which: usize) -> Option<Answer> {
    let p = in_t(answer)?[2 + which].clone();
    let mut shortest = to_list(&p, p.len().checked_sub(1)?);
    shortest.resize(answer.memory.lists[0].len(), 0);
    let mut copy = answer.clone();
    copy.memory.results[which] = words(&shortest);
    (copy != *answer).then_some(copy)
}

/// Tries wrong answers made from real ones; an error names the first that is not noticed.
pub fn try_broken_copies(random: &mut Random) -> Result<String, String> {
    let mut tried = [0; BREAKS.len()];
    for _ in 0..1_000 {
        let call = random.public_call(Name::DivideOrdinary);
        let answer = calls::run(&call);
        for (i, (what, broken)) in BREAKS.iter().enumerate() {
            let Some(copy) = broken(&call, &answer) else { continue };
            let unseen = |by| format!("not noticed{by}: {what}, in the answer to {}", public::shown(&call));
            public::fault(&call, &copy).ok_or_else(|| unseen(""))?;
            if i < BREAKS_OF_IDENTITY {
                public::ordinary_fault(&copy.memory).ok_or_else(|| unseen(" by the identity"))?;
            }
            tried[i] += 1;
        }
    }
    let said: Vec<String> = BREAKS.iter().zip(tried).map(|((what, _), count)| format!("{what} ({count})")).collect();
    let few = tried.iter().any(|&count| count < 20);
    if few { Err(format!("some break was tried fewer than 20 times: {}", said.join(", "))) } else { Ok(said.join(", ")) }
}
