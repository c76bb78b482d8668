//! Every call on lists at each length from 1 to 1,024; pairs of lengths at the edges of the engine's buffers, and of the factors that it
//! cuts; and albums that have every length.

use crate::calls::{Name, PublicCall};
use crate::engine::{Call, Operation};
use crate::field::P;
use crate::model::{List, MAX_WORDS, is_zero, multiply};
use crate::random::Random;
use crate::{Tally, album, compare_call, compare_public, compare_report, on_lists, poly, public, writing};

pub fn compare(tally: &mut Tally) {
    let mut random = Random(13);
    compare_each_length(tally, &mut random);
    compare_pairs(tally, &mut random);
    compare_products(tally, &mut random);
    compare_albums(tally, &mut random);
}

/// Compares a call that has to complete.
fn complete(tally: &mut Tally, call: &PublicCall) {
    if compare_public(tally, call).returned != 0 {
        tally.fault(&public::shown(call), "it is refused");
    }
}

/// A list that is not zero.
fn nonzero(random: &mut Random, words: usize) -> List {
    let mut list = random.list(words);
    if is_zero(&list) {
        list[0] = random.nonzero();
    }
    list
}

/// A list that does not end in 0.
fn divisor(random: &mut Random, words: usize) -> List {
    let mut list = random.list(words);
    if list[words - 1] == 0 {
        list[words - 1] = random.nonzero();
    }
    list
}

/// All calls on lists but division in the usual sense, which ordinary::compare has at each length.
fn compare_each_length(tally: &mut Tally, random: &mut Random) {
    for words in 1..=MAX_WORDS {
        let (f, few) = (nonzero(random, words), 1 + random.below(40));
        let (room, longer) = (MAX_WORDS + 1 - words, words + random.below(MAX_WORDS + 1 - words));
        for name in [Name::FindExtent, Name::Searched, Name::Trim, Name::Derivative] {
            complete(tally, &on_lists(name, &[&f], &[]));
        }
        complete(tally, &on_lists(Name::Evaluate, &[&f], &[random.word() as usize]));
        complete(tally, &on_lists(Name::Raise, &[&f], &[longer - 1]));
        let g = random.list(few.min(room));
        for pair in [[&f[..], &g[..]], [&g[..], &f[..]]] {
            for name in [Name::Product, Name::Sum, Name::Difference, Name::Gcd, Name::Cofactors] {
                complete(tally, &on_lists(name, &pair, &[]));
            }
        }
        for (dividend, words) in [(words, few.min(words)), (longer, words)] {
            complete(tally, &on_lists(Name::Divide, &[&random.list(dividend), &divisor(random, words)], &[]));
        }
    }
    println!("lists of each length from 1 to 1,024: every call on lists completed and compared");
}

/// Two lists of these lengths with a common factor.
fn sharing(random: &mut Random, words: [usize; 2]) -> [List; 2] {
    let shared = 1 + random.below(words[0].min(words[1]));
    let factor = divisor(random, shared);
    words.map(|words| multiply(&factor, &nonzero(random, words + 1 - shared)))
}

fn compare_pairs(tally: &mut Tally, random: &mut Random) {
    let lengths = [1, 144, 145, 255, 256, 257, 258, 511, 512, 513, 1_023, 1_024];
    for e in lengths {
        for d in lengths {
            let [g, f] = sharing(random, [e, d]);
            for name in [Name::Sum, Name::Difference, Name::Gcd, Name::Cofactors] {
                complete(tally, &on_lists(name, &[&f, &g], &[]));
            }
            complete(tally, &on_lists(Name::DivideOrdinary, &[&g, &f], &[]));
            compare_call(tally, &Call::fitting(Operation::Gcd, &f, &g));
            if d <= e {
                let f = divisor(random, d);
                complete(tally, &on_lists(Name::Divide, &[&g, &f], &[]));
                compare_call(tally, &Call::fitting(Operation::Division, &g, &f));
            }
        }
    }
    println!("  pairs of lengths at the edges of buffers: {}", lengths.len() * lengths.len());
}

/// The lengths of two factors. The engine's product has buffers for up to 40 words together, for up to 264 and for any. It cuts long factors
/// modulo p after half of the first one's words, where the second has from three quarters as many words to as many; and those of up to 144
/// words, or 656 in the largest buffers, in whole numbers, padded to a multiple of 16, where the second has from half as many to as many.
fn factors() -> Vec<[usize; 2]> {
    let firsts =
        [1, 2, 8, 9, 20, 64, 127, 128, 129, 132, 133, 143, 144, 145, 160, 200, 256, 257, 400, 511, 512, 513, 655, 656, 657];
    let results: [usize; 15] = [38, 39, 40, 255, 256, 257, 262, 263, 264, 511, 512, 513, 1_022, 1_023, 1_024];
    let reaching = firsts.iter().flat_map(|&d| results.map(|words| [d, (words + 1).saturating_sub(d)]));
    let padded = |d: usize| 8 * d.div_ceil(16);
    let about_half = firsts.iter().flat_map(|&d| [padded(d) - 1, padded(d), padded(d) + 1].map(|e| [d, e]));
    let three_quarters = |d: usize| 3 * d.div_ceil(2) / 2;
    let shorter = firsts.iter().flat_map(|&d| [three_quarters(d), three_quarters(d) + 1].map(|e| [d, e]));
    let longest = firsts
        .iter()
        .flat_map(|&d| [2 * padded(d), 2 * d.div_ceil(2)].into_iter().flat_map(move |e| [[d, e], [d, e + 1], [d, e + 2]]));
    let all = reaching.chain(about_half).chain(shorter).chain(longest);
    all.filter(|&[d, e]| e > 0 && d + e <= MAX_WORDS + 1).collect()
}

/// Products and raises of drawn lists, and the products of lists whose scaled forms have the largest words.
fn compare_products(tally: &mut Tally, random: &mut Random) {
    let factors = factors();
    for &[d, e] in &factors {
        let [f, g] = [random.list(d), random.list(e)];
        for [f, g] in [[&f, &g], [&g, &f]] {
            complete(tally, &on_lists(Name::Product, &[f, g], &[]));
            complete(tally, &on_lists(Name::Raise, &[f], &[d + e - 2]));
        }
        compare_call(tally, &Call::fitting(Operation::Product, &f, &g));
        let [f, g] = [d, e].map(|words| poly::unscaled(&vec![P - 1; words], words - 1));
        complete(tally, &on_lists(Name::Product, &[&f, &g], &[]));
    }
    println!("  pairs of factors at the edges of buffers and of cut factors: {}", factors.len());
}

/// Albums of 16 lists, each length once among them, which share a factor.
fn compare_albums(tally: &mut Tally, random: &mut Random) {
    let lengths: Vec<usize> = (1..=MAX_WORDS).collect();
    for lengths in lengths.chunks_exact(album::MAX_LISTS) {
        let shared = 1 + random.below(lengths[0]);
        let factor = divisor(random, shared);
        let lists: Vec<List> = lengths.iter().map(|&words| multiply(&factor, &nonzero(random, words + 1 - shared))).collect();
        let album = album::written(&lists);
        compare_report(tally, &album, usize::MAX);
        complete(tally, &public::fitting(Name::GcdOfAlbum, &[], &album, &[]));
        complete(tally, &public::fitting(Name::Contents, &[], &album, &[]));
        complete(tally, &public::writing(&lists));
        for i in 0..lists.len() {
            compare_public(tally, &public::fitting(Name::Body, &[], &album, &[i]));
            complete(tally, &public::line(&album, i.to_string().as_bytes()));
        }
        if let Err(fault) = writing::round_trip(&lists) {
            tally.fault(&format!("the album of {lists:?}"), &fault);
        }
    }
    println!("  albums of 16 lists that have each length once: {}", MAX_WORDS / album::MAX_LISTS);
}
