//! Compares the engine with a second implementation of document 01 and of the orders after it, with fixed seeds. tests/host/run
//! builds both and runs this.

mod album;
mod bind;
mod bind_runs;
mod calls;
mod compare;
mod engine;
mod field;
mod lengths;
mod lent;
mod line;
mod line_calls;
mod line_runs;
mod lines;
mod model;
mod ordinary;
mod poly;
mod public;
mod random;
mod reading;
mod report;
mod texts;
mod vectors;
mod writing;

use calls::{Name, PublicCall};
use compare::{call_fault, gcd_results, report_fault};
use engine::{Call, Operation};
use model::{Gcd, List, MAX_WORDS};
use public::Done;
use random::Random;
use std::{
    collections::BTreeMap,
    fs,
    os::fd::OwnedFd,
    path::Path,
    process::{Command, Stdio, exit},
};
use vectors::Vector;

const CALLS: usize = 10_000;
const ALBUMS: usize = 1_500;
const RAISED_ALBUMS: usize = 500;
const PUBLIC_CALLS: usize = 2_000;
const MOST_DIFFERENCES: usize = 10;

/// What was compared, and the differences.
#[derive(Default)]
struct Tally {
    numbers: BTreeMap<(String, u8), usize>,
    differences: usize,
}

impl Tally {
    fn fault(&mut self, input: &str, fault: &str) {
        println!("difference: {fault}\n  input: {input}");
        self.differences += 1;
        if self.differences == MOST_DIFFERENCES {
            exit(1);
        }
    }

    fn check(&mut self, input: &str, right: bool) {
        if !right {
            self.fault(input, "the model gives another result than the paper");
        }
    }

    fn count(&mut self, what: &str, number: u8) {
        *self.numbers.entry((what.into(), number)).or_default() += 1;
    }

    /// Prints how often each number was given; each has to occur often enough to mean something.
    fn print_numbers(&self, what: &str, numbers: &[u8], at_least: usize) {
        let counts: Vec<usize> = numbers.iter().map(|&n| self.numbers.get(&(what.into(), n)).copied().unwrap_or(0)).collect();
        let shown: Vec<String> = numbers.iter().zip(&counts).map(|(n, count)| format!("{n}: {count}")).collect();
        println!("{what}: {} compared; by number, 0 for completed: {}", counts.iter().sum::<usize>(), shown.join(", "));
        if counts.iter().any(|&count| count < at_least) {
            println!("some number occurs fewer than {at_least} times");
            exit(1);
        }
        if self.numbers.keys().any(|(which, number)| which == what && !numbers.contains(number)) {
            println!("a number occurs that cannot apply");
            exit(1);
        }
    }
}

fn main() {
    let mut tally = Tally::default();
    compare_calls(&mut tally);
    compare_public_calls(&mut tally);
    ordinary::compare(&mut tally);
    lengths::compare(&mut tally);
    reading::compare(&mut tally);
    writing::compare(&mut tally);
    compare_albums(&mut tally);
    compare_raised_albums(&mut tally);
    bind_runs::compare(&mut tally);
    line_calls::compare(&mut tally);
    line_runs::compare(&mut tally);
    compare_sums(&mut tally);
    compare_edges(&mut tally);
    compare_searches(&mut tally);
    compare_tables(&mut tally);
    compare_vectors(&mut tally);
    compare_examples(&mut tally);
    compare_messages(&mut tally);
    let noticed = [
        compare::try_broken_copies(&mut Random(4)),
        public::try_broken_copies(&mut Random(5)),
        ordinary::try_broken_copies(&mut Random(11)),
        reading::try_wrong_readers(&mut Random(14)),
        writing::try_broken_copies(&mut Random(8)),
        bind_runs::try_broken_copies(),
        line_calls::try_wrong_models(&mut Random(19)),
        line_runs::try_broken_copies(),
    ];
    for said in noticed {
        match said {
            Ok(said) => println!("the comparer notices: {said}"),
            Err(said) => {
                println!("{said}");
                exit(1);
            }
        }
    }
    if tally.differences > 0 {
        exit(1);
    }
    println!("no difference");
}

fn shown(call: &Call) -> String {
    let lists = call.lists.each_ref().map(|list| format!("{:?} in {} bytes", album::words(list), list.len()));
    let results: Vec<usize> = call.results.iter().map(Vec::len).collect();
    format!("{:?} of {}, results of {results:?} bytes", call.operation, lists.join(" and "))
}

/// Compares the engine's answer to a call with the model's and gives it back.
fn compare_call(tally: &mut Tally, call: &Call) -> engine::Answer {
    let answer = engine::run(call);
    if let Some(fault) = call_fault(call, &answer) {
        tally.fault(&shown(call), &fault);
    }
    answer
}

fn compare_calls(tally: &mut Tally) {
    let mut random = Random(1);
    let (mut with_h, mut with_c, mut most_rounds) = (0, 0, 0);
    let (mut none, mut full, mut too_long) = (0, 0, 0);
    for operation in [Operation::Product, Operation::Division, Operation::Gcd] {
        for _ in 0..CALLS {
            let call = random.call(operation);
            let count = |wanted: fn(usize) -> bool| call.lists.iter().filter(|list| wanted(list.len())).count();
            none += count(|bytes| bytes == 0);
            full += count(|bytes| bytes == 2 * MAX_WORDS);
            too_long += count(|bytes| bytes > 2 * MAX_WORDS);
            let answer = compare_call(tally, &call);
            tally.count(&format!("{operation:?} for a C host"), answer.number);
            if operation == Operation::Gcd && answer.number == 0 {
                let answer = album::words(&answer.results[1]);
                with_h += usize::from(answer[0] > 0);
                with_c += usize::from(answer[1] > 0);
                most_rounds = most_rounds.max(answer[2]);
            }
        }
    }
    tally.print_numbers("Product for a C host", &[0, 4, 5, 6, 10], 100);
    tally.print_numbers("Division for a C host", &[0, 4, 5, 7, 8, 10], 100);
    tally.print_numbers("Gcd for a C host", &[0, 4, 5, 9, 10], 100);
    println!("  of the lists {none} have no word, {full} have 1,024 and {too_long} more");
    println!("  of the GCDs {with_h} have w above 0 and {with_c} have c above 0; the most rounds are {most_rounds}");
}

/// Compares the engine's answer to a public call with the model's and gives it back.
fn compare_public(tally: &mut Tally, call: &PublicCall) -> calls::Answer {
    let answer = calls::run(call);
    if let Some(fault) = public::fault(call, &answer) {
        tally.fault(&public::shown(call), &fault);
    }
    answer
}

/// The same, and compares with what document 01 or a source document prints.
fn compare_printed(tally: &mut Tally, place: &str, call: &PublicCall, printed: Result<Done, u8>) {
    compare_public(tally, call);
    tally.check(place, public::outcome(call) == printed);
}

fn compare_public_calls(tally: &mut Tally) {
    let mut random = Random(3);
    // ordinary::compare, writing::compare and line_calls::compare have these
    let elsewhere = [Name::DivideOrdinary, Name::WriteAlbum, Name::LineValue];
    for (name, numbers) in calls::CALLS.into_iter().filter(|(name, _)| !elsewhere.contains(name)) {
        let what = format!("{name:?}");
        for _ in 0..PUBLIC_CALLS {
            let call = random.public_call(name);
            compare_public(tally, &call);
            tally.count(&what, public::outcome(&call).err().unwrap_or(0));
        }
        tally.print_numbers(&what, numbers, 30);
    }
    for word in 0..65_536 {
        compare_public(tally, &public::fitting(Name::Inverse, &[], &[], &[word]));
    }
    println!("the inverse of every word: compared");
}

fn compare_report(tally: &mut Tally, input: &[u8], piece: usize) {
    let fault = match engine::report_in_pieces(input, piece) {
        Ok(text) => report_fault(&report::text(input), &text),
        Err(said) => Some(said),
    };
    if let Some(fault) = fault {
        tally.fault(&format!("the album {input:02X?}"), &fault);
    }
    let number = album::read(input).and_then(|lists| album::gcd(&lists)).err().unwrap_or(0);
    tally.count("report", number);
}

fn compare_albums(tally: &mut Tally) {
    let mut random = Random(2);
    for _ in 0..ALBUMS {
        compare_report(tally, &random.album(), usize::MAX);
    }
    // every first byte alone, and before a little more
    for count in 0..=255 {
        compare_report(tally, &[count], usize::MAX);
        compare_report(tally, &[count, 0, 0, 5, 0, 1, 0], usize::MAX);
    }
    let full = album::written(&vec![(1..=1_024).collect::<List>(); 16]);
    assert_eq!(full.len(), album::MAX_BYTES);
    let longer = |bytes| [full.clone(), vec![0; bytes]].concat();
    let mut wrong_count = longer(1);
    wrong_count[0] = 17;
    let short = full[..full.len() - 1].to_vec();
    let small_and_much = [example(), vec![0; 70_000]].concat();
    for input in [vec![], example(), full.clone(), short, longer(1), longer(2), longer(30_000), wrong_count, small_and_much] {
        compare_report(tally, &input, usize::MAX);
    }
    let in_pieces = [(example(), 1), (full.clone(), 100), (full.clone(), 4_097), (longer(500), 250)];
    for (input, piece) in &in_pieces {
        compare_report(tally, input, *piece);
    }
    let samples = samples();
    samples.values().for_each(|sample| compare_report(tally, sample, usize::MAX));
    compare_sample_numbers(tally, &samples);
    tally.print_numbers("report", &[0, 1, 2, 5, 9], 30);
    println!("  of the albums {} were written in small pieces, and {} are those of samples/", in_pieces.len(), samples.len());
    tally.check("the example of document 01", report::text(&example()) == "lists 2\n0 1 1 0\n1 2 2 0\ngcd 1 0\n0 1\n");
    // the second example of docs/FORMAT.md, and the third, which is order 4's
    let second = [2, 2, 0, 9, 0, 3, 0, 0x0F, 0, 0, 0, 0xF9, 0x7F, 0, 0, 0, 0, 0xA1, 0xAA, 0, 0, 0, 0];
    compare_report(tally, &second, usize::MAX);
    tally.check("docs/FORMAT.md", report::text(&second) == "lists 2\n0 2 1 1\n1 3 1 2\ngcd 2 1\n0 1\n");
    let third = [2, 1, 0, 9, 0, 2, 0, 0x0D, 0, 1, 0, 1, 0, 1, 0, 1, 0, 1, 0];
    compare_report(tally, &third, usize::MAX);
    tally.check("order 4", report::text(&third) == "lists 2\n0 1 1 0\n1 2 2 0\ngcd 0 0\n1 1\n");
}

/// Reports on albums of raised lists: where h is raised too, the degree printed is below w + c.
fn compare_raised_albums(tally: &mut Tally) {
    let mut random = Random(12);
    let (mut raised, mut with_c, mut constant) = (0, 0, 0);
    for _ in 0..RAISED_ALBUMS {
        let lists = random.raised_lists();
        compare_report(tally, &album::written(&lists), usize::MAX);
        if let Ok(gcd) = album::gcd(&lists) {
            let degree = report::degree_in_t(&gcd);
            let below = degree + 1 < gcd.h.len() + gcd.c;
            raised += usize::from(below);
            with_c += usize::from(below && gcd.c > 0);
            constant += usize::from(below && degree == 0);
        }
    }
    println!("albums of raised lists: {RAISED_ALBUMS} reports compared");
    println!("  in {raised} h is raised too; of these c is above 0 in {with_c}, and the degree is 0 in {constant}");
    if with_c.min(constant) < 30 {
        println!("some of these are fewer than 30");
        exit(1);
    }
}

/// The albums of the repository's folder samples/, by their names.
fn samples() -> BTreeMap<String, Vec<u8>> {
    let files = fs::read_dir("samples").expect("the folder samples/").map(|entry| entry.expect("a file").path());
    let albums = files.filter(|path| path.extension().is_some_and(|end| end == "album"));
    let name = |path: &Path| path.file_stem().expect("a name").to_string_lossy().into_owned();
    albums.map(|path| (name(&path), fs::read(path).expect("an album"))).collect()
}

/// samples/README.md has a row for each album, and says which are refused, and with what number.
fn compare_sample_numbers(tally: &mut Tally, samples: &BTreeMap<String, Vec<u8>>) {
    let table = fs::read_to_string("samples/README.md").expect("a table");
    for (name, album) in samples {
        let number = album::read(album).and_then(|lists| album::gcd(&lists)).err();
        let row = table.lines().find(|line| line.starts_with(&format!("| `{name}` |")));
        let said = row.map(|row| row.split_once("`refused ").map(|(_, end)| end.trim_end_matches(['`', ' ', '|']).to_string()));
        tally.check(&format!("samples/README.md on {name}"), said == Some(number.map(|n| n.to_string())));
    }
}

/// The album that document 01 prints, with entries of four bytes.
fn example() -> Vec<u8> {
    vec![2, 1, 0, 9, 0, 2, 0, 0x0D, 0, 0, 0, 1, 0, 0, 0, 0, 0, 1, 0]
}

/// Compares the engine with the model, and with results that a paper gives.
fn compare_results(tally: &mut Tally, place: &str, call: &Call, results: &[List]) {
    compare_call(tally, call);
    let expected = compare::expected(call);
    tally.check(place, expected.number == 0 && expected.results == results.iter().map(|r| album::bytes(r)).collect::<Vec<_>>());
}

fn on_lists(name: Name, lists: &[&[u32]], numbers: &[usize]) -> PublicCall {
    let lists: Vec<List> = lists.iter().map(|list| list.to_vec()).collect();
    public::fitting(name, &lists, &[], numbers)
}

fn lists_of(results: &[&[u32]]) -> Result<Done, u8> {
    Ok(Done { results: results.iter().map(|list| list.to_vec()).collect(), ..Done::default() })
}

fn value_of(value: usize) -> Result<Done, u8> {
    Ok(Done { values: vec![value], ..Done::default() })
}

/// A GCD, and where there are cofactors those too.
fn gcd_of(gcd: Gcd, cofactors: &[&[u32]]) -> Result<Done, u8> {
    let mut done = Done::gcd(gcd);
    done.results.extend(cofactors.iter().map(|list| list.to_vec()));
    Ok(done)
}

/// P1 to P10 of document 01.
fn compare_sums(tally: &mut Tally) {
    use Operation::{Division, Gcd as GcdOfTwo, Product};
    compare_results(tally, "P1", &Call::fitting(Product, &[0, 1], &[1, 0]), &[vec![0, 32761, 0]]);
    compare_printed(tally, "P1", &on_lists(Name::Product, &[&[0, 1], &[1, 0]], &[]), lists_of(&[&[0, 32761, 0]]));
    compare_printed(tally, "P2", &on_lists(Name::Raise, &[&[0, 1]], &[3]), lists_of(&[&[0, 43681, 21841, 1]]));
    compare_results(tally, "P3", &Call::fitting(Division, &[1, 0, 1], &[1, 1]), &[vec![65520, 1], vec![2]]);
    compare_printed(tally, "P3", &on_lists(Name::Divide, &[&[1, 0, 1], &[1, 1]], &[]), lists_of(&[&[65520, 1], &[2]]));
    compare_results(tally, "P4", &Call::fitting(Division, &[3, 4], &[2]), &[vec![32762, 2], vec![]]);
    compare_printed(tally, "P4", &on_lists(Name::Divide, &[&[3, 4], &[2]], &[]), lists_of(&[&[32762, 2], &[]]));
    type Sum<'a> = (&'a str, &'a [u32], &'a [u32], Gcd, &'a [u32], &'a [u32]);
    let gcds: [Sum; 5] = [
        ("P5", &[0, 1], &[0, 0, 1], Gcd { h: vec![0, 1], c: 0, rounds: 1 }, &[1, 0], &[0]),
        ("P6", &[1, 0], &[1, 0, 0], Gcd { h: vec![1], c: 1, rounds: 1 }, &[1, 0], &[0]),
        ("P7", &[0, 1], &[1, 0], Gcd { h: vec![1], c: 0, rounds: 2 }, &[0], &[1]),
        ("P8", &[0, 0], &[0, 2], Gcd { h: vec![0, 1], c: 0, rounds: 0 }, &[0], &[32761]),
        ("P9", &[0, 32761, 1], &[0, 32761, 0], Gcd { h: vec![0, 1], c: 0, rounds: 2 }, &[0, 0], &[1, 0]),
    ];
    for (place, f, g, gcd, a, b) in gcds {
        compare_results(tally, place, &Call::fitting(GcdOfTwo, f, g), &gcd_results(gcd.clone()));
        compare_printed(tally, place, &on_lists(Name::Gcd, &[f, g], &[]), gcd_of(gcd.clone(), &[]));
        compare_printed(tally, place, &on_lists(Name::Cofactors, &[f, g], &[]), gcd_of(gcd, &[a, b]));
    }
    compare_printed(tally, "P10", &on_lists(Name::Derivative, &[&[0, 0, 1]], &[]), lists_of(&[&[0, 2]]));
    println!("P1 to P10: compared with the model and the engine");
}

/// The edges that document 01 names after P10, and some where several numbers apply, of a C host's calls.
fn compare_edges(tally: &mut Tally) {
    use Operation::{Division, Gcd as GcdOfTwo, Product};
    let ones = |words| vec![1; words];
    let mut misfit = Call::fitting(GcdOfTwo, &[0, 0], &[0]);
    misfit.results[0].pop();
    let with_h = |bytes: usize| {
        let mut call = Call::fitting(GcdOfTwo, &[1], &[1]);
        call.results[0] = vec![7; bytes];
        call
    };
    let mut odd_and_loose = Call::fitting(Product, &[65521], &[1]);
    odd_and_loose.lists[0].push(0);
    let calls = [
        (Call::fitting(Division, &[1, 1], &[1, 0]), 8),
        (Call::fitting(Division, &[1, 1], &[0, 0]), 8),
        (Call::fitting(Division, &[1], &[1, 0]), 7),
        (Call::fitting(Product, &[65520], &[1]), 0),
        (Call::fitting(Product, &[65521], &[1]), 5),
        (Call::fitting(GcdOfTwo, &ones(257), &[1]), 0),
        (Call::fitting(GcdOfTwo, &ones(1_024), &[1]), 0),
        (Call::fitting(GcdOfTwo, &ones(1_025), &[1]), 4),
        (Call::fitting(Product, &ones(129), &ones(128)), 0),
        (Call::fitting(Product, &ones(129), &ones(129)), 0),
        (Call::fitting(Product, &ones(513), &ones(512)), 0),
        (Call::fitting(Product, &ones(513), &ones(513)), 6),
        (misfit, 9),
        (with_h(512), 10),
        (with_h(2_046), 10),
        (with_h(2_048), 0),
        (with_h(2_050), 10),
        (odd_and_loose, 4),
    ];
    for (call, number) in &calls {
        let answer = compare_call(tally, call);
        tally.check(&shown(call), answer.number == *number);
    }
    let public = public_edges();
    for (call, printed) in &public {
        compare_public(tally, call);
        let outcome = public::outcome(call);
        tally.check(&format!("{call:?}"), printed.as_ref().map_or(outcome.is_ok(), |p| *p == outcome));
    }
    println!("edges: {} of a C host's calls, {} of public calls", calls.len(), public.len());
}

/// The same of every public call. None: the call completes, and what it gives is the model's alone.
fn public_edges() -> Vec<(PublicCall, Option<Result<Done, u8>>)> {
    let ones = |words| vec![1; words];
    let first_only = [vec![1], vec![0; 1_023]].concat();
    let of = on_lists;
    let mut refused = vec![
        (of(Name::FieldSum, &[], &[65521, 0]), 5),
        (of(Name::FieldProduct, &[], &[1, 65535]), 5),
        (of(Name::Inverse, &[], &[0]), 9),
        (of(Name::Inverse, &[], &[65521]), 5),
        (of(Name::Sum, &[&[65521], &[0]], &[]), 5),
        (of(Name::Sum, &[&ones(1_024), &ones(1_025)], &[]), 4),
        (of(Name::Product, &[&ones(513), &ones(513)], &[]), 6),
        (of(Name::Raise, &[&[0, 1]], &[0]), 7),
        (of(Name::Raise, &[&[0, 1]], &[1_024]), 6),
        (of(Name::Raise, &[&[0, 1]], &[usize::MAX]), 6),
        (of(Name::Searched, &[&[0; 1_025]], &[]), 4),
        (of(Name::Searched, &[&[]], &[]), 4),
        (of(Name::Searched, &[&[65521, 1]], &[]), 5),
        (of(Name::Trim, &[&[0, 0]], &[]), 9),
        (of(Name::Evaluate, &[&[1, 2]], &[65521]), 5),
        (of(Name::Divide, &[&[1, 1], &[1, 0]], &[]), 8),
        (of(Name::Divide, &[&[1], &[0, 0]], &[]), 7),
        (of(Name::Gcd, &[&[0, 0], &[0]], &[]), 9),
    ];
    // one word short, and one word long; zero lists with a slice that does not fit
    for length in [2, 4] {
        let mut call = of(Name::Product, &[&[0, 1], &[1, 0]], &[]);
        call.memory.results[0] = vec![7; length];
        refused.push((call, 10));
    }
    let mut call = of(Name::Cofactors, &[&[0, 0], &[0]], &[]);
    call.memory.results[2].pop();
    refused.push((call, 9));
    // h, or a list of an album, in a slice of 256 words and beside 1,024
    for length in [256, 1_023, 1_025] {
        let two = |name| of(name, &[&[0, 1], &[0, 0, 1]], &[]);
        let read = public::fitting(Name::ReadList, &[], &example(), &[0]);
        let album = public::fitting(Name::GcdOfAlbum, &[], &example(), &[]);
        for mut call in [two(Name::Gcd), two(Name::Cofactors), read, album] {
            call.memory.results[0] = vec![7; length];
            refused.push((call, 10));
        }
    }
    let mut edges: Vec<_> = refused.into_iter().map(|(call, number)| (call, Some(Err(number)))).collect();
    edges.extend([
        (of(Name::Inverse, &[], &[2]), Some(value_of(32761))),
        (of(Name::FieldProduct, &[], &[65520, 65520]), Some(value_of(1))),
        (of(Name::FieldSum, &[], &[65520, 0]), Some(value_of(65520))),
        (of(Name::FieldDifference, &[], &[0, 1]), Some(value_of(65520))),
        (of(Name::Sum, &[&[65520], &[0]], &[]), Some(lists_of(&[&[65520]]))),
        (of(Name::Sum, &[&ones(256), &ones(257)], &[]), Some(lists_of(&[&[2; 257]]))),
        (of(Name::Sum, &[&ones(1_024), &ones(1_024)], &[]), Some(lists_of(&[&[2; 1_024]]))),
        (of(Name::Product, &[&ones(129), &ones(128)], &[]), Some(lists_of(&[&ones(256)]))),
        (of(Name::Product, &[&ones(129), &ones(129)], &[]), Some(lists_of(&[&ones(257)]))),
        (of(Name::Product, &[&ones(513), &ones(512)], &[]), Some(lists_of(&[&ones(1_024)]))),
        (of(Name::Raise, &[&[1, 1]], &[256]), Some(lists_of(&[&ones(257)]))),
        (of(Name::Raise, &[&[1, 1]], &[1_023]), Some(lists_of(&[&ones(1_024)]))),
        (of(Name::Raise, &[&[0, 1]], &[1_023]), None),
        (of(Name::Difference, &[&[3, 4], &[3]], &[]), Some(lists_of(&[&[0, 1]]))),
        (of(Name::Derivative, &[&[7]], &[]), Some(lists_of(&[&[0]]))),
        (of(Name::FindExtent, &[&[0, 5, 0]], &[]), Some(value_of(1))),
        (of(Name::FindExtent, &[&[0, 0, 0]], &[]), Some(lists_of(&[]))),
        (of(Name::Searched, &[&[0, 5, 0]], &[]), Some(value_of(2))),
        (of(Name::Searched, &[&[0, 0, 0]], &[]), Some(value_of(3))),
        (of(Name::Searched, &[&[7]], &[]), Some(value_of(1))),
        (of(Name::Searched, &[&[0]], &[]), Some(value_of(1))),
        (of(Name::Searched, &[&ones(1_024)], &[]), Some(value_of(1))),
        (of(Name::Searched, &[&first_only], &[]), Some(value_of(1_024))),
        (of(Name::Searched, &[&[0; 257]], &[]), Some(value_of(257))),
        (of(Name::Searched, &[&[0; 1_024]], &[]), Some(value_of(1_024))),
        (of(Name::Derivative, &[&ones(1_024)], &[]), Some(lists_of(&[&[0; 1_023]]))),
        (of(Name::Evaluate, &[&ones(1_024)], &[65520]), Some(value_of(1))),
        // "longer" goes by the degrees of the scaled forms
        (of(Name::Gcd, &[&[1, 0, 0], &[0, 1]], &[]), Some(gcd_of(Gcd { h: vec![1], c: 0, rounds: 1 }, &[]))),
        (
            of(Name::Cofactors, &[&[5], &[7]], &[]),
            Some(gcd_of(Gcd { h: vec![1], c: 0, rounds: 1 }, &[&[field::inverse(5), 0], &[0, 0]])),
        ),
    ]);
    edges
}

/// Words that follow no pattern: each is 25,173 times the one before plus 13,849, in the field.
fn noise(words: usize, seed: u32) -> List {
    let next = |word: &u32| Some((13_849 + 25_173 * u64::from(*word)).rem_euclid(u64::from(field::P)) as u32);
    std::iter::successors(Some(seed), next).take(words).collect()
}

/// The search for the extent from the last word on: at every extent that lists of some lengths have, and in zero lists, the extent
/// and how many words are read.
fn compare_searches(tally: &mut Tally) {
    let mut lists = 0;
    for words in [1, 2, 3, 8, 255, 256, 257, MAX_WORDS] {
        for zeros in 0..=words {
            let mut list = noise(words - zeros, 1);
            list.last_mut().into_iter().for_each(|word| *word = (*word).max(1));
            list.resize(words, 0);
            let place = format!("{words} words, the last {zeros} of them 0");
            let (extent, read) = if zeros == words { (lists_of(&[]), words) } else { (value_of(words - zeros - 1), zeros + 1) };
            compare_printed(tally, &place, &on_lists(Name::FindExtent, &[&list], &[]), extent);
            compare_printed(tally, &place, &on_lists(Name::Searched, &[&list], &[]), value_of(read));
            lists += 1;
        }
    }
    println!("the search for the extent: {lists} lists, of eight lengths with every extent");
}

/// Pairs and albums of every kind: zero lists, constants, top zeros, shared factors, the longest lists and the largest album.
fn compare_tables(tally: &mut Tally) {
    let (f, g) = (noise(MAX_WORDS, 1), noise(MAX_WORDS, 2));
    let pairs: [[&[u32]; 2]; 20] = [
        [&[5], &[7]],
        [&[0], &[7]],
        [&[7], &[0]],
        [&[3], &[1, 2, 3, 4]],
        [&[1, 2, 3, 4], &[3]],
        [&[1, 0, 0], &[0, 1]],
        [&[2, 3, 0, 0], &[5, 7, 0]],
        [&[0, 0, 0], &[1, 2, 3]],
        [&[1, 2, 3], &[0, 0, 0]],
        [&[1, 1], &[1, 1, 1]],
        [&[3, 43686, 7, 2], &[4, 21843, 43683, 14]],
        [&[6, 26210, 32765, 45871, 13105, 0], &[12, 28081, 56166, 63650, 5620, 37441, 0, 0]],
        [
            &[9, 21858, 54614, 7813, 35887, 14055, 27317, 60076, 21853, 6],
            &[27, 13115, 56791, 45869, 10613, 37449, 21533, 4390, 48086, 52448, 15],
        ],
        [&f, &g],
        [&f, &[1]],
        [&[0, 1], &g],
        [&f[..40], &g[..25]],
        [&f[..256], &g[..256]],
        [&f[..257], &g[..256]],
        [&f[..513], &g[..512]],
    ];
    for pair in pairs {
        for name in [Name::Sum, Name::Difference, Name::Product, Name::Divide, Name::DivideOrdinary, Name::Gcd, Name::Cofactors] {
            compare_public(tally, &on_lists(name, &pair, &[]));
        }
    }
    let example = example();
    let changed = |at: usize, byte: u8| {
        let mut album = example.clone();
        album[at] = byte;
        album
    };
    let sixteen =
        |words: usize, seed| album::written(&noise(16 * words, seed).chunks(words).map(<[u32]>::to_vec).collect::<Vec<_>>());
    let one_zero_apart = [vec![0], vec![0, 1], vec![0, 0], vec![0, 0, 1], vec![0]];
    let albums = [
        vec![],
        vec![0],
        vec![17, 0, 0, 0, 0],
        example[..18].to_vec(),
        [&changed(7, 14)[..], &[0]].concat(),
        [&example[..], &[0]].concat(),
        [&example[..17], &[241, 255]].concat(),
        [&example[..11], &[0; 8]].concat(),
        example.clone(),
        album::written(&[vec![3, 5, 0]]),
        album::written(&one_zero_apart),
        album::written(&[vec![1, 0], vec![1, 0, 0]]),
        sixteen(3, 1),
        sixteen(256, 2),
        sixteen(MAX_WORDS, 2),
    ];
    for album in &albums {
        for i in 0..18 {
            for name in [Name::Check, Name::Body, Name::ReadList] {
                compare_public(tally, &public::fitting(name, &[], album, &[i]));
            }
            compare_public(tally, &public::line(album, i.to_string().as_bytes()));
        }
        compare_public(tally, &public::fitting(Name::Contents, &[], album, &[]));
        compare_public(tally, &public::fitting(Name::GcdOfAlbum, &[], album, &[]));
        let mut short = public::fitting(Name::GcdOfAlbum, &[], album, &[]);
        short.memory.results[0].pop();
        compare_public(tally, &short);
    }
    println!("tables: {} pairs and {} albums", pairs.len(), albums.len());
}

/// The sums that the source documents print, where some call has the operation.
fn compare_vectors(tally: &mut Tally) {
    let vectors = vectors::parse(include_str!("../vectors.txt"));
    let (skipped, kept): (Vec<&Vector>, _) = vectors.iter().partition(|vector| OF_NO_CALL.contains(&vector.operation));
    kept.iter().for_each(|vector| compare_vector(tally, vector));
    println!("vectors of the source documents: {} compared with the model and the engine", kept.len());
    println!("  skipped, as no call has such an operation: {} ({})", skipped.len(), OF_NO_CALL.join(", "));
}

const OF_NO_CALL: [&str; 1] = ["relations of three"];

fn compare_vector(tally: &mut Tally, vector: &Vector) {
    let place = vector.place;
    let input = |name| vector.input(name);
    let list = |name| vector.result(name);
    let gcd = || {
        let gcd = Gcd { h: list("h"), c: vector.result_number("c"), rounds: vector.result_number("rounds") };
        assert_eq!(gcd.h.len() - 1, vector.result_number("w"), "{place}");
        gcd
    };
    let (call, printed) = match vector.operation {
        "product" => {
            let call = Call::fitting(Operation::Product, &input("f"), &input("g"));
            compare_results(tally, place, &call, &[list("list")]);
            (on_lists(Name::Product, &[&input("f"), &input("g")], &[]), lists_of(&[&list("list")]))
        }
        "division" => {
            let call = Call::fitting(Operation::Division, &input("g"), &input("f"));
            compare_results(tally, place, &call, &[list("q"), list("r")]);
            (on_lists(Name::Divide, &[&input("g"), &input("f")], &[]), lists_of(&[&list("q"), &list("r")]))
        }
        "ordinary division" => {
            (on_lists(Name::DivideOrdinary, &[&input("g"), &input("f")], &[]), lists_of(&[&list("q"), &list("r")]))
        }
        "gcd of two" => {
            let call = Call::fitting(Operation::Gcd, &input("f"), &input("g"));
            compare_results(tally, place, &call, &gcd_results(gcd()));
            (on_lists(Name::Gcd, &[&input("f"), &input("g")], &[]), gcd_of(gcd(), &[]))
        }
        "gcd of an album" => {
            let album = album::written(&vector.inputs("list"));
            compare_report(tally, &album, usize::MAX);
            (public::fitting(Name::GcdOfAlbum, &[], &album, &[]), gcd_of(gcd(), &[]))
        }
        "raise" => (on_lists(Name::Raise, &[&input("f")], &[vector.input_number("n")]), lists_of(&[&list("list")])),
        "sum" => (on_lists(Name::Sum, &[&input("f"), &input("g")], &[]), lists_of(&[&list("list")])),
        "remove top zeros" => (on_lists(Name::Trim, &[&input("f")], &[]), lists_of(&[&list("list")])),
        "derivative" => (on_lists(Name::Derivative, &[&input("f")], &[]), lists_of(&[&list("list")])),
        "evaluation" => {
            (on_lists(Name::Evaluate, &[&input("f")], &[vector.input_number("t")]), value_of(vector.result_number("value")))
        }
        operation => panic!("{place}: no operation {operation}"),
    };
    compare_printed(tally, place, &call, printed);
}

/// Compares what the programs of examples/ print, in C and in Python, with the model's results on the same lists. The division is P4.
fn compare_examples(tally: &mut Tally) {
    let [f, g] = [[3, 5, 1], [4, 0, 7]].map(|list| model::multiply(&[1, 2], &list));
    let results = |call: &Call| compare::expected(call).results.iter().map(|r| album::words(r)).collect::<Vec<List>>();
    let gcd = results(&Call::fitting(Operation::Gcd, &f, &g));
    let division = results(&Call::fitting(Operation::Division, &[3, 4], &[2]));
    let line = |name: &str, words: &[u32]| words.iter().fold(name.to_string(), |line, word| format!("{line} {word}")) + "\n";
    let h = &gcd[0][..=gcd[1][0] as usize];
    let text = line("w c rounds", &gcd[1]) + &line("h", h) + &line("q", &division[0]);
    let printed = fs::read_to_string(EXAMPLES).unwrap_or_else(|error| format!("{EXAMPLES}: {error}"));
    if printed != text.repeat(2) {
        tally.fault("examples/run", &format!("it printed {printed:?}, and not twice {text:?}"));
    }
    println!("examples/run: what its two programs print compared with the model");
}

/// Where tests/host/run puts what examples/run prints.
const EXAMPLES: &str = "target/comparer/examples.txt";

/// A pipe that nothing reads any more.
fn closed_pipe() -> fs::File {
    let mut reader = Command::new("true").stdin(Stdio::piped()).spawn().expect("the program true");
    let pipe = reader.stdin.take().expect("its standard input");
    reader.wait().expect("the program true");
    fs::File::from(OwnedFd::from(pipe))
}

/// What the programs say when they are given arguments, and when their output cannot be written, and how much they read.
fn compare_messages(tally: &mut Tally) {
    let programs = [
        ("report", "report <FILE ", "samples/example.album", 32_834),
        ("bind", "bind <TEXT >FILE ", "samples/example.txt", 262_145),
        ("line", "line <", "samples/example.line", 33_091),
    ];
    for (name, usage, sample, most) in programs {
        for bytes in [0, 1, most - 1, most, most + 1, 2 * most] {
            let read = engine::bytes_read(name, bytes);
            if read != bytes.min(most) {
                tally.fault(&format!("{name} on {bytes} bytes"), &format!("it reads {read}"));
            }
        }
        for arguments in [&["--help"][..], &[sample], &["a", "b"]] {
            let [out, said] = engine::run_with(name, arguments);
            let said = String::from_utf8_lossy(&said);
            if !out.is_empty() || said.lines().count() != 3 || !said.starts_with(usage) {
                tally.fault(&format!("{name} {arguments:?}"), &format!("it says {said:?}, and not in three lines how it is run"));
            }
        }
        let full = fs::File::options().write(true).open("/dev/full").expect("the device /dev/full");
        for (what, out) in [("/dev/full", full), ("a closed pipe", closed_pipe())] {
            let said = engine::run_to(name, fs::File::open(sample).expect("a sample"), out);
            if said != format!("{name}: standard output cannot be written\n").into_bytes() {
                tally.fault(&format!("{name} >{what}"), &format!("it says {:?}", String::from_utf8_lossy(&said)));
            }
        }
    }
    println!("report, bind and line: what they say to arguments, and where their output cannot be written; how much they read");
}
