//! Lines of algebra: results by hand, edges, and lines drawn with a fixed seed, sound and damaged.

use crate::line::{MAX_LINE, MAX_OPEN, Reading};
use crate::random::Random;

/// The lists over which the lines of `edges` are judged, and those of `VALUES` worked out.
pub const LISTS: [&[u32]; 4] = [&[1, 2], &[3, 4], &[0, 1, 4], &[5, 6]];

/// Lines with their results, by document 01's formulas.
pub const VALUES: [(&str, &[u32]); 29] = [
    ("(0+1)*D 2-3", &[3, 32_773, 30]),
    ("((0+1))*(D(2))-3", &[3, 32_773, 30]),
    ("(0+1)*D(2-3)", &[4, 13, 30]),
    ("0", &[1, 2]),
    ("03-00", &[4, 4]),
    ("0+0", &[2, 4]),
    ("0-0", &[0, 0]),
    ("2*2", &[0, 0, 21_841, 4, 16]),
    // D before a factor
    ("D 0*1", &[3, 4]),
    ("D(0)*1", &[3, 4]),
    ("D(0*1)", &[4, 6]),
    ("0*D 1", &[1, 2]),
    ("D 2-3", &[65_518, 0]),
    ("D(2-3)", &[1, 5]),
    ("D 0+D 1", &[2]),
    ("D D 2", &[4]),
    ("DD2", &[4]),
    ("DDD 2", &[0]),
    ("DDDD2", &[0]),
    ("D 0+2", &[1, 2, 5]),
    ("2-D 0", &[65_520, 0, 3]),
    // * before + and -
    ("0+1*2", &[1, 43_684, 43_689, 18]),
    ("(0+1)*2", &[0, 21_843, 43_690, 24]),
    ("0*1-2*3", &[3, 1, 43_676, 65_505]),
    // equal operators group from the left
    ("0-1-2", &[65_519, 65_518, 65_515]),
    ("0-(1-2)", &[65_519, 65_520, 2]),
    ("0-1+2", &[65_519, 65_520, 2]),
    ("0-(1+2)", &[65_519, 65_518, 65_515]),
    ("0*1*2", &[0, 32_762, 43_686, 14, 32]),
];

/// Lines with the number that each gives over the album of `LISTS`, 0 for a result.
pub fn edges() -> Vec<(Vec<u8>, u8)> {
    let mut edges: Vec<(Vec<u8>, u8)> = SMALL.iter().map(|(line, number)| (line.as_bytes().to_vec(), *number)).collect();
    edges.extend([(b"0\xFF".to_vec(), 12), (b"\xA00".to_vec(), 12), (b"0+\xB2".to_vec(), 12)]);
    edges.extend(long_lines());
    edges.extend(nested_lines());
    edges
}

const SMALL: [(&str, u8); 113] = [
    // spaces and numbers
    ("0", 0),
    ("  0  ", 0),
    ("3", 0),
    ("03", 0),
    ("00", 0),
    (" ( 0 + 01 ) * D 2 - 3 ", 0),
    ("", 12),
    (" ", 12),
    ("      ", 12),
    ("000", 12),
    ("003", 12),
    ("0001", 12),
    ("1 2", 12),
    ("0 0", 12),
    ("0 3", 12),
    ("1  2", 12),
    ("0+1 2", 12),
    ("01 2", 12),
    ("0 1+2", 12),
    // what the album lacks
    ("4", 3),
    ("04", 3),
    ("10", 3),
    ("16", 3),
    ("99", 3),
    ("0+4", 3),
    ("4+0", 3),
    ("D 4", 3),
    ("((4))", 3),
    ("0*1*2*3*4", 3),
    ("9-8-7", 3),
    ("99+", 12),
    ("(99", 12),
    ("9 9", 12),
    ("999", 12),
    // operators
    ("2-1+1", 0),
    ("0-D D 1*2", 0),
    ("DDDDDD 0", 0),
    ("-1", 12),
    ("+1", 12),
    ("- 1", 12),
    ("*1", 12),
    ("0-", 12),
    ("0+", 12),
    ("0*", 12),
    ("D", 12),
    ("DD", 12),
    ("D D ", 12),
    ("0D", 12),
    ("0D1", 12),
    ("0 D 1", 12),
    ("D-0", 12),
    ("D+0", 12),
    ("D*0", 12),
    ("0+-1", 12),
    ("0--1", 12),
    ("0-+1", 12),
    ("0**1", 12),
    ("0*-1", 12),
    ("0+*1", 12),
    ("+", 12),
    ("-", 12),
    ("*", 12),
    // parentheses
    ("(0)", 0),
    ("((0)+(1))", 0),
    ("D((0))*(1)", 0),
    ("(0+1)*(2-3)", 0),
    ("D(D(0))", 0),
    ("(", 12),
    (")", 12),
    ("()", 12),
    ("( )", 12),
    ("(0", 12),
    ("0)", 12),
    ("(0))", 12),
    ("((0)", 12),
    (")0(", 12),
    ("0)+(1", 12),
    ("(0)(1)", 12),
    ("(0+1)(2+3)", 12),
    ("0(1)", 12),
    ("(0)1", 12),
    ("(0)D 1", 12),
    ("D()", 12),
    ("(D)0", 12),
    ("(0+)1", 12),
    ("0(+1)", 12),
    ("(+0)", 12),
    ("(-1)", 12),
    ("[0]", 12),
    ("{0}", 12),
    // bytes that no line has
    ("0\t", 12),
    ("\t0", 12),
    ("0\t+1", 12),
    ("0\n", 12),
    ("\n0", 12),
    ("0\n+1", 12),
    ("0\r", 12),
    ("0\u{0}", 12),
    ("\u{0}", 12),
    ("d 0", 12),
    ("0/1", 12),
    ("0^2", 12),
    ("0.1", 12),
    ("0,1", 12),
    ("0:1", 12),
    ("0;", 12),
    ("0=0", 12),
    ("0x1", 12),
    ("0 \u{2212} 1", 12),
    ("0\u{a0}+1", 12),
    ("\u{ff10}", 12),
    ("\u{661}", 12),
    ("0\u{d7}1", 12),
];

/// Lines of 256 bytes and of more.
fn long_lines() -> Vec<(Vec<u8>, u8)> {
    let padded = |line: &str, bytes: usize| format!("{line:bytes$}").into_bytes();
    let after_spaces = |line: &str, bytes: usize| format!("{line:>bytes$}").into_bytes();
    let derivatives = |count: usize, rest: &str| ("D".repeat(count) + rest).into_bytes();
    let sum = |operands: usize| vec!["0"; operands].join("+").into_bytes();
    vec![
        (padded("0", MAX_LINE), 0),
        (padded("0", MAX_LINE + 1), 12),
        (padded("0", 300), 12),
        (padded("0", 60_000), 12),
        (after_spaces("0", MAX_LINE), 0),
        (after_spaces("0", MAX_LINE + 1), 12),
        (after_spaces("0+", MAX_LINE), 12),
        (after_spaces("4", MAX_LINE), 3),
        (after_spaces("4", MAX_LINE + 1), 12),
        (padded("", MAX_LINE), 12),
        (padded("", MAX_LINE + 1), 12),
        (derivatives(255, "0"), 0),
        (derivatives(254, "03"), 0),
        (derivatives(256, "0"), 12),
        (derivatives(256, ""), 12),
        (sum(128), 0),
        (sum(129), 12),
        ([sum(128), b"+".to_vec()].concat(), 12),
        ([b"D".to_vec(), sum(128)].concat(), 0),
        (b"0".repeat(MAX_LINE), 12),
        (b"0*".repeat(MAX_LINE / 2), 12),
    ]
}

/// A line in so many parentheses.
fn nested(depth: usize, inside: &str) -> String {
    "(".repeat(depth) + inside + &")".repeat(depth)
}

/// Lines with 32 parentheses open together, and with more.
fn nested_lines() -> Vec<(Vec<u8>, u8)> {
    let (most, many) = (nested(MAX_OPEN, "0"), nested(MAX_OPEN + 1, "0"));
    let bytes = MAX_LINE + 1;
    let rows = [
        (most.clone(), 0),
        (many.clone(), 13),
        (nested(MAX_OPEN, "D 0*1-2"), 0),
        (nested(MAX_OPEN + 1, "D 0*1-2"), 13),
        // one after the other, and one in the other
        (format!("{most}+{most}*{most}"), 0),
        (format!("{most}-{many}"), 13),
        (format!("{many}-0"), 13),
        (nested(MAX_OPEN - 1, "(0)+(1)"), 0),
        (nested(MAX_OPEN - 1, "(0)+((1))"), 13),
        (vec!["(0)"; 40].join("+"), 0),
        // D is no parenthesis
        ("(D".repeat(MAX_OPEN) + "0" + &")".repeat(MAX_OPEN), 0),
        ("(D".repeat(MAX_OPEN + 1) + "0" + &")".repeat(MAX_OPEN + 1), 13),
        (nested(127, "0"), 13),
        (nested(127, "03"), 13),
        (nested(128, ""), 12),
        // outside the grammar as well
        ("(".repeat(MAX_OPEN + 1), 12),
        ("(".repeat(MAX_OPEN + 1) + "0", 12),
        (many.clone() + ")", 12),
        (many.clone() + "+", 12),
        (nested(MAX_OPEN + 1, ""), 12),
        (nested(MAX_OPEN + 1, "0 1"), 12),
        ("(".repeat(MAX_LINE), 12),
        ("(".repeat(MAX_LINE + 1), 12),
        (")".repeat(MAX_LINE), 12),
        (format!("{many:bytes$}"), 12),
        (nested(128, "0"), 12),
        (")".repeat(MAX_OPEN + 1) + "0" + &"(".repeat(MAX_OPEN + 1), 12),
        // a list that the album lacks
        (nested(MAX_OPEN, "4"), 3),
        (nested(MAX_OPEN + 1, "4"), 13),
    ];
    rows.map(|(line, number)| (line.into_bytes(), number)).to_vec()
}

/// A reading over the lists numbered below `count`, mostly of few operands.
pub fn reading(random: &mut Random, count: usize) -> Reading {
    let operands = match random.below(20) {
        0 => 1,
        1..=14 => 1 + random.below(6),
        15..=18 => 1 + random.below(16),
        _ => 1 + random.below(40),
    };
    of_operands(random, operands, count)
}

fn of_operands(random: &mut Random, operands: usize, count: usize) -> Reading {
    if random.percent(20) {
        return Reading::Derivative(Box::new(of_operands(random, operands, count)));
    }
    if operands == 1 {
        return Reading::Operand(random.below(count));
    }
    let left = 1 + random.below(operands - 1);
    let operator = b"+-*"[random.below(3)];
    let [left, right] = [left, operands - left].map(|operands| Box::new(of_operands(random, operands, count)));
    Reading::Both(left, operator, right)
}

/// How a line is written: the chance of parentheses that are not needed, of very many of them, and of spaces, out of a hundred.
struct Style {
    more: usize,
    many: usize,
    spaces: usize,
}

/// A line that says this reading.
pub fn line(random: &mut Random, reading: &Reading) -> Vec<u8> {
    let mut one_of = |chances: [usize; 3]| chances[random.below(3)];
    let style = Style { more: one_of([0, 5, 30]), many: one_of([0, 0, 3]), spaces: one_of([0, 10, 60]) };
    let mut tokens = vec![];
    write(random, &style, reading, 0, &mut tokens);
    let mut line = spaces(random, &style);
    for token in tokens {
        line.extend(token.bytes());
        line.extend(spaces(random, &style));
    }
    if random.percent(8) {
        fill(random, &mut line);
    }
    line
}

fn spaces(random: &mut Random, style: &Style) -> Vec<u8> {
    let some = random.percent(style.spaces);
    vec![b' '; if some { 1 + random.below(2) * random.below(3) } else { 0 }]
}

/// Fills a line up to the most bytes, or to one more, with spaces before it and after it.
fn fill(random: &mut Random, line: &mut Vec<u8>) {
    let missing = (MAX_LINE + random.below(2)).saturating_sub(line.len());
    let before = [0, missing, random.below(missing + 1)][random.below(3)];
    line.splice(0..0, vec![b' '; before]);
    line.extend(vec![b' '; missing - before]);
}

/// Which of the grammar's words a reading is: 0 for an expression, 1 for a term, 2 for a factor.
fn strength(reading: &Reading) -> usize {
    match reading {
        Reading::Both(_, b'*', _) => 1,
        Reading::Both(..) => 0,
        _ => 2,
    }
}

/// Adds the tokens of a reading where the grammar wants at least this strength.
fn write(random: &mut Random, style: &Style, reading: &Reading, wanted: usize, tokens: &mut Vec<String>) {
    let needed = usize::from(strength(reading) < wanted);
    let more = usize::from(random.percent(style.more)) + usize::from(random.percent(style.many)) * (MAX_OPEN - random.below(4));
    tokens.extend(vec!["(".into(); needed + more]);
    match reading {
        Reading::Operand(i) if random.percent(20) => tokens.push(format!("{i:02}")),
        Reading::Operand(i) => tokens.push(i.to_string()),
        Reading::Derivative(f) => {
            tokens.push("D".into());
            write(random, style, f, 2, tokens);
        }
        Reading::Both(f, operator, g) => {
            let strength = strength(reading);
            write(random, style, f, strength, tokens);
            tokens.push(char::from(*operator).to_string());
            write(random, style, g, strength + 1, tokens);
        }
    }
    tokens.extend(vec![")".into(); needed + more]);
}

/// Changes a line a little, seldom all of it; what comes out may be a line still.
pub fn damage(random: &mut Random, line: &mut Vec<u8>) {
    let (at, before) = (random.below(line.len().max(1)), random.below(line.len() + 1));
    let byte = likely(random);
    match random.below(13) {
        0 => *line = (0..random.below(MAX_LINE + 3)).map(|_| likely(random)).collect(),
        1 => line.truncate(at),
        2 => drop(line.drain(..at)),
        3 | 4 => line.insert(before, byte),
        5 => line.insert(before, b' '),
        6 => part_digits(random, line),
        7 => change_space(random, line),
        _ if line.is_empty() => line.push(byte),
        8 | 9 => line[at] = byte,
        10 => line.insert(at, line[at]),
        11 => drop(line.remove(at)),
        _ => line.swap(at, at / 2),
    }
}

/// A byte, mostly one that a line may have, or one near those.
fn likely(random: &mut Random) -> u8 {
    let bytes = if random.percent(75) { &b"0123456789+-*D() "[..] } else { b"/,.^d:;'[]{}\t\n\r\0" };
    if random.percent(5) { random.below(256) as u8 } else { bytes[random.below(bytes.len())] }
}

/// Puts a space between two digits, where there are such.
fn part_digits(random: &mut Random, line: &mut Vec<u8>) {
    let between = |at: &usize| line[at - 1].is_ascii_digit() && line[*at].is_ascii_digit();
    if let Some(at) = any(random, (1..line.len()).filter(between).collect()) {
        line.insert(at, b' ');
    }
}

/// Makes a space a tab or a line end, where there is one.
fn change_space(random: &mut Random, line: &mut [u8]) {
    if let Some(at) = any(random, (0..line.len()).filter(|&at| line[at] == b' ').collect()) {
        line[at] = b"\t\n\r"[random.below(3)];
    }
}

fn any(random: &mut Random, places: Vec<usize>) -> Option<usize> {
    if places.is_empty() { None } else { Some(places[random.below(places.len())]) }
}
