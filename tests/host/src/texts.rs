//! Texts for the program `bind`: edges, and texts drawn with a fixed seed.

use crate::album::MAX_LISTS;
use crate::bind::MAX_TEXT;
use crate::model::MAX_WORDS;
use crate::random::Random;

/// Texts with the number that each gives, 0 for an album.
pub fn edges() -> Vec<(Vec<u8>, u8)> {
    let mut edges: Vec<(Vec<u8>, u8)> = SMALL.iter().map(|(text, number)| (text.as_bytes().to_vec(), *number)).collect();
    edges.extend([(b"1 \xFF\n".to_vec(), 2), (b"1\x00\n".to_vec(), 2), (b"1\n\xE2\x80\x83\n".to_vec(), 2)]);
    edges.extend(many_words());
    edges.extend(many_lines());
    edges.extend(long_texts());
    edges
}

const SMALL: [(&str, u8); 62] = [
    ("", 1),
    ("\n", 4),
    (" ", 4),
    ("   \n", 4),
    ("\n\n", 4),
    // line ends and spaces
    ("0 1\n0 0 1\n", 0),
    ("0 1\n0 0 1", 0),
    ("  0   1  \n 0 0 1 ", 0),
    ("5", 0),
    ("5 ", 0),
    (" 5\n", 0),
    ("5\n\n", 4),
    ("5\n ", 4),
    ("\n5", 4),
    ("5\n\n5\n", 4),
    // bytes that no text has
    ("0\t1\n", 2),
    ("0 1\r\n", 2),
    ("0 1\r", 2),
    ("-1\n", 2),
    ("- 1\n", 2),
    ("+1\n", 2),
    ("1,2\n", 2),
    ("1.0\n", 2),
    ("1e3\n", 2),
    ("0x1F\n", 2),
    ("1_000\n", 2),
    ("1/2\n", 2),
    ("1:2\n", 2),
    ("1!\n", 2),
    ("1\u{b}2\n", 2),
    ("\u{feff}1\n", 2),
    ("\u{661}\n", 2),
    // numbers at the edges of the field, of 16, 32 and 64 bits, and larger
    ("65520\n", 0),
    ("65521\n", 5),
    ("65529\n", 5),
    ("65535\n", 5),
    ("65536\n", 5),
    ("65537\n", 5),
    ("70000\n", 5),
    ("99999\n", 5),
    ("100000\n", 5),
    ("131073\n", 5),
    ("655360\n", 5),
    ("4294967296\n", 5),
    ("4294967297\n", 5),
    ("18446744073709551616\n", 5),
    ("18446744073709551617\n", 5),
    ("99999999999999999999\n", 5),
    ("340282366920938463463374607431768211457\n", 5),
    ("1 65521", 5),
    ("65521 1", 5),
    ("1\n2 3 65535 4\n", 5),
    // zeros in front
    ("0000\n", 0),
    ("00000000000000000007\n", 0),
    ("00000000000000000000000065520 1", 0),
    ("00000000000000000000000065521 1", 5),
    // several numbers apply: the lowest is given
    ("x\n\n", 2),
    ("\n-65521\n", 2),
    ("65521 x", 2),
    ("\n65521\n", 4),
    ("65521\n \n", 4),
    ("99999999999999999999\n\n1\n", 4),
];

/// Lines of 1,024 words and of more.
fn many_words() -> Vec<(Vec<u8>, u8)> {
    let of = |words: usize, word: &str| vec![word; words].join(" ").into_bytes();
    vec![
        (of(256, "1"), 0),
        (of(257, "1"), 0),
        (of(MAX_WORDS, "1"), 0),
        (of(MAX_WORDS, "65520"), 0),
        (of(MAX_WORDS + 1, "1"), 4),
        (of(2 * MAX_WORDS, "1"), 4),
        (of(2 * MAX_WORDS + 1, "1"), 4),
        (of(MAX_TEXT / 2, "1"), 4),
        (of(MAX_WORDS, "65521"), 5),
        (of(MAX_WORDS + 1, "65521"), 4),
        ([of(MAX_WORDS + 1, "1"), b"x".to_vec()].concat(), 2),
        ([of(MAX_WORDS, "1"), b"\n".to_vec(), of(MAX_WORDS + 1, "1")].concat(), 4),
        ([of(MAX_WORDS, "65520"), b"\n".to_vec()].concat().repeat(MAX_LISTS), 0),
    ]
}

/// 16 lines and more.
fn many_lines() -> Vec<(Vec<u8>, u8)> {
    let of = |lines: usize, line: &str| line.repeat(lines).into_bytes();
    let without_last_end = |text: Vec<u8>| text[..text.len() - 1].to_vec();
    vec![
        (of(MAX_LISTS, "1 2\n"), 0),
        (without_last_end(of(MAX_LISTS, "1 2\n")), 0),
        (of(MAX_LISTS + 1, "1 2\n"), 1),
        (without_last_end(of(MAX_LISTS + 1, "1 2\n")), 1),
        ([of(MAX_LISTS, "1\n"), b" ".to_vec()].concat(), 1),
        (of(MAX_LISTS, "\n"), 4),
        (of(MAX_LISTS + 1, "\n"), 1),
        (of(MAX_LISTS + 1, "x\n"), 1),
        (of(MAX_LISTS + 1, "65521\n"), 1),
        (of(257, "1\n"), 1),
        (of(300, "x65521\n\n"), 1),
    ]
}

/// Texts of 262,144 bytes and of more, of which the program reads 262,145.
fn long_texts() -> Vec<(Vec<u8>, u8)> {
    let padded = |text: &str, with: u8, bytes: usize| {
        let mut text = text.as_bytes().to_vec();
        text.resize(bytes, with);
        text
    };
    let zeros_before = |bytes: usize| [vec![b'0'; bytes - 1], vec![b'7']].concat();
    let sixteen = "1\n".repeat(15) + "1";
    let then = |mut text: Vec<u8>, more: &str| {
        text.extend(more.repeat(2_000).bytes());
        text
    };
    vec![
        (padded("7 8", b' ', MAX_TEXT), 0),
        (padded("7 8", b' ', MAX_TEXT + 1), 2),
        (padded("7 8", b' ', 300_000), 2),
        (zeros_before(MAX_TEXT), 0),
        (zeros_before(MAX_TEXT + 1), 2),
        (padded("7", b'7', MAX_TEXT), 5),
        (padded("7", b'7', MAX_TEXT + 1), 2),
        (padded("7\n", b' ', MAX_TEXT), 4),
        (padded("7\n", b' ', MAX_TEXT + 1), 2),
        (padded("x", b' ', MAX_TEXT), 2),
        (padded("7", b'\n', 300_000), 1),
        (padded(&sixteen, b' ', MAX_TEXT), 0),
        (padded(&sixteen, b' ', MAX_TEXT + 1), 2),
        // lines that begin in the bytes that are read, and behind them
        (then(padded(&sixteen, b' ', MAX_TEXT - 1), "\n1"), 1),
        (then(padded(&sixteen, b' ', MAX_TEXT), "\n1"), 2),
        (then(padded(&sixteen, b' ', MAX_TEXT + 1), "\n1"), 2),
    ]
}

/// A text: about half are sound.
pub fn text(random: &mut Random) -> Vec<u8> {
    let mut lines: Vec<String> = random.lists_to_write().iter().map(|list| line(random, list)).collect();
    let damages = if random.percent(50) { 0 } else { 1 + random.below(2) };
    let mut others = 0;
    for _ in 0..damages {
        match random.below(5) {
            0 => others += 1,
            _ => damage(random, &mut lines),
        }
    }
    let mut text = lines.join("\n").into_bytes();
    if random.percent(70) {
        text.push(b'\n');
    }
    for _ in 0..others {
        let at = random.below(text.len() + 1);
        text.insert(at, other(random));
    }
    if random.percent(2) {
        let length = [MAX_TEXT, MAX_TEXT + 1, MAX_TEXT + random.below(10_000)][random.below(3)];
        text.resize(length, b' ');
    }
    text
}

/// The line of a list, with more spaces and zeros than are needed here and there.
fn line(random: &mut Random, list: &[u32]) -> String {
    let mut line = String::new();
    for (k, word) in list.iter().enumerate() {
        let least = usize::from(k > 0);
        line += &" ".repeat(if random.percent(5) { least + random.below(4) } else { least });
        if random.percent(3) {
            line += &"0".repeat(random.below(25));
        }
        line += &word.to_string();
    }
    line + &" ".repeat(if random.percent(10) { random.below(4) } else { 0 })
}

fn damage(random: &mut Random, lines: &mut Vec<String>) {
    if lines.is_empty() {
        return;
    }
    let which = random.below(lines.len());
    match random.below(6) {
        0 => lines.truncate([0, which][random.below(2)]),
        1 => {
            let more = MAX_LISTS + 1 + random.below(5);
            lines.resize(more, "1 2".into());
        }
        2 => lines[which] = " ".repeat(random.below(3)),
        3 => lines[which] += &" 1".repeat(MAX_WORDS - random.below(2)),
        _ => lines[which] += &format!(" {}", too_large(random)),
    }
}

/// A number of 65,521 or more; some leave a small one modulo a power of 2.
fn too_large(random: &mut Random) -> String {
    let small = random.below(65_521) as u128;
    let number = match random.below(5) {
        0 | 1 => u128::from(random.loose()),
        2 => small + (1 << 16),
        3 => small + (1 << [17, 31, 32, 63, 64, 100][random.below(6)]),
        _ => 65_521 + small * small * small * small,
    };
    number.to_string()
}

/// A byte that no text has.
fn other(random: &mut Random) -> u8 {
    let others: Vec<u8> = (0..=255).filter(|byte| !b"0123456789 \n".contains(byte)).collect();
    let likely = b"/:-+.,\t\r";
    if random.percent(50) { likely[random.below(likely.len())] } else { others[random.below(others.len())] }
}
