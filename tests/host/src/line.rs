//! The value of a line of algebra over an album, of order 6. A line is read by splitting it at its weakest operator outside
//! parentheses, and each part again; the engine goes through it once from the left.

use crate::album;
use crate::model::{self, List, MAX_WORDS};

pub const MAX_LINE: usize = 256;

/// The most parentheses that may be open together.
pub const MAX_OPEN: usize = 32;

#[derive(Clone, Copy, Debug, PartialEq)]
enum Token {
    Number(usize),
    /// An operator or a parenthesis.
    Sign(u8),
}

const SIGNS: &[u8] = b"+-*D()";

/// What a line, or a part of one, says; an operand is the number of a list.
#[derive(Clone, Debug, PartialEq)]
pub enum Reading {
    Operand(usize),
    Derivative(Box<Reading>),
    Both(Box<Reading>, u8, Box<Reading>),
}

/// Which of the operators of a level splits a part: the last, the first, or one that stands in front.
pub enum Place {
    Last,
    First,
    Front,
}

/// Operators that are equally strong.
pub struct Level {
    pub operators: &'static [u8],
    pub place: Place,
}

/// How a line is read and judged; wrong ways can be tried. The levels begin with the weakest operators, and the order of the
/// refusals with the number that goes before all others.
pub struct Rules {
    pub levels: &'static [Level],
    pub most_bytes: usize,
    pub most_open: usize,
    pub order: [u8; 8],
}

pub const SUMS: Level = Level { operators: b"+-", place: Place::Last };
pub const PRODUCTS: Level = Level { operators: b"*", place: Place::Last };
pub const DERIVATIVES: Level = Level { operators: b"D", place: Place::Front };

/// Order 6's rules. Split at the last of equal operators, they group from the left.
pub const RULES: Rules = Rules {
    levels: &[SUMS, PRODUCTS, DERIVATIVES],
    most_bytes: MAX_LINE,
    most_open: MAX_OPEN,
    order: [1, 2, 12, 13, 3, 5, 10, 6],
};

/// The digits of each number together, every other byte alone.
fn pieces(line: &[u8]) -> impl Iterator<Item = &[u8]> {
    line.chunk_by(|byte, next| byte.is_ascii_digit() && next.is_ascii_digit())
}

fn number(piece: &[u8]) -> Option<usize> {
    std::str::from_utf8(piece).ok()?.parse().ok().filter(|_| piece.len() <= 2)
}

fn token(piece: &[u8]) -> Option<Token> {
    match piece {
        [sign] if SIGNS.contains(sign) => Some(Token::Sign(*sign)),
        _ => number(piece).map(Token::Number),
    }
}

/// The tokens of a line, if it has no other pieces than those and spaces.
fn tokens(line: &[u8]) -> Option<Vec<Token>> {
    pieces(line).filter(|piece| *piece != b" ").map(token).collect()
}

/// Every number of one or two digits in a line, whether it has a reading or not.
fn operands(line: &[u8]) -> impl Iterator<Item = usize> {
    pieces(line).filter(|piece| piece[0].is_ascii_digit()).filter_map(number)
}

/// The most parentheses that are open together, whether the line has a reading or not.
fn most_open(line: &[u8]) -> usize {
    let (mut open, mut most) = (0_i32, 0);
    for byte in line {
        open += i32::from(*byte == b'(') - i32::from(*byte == b')');
        most = most.max(open);
    }
    most as usize
}

/// The operators of a part that stand outside its parentheses, each with its place.
fn outside(part: &[Token]) -> Vec<(usize, u8)> {
    let (mut open, mut operators) = (0_i32, vec![]);
    for (at, token) in part.iter().enumerate() {
        match token {
            Token::Sign(b'(') => open += 1,
            Token::Sign(b')') => open -= 1,
            Token::Sign(operator) if open == 0 => operators.push((at, *operator)),
            _ => {}
        }
    }
    operators
}

impl Level {
    /// The operator at which a part is split, with its place.
    fn split(&self, part: &[Token]) -> Option<(usize, u8)> {
        let mut operators = outside(part).into_iter().filter(|(_, operator)| self.operators.contains(operator));
        match self.place {
            Place::Last => operators.next_back(),
            Place::First => operators.next(),
            Place::Front => operators.next().filter(|(at, _)| *at == 0),
        }
    }
}

impl Rules {
    /// The only reading of a line, if it has one.
    pub fn reading(&self, line: &[u8]) -> Option<Reading> {
        if line.len() > self.most_bytes { None } else { self.part(&tokens(line)?) }
    }

    fn part(&self, part: &[Token]) -> Option<Reading> {
        let Some((at, operator)) = self.levels.iter().find_map(|level| level.split(part)) else { return self.whole(part) };
        let right = Box::new(self.part(&part[at + 1..])?);
        match operator {
            b'D' => Some(Reading::Derivative(right)),
            _ => Some(Reading::Both(Box::new(self.part(&part[..at])?), operator, right)),
        }
    }

    /// The reading of a part that has no operator outside parentheses to be split at.
    fn whole(&self, part: &[Token]) -> Option<Reading> {
        match part {
            [Token::Number(i)] => Some(Reading::Operand(*i)),
            [Token::Sign(b'('), inside @ .., Token::Sign(b')')] => self.part(inside),
            _ => None,
        }
    }
}

impl Reading {
    /// How many words the result has, by the lengths alone; 6 where a product would have too many.
    fn words(&self, lists: &[List]) -> Result<usize, u8> {
        match self {
            Reading::Operand(i) => Ok(lists[*i].len()),
            Reading::Derivative(f) => Ok(f.words(lists)?.max(2) - 1),
            Reading::Both(f, operator, g) => match (f.words(lists)?, operator, g.words(lists)?) {
                (f, b'*', g) if f + g > MAX_WORDS + 1 => Err(6),
                (f, b'*', g) => Ok(f + g - 1),
                (f, _, g) => Ok(f.max(g)),
            },
        }
    }

    /// The result, the leftmost operand first.
    fn value(&self, lists: &[List]) -> Result<List, u8> {
        let words = self.words(lists)?;
        match self {
            Reading::Operand(i) => Ok(lists[*i].clone()),
            Reading::Derivative(f) => model::derivative(&f.value(lists)?, words),
            Reading::Both(f, operator, g) => {
                let (f, g) = (f.value(lists)?, g.value(lists)?);
                match operator {
                    b'*' => model::product(&f, &g, words),
                    b'+' => model::sum(&f, &g, words),
                    _ => model::difference(&f, &g, words),
                }
            }
        }
    }
}

/// What may be refused, each with whether it applies; `out` is the length of the slice. 6 needs a list for each operand.
pub fn rows(rules: &Rules, album: &[u8], line: &[u8], out: usize) -> [(u8, bool); 8] {
    let (lists, reading) = (album::lists(album), rules.reading(line));
    let laid_out = lists.as_deref().unwrap_or(&[]);
    let lacking = operands(line).any(|i| i >= laid_out.len());
    let over = |reading: &Reading| reading.words(laid_out).is_err();
    [
        (1, lists == Err(1)),
        (2, lists == Err(2)),
        (12, reading.is_none()),
        (13, most_open(line) > rules.most_open),
        (3, lists.is_ok() && lacking),
        (5, album::any_loose(laid_out)),
        (10, out != MAX_WORDS),
        (6, !lacking && reading.as_ref().is_some_and(over)),
    ]
}

pub fn value(album: &[u8], line: &[u8], out: usize) -> Result<List, u8> {
    value_by(&RULES, album, line, out)
}

/// The same by rules that may be wrong.
pub fn value_by(rules: &Rules, album: &[u8], line: &[u8], out: usize) -> Result<List, u8> {
    model::refuse_in(&rules.order, &rows(rules, album, line, out))?;
    rules.reading(line).ok_or(12)?.value(&album::lists(album)?)
}
