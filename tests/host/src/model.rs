//! The calls of document 01 and of the orders after it on lists of words, worked out in the monomial basis where the engine uses
//! scaled forms; for division in the usual sense and the degree in t both do, the engine by Horner's rule.

use crate::field::{self, P};
use crate::poly::{self, Poly};

pub type List = Vec<u32>;

pub const MAX_WORDS: usize = 1_024;

/// The lowest number whose condition holds, over all inputs.
pub fn refuse(rows: &[(u8, bool)]) -> Result<(), u8> {
    match rows.iter().filter(|row| row.1).map(|row| row.0).min() {
        Some(number) => Err(number),
        None => Ok(()),
    }
}

/// The first number of a stated order whose condition holds, over all inputs. Such an order goes before the lowest number.
pub fn refuse_in(order: &[u8], rows: &[(u8, bool)]) -> Result<(), u8> {
    match order.iter().find(|&&number| rows.contains(&(number, true))) {
        Some(&number) => Err(number),
        None => Ok(()),
    }
}

fn bad_length(list: &[u32]) -> bool {
    list.is_empty() || list.len() > MAX_WORDS
}

pub fn is_loose(list: &[u32]) -> bool {
    list.iter().any(|&word| word >= P)
}

pub fn is_zero(list: &[u32]) -> bool {
    list.iter().all(|&word| word == 0)
}

/// The largest k with c_k not 0; a zero list has none.
pub fn extent(list: &[u32]) -> Option<usize> {
    list.iter().rposition(|&word| word != 0)
}

/// The sum, difference or product of two coefficients.
pub fn coefficients(a: u32, b: u32, operation: fn(u32, u32) -> u32) -> Result<u32, u8> {
    refuse(&[(5, a >= P || b >= P)])?;
    Ok(operation(a, b))
}

pub fn inverse(a: u32) -> Result<u32, u8> {
    refuse(&[(5, a >= P), (9, a == 0)])?;
    Ok(field::inverse(a))
}

pub fn find_extent(f: &[u32]) -> Result<Option<usize>, u8> {
    refuse(&[(4, bad_length(f)), (5, is_loose(f))])?;
    Ok(extent(f))
}

/// How many words the search for the extent reads: the power plus 1, the power being the number of factors 1-t of P(t), or all of a
/// zero list.
pub fn searched(f: &[u32]) -> Result<usize, u8> {
    find_extent(f)?;
    Ok(if is_zero(f) { f.len() } else { without_factors(poly::of_list(f)).1 + 1 })
}

/// A polynomial that is not 0 without its factors 1-t, and their number. 1/(1-t) is 1 + t + t^2 + .., so the quotient's coefficients
/// are the sums of the first ones of p, and the sum of all is p(1), which is 0 where 1-t divides p.
fn without_factors(mut p: Poly) -> (Poly, usize) {
    let mut factors = 0;
    loop {
        let mut sum = 0;
        let mut sums: Poly = vec![];
        for &a in &p {
            sum = field::add(sum, a);
            sums.push(sum);
        }
        if sum != 0 {
            return (p, factors);
        }
        sums.pop();
        (p, factors) = (sums, factors + 1);
    }
}

pub fn product(f: &[u32], g: &[u32], out: usize) -> Result<List, u8> {
    let words = f.len() + g.len();
    refuse(&[
        (4, bad_length(f) || bad_length(g)),
        (5, is_loose(f) || is_loose(g)),
        (6, words > MAX_WORDS + 1),
        (10, out + 1 != words),
    ])?;
    Ok(multiply(f, g))
}

/// The product without its refusals.
pub fn multiply(f: &[u32], g: &[u32]) -> List {
    poly::to_list(&poly::times(&poly::of_list(f), &poly::of_list(g)), f.len() + g.len() - 2)
}

pub fn raise(f: &[u32], n: usize, out: usize) -> Result<List, u8> {
    let words = n.saturating_add(1);
    refuse(&[(4, bad_length(f)), (5, is_loose(f)), (6, words > MAX_WORDS), (7, words < f.len()), (10, out != words)])?;
    Ok(poly::to_list(&poly::of_list(f), n))
}

pub fn sum(f: &[u32], g: &[u32], out: usize) -> Result<List, u8> {
    combine(f, g, out, poly::plus)
}

pub fn difference(f: &[u32], g: &[u32], out: usize) -> Result<List, u8> {
    combine(f, g, out, poly::minus)
}

fn combine(f: &[u32], g: &[u32], out: usize, operation: fn(&[u32], &[u32]) -> Poly) -> Result<List, u8> {
    let words = f.len().max(g.len());
    refuse(&[(4, bad_length(f) || bad_length(g)), (5, is_loose(f) || is_loose(g)), (10, out != words)])?;
    Ok(poly::to_list(&operation(&poly::of_list(f), &poly::of_list(g)), words - 1))
}

/// The same scaled form at the naive degree of its extent: P(t) without its factors 1-t.
pub fn remove_top_zeros(f: &[u32], out: usize) -> Result<List, u8> {
    let words = extent(f).map_or(0, |x| x + 1);
    refuse(&[(4, bad_length(f)), (5, is_loose(f)), (9, words == 0), (10, out != words)])?;
    let (rest, remainder) = poly::divide(&poly::of_list(f), &poly::one_minus_t(f.len() - words));
    assert!(remainder.is_empty(), "a list has as many factors 1-t as its power says");
    Ok(poly::to_list(&rest, words - 1))
}

pub fn derivative(f: &[u32], out: usize) -> Result<List, u8> {
    let words = f.len().saturating_sub(1).max(1);
    refuse(&[(4, bad_length(f)), (5, is_loose(f)), (10, out != words)])?;
    Ok(poly::to_list(&poly::derivative(&poly::of_list(f)), words - 1))
}

pub fn evaluate(f: &[u32], t: u32) -> Result<u32, u8> {
    refuse(&[(4, bad_length(f)), (5, is_loose(f) || t >= P)])?;
    Ok(poly::value(&poly::of_list(f), t))
}

pub fn divide(g: &[u32], f: &[u32], q: usize, r: usize) -> Result<(List, List), u8> {
    refuse(&[
        (4, bad_length(g) || bad_length(f)),
        (5, is_loose(g) || is_loose(f)),
        (7, g.len() < f.len()),
        (8, f.last() == Some(&0)),
        (10, q + f.len() != g.len() + 1 || r + 1 != f.len()),
    ])?;
    Ok(quotient_and_remainder(g, f))
}

/// With s = 1-t, g = q f + s^k r and q of degree below k make q the first k terms of the power series g/f in s. A list read
/// backwards means the same polynomial in s.
fn quotient_and_remainder(g: &[u32], f: &[u32]) -> (List, List) {
    let k = g.len() - f.len() + 1;
    let (g_in_s, f_in_s) = (poly::of_list(&reversed(g)), poly::of_list(&reversed(f)));
    let q = poly::series_quotient(&g_in_s, &f_in_s, k);
    let rest = poly::minus(&g_in_s, &poly::times(&q, &f_in_s));
    assert!(rest.iter().take(k).all(|&a| a == 0), "s^k divides g - q f");
    let r = rest.get(k..).unwrap_or(&[]);
    let r = if f.len() == 1 { vec![] } else { reversed(&poly::to_list(r, f.len() - 2)) };
    (reversed(&poly::to_list(&q, k - 1)), r)
}

fn reversed(list: &[u32]) -> List {
    list.iter().rev().copied().collect()
}

/// What may be refused where a division in the usual sense is asked for, each with whether it applies; q and r are the lengths of
/// the slices.
pub fn ordinary_rows(g: &[u32], f: &[u32], q: usize, r: usize) -> [(u8, bool); 4] {
    [(4, bad_length(g) || bad_length(f)), (5, is_loose(g) || is_loose(f)), (9, is_zero(f)), (10, q != g.len() || r != g.len())]
}

/// g = q f + r where r is 0 or has a smaller degree in t than f; q and r at g's own naive degree.
pub fn divide_ordinary(g: &[u32], f: &[u32], q: usize, r: usize) -> Result<(List, List), u8> {
    refuse(&ordinary_rows(g, f, q, r))?;
    let (quotient, remainder) = poly::divide(&poly::of_list(g), &poly::of_list(f));
    Ok((poly::to_list(&quotient, g.len() - 1), poly::to_list(&remainder, g.len() - 1)))
}

/// The degree after all raising is undone; 0 too for a zero list and for one of more than 1,024 words.
pub fn degree_in_t(list: &[u32]) -> usize {
    if bad_length(list) { 0 } else { poly::of_list(list).len().saturating_sub(1) }
}

/// h has w+1 words.
#[derive(Clone, Debug, PartialEq)]
pub struct Gcd {
    pub h: List,
    pub c: usize,
    pub rounds: usize,
}

/// The GCD of two as a C host calls it, with a slice of three words for w, c and rounds.
pub fn host_gcd(f: &[u32], g: &[u32], h: usize, answer: usize) -> Result<Gcd, u8> {
    refuse(&[
        (4, bad_length(f) || bad_length(g)),
        (5, is_loose(f) || is_loose(g)),
        (9, is_zero(f) && is_zero(g)),
        (10, h != MAX_WORDS || answer != 3),
    ])?;
    Ok(gcd_of_some(&[f, g]))
}

pub fn gcd(f: &[u32], g: &[u32], h: usize) -> Result<Gcd, u8> {
    host_gcd(f, g, h, 3)
}

/// The GCD of lists that are not all zero. With two, the first stands as f even if it is zero; with an album's, zero lists have
/// to be left out.
pub fn gcd_of_some(lists: &[&[u32]]) -> Gcd {
    let (h, c) = common_part(lists);
    let (mut so_far, mut rounds) = (poly::scaled_form(lists[0]), 0);
    for later in &lists[1..] {
        let (x, n) = euclid(&so_far, &poly::scaled_form(later));
        (so_far, rounds) = (x, rounds + n);
    }
    assert_eq!(poly::monic(&so_far), poly::scaled_form(&h), "h by the monomial basis is h by the scaled forms");
    Gcd { h, c, rounds }
}

/// h and c by the monic GCD of the P(t). c counts its factors 1-t. A naive degree above the degree in t stands for factors at
/// infinity, which h keeps, so w exceeds the degree in t of h by the fewest of them in a nonzero list.
fn common_part(lists: &[&[u32]]) -> (List, usize) {
    let mut common = vec![];
    let mut at_infinity = usize::MAX;
    for list in lists.iter().filter(|list| !is_zero(list)) {
        let p = poly::of_list(list);
        at_infinity = at_infinity.min(list.len() - p.len());
        common = poly::gcd(&common, &p);
    }
    let (common, c) = without_factors(common);
    let ending_in_1 = poly::scale(&common, field::inverse(poly::value(&common, 1)));
    (poly::to_list(&ending_in_1, common.len() - 1 + at_infinity), c)
}

/// The last x and the number of rounds, by document 01's definition.
fn euclid(f: &Poly, g: &Poly) -> (Poly, usize) {
    let (mut x, mut y, mut rounds) = (g.clone(), f.clone(), 0);
    while !y.is_empty() {
        (x, y) = (y.clone(), poly::divide(&x, &y).1);
        rounds += 1;
    }
    (x, rounds)
}

/// The GCD's answer with a and b. On scaled forms A·F + B·G = H; B is fixed by its degree, modulo F/H.
pub fn cofactors(f: &[u32], g: &[u32], h: usize, a: usize, b: usize) -> Result<(Gcd, List, List), u8> {
    let m = cofactor_degree(f, g);
    refuse(&[
        (4, bad_length(f) || bad_length(g)),
        (5, is_loose(f) || is_loose(g)),
        (9, is_zero(f) && is_zero(g)),
        (10, h != MAX_WORDS || a + f.len() != m + 2 || b + g.len() != m + 2),
    ])?;
    let gcd = gcd_of_some(&[f, g]);
    let (scaled_f, scaled_g, scaled_h) = (poly::scaled_form(f), poly::scaled_form(g), poly::scaled_form(&gcd.h));
    let (scaled_a, scaled_b) = if scaled_f.is_empty() {
        (vec![], poly::divide(&scaled_h, &scaled_g).0)
    } else {
        let modulus = poly::divide(&scaled_f, &scaled_h).0;
        let scaled_b = poly::divide(&coefficient_of_g(&scaled_f, &scaled_g), &modulus).1;
        let rest = poly::minus(&scaled_h, &poly::times(&scaled_b, &scaled_g));
        (poly::divide(&rest, &scaled_f).0, scaled_b)
    };
    Ok((gcd, poly::unscaled(&scaled_a, a - 1), poly::unscaled(&scaled_b, b - 1)))
}

/// Some B with A·F + B·G = the monic GCD of F and G, by the extended Euclid's algorithm; F is not zero.
fn coefficient_of_g(f: &Poly, g: &Poly) -> Poly {
    let (mut x, mut y) = (f.clone(), g.clone());
    let (mut x_part, mut y_part): (Poly, Poly) = (vec![], vec![1]);
    while !y.is_empty() {
        let (quotient, remainder) = poly::divide(&x, &y);
        let part = poly::minus(&x_part, &poly::times(&quotient, &y_part));
        (x, y, x_part, y_part) = (y, remainder, y_part, part);
    }
    poly::scale(&x_part, field::inverse(*x.last().expect("F is not zero")))
}

/// m, the naive degree of a·f and of b·g.
pub fn cofactor_degree(f: &[u32], g: &[u32]) -> usize {
    f.len().max(2) + g.len().max(2) - 3
}
