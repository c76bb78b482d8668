//! Polynomials over the field in the monomial basis, and the way there from Bernstein lists and back.

use crate::field::{P, add, inverse, mul, sub};
use std::sync::LazyLock;

/// Coefficient i belongs to the i-th power; the last one is not 0. The zero polynomial is empty.
pub type Poly = Vec<u32>;

pub fn trim(mut p: Poly) -> Poly {
    while p.last() == Some(&0) {
        p.pop();
    }
    p
}

fn coefficient(p: &[u32], i: usize) -> u32 {
    p.get(i).copied().unwrap_or(0)
}

pub fn plus(p: &[u32], q: &[u32]) -> Poly {
    trim((0..p.len().max(q.len())).map(|i| add(coefficient(p, i), coefficient(q, i))).collect())
}

pub fn minus(p: &[u32], q: &[u32]) -> Poly {
    trim((0..p.len().max(q.len())).map(|i| sub(coefficient(p, i), coefficient(q, i))).collect())
}

pub fn times(p: &[u32], q: &[u32]) -> Poly {
    let mut sums = vec![0; p.len() + q.len()];
    for (i, &a) in p.iter().enumerate() {
        add_multiple(&mut sums[i..], a, q);
    }
    reduced(&sums)
}

/// Adds a multiple of q. A product of two words is below 2^32, so sums of 64 bits hold billions of them before they are reduced.
fn add_multiple(sums: &mut [u64], factor: u32, q: &[u32]) {
    for (sum, &a) in sums.iter_mut().zip(q) {
        *sum += u64::from(factor * a);
    }
}

fn modulo_p(sum: u64) -> u32 {
    (sum % u64::from(P)) as u32
}

fn reduced(sums: &[u64]) -> Poly {
    trim(sums.iter().map(|&sum| modulo_p(sum)).collect())
}

pub fn scale(p: &[u32], factor: u32) -> Poly {
    trim(p.iter().map(|&a| mul(a, factor)).collect())
}

/// The multiple with leading coefficient 1; zero stays zero.
pub fn monic(p: &[u32]) -> Poly {
    p.last().map_or(vec![], |&leading| scale(p, inverse(leading)))
}

/// Quotient and remainder of ordinary division; q is not zero.
pub fn divide(p: &[u32], q: &[u32]) -> (Poly, Poly) {
    let factor = inverse(*q.last().expect("a divisor is not zero"));
    let mut rest: Vec<u64> = p.iter().map(|&a| u64::from(a)).collect();
    let mut quotient = vec![0; (p.len() + 1).saturating_sub(q.len())];
    for shift in (0..quotient.len()).rev() {
        let top = mul(modulo_p(rest[shift + q.len() - 1]), factor);
        quotient[shift] = top;
        add_multiple(&mut rest[shift..], sub(0, top), q);
    }
    (trim(quotient), reduced(&rest))
}

pub fn divides(p: &[u32], q: &[u32]) -> bool {
    if p.is_empty() { q.is_empty() } else { divide(q, p).1.is_empty() }
}

/// The monic greatest common divisor; zero if both are zero.
pub fn gcd(p: &[u32], q: &[u32]) -> Poly {
    let (mut p, mut q) = (p.to_vec(), q.to_vec());
    while !q.is_empty() {
        (p, q) = (q.clone(), divide(&p, &q).1);
    }
    monic(&p)
}

/// The first k coefficients of the power series p/q; q's first coefficient is not 0.
pub fn series_quotient(p: &[u32], q: &[u32], k: usize) -> Poly {
    let factor = inverse(q[0]);
    let mut result: Poly = vec![];
    for n in 0..k {
        let first = (n + 1).saturating_sub(q.len());
        let known = (first..n).map(|i| u64::from(result[i] * q[n - i])).sum();
        result.push(mul(sub(coefficient(p, n), modulo_p(known)), factor));
    }
    trim(result)
}

pub fn value(p: &[u32], t: u32) -> u32 {
    p.iter().rev().fold(0, |v, &a| add(mul(v, t), a))
}

pub fn derivative(p: &[u32]) -> Poly {
    trim(p.iter().enumerate().skip(1).map(|(i, &a)| mul(i as u32, a)).collect())
}

/// (1-t)^k
pub fn one_minus_t(k: usize) -> Poly {
    powers_of_one_minus_t()[k].clone()
}

/// The highest power of 1-t that is needed: the cofactors of two lists of 1,024 words have one of 2,045.
const HIGHEST_POWER: usize = 2_048;

/// C(n,k) in the field for all k, from Pascal's triangle. n stays below p, so none of them is 0 there.
fn binomials(n: usize) -> &'static [u32] {
    static TRIANGLE: LazyLock<Vec<Vec<u32>>> = LazyLock::new(|| {
        let mut rows = vec![vec![1]];
        for n in 1..=HIGHEST_POWER {
            let above: &Vec<u32> = &rows[n - 1];
            rows.push((0..=n).map(|k| add(coefficient(above, k), if k == 0 { 0 } else { above[k - 1] })).collect());
        }
        rows
    });
    &TRIANGLE[n]
}

/// Every (1-t)^k: the coefficient of t^i is C(k,i), with its sign.
fn powers_of_one_minus_t() -> &'static [Poly] {
    static POWERS: LazyLock<Vec<Poly>> = LazyLock::new(|| {
        let signed = |(i, &a): (usize, &u32)| if i % 2 == 0 { a } else { sub(0, a) };
        (0..=HIGHEST_POWER).map(|k| binomials(k).iter().enumerate().map(signed).collect()).collect()
    });
    &POWERS
}

/// P(t) of a list, by its definition, with each (1-t)^(n-k) multiplied out.
pub fn of_list(list: &[u32]) -> Poly {
    let n = list.len() - 1;
    let mut sums = vec![0; n + 1];
    for (k, s) in scaled_words(list).into_iter().enumerate().filter(|(_, s)| *s != 0) {
        add_multiple(&mut sums[k..], s, &powers_of_one_minus_t()[n - k]);
    }
    reduced(&sums)
}

/// The list of naive degree n that means p: with t = u/(1+u), (1+u)^n P(t) is the sum of p_j u^j (1+u)^(n-j), the scaled form.
pub fn to_list(p: &[u32], n: usize) -> Vec<u32> {
    let mut sums = vec![0; n + 1];
    for (j, &a) in p.iter().enumerate() {
        add_multiple(&mut sums[j..], a, binomials(n - j));
    }
    unscaled(&reduced(&sums), n)
}

fn scaled_words(list: &[u32]) -> Vec<u32> {
    let n = list.len() - 1;
    list.iter().zip(binomials(n)).map(|(&c, &b)| mul(c, b)).collect()
}

/// The scaled form S, a polynomial in u.
pub fn scaled_form(list: &[u32]) -> Poly {
    trim(scaled_words(list))
}

/// The list of naive degree n whose scaled form is s.
pub fn unscaled(s: &[u32], n: usize) -> Vec<u32> {
    assert!(s.len() <= n + 1, "a scaled form's degree is at most the naive degree");
    binomials(n).iter().enumerate().map(|(k, &b)| mul(coefficient(s, k), inverse(b))).collect()
}
