//! The text that the program `report` writes.

use crate::model::{self, Gcd};
use crate::{album, poly};

pub fn text(input: &[u8]) -> String {
    let lists = match album::read(input) {
        Ok(lists) => lists,
        Err(number) => return refused(number),
    };
    let mut text = format!("lists {}\n", lists.len());
    for (i, list) in lists.iter().enumerate() {
        let n = list.len() - 1;
        text += &match model::extent(list) {
            Some(extent) => format!("{i} {n} {extent} {}\n", n - extent),
            None => format!("{i} {n} - -\n"),
        };
    }
    text += &match album::gcd(&lists) {
        Ok(gcd) => {
            let words: Vec<String> = gcd.h.iter().map(u32::to_string).collect();
            format!("gcd {} {}\n{}\n", degree_in_t(&gcd), gcd.c, words.join(" "))
        }
        Err(number) => refused(number),
    };
    text
}

/// The degree in t of G = (1-t)^c·h: G is multiplied out in powers of t.
pub fn degree_in_t(gcd: &Gcd) -> usize {
    poly::times(&poly::one_minus_t(gcd.c), &poly::of_list(&gcd.h)).len() - 1
}

fn refused(number: u8) -> String {
    format!("refused {number}\n")
}
