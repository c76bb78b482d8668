//! The vectors of vectors.txt, which says how they are written.

use crate::model::List;

/// A sum that a source document prints: its place there, the operation, its inputs and its results, each by its name.
pub struct Vector<'a> {
    pub place: &'a str,
    pub operation: &'a str,
    inputs: Vec<(&'a str, List)>,
    results: Vec<(&'a str, List)>,
}

impl Vector<'_> {
    /// Every input of this name.
    pub fn inputs(&self, name: &str) -> Vec<List> {
        self.inputs.iter().filter(|part| part.0 == name).map(|part| part.1.clone()).collect()
    }

    pub fn input(&self, name: &str) -> List {
        only(self.place, name, &self.inputs)
    }

    pub fn result(&self, name: &str) -> List {
        only(self.place, name, &self.results)
    }

    pub fn input_number(&self, name: &str) -> usize {
        number(self.place, &self.input(name))
    }

    pub fn result_number(&self, name: &str) -> usize {
        number(self.place, &self.result(name))
    }
}

fn only(place: &str, name: &str, parts: &[(&str, List)]) -> List {
    let named: Vec<&List> = parts.iter().filter(|part| part.0 == name).map(|part| &part.1).collect();
    assert_eq!(named.len(), 1, "{place}: one {name}");
    named[0].clone()
}

fn number(place: &str, list: &[u32]) -> usize {
    assert_eq!(list.len(), 1, "{place}: one number");
    list[0] as usize
}

pub fn parse(text: &str) -> Vec<Vector<'_>> {
    let lines: Vec<&str> = text.lines().filter(|line| !line.is_empty() && !line.starts_with('#')).collect();
    assert_eq!(lines.len() % 2, 0, "two lines to a vector");
    lines.chunks_exact(2).map(|pair| vector(pair[0], pair[1])).collect()
}

fn vector<'a>(place: &'a str, sum: &'a str) -> Vector<'a> {
    assert!(!place.starts_with(' ') && sum.starts_with(' '), "{place}: a place, then its sum, indented");
    let (operation, sum) = sum.trim().split_once(": ").unwrap_or_else(|| panic!("{place}: an operation"));
    let (inputs, results) = sum.split_once(" = ").unwrap_or_else(|| panic!("{place}: inputs and results"));
    Vector { place, operation, inputs: parts(inputs), results: parts(results) }
}

fn parts(text: &str) -> Vec<(&str, List)> {
    let part = |part| {
        let (name, numbers) = str::split_once(part, ' ').expect("a name and its numbers");
        (name, numbers.split(' ').map(|number| number.parse().expect("a number")).collect())
    };
    text.split(", ").map(part).collect()
}
