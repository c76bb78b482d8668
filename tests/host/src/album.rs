//! Albums: the layout judged, read and written, and the GCD of an album.

use crate::model::{self, Gcd, List, MAX_WORDS};

pub const MAX_BYTES: usize = 32_833;
pub const MAX_LISTS: usize = 16;

/// Of an entry: a naive degree and a place, two bytes each.
pub const ENTRY_BYTES: usize = 4;

pub fn word(low: u8, high: u8) -> u32 {
    u32::from(low) + 256 * u32::from(high)
}

pub fn words(bytes: &[u8]) -> List {
    bytes.chunks_exact(2).map(|pair| word(pair[0], pair[1])).collect()
}

pub fn bytes(words: &[u32]) -> Vec<u8> {
    words.iter().flat_map(|&w| (w as u16).to_le_bytes()).collect()
}

/// How the two bytes of a naive degree are read; none where they are refused.
pub type ReadDegree = fn(u8, u8) -> Option<usize>;

fn degree(low: u8, high: u8) -> Option<usize> {
    Some(word(low, high) as usize).filter(|&n| n < MAX_WORDS)
}

/// The lists, or the number of the refusal: 1 for the count, 2 for the rest of the layout.
fn laid_out(album: &[u8], degree: ReadDegree) -> Result<Vec<List>, u8> {
    let count = album.first().map_or(0, |&n| usize::from(n));
    if count == 0 || count > MAX_LISTS {
        return Err(1);
    }
    let mut end = 1 + ENTRY_BYTES * count;
    let mut lists = vec![];
    for entry in album.get(1..end).ok_or(2)?.chunks_exact(ENTRY_BYTES) {
        let n = degree(entry[0], entry[1]).ok_or(2)?;
        if word(entry[2], entry[3]) as usize != end {
            return Err(2);
        }
        let body = end..end + 2 * (n + 1);
        end = body.end;
        lists.push(words(album.get(body).ok_or(2)?));
    }
    model::refuse(&[(2, album.len() != end)])?;
    Ok(lists)
}

pub fn any_loose(lists: &[List]) -> bool {
    lists.iter().any(|list| model::is_loose(list))
}

/// The lists, where the album obeys its layout; loose words are not looked for.
pub fn lists(album: &[u8]) -> Result<Vec<List>, u8> {
    laid_out(album, degree)
}

/// The lists; 5 for a loose word in any of them.
pub fn read(album: &[u8]) -> Result<Vec<List>, u8> {
    let lists = lists(album)?;
    model::refuse(&[(5, any_loose(&lists))])?;
    Ok(lists)
}

/// List i, by the album checked with i.
pub fn check(album: &[u8], i: usize) -> Result<List, u8> {
    check_with(album, i, degree)
}

/// The same by a reader of naive degrees that may be a wrong one.
pub fn check_with(album: &[u8], i: usize, degree: ReadDegree) -> Result<List, u8> {
    let mut lists = laid_out(album, degree)?;
    model::refuse(&[(3, i >= lists.len()), (5, any_loose(&lists))])?;
    Ok(lists.swap_remove(i))
}

/// The bytes of list i.
pub fn body(album: &[u8], i: usize) -> Result<Vec<u8>, u8> {
    check(album, i).map(|list| bytes(&list))
}

pub fn read_list(album: &[u8], i: usize, out: usize) -> Result<List, u8> {
    let list = check(album, i)?;
    model::refuse(&[(10, out != MAX_WORDS)])?;
    Ok(list)
}

/// The records of an album's lists, zeros after the last: of each its offset and its naive degree.
pub fn contents(album: &[u8], out: usize) -> Result<List, u8> {
    let lists = read(album)?;
    model::refuse(&[(10, out != MAX_LISTS)])?;
    let mut offset = 1 + ENTRY_BYTES * lists.len();
    let mut records = vec![];
    for list in &lists {
        records.extend([offset as u32, list.len() as u32 - 1]);
        offset += 2 * list.len();
    }
    records.resize(2 * MAX_LISTS, 0);
    Ok(records)
}

pub fn gcd_of_album(album: &[u8], h: usize) -> Result<Gcd, u8> {
    let gcd = gcd(&read(album)?)?;
    model::refuse(&[(10, h != MAX_WORDS)])?;
    Ok(gcd)
}

/// The album of 1 to 16 lists; those that are too long for one stand in it as any other.
pub fn written(lists: &[List]) -> Vec<u8> {
    let mut album = vec![lists.len() as u8];
    let mut offset = 1 + ENTRY_BYTES * lists.len();
    for list in lists {
        album.extend(bytes(&[list.len() as u32 - 1, offset as u32]));
        offset += 2 * list.len();
    }
    album.extend(lists.iter().flat_map(|list| bytes(list)));
    album
}

/// What may be refused where an album is written, each with whether it applies; `out` is the length of the target.
pub fn write_rows(words: &[u32], degrees: &[u16], out: usize) -> [(u8, bool); 5] {
    let named: usize = degrees.iter().map(|&n| usize::from(n) + 1).sum();
    [
        (1, degrees.is_empty() || degrees.len() > MAX_LISTS),
        (2, degrees.iter().any(|&n| usize::from(n) >= MAX_WORDS)),
        (4, named != words.len()),
        (5, model::is_loose(words)),
        (10, out < MAX_BYTES),
    ]
}

/// The album of the lists that the degrees cut from the words.
pub fn write(words: &[u32], degrees: &[u16], out: usize) -> Result<Vec<u8>, u8> {
    model::refuse(&write_rows(words, degrees, out))?;
    Ok(written(&cut(words, degrees)))
}

pub fn cut(words: &[u32], degrees: &[u16]) -> Vec<List> {
    let mut rest = words.iter().copied();
    degrees.iter().map(|&n| rest.by_ref().take(usize::from(n) + 1).collect()).collect()
}

/// The GCD of the lists of an album; 9 if all are zero.
pub fn gcd(lists: &[List]) -> Result<Gcd, u8> {
    let nonzero: Vec<&[u32]> = lists.iter().map(|list| &list[..]).filter(|list| !model::is_zero(list)).collect();
    model::refuse(&[(9, nonzero.is_empty())])?;
    Ok(model::gcd_of_some(&nonzero))
}
