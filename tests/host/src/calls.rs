//! Every public call of the engine, by the functions that crates/test_calls exports (tests/calls.h).

use crate::lent::Lent;

#[derive(Clone, Copy, Debug, PartialEq)]
pub enum Name {
    FieldSum,
    FieldDifference,
    FieldProduct,
    Inverse,
    Product,
    Raise,
    Sum,
    Difference,
    FindExtent,
    Searched,
    Trim,
    Derivative,
    Evaluate,
    Divide,
    DivideOrdinary,
    Gcd,
    Cofactors,
    Check,
    Body,
    ReadList,
    Contents,
    GcdOfAlbum,
    WriteAlbum,
    LineValue,
}

/// Each call with the numbers that document 01's table and the orders after it can give it, 0 for completed. 11 is not among them:
/// every word that is not 0 has an inverse. The search for the extent is there twice: for the extent, and for the words it read.
pub const CALLS: [(Name, &[u8]); 24] = [
    (Name::FieldSum, &[0, 5]),
    (Name::FieldDifference, &[0, 5]),
    (Name::FieldProduct, &[0, 5]),
    (Name::Inverse, &[0, 5, 9]),
    (Name::Product, &[0, 4, 5, 6, 10]),
    (Name::Raise, &[0, 4, 5, 6, 7, 10]),
    (Name::Sum, &[0, 4, 5, 10]),
    (Name::Difference, &[0, 4, 5, 10]),
    (Name::FindExtent, &[0, 4, 5]),
    (Name::Searched, &[0, 4, 5]),
    (Name::Trim, &[0, 4, 5, 9, 10]),
    (Name::Derivative, &[0, 4, 5, 10]),
    (Name::Evaluate, &[0, 4, 5]),
    (Name::Divide, &[0, 4, 5, 7, 8, 10]),
    (Name::DivideOrdinary, &[0, 4, 5, 9, 10]),
    (Name::Gcd, &[0, 4, 5, 9, 10]),
    (Name::Cofactors, &[0, 4, 5, 9, 10]),
    (Name::Check, &[0, 1, 2, 3, 5]),
    (Name::Body, &[0, 1, 2, 3, 5]),
    (Name::ReadList, &[0, 1, 2, 3, 5, 10]),
    (Name::Contents, &[0, 1, 2, 5, 10]),
    (Name::GcdOfAlbum, &[0, 1, 2, 5, 9, 10]),
    (Name::WriteAlbum, &[0, 1, 2, 4, 5, 10]),
    (Name::LineValue, &[0, 1, 2, 3, 5, 6, 10, 12, 13]),
];

/// What is handed over, before a call and after it. `part` is where the bytes of a body or of a written album go, `answer` the
/// values. An album is written from one list, the words of all its lists, and from their naive degrees. A line is one of algebra.
#[derive(Clone, Debug, Default, PartialEq)]
pub struct Memory {
    pub lists: Vec<Vec<u16>>,
    pub degrees: Vec<u16>,
    pub album: Vec<u8>,
    pub line: Vec<u8>,
    pub results: Vec<Vec<u16>>,
    pub part: Vec<u8>,
    pub answer: Vec<usize>,
}

/// One call. The numbers are the operands, the degree of a raise, the point or the list's index.
#[derive(Clone, Debug)]
pub struct PublicCall {
    pub name: Name,
    pub numbers: Vec<usize>,
    pub memory: Memory,
}

/// What is there after a call. `returned` is the refusal's number, or of a body the number of its bytes; `stray` says that
/// something beside a slice was changed.
#[derive(Clone, Debug, PartialEq)]
pub struct Answer {
    pub returned: usize,
    pub memory: Memory,
    pub stray: bool,
}

/// A record of the contents: two words of a result.
#[repr(C)]
struct Entry {
    offset: u16,
    degree: u16,
}

type List = *const u16;
type Slice = *mut u16;
type Bytes = *const u8;
type Values = *mut usize;

#[link(name = "test_calls", kind = "static")]
unsafe extern "C" {
    fn test_field_sum(a: u16, b: u16, answer: Values, answer_len: usize) -> u8;
    fn test_field_difference(a: u16, b: u16, answer: Values, answer_len: usize) -> u8;
    fn test_field_product(a: u16, b: u16, answer: Values, answer_len: usize) -> u8;
    fn test_inverse(a: u16, answer: Values, answer_len: usize) -> u8;
    fn test_product(f: List, f_len: usize, g: List, g_len: usize, out: Slice, out_len: usize) -> u8;
    fn test_raise(f: List, f_len: usize, to: usize, out: Slice, out_len: usize) -> u8;
    fn test_sum(f: List, f_len: usize, g: List, g_len: usize, out: Slice, out_len: usize) -> u8;
    fn test_difference(f: List, f_len: usize, g: List, g_len: usize, out: Slice, out_len: usize) -> u8;
    fn test_find_extent(f: List, f_len: usize, answer: Values, answer_len: usize) -> u8;
    fn test_searched(f: List, f_len: usize, answer: Values, answer_len: usize) -> u8;
    fn test_trim(f: List, f_len: usize, out: Slice, out_len: usize) -> u8;
    fn test_derivative(f: List, f_len: usize, out: Slice, out_len: usize) -> u8;
    fn test_evaluate(f: List, f_len: usize, x: u16, answer: Values, answer_len: usize) -> u8;
    fn test_divide(g: List, g_len: usize, f: List, f_len: usize, q: Slice, q_len: usize, r: Slice, r_len: usize) -> u8;
    fn test_divide_ordinary(g: List, g_len: usize, f: List, f_len: usize, q: Slice, q_len: usize, r: Slice, r_len: usize) -> u8;
    fn test_degree_in_t(list: List, list_len: usize) -> usize;
    fn test_gcd(f: List, f_len: usize, g: List, g_len: usize, h: Slice, h_len: usize, answer: Values, answer_len: usize) -> u8;
    fn test_cofactors(
        f: List,
        f_len: usize,
        g: List,
        g_len: usize,
        h: Slice,
        h_len: usize,
        a: Slice,
        a_len: usize,
        b: Slice,
        b_len: usize,
        answer: Values,
        answer_len: usize,
    ) -> u8;
    fn test_check(album: Bytes, album_len: usize, i: usize) -> u8;
    fn test_body(album: Bytes, album_len: usize, i: usize, out: *mut u8, out_len: usize) -> usize;
    fn test_read_list(
        album: Bytes,
        album_len: usize,
        i: usize,
        out: Slice,
        out_len: usize,
        answer: Values,
        answer_len: usize,
    ) -> u8;
    fn test_contents(album: Bytes, album_len: usize, out: *mut Entry, out_len: usize) -> u8;
    fn test_gcd_of_album(album: Bytes, album_len: usize, h: Slice, h_len: usize, answer: Values, answer_len: usize) -> u8;
    fn test_write_album(
        words: List,
        words_len: usize,
        degrees: *const u16,
        degrees_len: usize,
        out: *mut u8,
        out_len: usize,
        answer: Values,
        answer_len: usize,
    ) -> u8;
    fn test_line_value(
        album: Bytes,
        album_len: usize,
        line: Bytes,
        line_len: usize,
        out: Slice,
        out_len: usize,
        answer: Values,
        answer_len: usize,
    ) -> u8;
}

/// The slices of a call, each with its margins.
struct Slices {
    lists: Vec<Lent<u16>>,
    degrees: Lent<u16>,
    album: Lent<u8>,
    line: Lent<u8>,
    results: Vec<Lent<u16>>,
    part: Lent<u8>,
    answer: Lent<usize>,
}

impl Slices {
    fn new(memory: &Memory) -> Slices {
        let lent = |lists: &[Vec<u16>]| lists.iter().map(|list| Lent::new(list)).collect();
        Slices {
            lists: lent(&memory.lists),
            degrees: Lent::new(&memory.degrees),
            album: Lent::new(&memory.album),
            line: Lent::new(&memory.line),
            results: lent(&memory.results),
            part: Lent::new(&memory.part),
            answer: Lent::new(&memory.answer),
        }
    }

    fn is_stray(&self) -> bool {
        let words = self.lists.iter().chain(&self.results).chain([&self.degrees]).any(Lent::is_stray);
        let bytes = [&self.album, &self.line, &self.part].into_iter().any(Lent::is_stray);
        words || bytes || self.answer.is_stray()
    }

    fn memory(&mut self) -> Memory {
        let words = |lists: &mut [Lent<u16>]| lists.iter_mut().map(|list| list.part().to_vec()).collect();
        Memory {
            lists: words(&mut self.lists),
            degrees: self.degrees.part().to_vec(),
            album: self.album.part().to_vec(),
            line: self.line.part().to_vec(),
            results: words(&mut self.results),
            part: self.part.part().to_vec(),
            answer: self.answer.part().to_vec(),
        }
    }
}

/// Runs a call on copies of its slices.
pub fn run(call: &PublicCall) -> Answer {
    let mut slices = Slices::new(&call.memory);
    let returned = call_engine(call, &mut slices);
    Answer { returned, stray: slices.is_stray(), memory: slices.memory() }
}

/// What the engine takes for the degree in t of a list; nothing if it changes the list or what lies beside it.
pub fn degree_in_t(list: &[u16]) -> Option<usize> {
    let mut lent = Lent::new(list);
    let part = lent.part();
    // SAFETY: the pointer goes with the length of a slice that is borrowed until the call returns.
    let degree = unsafe { test_degree_in_t(part.as_ptr(), part.len()) };
    (lent.part() == list && !lent.is_stray()).then_some(degree)
}

fn call_engine(call: &PublicCall, slices: &mut Slices) -> usize {
    let word = |k: usize| call.numbers[k] as u16;
    let number = |k: usize| call.numbers[k];
    let lists: Vec<(List, usize)> = slices.lists.iter_mut().map(|list| (list.part().as_ptr(), list.part().len())).collect();
    let list = |k: usize| lists[k];
    let results: Vec<(Slice, usize)> =
        slices.results.iter_mut().map(|result| (result.part().as_mut_ptr(), result.part().len())).collect();
    let result = |k: usize| results[k];
    let (degrees, line, part) = (slices.degrees.part(), slices.line.part(), slices.part.part());
    let (s, n) = (slices.album.part().as_ptr(), slices.album.part().len());
    let (values, room) = (slices.answer.part().as_mut_ptr(), slices.answer.part().len());
    // SAFETY: each pointer goes with the length of a slice that is borrowed until the call returns, and no two overlap.
    let refusal = unsafe {
        match call.name {
            Name::FieldSum => test_field_sum(word(0), word(1), values, room),
            Name::FieldDifference => test_field_difference(word(0), word(1), values, room),
            Name::FieldProduct => test_field_product(word(0), word(1), values, room),
            Name::Inverse => test_inverse(word(0), values, room),
            Name::Product | Name::Sum | Name::Difference => {
                let function = match call.name {
                    Name::Product => test_product,
                    Name::Sum => test_sum,
                    _ => test_difference,
                };
                let ((f, d), (g, e), (out, length)) = (list(0), list(1), result(0));
                function(f, d, g, e, out, length)
            }
            Name::Raise => test_raise(list(0).0, list(0).1, number(0), result(0).0, result(0).1),
            Name::FindExtent => test_find_extent(list(0).0, list(0).1, values, room),
            Name::Searched => test_searched(list(0).0, list(0).1, values, room),
            Name::Trim => test_trim(list(0).0, list(0).1, result(0).0, result(0).1),
            Name::Derivative => test_derivative(list(0).0, list(0).1, result(0).0, result(0).1),
            Name::Evaluate => test_evaluate(list(0).0, list(0).1, word(0), values, room),
            Name::Divide | Name::DivideOrdinary => {
                let function = if call.name == Name::Divide { test_divide } else { test_divide_ordinary };
                let ((g, e), (f, d), (q, q_len), (r, r_len)) = (list(0), list(1), result(0), result(1));
                function(g, e, f, d, q, q_len, r, r_len)
            }
            Name::Gcd => {
                let ((f, d), (g, e), (h, h_len)) = (list(0), list(1), result(0));
                test_gcd(f, d, g, e, h, h_len, values, room)
            }
            Name::Cofactors => {
                let ((f, d), (g, e), (h, h_len), (a, a_len), (b, b_len)) = (list(0), list(1), result(0), result(1), result(2));
                test_cofactors(f, d, g, e, h, h_len, a, a_len, b, b_len, values, room)
            }
            Name::Check => test_check(s, n, number(0)),
            Name::Body => return test_body(s, n, number(0), part.as_mut_ptr(), part.len()),
            Name::ReadList => test_read_list(s, n, number(0), result(0).0, result(0).1, values, room),
            Name::Contents => test_contents(s, n, result(0).0.cast(), result(0).1 * size_of::<u16>() / size_of::<Entry>()),
            Name::GcdOfAlbum => test_gcd_of_album(s, n, result(0).0, result(0).1, values, room),
            Name::WriteAlbum => {
                let (words, count) = list(0);
                test_write_album(words, count, degrees.as_ptr(), degrees.len(), part.as_mut_ptr(), part.len(), values, room)
            }
            Name::LineValue => {
                let (out, length) = result(0);
                test_line_value(s, n, line.as_ptr(), line.len(), out, length, values, room)
            }
        }
    };
    usize::from(refusal)
}
