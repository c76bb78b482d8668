//! Slices lent to the engine.

/// Words or bytes with a margin on both sides, to see whether something is written there; an odd one, so that the words of a C
/// host's bytes lie at odd addresses too.
pub struct Lent<T>(Vec<T>);

const MARGIN: usize = 7;

/// The bytes of a margin are all this one.
const FILL: u8 = 0xA5;

pub trait Element: Copy + PartialEq {
    const FILL: Self;
}

impl Element for u8 {
    const FILL: u8 = FILL;
}

impl Element for u16 {
    const FILL: u16 = u16::from_ne_bytes([FILL; 2]);
}

impl Element for usize {
    const FILL: usize = usize::from_ne_bytes([FILL; size_of::<usize>()]);
}

impl<T: Element> Lent<T> {
    pub fn new(part: &[T]) -> Lent<T> {
        let margin = [T::FILL; MARGIN];
        Lent([&margin, part, &margin].concat())
    }

    pub fn part(&mut self) -> &mut [T] {
        let end = self.0.len() - MARGIN;
        &mut self.0[MARGIN..end]
    }

    pub fn is_stray(&self) -> bool {
        let margins = self.0[..MARGIN].iter().chain(&self.0[self.0.len() - MARGIN..]);
        margins.into_iter().any(|&element| element != T::FILL)
    }
}
