//! Inputs drawn with a fixed seed: lists, calls for a C host, public calls, and albums, valid and damaged.

use crate::album::{self, ENTRY_BYTES, bytes};
use crate::calls::{Memory, Name, PublicCall};
use crate::engine::{Call, Operation};
use crate::field::P;
use crate::model::{List, MAX_WORDS, multiply};
use crate::poly::{self, Poly};
use crate::{lines, public};

/// The generator splitmix64.
pub struct Random(pub u64);

impl Random {
    fn next(&mut self) -> u64 {
        self.0 = self.0.wrapping_add(0x9E37_79B9_7F4A_7C15);
        let z = (self.0 ^ (self.0 >> 30)).wrapping_mul(0xBF58_476D_1CE4_E5B9);
        let z = (z ^ (z >> 27)).wrapping_mul(0x94D0_49BB_1331_11EB);
        z ^ (z >> 31)
    }

    pub fn below(&mut self, n: usize) -> usize {
        (self.next() % n as u64) as usize
    }

    pub fn percent(&mut self, n: usize) -> bool {
        self.below(100) < n
    }

    pub fn word(&mut self) -> u32 {
        self.below(P as usize) as u32
    }

    pub fn nonzero(&mut self) -> u32 {
        1 + self.below(P as usize - 1) as u32
    }

    pub fn loose(&mut self) -> u32 {
        P + self.below(15) as u32
    }

    /// A number of words from 1 to 1,024, mostly small, and about 256 more often: above it the engine's product takes other buffers.
    fn length(&mut self) -> usize {
        match self.below(40) {
            0..=23 => 1 + self.below(8),
            24..=33 => 1 + self.below(40),
            34 => 1 + self.below(300),
            35 => 254 + self.below(5),
            36..=38 => 1 + self.below(MAX_WORDS),
            _ => MAX_WORDS - self.below(2),
        }
    }

    /// A list of 1 to 1,024 words, mostly few.
    fn any_list(&mut self) -> List {
        let length = self.length();
        self.list(length)
    }

    /// A list of at most this many words.
    fn list_up_to(&mut self, longest: usize) -> List {
        let length = 1 + self.below(longest);
        self.list(length)
    }

    pub fn list(&mut self, length: usize) -> List {
        let mut list: List = (0..length).map(|_| self.word()).collect();
        match self.below(12) {
            0 => list.fill(0),
            1 => list.iter_mut().for_each(|word| *word %= 3),
            2 => list.iter_mut().for_each(|word| *word = [0, 1, P - 2, P - 1][*word as usize % 4]),
            // factors t, factors 1-t, and a constant at a higher naive degree
            3 => list[..self.below(length)].fill(0),
            4 | 5 => list[self.below(length)..].fill(0),
            6 => list.fill(self.nonzero()),
            _ => {}
        }
        list
    }

    /// The most words of a factor, mostly few; a product of three such has at most 1,018.
    fn size(&mut self) -> usize {
        match self.below(100) {
            0..=84 => 5,
            85..=97 => 80,
            _ => 340,
        }
    }

    /// Lists with a common factor, some with powers of 1-t.
    fn planted(&mut self, count: usize) -> Vec<List> {
        let size = self.size();
        let factor = self.list_up_to(size);
        let mut list = || {
            let power = self.below(2) * self.below(size);
            let one_minus_t = poly::to_list(&poly::one_minus_t(power), power);
            multiply(&multiply(&factor, &self.list_up_to(size)), &one_minus_t)
        };
        (0..count).map(|_| list()).collect()
    }

    /// Two lists whose Euclid's quotients have chosen degrees, and so few or many rounds; at most 1,004 words each.
    fn chained(&mut self) -> [List; 2] {
        let (mut x, mut y) = (self.list_up_to(4), vec![]);
        x.push(self.nonzero());
        let rounds = if self.percent(95) { 20 } else { 100 };
        for _ in 0..self.below(rounds) {
            let mut quotient: List = (0..1 + self.below(10)).map(|_| self.word()).collect();
            quotient.push(self.nonzero());
            (x, y) = (poly::plus(&poly::times(&quotient, &x), &y), x);
        }
        [x, y].map(|s| poly::unscaled(&s, s.len().max(1) - 1 + self.below(10)))
    }

    pub fn pair(&mut self) -> [List; 2] {
        let mut pair = match self.below(10) {
            0..=3 => [(); 2].map(|()| self.any_list()),
            4..=6 => self.planted(2).try_into().expect("two lists"),
            7 | 8 => self.chained(),
            _ => {
                let list = self.list_up_to(30);
                [multiply(&list, &[self.nonzero()]), list]
            }
        };
        if self.percent(50) {
            pair.reverse();
        }
        pair
    }

    /// A polynomial of this degree in t, often with factors 1-t.
    fn of_degree(&mut self, degree: usize) -> Poly {
        let power = if self.percent(30) { self.below(degree + 1) } else { 0 };
        let mut rest: Poly = (0..degree - power).map(|_| self.word()).collect();
        rest.push(self.nonzero());
        poly::times(&poly::one_minus_t(power), &rest)
    }

    /// A list of so many words whose degree in t is often smaller than its naive degree, down to a raised constant's.
    pub fn raised_list(&mut self, length: usize) -> List {
        let degree = match self.below(8) {
            0 => 0,
            1..=3 => self.below(length.min(6)),
            4 | 5 => self.below(length),
            _ => length - 1,
        };
        poly::to_list(&self.of_degree(degree), length - 1)
    }

    /// The lists of an album that share a factor, often a constant; most lists are raised, and a few are zero. Where all that are
    /// not zero are raised, so is h.
    pub fn raised_lists(&mut self) -> Vec<List> {
        let size = self.size();
        let count = 1 + self.below(4);
        let degree = if self.percent(25) { 0 } else { self.below(size) };
        let factor = self.of_degree(degree);
        let mut list = || {
            let degree = self.below(size);
            let p = poly::times(&factor, &self.of_degree(degree));
            let raised = poly::to_list(&p, p.len() - 1 + self.below(size));
            if self.percent(5) { vec![0; raised.len()] } else { raised }
        };
        (0..count).map(|_| list()).collect()
    }

    /// A dividend made from a divisor, a quotient and in one case of two a remainder, and that divisor; each at some naive degree.
    fn divisible(&mut self) -> [List; 2] {
        let [d, e] = [(); 2].map(|()| (self.length() - 1) / 2);
        let (f, quotient) = (self.of_degree(d), self.of_degree(e));
        let below = self.below(d.max(1));
        let rest = if d == 0 || self.percent(50) { vec![] } else { self.of_degree(below) };
        let g = poly::plus(&poly::times(&quotient, &f), &rest);
        [g, f].map(|p| {
            let more = [0, self.below(6), self.below(MAX_WORDS)][self.below(3)];
            poly::to_list(&p, (p.len() - 1 + more).min(MAX_WORDS - 1))
        })
    }

    /// Two lists of these lengths, their degrees in t drawn apart.
    pub fn raised_pair(&mut self, lengths: [usize; 2]) -> [List; 2] {
        lengths.map(|length| self.raised_list(length))
    }

    /// A dividend and a divisor for a division in the usual sense; either may be zero, and either the longer one.
    fn ordinary_pair(&mut self) -> [List; 2] {
        let mut pair = match self.below(10) {
            0..=2 => self.pair(),
            3..=6 => {
                let lengths = [self.length(), self.length()];
                self.raised_pair(lengths)
            }
            _ => self.divisible(),
        };
        for list in &mut pair {
            if self.percent(10) {
                list.fill(0);
            }
        }
        pair
    }

    /// A call that nothing is wrong with but what the lists themselves bring.
    fn fair_call(&mut self, operation: Operation) -> Call {
        let pair = self.fair_pair(operation);
        Call::fitting(operation, &pair[0], &pair[1])
    }

    fn fair_pair(&mut self, operation: Operation) -> [List; 2] {
        let mut pair = self.pair();
        match operation {
            Operation::Product if self.percent(10) => {
                // a result of 255 to 258 words, or naive degrees that reach 1,023 together or just pass it
                let words = if self.percent(50) { 255 + self.below(4) } else { MAX_WORDS + self.below(2) };
                let length = 1 + self.below(words.min(MAX_WORDS));
                pair = [length, (words + 1 - length).min(MAX_WORDS)].map(|length| self.list(length));
            }
            Operation::Division => {
                if pair[0].len() < pair[1].len() && self.percent(85) {
                    pair.reverse();
                }
                if let (Some(last @ 0), true) = (pair[1].last_mut(), self.percent(70)) {
                    *last = self.nonzero();
                }
            }
            Operation::Gcd if self.percent(8) => pair.iter_mut().for_each(|list| list.fill(0)),
            _ => {}
        }
        pair
    }

    pub fn call(&mut self, operation: Operation) -> Call {
        let mut call = self.fair_call(operation);
        let damages = if self.percent(60) { 0 } else { 1 + self.below(2) };
        for _ in 0..damages {
            if self.percent(65) {
                let which = self.below(2);
                self.damage_list(&mut call.lists[which]);
            } else {
                let which = self.below(call.results.len());
                self.damage_length(&mut call.results[which]);
            }
        }
        call.results.iter_mut().flatten().for_each(|byte| *byte = self.below(256) as u8);
        call
    }

    fn damage_list(&mut self, list: &mut Vec<u8>) {
        match self.below(10) {
            0 => list.clear(),
            1 => self.damage_length(list),
            // longer than 1,024 words
            2 => {
                let words = MAX_WORDS + 1 + self.below(40);
                *list = bytes(&self.list(words));
            }
            _ if list.len() < 2 => list.push(0),
            _ => {
                let at = 2 * self.below(list.len() / 2);
                list[at..at + 2].copy_from_slice(&bytes(&[self.loose()]));
            }
        }
    }

    fn damage_length<T: Clone + Default>(&mut self, part: &mut Vec<T>) {
        let length = match self.below(6) {
            0 => part.len() + 1,
            1 => part.len().saturating_sub(1),
            2 => part.len() + 2,
            3 => part.len().saturating_sub(2),
            4 => 0,
            _ => self.below(2_400),
        };
        part.resize(length, T::default());
    }

    /// A public call: about two in three with nothing wrong but what the lists, numbers and albums themselves bring.
    pub fn public_call(&mut self, name: Name) -> PublicCall {
        let mut call = self.fair_public_call(name);
        let damages = if self.percent(65) { 0 } else { 1 + self.below(2) };
        for _ in 0..damages {
            self.damage_public_call(&mut call);
        }
        let memory = &mut call.memory;
        if name == Name::Contents {
            // whole records
            let words = memory.results[0].len() / 2 * 2;
            memory.results[0].truncate(words);
        }
        memory.results.iter_mut().flatten().for_each(|word| *word = self.below(65_536) as u16);
        memory.part.iter_mut().for_each(|byte| *byte = self.below(256) as u8);
        memory.answer.iter_mut().for_each(|value| *value = usize::MAX - self.below(256));
        call
    }

    fn fair_public_call(&mut self, name: Name) -> PublicCall {
        let (mut lists, mut album, mut numbers) = (vec![], vec![], vec![]);
        match name {
            Name::FieldSum | Name::FieldDifference | Name::FieldProduct => numbers = vec![self.operand(), self.operand()],
            Name::Inverse => numbers = vec![self.operand()],
            Name::Product => lists = self.fair_pair(Operation::Product).to_vec(),
            Name::Sum | Name::Difference => lists = self.pair().to_vec(),
            Name::Divide => lists = self.fair_pair(Operation::Division).to_vec(),
            Name::DivideOrdinary => lists = self.ordinary_pair().to_vec(),
            Name::Gcd | Name::Cofactors => lists = self.fair_pair(Operation::Gcd).to_vec(),
            Name::FindExtent | Name::Searched | Name::Trim | Name::Derivative => lists = vec![self.any_list()],
            Name::Raise => {
                lists = vec![self.any_list()];
                numbers = vec![self.target(lists[0].len())];
            }
            Name::Evaluate => {
                lists = vec![self.any_list()];
                numbers = vec![self.operand()];
            }
            Name::Check | Name::Body | Name::ReadList => {
                album = self.album();
                numbers = vec![self.index(&album)];
            }
            Name::Contents | Name::GcdOfAlbum => album = self.album(),
            Name::WriteAlbum => return self.fair_writing(),
            Name::LineValue => return self.fair_line_call(),
        }
        public::fitting(name, &lists, &album, &numbers)
    }

    /// A word, with those near 0, p and the largest more often.
    fn operand(&mut self) -> usize {
        match self.below(8) {
            0 => self.below(3),
            1 => P as usize - 1 - self.below(2),
            2 => self.loose() as usize,
            _ => self.word() as usize,
        }
    }

    /// A naive degree to raise a list of so many words to.
    fn target(&mut self, words: usize) -> usize {
        match self.below(10) {
            0 => [MAX_WORDS, MAX_WORDS + self.below(40), usize::MAX][self.below(3)],
            1 => self.below(words),
            2 => words - 1,
            3 => MAX_WORDS - 1,
            _ => words - 1 + self.below(MAX_WORDS + 1 - words),
        }
    }

    /// The index of a list, seldom of none.
    fn index(&mut self, album: &[u8]) -> usize {
        let count = usize::from(*album.first().unwrap_or(&1));
        match self.below(8) {
            0 => [count, count + self.below(20), usize::MAX][self.below(3)],
            _ => self.below(count.max(1)),
        }
    }

    /// The lists of an album to be written, seldom those of a largest one.
    pub fn lists_to_write(&mut self) -> Vec<List> {
        if self.percent(3) {
            return (0..album::MAX_LISTS).map(|_| self.list(MAX_WORDS)).collect();
        }
        let count = 1 + self.below(album::MAX_LISTS);
        (0..count).map(|_| self.any_list()).collect()
    }

    fn fair_writing(&mut self) -> PublicCall {
        let mut call = public::writing(&self.lists_to_write());
        let more = match self.below(20) {
            0 => self.below(60_000),
            1..=6 => self.below(300),
            7..=10 => 1,
            _ => 0,
        };
        call.memory.part.resize(album::MAX_BYTES + more, 0);
        call
    }

    fn damage_writing(&mut self, memory: &mut Memory) {
        let words = &mut memory.lists[0];
        match self.below(12) {
            0 | 1 => self.damage_count(memory),
            // other words than the degrees name
            2 => words.push(self.word() as u16),
            3 => {
                words.pop();
            }
            4 if !memory.degrees.is_empty() => {
                let which = self.below(memory.degrees.len());
                memory.degrees[which] = self.below(MAX_WORDS) as u16;
            }
            5 | 6 if !words.is_empty() => {
                let at = [0, words.len() - 1, self.below(words.len())][self.below(3)];
                words[at] = self.loose() as u16;
            }
            7 | 8 => self.damage_degree(memory),
            9 | 10 => {
                let short = [album::MAX_BYTES - 1, public::album_size(memory), self.below(album::MAX_BYTES)][self.below(3)];
                memory.part.resize(short.min(album::MAX_BYTES - 1), 0);
            }
            _ => self.damage_length(&mut memory.answer),
        }
    }

    /// A degree above 1,023 before the others or after them, with the words that it names or without them.
    fn damage_degree(&mut self, memory: &mut Memory) {
        let degree = [MAX_WORDS, MAX_WORDS, MAX_WORDS + self.below(300), 65_535 - self.below(64_512)][self.below(4)];
        let (mut degrees, mut words) = (vec![degree as u16], vec![]);
        if self.percent(60) {
            words.resize(degree + 1, 7);
        }
        if self.percent(50) {
            std::mem::swap(&mut memory.degrees, &mut degrees);
            std::mem::swap(&mut memory.lists[0], &mut words);
        }
        memory.degrees.extend(degrees);
        memory.lists[0].extend(words);
    }

    /// No list, or more than 16, with the words that the degrees name or without them.
    fn damage_count(&mut self, memory: &mut Memory) {
        let with_words = self.percent(50);
        if self.percent(50) {
            memory.degrees.clear();
            if with_words {
                memory.lists[0].clear();
            }
            return;
        }
        // as a byte the last of these are a count that an album may have
        let count = [17, 18 + self.below(20), 257 + self.below(16)][self.below(3)];
        while memory.degrees.len() < count {
            let degree = self.below(3);
            memory.degrees.push(degree as u16);
            if with_words {
                memory.lists[0].extend(vec![7; degree + 1]);
            }
        }
    }

    /// The lists of an album for a line: mostly short ones; where they are long, products of two or three often pass the bound.
    fn lists_for_a_line(&mut self) -> Vec<List> {
        let count = 1 + self.below(album::MAX_LISTS);
        let long = self.percent(20);
        let length = |random: &mut Random| match random.below(6) {
            0 | 1 if long => 300 + random.below(300),
            2 if long => MAX_WORDS / 2 + random.below(2),
            3 if long => MAX_WORDS - random.below(3),
            4 => 1 + random.below(20),
            _ => 1 + random.below(5),
        };
        let lengths: Vec<usize> = (0..count).map(|_| length(self)).collect();
        lengths.into_iter().map(|length| self.list(length)).collect()
    }

    /// A line over an album, which seldom lacks an operand.
    fn fair_line_call(&mut self) -> PublicCall {
        let lists = self.lists_for_a_line();
        let beyond = if self.percent(10) { [1, 1, 84][self.below(3)] } else { 0 };
        let reading = lines::reading(self, lists.len() + beyond);
        let line = lines::line(self, &reading);
        public::line(&album::written(&lists), &line)
    }

    /// Damages anything but the line itself.
    fn damage_line_call(&mut self, memory: &mut Memory) {
        match self.below(10) {
            0..=4 => {
                let count = usize::from(*memory.album.first().unwrap_or(&1)).max(1);
                self.damage_album(&mut memory.album, count);
            }
            5..=8 => self.damage_length(&mut memory.results[0]),
            _ => self.damage_length(&mut memory.answer),
        }
    }

    fn damage_public_call(&mut self, call: &mut PublicCall) {
        let memory = &mut call.memory;
        match call.name {
            Name::WriteAlbum => return self.damage_writing(memory),
            Name::LineValue => return self.damage_line_call(memory),
            _ => {}
        }
        match self.below(10) {
            0..=4 if !memory.lists.is_empty() => {
                let which = self.below(memory.lists.len());
                let list = &mut memory.lists[which];
                match self.below(4) {
                    0 => list.clear(),
                    1 => *list = vec![1; MAX_WORDS + 1 + self.below(40)],
                    _ if list.is_empty() => list.push(self.loose() as u16),
                    _ => {
                        let at = self.below(list.len());
                        list[at] = self.loose() as u16;
                    }
                }
            }
            0..=7 if !memory.results.is_empty() => {
                let which = self.below(memory.results.len());
                self.damage_length(&mut memory.results[which]);
            }
            8 => self.damage_length(&mut memory.part),
            _ => self.damage_length(&mut memory.answer),
        }
    }

    fn lists(&mut self) -> Vec<List> {
        let count = 1 + self.below(16);
        let mut lists = if self.percent(60) { self.planted(count) } else { (0..count).map(|_| self.any_list()).collect() };
        let zeros = [0, 0, 30, 90, 100][self.below(5)];
        for list in &mut lists {
            if self.percent(zeros) {
                list.fill(0);
            }
        }
        lists
    }

    pub fn album(&mut self) -> Vec<u8> {
        let mut lists = self.lists();
        if self.percent(5) {
            // all is right but that a list is too long
            let (which, words) = (self.below(lists.len()), MAX_WORDS + 1 + self.below(2) * self.below(40));
            lists[which] = self.list(words);
        }
        let mut album = album::written(&lists);
        let damages = if self.percent(55) { 0 } else { 1 + self.below(2) };
        for _ in 0..damages {
            self.damage_album(&mut album, lists.len());
        }
        album
    }

    fn damage_album(&mut self, album: &mut Vec<u8>, count: usize) {
        let bodies = 1 + ENTRY_BYTES * count;
        let entry = 1 + ENTRY_BYTES * self.below(count);
        let byte = self.below(256) as u8;
        match self.below(18) {
            _ if album.len() < bodies + 2 => album.push(byte),
            0 => album[0] = [0, 17, 18 + byte % 238][self.below(3)],
            1 => album[0] = 1 + byte % 16,
            // a wrong degree, and a wrong offset: low byte, high byte, off by one
            2 => album[entry] = byte,
            3 => album[entry + 1] = [byte, byte % 4][self.below(2)],
            4 => album[entry + 2] = byte,
            5 => album[entry + 3] = byte,
            6 => album[entry + 2] = album[entry + 2].wrapping_add(1),
            7 => album.truncate(album.len() - 1 - self.below(2)),
            8 => album.truncate(self.below(album.len())),
            9 => album.extend(vec![byte; 1 + self.below(3)]),
            // a gap between two bodies, or before the first
            10 => album.insert(bodies, byte),
            _ => {
                let at = bodies + 2 * self.below((album.len() - bodies) / 2);
                album[at..at + 2].copy_from_slice(&bytes(&[self.loose()]));
            }
        }
    }
}
