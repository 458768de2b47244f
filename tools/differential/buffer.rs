//! Buffers lent to the library, with guard bytes on both sides that must stay.
use crate::case::Answer;

const GUARD: usize = 16;
const FILL: u8 = 0xa5;

/// How many places stand before and behind lent numbers.
const AROUND: usize = 4;

pub struct Buffer {
    bytes: Vec<u8>,
    start: usize,
    length: usize,
}

impl Buffer {
    /// A buffer of this length that begins with these bytes, `shift` bytes from an aligned place.
    pub fn new(length: usize, beginning: &[u8], shift: u64) -> Self {
        let start = GUARD + (shift % 8) as usize;
        let mut bytes = vec![FILL; start + length + GUARD];
        bytes[start..start + beginning.len()].copy_from_slice(beginning);
        Buffer { bytes, start, length }
    }

    pub fn input(bytes: &[u8], shift: u64) -> Self {
        Buffer::new(bytes.len(), bytes, shift)
    }

    pub fn part(&self) -> &[u8] {
        &self.bytes[self.start..self.start + self.length]
    }

    pub fn part_mut(&mut self) -> &mut [u8] {
        &mut self.bytes[self.start..self.start + self.length]
    }

    /// The answer, or one that no side expects if a byte outside the lent part was written.
    pub fn guarded(&self, answer: Answer) -> Answer {
        let (before, after) = (&self.bytes[..self.start], &self.bytes[self.start + self.length..]);
        if before.iter().chain(after).all(|&byte| byte == FILL) {
            answer
        } else {
            Answer { bytes: b"written outside a lent buffer".to_vec(), ..answer }
        }
    }
}

/// Places full of garbage: those that are used, and others before and behind, which must stay.
pub struct Places<T> {
    places: Vec<T>,
    before: Vec<T>,
    used: usize,
}

impl<T: Copy + PartialEq> Places<T> {
    pub fn new(used: usize, others: usize, garbage: impl FnMut() -> T) -> Self {
        let places: Vec<T> = std::iter::repeat_with(garbage).take(AROUND + used + others + AROUND).collect();
        Places { before: places.clone(), places, used }
    }

    pub fn lent(&mut self) -> &mut [T] {
        let end = self.places.len() - AROUND;
        &mut self.places[AROUND..end]
    }

    pub fn used(&self) -> &[T] {
        &self.places[AROUND..AROUND + self.used]
    }

    pub fn others_stay(&self) -> bool {
        let behind = AROUND + self.used;
        self.places[..AROUND] == self.before[..AROUND] && self.places[behind..] == self.before[behind..]
    }
}
