// A buffer between two guards. What it and its guards should hold after a call is kept beside it.
use crate::fitter::Answer;
use crate::random::Random;

pub trait Entry: Copy + PartialEq + std::fmt::Debug {
    fn from_bits(bits: u64) -> Self;
}

impl Entry for u8 {
    fn from_bits(bits: u64) -> Self {
        (bits >> 24) as u8
    }
}

impl Entry for u32 {
    fn from_bits(bits: u64) -> Self {
        (bits >> 24) as u32
    }
}

impl Entry for Answer {
    fn from_bits(bits: u64) -> Self {
        let [number, price, settled] = [8, 16, 24].map(|by| (bits >> by) as u32);
        Answer { choices: bits.rotate_left(40), number, price, settled }
    }
}

pub struct Lent<T> {
    name: &'static str,
    all: Vec<T>,
    wanted: Vec<T>,
    from: usize,
    room: usize,
}

impl<T: Entry> Lent<T> {
    // A buffer of junk: of any values, of one value, or of 0 and 1.
    pub fn junk(random: &mut Random, name: &'static str, room: usize) -> Self {
        let (from, after) = (random.between(1, 8), random.between(1, 8));
        let (same, sort) = (random.next(), random.below(4));
        let mut entry = |_| match sort {
            0 => T::from_bits(same),
            1 => T::from_bits((random.next() & 1) << 24),
            _ => T::from_bits(random.next()),
        };
        let all: Vec<T> = (0..from + room + after).map(&mut entry).collect();
        Lent { name, wanted: all.clone(), all, from, room }
    }

    // A buffer with these entries, which a call only reads.
    pub fn given(random: &mut Random, name: &'static str, entries: &[T]) -> Self {
        let mut lent = Self::junk(random, name, entries.len());
        lent.want(entries);
        lent.all.copy_from_slice(&lent.wanted);
        lent
    }

    pub fn part(&mut self) -> &mut [T] {
        &mut self.all[self.from..self.from + self.room]
    }

    // The first entries after the call; the others stay.
    pub fn want(&mut self, entries: &[T]) {
        self.want_at(0, entries);
    }

    // The entries from a place on.
    pub fn want_at(&mut self, place: usize, entries: &[T]) {
        let from = self.from + place;
        self.wanted[from..from + entries.len()].copy_from_slice(entries);
    }

    // Compares entry by entry. Entries before the buffer have numbers below 0.
    pub fn check(&self) -> Result<(), String> {
        for i in 0..self.all.len() {
            if self.all[i] != self.wanted[i] {
                let place = i as i64 - self.from as i64;
                return Err(format!(
                    "{} (room {}), entry {place}: {:x?}, wanted {:x?}",
                    self.name, self.room, self.all[i], self.wanted[i]
                ));
            }
        }
        Ok(())
    }
}
