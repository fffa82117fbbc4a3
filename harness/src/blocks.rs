//! Inputs: blocks of numbers of several shapes, and elements of two widths.
use crate::random::Random;

/// An element of a block: 16 or 32 bits.
pub trait Element: Copy + PartialEq + std::fmt::Debug + 'static {
    const NARROW: bool;
    fn of(v: i64) -> Self;
    fn long(self) -> i64;
}

impl Element for i32 {
    const NARROW: bool = false;
    fn of(v: i64) -> i32 {
        v as i32
    }
    fn long(self) -> i64 {
        i64::from(self)
    }
}

impl Element for i16 {
    const NARROW: bool = true;
    fn of(v: i64) -> i16 {
        v as i16
    }
    fn long(self) -> i64 {
        i64::from(self)
    }
}

#[derive(Clone, Copy, PartialEq, Debug)]
pub enum Shape {
    Tiny,
    Half,
    Full,
    /// Each number at one end of the range or the other.
    Ends,
    AllLow,
    AllHigh,
    One,
    Column,
    Row,
    Dc,
    /// A quarter of the rows and columns in use.
    Quarter,
    Zero,
}

pub const SHAPES: [Shape; 12] = [
    Shape::Tiny,
    Shape::Half,
    Shape::Full,
    Shape::Ends,
    Shape::AllLow,
    Shape::AllHigh,
    Shape::One,
    Shape::Column,
    Shape::Row,
    Shape::Dc,
    Shape::Quarter,
    Shape::Zero,
];

/// A number of a random size, so that small and large ones are equally common.
pub fn any_magnitude(random: &mut Random, lo: i64, hi: i64) -> i64 {
    let bits = random.below(64 - hi.leading_zeros() as usize + 1);
    random.between((-(1i64 << bits)).max(lo), ((1i64 << bits) - 1).min(hi))
}

/// `count` numbers between `lo` and `hi`, laid out as rows of `n`.
pub fn block<E: Element>(random: &mut Random, shape: Shape, n: usize, count: usize, lo: i64, hi: i64) -> Vec<E> {
    let at = random.below(count.max(1));
    let (row, column) = (at / n.max(1), at % n.max(1));
    let single = if random.one_in(2) { random.pick(&[lo, hi]) } else { any_magnitude(random, lo, hi) };
    let quarter = (n / 4).max(1);
    (0..count)
        .map(|i| {
            let (r, c) = (i / n.max(1), i % n.max(1));
            E::of(match shape {
                Shape::Tiny => random.between(-3, 3),
                Shape::Half => random.between(lo / 2, hi / 2),
                Shape::Full => random.between(lo, hi),
                Shape::Ends => random.pick(&[lo, hi]),
                Shape::AllLow => lo,
                Shape::AllHigh => hi,
                Shape::One if i == at => single,
                Shape::Column if c == column => random.between(lo, hi),
                Shape::Row if r == row => random.between(lo, hi),
                Shape::Dc if i == 0 => single,
                Shape::Quarter if r < quarter && c < quarter => random.between(lo, hi),
                _ => 0,
            })
        })
        .collect()
}

/// 64 entries: flat, small, with zeros, at the ends, or anything.
pub fn list(random: &mut Random, len: usize) -> Vec<u8> {
    let kind = random.below(5);
    (0..len)
        .map(|_| match kind {
            0 => 16,
            1 => random.below(4) as u8,
            2 => random.pick(&[0, 255]),
            3 => random.pick(&[0, 1, 16, 254, 255]),
            _ => random.below(256) as u8,
        })
        .collect()
}

pub fn odd_size(random: &mut Random) -> usize {
    random.pick(&[0, 1, 2, 3, 5, 6, 7, 9, 12, 15, 17, 24, 31, 33, 64, 128, 256, 4_294_967_300, usize::MAX])
}

pub fn odd_depth(random: &mut Random) -> u8 {
    random.pick(&[0, 1, 4, 6, 7, 17, 18, 24, 32, 64, 128, 255])
}

pub fn any_qp_prime(random: &mut Random) -> i32 {
    match random.below(8) {
        0 => random.pick(&[i32::MIN, i32::MIN + 1, -1, 0, 1, 51, 52, 57, 58, 99, 100, 255, 256, i32::MAX]),
        1 => random.next() as i32,
        2 => random.between(-60, 160) as i32,
        _ => random.between(0, 99) as i32,
    }
}

/// A buffer lent to a call with elements around it that no call may touch.
pub struct Lent<E: Element> {
    all: Vec<E>,
    len: usize,
}

const AROUND: usize = 16;

impl<E: Element> Lent<E> {
    pub fn filled(random: &mut Random, len: usize) -> Lent<E> {
        let all = (0..len + 2 * AROUND).map(|_| E::of(random.next() as i64)).collect();
        Lent { all, len }
    }

    pub fn copy(&self) -> Lent<E> {
        Lent { all: self.all.clone(), len: self.len }
    }

    pub fn lend(&mut self) -> &mut [E] {
        &mut self.all[AROUND..AROUND + self.len]
    }

    /// From now on only so many elements are lent, if there were more.
    pub fn shorten(&mut self, len: usize) {
        self.len = self.len.min(len);
    }

    pub fn seen(&self) -> &[E] {
        &self.all[AROUND..AROUND + self.len]
    }

    /// Index, as the call would count it, of the first element that differs.
    pub fn first_difference(&self, other: &Lent<E>) -> Option<i64> {
        (0..self.all.len()).find(|&i| self.all[i] != other.all[i]).map(|i| i as i64 - AROUND as i64)
    }
}
