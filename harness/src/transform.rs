//! Comparison of the crate `transform`: the inverse DCT and DST at two widths, plain and extended.
use crate::archive::{self, Answered};
use crate::blocks::{self, Element, Lent, SHAPES, Shape};
use crate::random::Random;
use crate::reference::{self, Block};
use crate::tally::Tally;
use std::panic::{AssertUnwindSafe, catch_unwind};

type Oracles<E> = fn(&[E], usize, u8, usize, &mut [E]);

/// A transform on both sides; `checked` is the oracle's build that panics where a sum overflows.
pub struct Transform<E: Element> {
    pub name: &'static str,
    pub dst: bool,
    pub extended: bool,
    pub ours: archive::transform::Inverse<E>,
    pub oracle: Oracles<E>,
    pub checked: Oracles<E>,
}

macro_rules! transform {
    ($name:ident, $dst:expr, $extended:expr) => {
        Transform {
            name: stringify!($name),
            dst: $dst,
            extended: $extended,
            ours: archive::transform::$name,
            oracle: oracle::$name,
            checked: oracle_checked::$name,
        }
    };
}

pub const WIDE: [Transform<i32>; 4] = [
    transform!(inv_transform_into_scalar, false, false),
    transform!(inv_transform_into_scalar_extended, false, true),
    transform!(inv_transform_dst_into_scalar, true, false),
    transform!(inv_transform_dst_into_scalar_extended, true, true),
];

pub const NARROW: [Transform<i16>; 2] = [
    transform!(inv_transform_into_scalar16, false, false),
    transform!(inv_transform_dst_into_scalar16, true, false),
];

pub const FUNCTIONS: usize = WIDE.len() + NARROW.len();

pub fn compare(tally: &mut Tally, seed: u64, cases: usize) {
    for transform in &WIDE {
        blocks_of(tally, transform, seed, cases);
    }
    for transform in &NARROW {
        blocks_of(tally, transform, seed, cases);
    }
}

/// A call of a transform; `n` is 4 for the DST.
pub struct Call<E: Element> {
    pub coeff: Vec<E>,
    pub n: usize,
    pub bit_depth: u8,
    pub nx: usize,
    pub out_len: usize,
}

impl<E: Element> Call<E> {
    pub fn answered(&self, dst: bool, extended: bool) -> Answered {
        let number = Block {
            n: self.n,
            bit_depth: self.bit_depth,
            narrow: E::NARROW,
            extended_precision: extended,
            list_len: 64,
            input_len: self.coeff.len(),
            output_len: self.out_len,
        }
        .refusal();
        if number != 0 {
            return Answered { number, ..Answered::default() };
        }
        let columns = if dst { 4 } else { self.nx };
        let long: Vec<i64> = self.coeff.iter().map(|&v| v.long()).collect();
        match reference::outside(&long, self.n, columns, reference::range(self.bit_depth, extended)) {
            Some(at) => Answered { number: reference::side(long[at]), row: (at / self.n) as u8, column: (at % self.n) as u8, place: 0 },
            None => Answered::default(),
        }
    }

    fn random(random: &mut Random, transform: &Transform<E>, n: usize, bit_depth: u8, shape: Shape) -> Call<E> {
        let r = reference::range(bit_depth, transform.extended);
        let (lo, hi) = (-(1i64 << r), (1i64 << r) - 1);
        let nx = match random.below(4) {
            0 => random.below(n + 1),
            1 => random.pick(&[0, 1, n - 1, n + 1, 2 * n, usize::MAX]),
            _ => n,
        };
        let count = n * n + random.pick(&[0, 0, 1, 5]);
        Call {
            coeff: blocks::block(random, shape, n, count, lo, hi),
            n,
            bit_depth,
            nx,
            out_len: n * n + random.pick(&[0, 0, 0, 1, n, 1024]),
        }
    }

    fn damage(&mut self, random: &mut Random, transform: &Transform<E>) {
        let square = self.n.wrapping_mul(self.n) % 2000;
        match random.below(6) {
            0 if !transform.dst => self.n = blocks::odd_size(random),
            1 => self.bit_depth = blocks::odd_depth(random),
            2 => self.bit_depth = random.between(8, 16) as u8,
            3 => self.coeff.truncate(random.pick(&[0, square.wrapping_sub(1) % 2000])),
            4 => self.out_len = random.pick(&[0, square.wrapping_sub(1) % 2000]),
            _ => {
                // outside the range, in a column that is read or in one that is not
                let r = reference::range(self.bit_depth.min(16), transform.extended);
                for _ in 0..=random.below(3) {
                    if self.coeff.is_empty() {
                        return;
                    }
                    let at = random.below(self.coeff.len());
                    self.coeff[at] = E::of(random.pick(&[1i64 << r, -(1i64 << r) - 1, i64::from(i32::MAX), i64::from(i32::MIN)]));
                }
            }
        }
    }
}

fn blocks_of<E: Element>(tally: &mut Tally, transform: &Transform<E>, seed: u64, cases: usize) {
    tally.begin(transform.name);
    let mut random = Random::of(seed, transform.name);
    let sizes: &[usize] = if transform.dst { &[4] } else { &reference::SIZES };
    let deepest = if E::NARROW { 9 } else { 16 };
    let matrices: Vec<Vec<i128>> = sizes.iter().map(|&n| reference::matrix(n, transform.dst)).collect();
    // every size, depth, column count and shape
    for (&n, matrix) in sizes.iter().zip(&matrices) {
        for bit_depth in 8..=deepest {
            for shape in SHAPES {
                for nx in 0..=n + 1 {
                    let mut call = Call::random(&mut random, transform, n, bit_depth, shape);
                    call.nx = nx;
                    compare_call(tally, transform, matrix, &call, &mut random, false);
                }
            }
        }
    }
    // one coefficient at every index, at both ends of the range and next to zero
    for (&n, matrix) in sizes.iter().zip(&matrices) {
        for index in 0..n * n {
            for bit_depth in [8, deepest] {
                let r = reference::range(bit_depth, transform.extended);
                for value in [-(1i64 << r), -1, 1, (1i64 << r) - 1] {
                    let mut coeff = vec![E::of(0); n * n];
                    coeff[index] = E::of(value);
                    let call = Call { coeff, n, bit_depth, nx: n, out_len: n * n };
                    compare_call(tally, transform, matrix, &call, &mut random, false);
                }
            }
        }
    }
    // where the oracle's sums can overflow, with more large numbers than elsewhere
    if transform.extended && !transform.dst {
        for case in 0..cases / 20 {
            let (at, bit_depth) = [(3, 15), (3, 16), (2, 16)][case % 3];
            let shape = random.pick(&[Shape::Half, Shape::Full, Shape::Ends, Shape::AllLow, Shape::AllHigh, Shape::Column, Shape::Row]);
            let call = Call::random(&mut random, transform, sizes[at], bit_depth, shape);
            compare_call(tally, transform, &matrices[at], &call, &mut random, false);
        }
    }
    for case in 0..cases {
        let at = case % sizes.len();
        let bit_depth = random.between(8, i64::from(deepest)) as u8;
        let shape = random.pick(&SHAPES);
        let mut call = Call::random(&mut random, transform, sizes[at], bit_depth, shape);
        if random.one_in(5) {
            for _ in 0..=random.below(3) {
                call.damage(&mut random, transform);
            }
        }
        compare_call(tally, transform, &matrices[at], &call, &mut random, sizes[at] <= 8 || case % 64 < 4);
    }
}

/// The oracle decides, but where its sums can overflow: there the plain sum does, and the checked oracle says whether it overflowed.
/// With `plainly` the plain sum is compared as well.
fn compare_call<E: Element>(tally: &mut Tally, transform: &Transform<E>, matrix: &[i128], call: &Call<E>, random: &mut Random, plainly: bool) {
    let expected_answer = call.answered(transform.dst, transform.extended);
    let mut ours = Lent::<E>::filled(random, call.out_len);
    let mut expected = ours.copy();
    let coeff = call.coeff.clone();
    let answered = transform.ours.call(&call.coeff, call.n, call.bit_depth, call.nx, ours.lend());
    let mut oracle_agrees = true;
    if expected_answer.number == 0 {
        let square = call.n * call.n;
        // past n² the oracle writes zeros (docs/DIFFERENCES.md), so it gets n² places
        let mut block = vec![E::of(0); square];
        let can_overflow = reference::oracle_can_overflow(call.n, call.bit_depth, transform.extended);
        if can_overflow || plainly {
            let long: Vec<i64> = call.coeff[..square].iter().map(|&v| v.long()).collect();
            let columns = if transform.dst { 4 } else { call.nx };
            let exact = reference::residual(matrix, &long, call.n, call.bit_depth, reference::range(call.bit_depth, transform.extended), columns);
            let ran = catch_unwind(AssertUnwindSafe(|| (transform.checked)(&call.coeff, call.n, call.bit_depth, call.nx, &mut block))).is_ok();
            if !ran {
                tally.overflowed();
            }
            oracle_agrees = if ran { block.iter().map(|v| v.long()).eq(exact.values.iter().copied()) } else { exact.past_32_bits };
            for (to, &from) in block.iter_mut().zip(&exact.values) {
                *to = E::of(from);
            }
        } else {
            (transform.oracle)(&call.coeff, call.n, call.bit_depth, call.nx, &mut block);
        }
        expected.lend()[..square].copy_from_slice(&block);
    }
    let difference = ours.first_difference(&expected);
    let agrees = answered == expected_answer && difference.is_none() && coeff == call.coeff && oracle_agrees;
    tally.compared(answered.number, agrees, || {
        let at = difference.and_then(|i| usize::try_from(i).ok()).filter(|&i| i < call.out_len);
        format!(
            "n {}, depth {}, column count {}, {} coefficients, {} places: {answered:?}, expected {expected_answer:?}; first element that differs: {difference:?} ({:?}, expected {:?}); oracle and plain sum agree: {oracle_agrees}",
            call.n,
            call.bit_depth,
            call.nx,
            call.coeff.len(),
            call.out_len,
            at.map(|i| ours.seen()[i]),
            at.map(|i| expected.seen()[i]),
        )
    });
}
