//! Comparison of the crate `contributions`, which was not ported: with a plain double loop over the matrix, at every size, sample and border of a row of the table; their sum
//! with the double product; and, where no stage-one value is limited, the transform's residual with that sum by the archive's own bound.
use crate::archive::{self, Answered, contributions::contributions};
use crate::random::Random;
use crate::reference;
use crate::tally::Tally;

pub const FUNCTIONS: usize = 1;

struct Given {
    dst: bool,
    n: usize,
    row: usize,
    column: usize,
    coeff: Vec<i32>,
    room: usize,
}

impl Given {
    fn refusal(&self) -> u32 {
        let n = self.n;
        if !reference::is_size(n) {
            1
        } else if self.dst && n != 4 {
            4
        } else if self.coeff.len() < n * n {
            6
        } else if self.room < n * n {
            7
        } else if self.row >= n || self.column >= n {
            8
        } else {
            0
        }
    }

    fn expected(&self) -> (Answered, Vec<i64>) {
        let (n, mut out) = (self.n, vec![7; self.room]);
        let number = self.refusal();
        if number == 0 {
            let t = reference::matrix(n, self.dst);
            for k in 0..n {
                for c in 0..n {
                    out[k * n + c] = (t[k * n + self.row] * t[c * n + self.column] * i128::from(self.coeff[k * n + c])) as i64;
                }
            }
        }
        (Answered { number, ..Answered::default() }, out)
    }

    /// Whether the residual at the sample is explained: within the bound of the sum, where no stage-one value is limited.
    fn explained(&self, bit_depth: u8, total: i128) -> bool {
        let (n, t) = (self.n, reference::matrix(self.n, self.dst));
        for i in 0..n * n {
            let one: i128 = (0..n).map(|k| t[k * n + i / n] * i128::from(self.coeff[k * n + i % n])).sum();
            if !(-32768..=32767).contains(&((one + 64) >> 7)) || !(-32768..=32767).contains(&self.coeff[i]) {
                return true;
            }
        }
        let mut residual = vec![0; n * n];
        let answer = if self.dst {
            archive::transform::inv_transform_dst_into_scalar.call(&self.coeff, n, bit_depth, n, &mut residual)
        } else {
            archive::transform::inv_transform_into_scalar.call(&self.coeff, n, bit_depth, n, &mut residual)
        };
        let bound = archive::rounding::rounding_bound(self.dst, n, bit_depth, false).value;
        let step = 1i128 << (7 + 15 + 5 - u32::from(bit_depth));
        answer.number == 0 && (step * i128::from(residual[self.row * n + self.column]) - total).abs() <= i128::from(bound)
    }

    fn compare(&self, tally: &mut Tally, bit_depth: u8) {
        let mut out = vec![7; self.room];
        let answer = contributions(self.dst, self.n, self.row, self.column, &self.coeff, &mut out);
        let expected = self.expected();
        let mut right = (answer, &out) == (expected.0, &expected.1);
        if answer.number == 0 {
            let (n, t) = (self.n, reference::matrix(self.n, self.dst));
            let total: i128 = out[..n * n].iter().map(|x| i128::from(*x)).sum();
            let exact: i128 = (0..n).map(|c| t[c * n + self.column] * (0..n).map(|k| t[k * n + self.row] * i128::from(self.coeff[k * n + c])).sum::<i128>()).sum();
            right &= total == exact && self.explained(bit_depth, total);
        }
        tally.compared(answer.number, right, || {
            format!("dst {}, n {}, row {}, column {}, {} coefficients, room {}: {answer:?}, expected {:?}", self.dst, self.n, self.row, self.column, self.coeff.len(), self.room, expected.0)
        });
    }
}

/// A block with coefficients up to a power of two in size, or of any 32 bits.
fn block(random: &mut Random, n: usize) -> Given {
    let size = 1i64 << random.pick(&[3, 9, 15, 31]);
    let coeff = (0..n * n).map(|_| random.between(-size, size - 1) as i32).collect();
    Given { dst: n == 4 && random.one_in(2), n, row: random.below(n), column: random.below(n), coeff, room: n * n + 1 }
}

/// One argument at, or past, its border, for a block that had size n.
fn spoil(random: &mut Random, given: &mut Given, n: usize) {
    match random.below(7) {
        0 => given.n = random.pick(&[0, 3, 5, 12, 33, 64, usize::MAX]),
        1 => given.dst = true,
        2 => given.coeff.truncate(n * n - 1),
        3 => given.room = n * n - 1,
        4 => given.room = n * n,
        5 => given.row = random.pick(&[n - 1, n, usize::MAX]),
        _ => given.column = random.pick(&[n - 1, n, usize::MAX]),
    }
}

pub fn compare(tally: &mut Tally, seed: u64, cases: usize) {
    tally.begin("contributions");
    let mut random = Random::of(seed, "contributions");
    for n in reference::SIZES {
        for sample in 0..n * n {
            let mut given = block(&mut random, n);
            (given.row, given.column) = (sample / n, sample % n);
            given.compare(tally, 8);
        }
    }
    for _ in 0..cases / 20 {
        let n = random.pick(&[4, 4, 8, 8, 16, 32]);
        let mut given = block(&mut random, n);
        for _ in 0..random.below(3) {
            spoil(&mut random, &mut given, n);
        }
        let bit_depth = random.between(8, 16) as u8;
        given.compare(tally, bit_depth);
    }
}
