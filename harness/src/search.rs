//! Comparison of the crates `edit_search` and `level_edits`, which were not ported: on small blocks with every value of the range, one after the other; on blocks of
//! every size in which one coefficient was changed, with what an edit to each end and to one past each end gives, and with random values.
use crate::archive::{Answered, scaling, search};
use crate::random::Random;
use crate::reference;
use crate::tally::Tally;

pub const FUNCTIONS: usize = 3;

fn matrix(n: usize, dst: bool) -> Vec<i64> {
    reference::matrix(n, dst).iter().map(|x| *x as i64).collect()
}

struct Given {
    dst: bool,
    n: usize,
    bit_depth: u8,
    extended_precision: bool,
    values: Vec<i32>,
    target: Vec<i32>,
    wanted: Vec<u8>,
}

impl Given {
    fn ends(&self) -> (i32, i32) {
        let r = reference::range(self.bit_depth, self.extended_precision);
        (-(1 << r), (1 << r) - 1)
    }

    /// Both stages over all columns, in 64 bits.
    fn residual(&self, t: &[i64], coeff: &[i32]) -> Vec<i32> {
        let n = self.n;
        let r = reference::range(self.bit_depth, self.extended_precision);
        let (low, high) = (-(1i64 << r), (1i64 << r) - 1);
        let shift = r + 5 - u32::from(self.bit_depth);
        let (mut between, mut sums) = (vec![64i64; n * n], vec![1i64 << (shift - 1); n * n]);
        for i in 0..n * n {
            let (k, m) = (i / n, i % n);
            for c in 0..n {
                between[m * n + c] += t[i] * i64::from(coeff[k * n + c]);
            }
        }
        between.iter_mut().for_each(|x| *x = (*x >> 7).clamp(low, high));
        for i in 0..n * n {
            let (m, c) = (i / n, i % n);
            for j in 0..n {
                sums[m * n + j] += t[c * n + j] * between[i];
            }
        }
        sums.iter().map(|x| (x >> shift) as i32).collect()
    }

    fn met(&self, residual: &[i32]) -> bool {
        (0..self.n * self.n).all(|q| self.wanted[q] == 0 || residual[q] == self.target[q])
    }

    fn gives(&self, t: &[i64], i: usize, v: i32) -> bool {
        let mut coeff = self.values.clone();
        coeff[i] = v;
        self.met(&self.residual(t, &coeff))
    }

    fn find(&self) -> (Answered, Vec<i32>, Vec<i32>) {
        let (mut least, mut most) = (vec![7; self.n * self.n + 1], vec![7; self.n * self.n + 1]);
        let answer = search::find_edits(self.dst, self.n, self.bit_depth, self.extended_precision, &self.values, &self.target, &self.wanted, &mut least, &mut most);
        (answer, least, most)
    }

    fn told(&self) -> String {
        format!("dst {}, n {}, depth {}, extended {}, {} wanted", self.dst, self.n, self.bit_depth, self.extended_precision, self.wanted.iter().filter(|w| **w != 0).count())
    }
}

/// A block whose target is its residual before one coefficient was changed; the index comes beside it.
fn changed(random: &mut Random, n: usize, all: bool) -> (Given, usize) {
    let dst = n == 4 && random.one_in(2);
    let (bit_depth, extended_precision) = (random.between(8, 16) as u8, random.one_in(2));
    let r = reference::range(bit_depth, extended_precision);
    let size = 1i64 << random.between(1, i64::from(r));
    let mut given = Given { dst, n, bit_depth, extended_precision, values: Vec::new(), target: Vec::new(), wanted: vec![0; n * n] };
    given.values = (0..n * n).map(|_| if random.one_in(3) { random.between(-size, size - 1) as i32 } else { 0 }).collect();
    given.target = given.residual(&matrix(n, dst), &given.values);
    let at = random.below(n * n);
    given.values[at] = random.between(-size, size - 1) as i32;
    let count = if all { n * n } else { random.between(0, 12) as usize };
    for q in 0..count {
        let q = if all { q } else { random.below(n * n) };
        given.wanted[q] = random.pick(&[1, 2, 255]);
    }
    (given, at)
}

/// Every value of the range at every index, for n = 4 and R = 15.
fn every_value(tally: &mut Tally, random: &mut Random) {
    let all = random.one_in(4);
    let (mut given, _) = changed(random, 4, all);
    given.extended_precision = false;
    let t = matrix(4, given.dst);
    given.values.iter_mut().for_each(|v| *v = (*v).clamp(-32768, 32767));
    if random.one_in(4) {
        given.target[random.below(16)] += 1;
    }
    let (answer, least, most) = given.find();
    for i in 0..16 {
        let hits: Vec<i32> = (-32768..=32767).filter(|v| given.gives(&t, i, *v)).collect();
        let due = hits.first().map_or((1, 0), |first| (*first, *hits.last().expect("one")));
        let apart = !hits.is_empty() && hits.len() as i32 != due.1 - due.0 + 1;
        tally.compared(answer.number, answer.number == 0 && (least[i], most[i]) == due && !apart, || format!("{}, index {i}: {} .. {}, expected {due:?}", given.told(), least[i], most[i]));
    }
}

/// One block in which a coefficient was changed: the index is found, and the ends of every index hold.
fn ends(tally: &mut Tally, random: &mut Random, n: usize) {
    let all = random.one_in(3);
    let (given, at) = changed(random, n, all);
    let t = matrix(n, given.dst);
    let (low, high) = given.ends();
    let (answer, least, most) = given.find();
    let mut right = answer.number == 0 && least[at] <= most[at] && least[n * n] == 7 && most[n * n] == 7;
    // the changed index and three others, each with both ends, one past each, and a value of the range
    for i in [at, random.below(n * n), random.below(n * n), random.below(n * n)] {
        let (first, last) = (least[i], most[i]);
        for v in [first, last, first - 1, last + 1, random.between(i64::from(low), i64::from(high)) as i32] {
            if (low..=high).contains(&v) && (first <= last || (first, last) == (1, 0)) {
                right &= given.gives(&t, i, v) == (first <= v && v <= last);
            } else {
                right &= first <= last;
            }
        }
    }
    tally.compared(answer.number, right, || format!("{}, changed {at}: {} .. {}", given.told(), least[at], most[at]));
}

/// Refusals at their border.
fn refusals(tally: &mut Tally, random: &mut Random) {
    let (mut given, _) = changed(random, 4, true);
    let (mut n, mut lengths) = (4, [16usize; 5]);
    let mut expected = Answered::default();
    match random.below(8) {
        0 => (n, expected.number) = (random.pick(&[0, 3, 5, 12, 33]), 1),
        1 => (given.bit_depth, expected.number) = (random.pick(&[0, 7, 17, 255]), 2),
        2 => (n, given.dst, expected.number) = (8, true, 4),
        3 => {
            let i = random.below(16);
            let (low, high) = given.ends();
            let above = random.one_in(2);
            given.values[i] = if above { high + 1 } else { low - 1 };
            expected = Answered { number: if above { 9 } else { 19 }, row: (i / 4) as u8, column: (i % 4) as u8, place: 0 };
        }
        which => {
            lengths[which - 4 + usize::from(which == 7 && random.one_in(2))] = 15;
            expected.number = if which == 7 { 7 } else { 6 };
        }
    }
    let (mut least, mut most) = (vec![7; lengths[3]], vec![7; lengths[4]]);
    let answer = search::find_edits(given.dst, n, given.bit_depth, given.extended_precision, &given.values[..lengths[0]], &given.target[..lengths[1]], &given.wanted[..lengths[2]], &mut least, &mut most);
    let kept = least.iter().chain(&most).all(|x| *x == 7);
    tally.compared(answer.number, answer == expected && kept, || format!("{}: {answer:?}, expected {expected:?}", given.told()));
}

/// Levels: the least and the most of every index with what a scaled block with that level gives.
fn levels(tally: &mut Tally, random: &mut Random, listed: bool) {
    let n = random.pick(&[4, 8, 16]);
    let (mut given, at) = changed(random, n, false);
    let qp_prime = random.between(0, 60) as i32;
    let list: Vec<u8> = (0..64).map(|_| random.between(0, 255) as u8).collect();
    let dc = random.between(0, 255) as u8;
    let m = |i: usize| if listed { scaling::scaling_coeff(&list, dc, n, i).value as u8 } else { 16 };
    let scale = |given: &Given, i: usize, v: i32| scaling::scale_level(v, m(i), n, qp_prime, given.bit_depth, given.extended_precision).value;
    let t = matrix(n, given.dst);
    let right_levels: Vec<i32> = given.values.iter().map(|v| v >> 4).collect();
    let coeff: Vec<i32> = (0..n * n).map(|i| scale(&given, i, right_levels[i])).collect();
    given.target = given.residual(&t, &coeff);
    let mut wrong = right_levels.clone();
    wrong[at] = random.between(-300, 300) as i32;
    given.values = (0..n * n).map(|i| scale(&given, i, wrong[i])).collect();
    let (mut least, mut most) = (vec![7; n * n + 1], vec![7; n * n + 1]);
    let lent = listed.then_some((&list[..], dc));
    let answer = search::find_level_edits(given.dst, n, qp_prime, given.bit_depth, given.extended_precision, lent, &wrong, &given.target, &given.wanted, &mut least, &mut most);
    let (low, high) = given.ends();
    let mut right = answer.number == 0 && least[at] <= right_levels[at] && right_levels[at] <= most[at] && least[n * n] == 7 && most[n * n] == 7;
    for i in [at, random.below(n * n), random.below(n * n)] {
        let (first, last) = (least[i], most[i]);
        for v in [first, last, first - 1, last + 1, random.between(i64::from(low), i64::from(high)) as i32] {
            if (low..=high).contains(&v) {
                right &= given.gives(&t, i, scale(&given, i, v)) == (first <= v && v <= last);
            }
        }
    }
    tally.compared(answer.number, right, || format!("{}, QP\u{2032} {qp_prime}, changed {at}: {} .. {}", given.told(), least[at], most[at]));
}

pub fn compare(tally: &mut Tally, seed: u64, cases: usize) {
    tally.begin("find_edits");
    let mut random = Random::of(seed, "find_edits");
    for _ in 0..cases / 20_000 {
        every_value(tally, &mut random);
    }
    for _ in 0..cases / 20 {
        let n = random.pick(&[4, 4, 8, 8, 16, 32]);
        ends(tally, &mut random, n);
        refusals(tally, &mut random);
    }
    for (name, listed) in [("find_level_edits", false), ("find_level_edits_scaled", true)] {
        tally.begin(name);
        let mut random = Random::of(seed, name);
        for _ in 0..cases / 40 {
            levels(tally, &mut random, listed);
        }
    }
}
