//! Comparison of the crates `block_tools` and `level_search`, which were not ported. Rotation and accumulation are written plainly over the transform skip of the archive,
//! which is compared with the Rust elsewhere; a level is looked for among all levels whose scaling comes near, by the archive's scaling of one level.
use crate::archive::scaling;
use crate::archive::{Answered, CountAnswered, tools};
use crate::random::Random;
use crate::reference::{self, Block};
use crate::tally::Tally;

pub const FUNCTIONS: usize = 5;

/// What a block call is given besides its levels or coefficients.
struct Given {
    n: usize,
    bit_depth: u8,
    extended_precision: bool,
    qp_prime: i32,
    list: Option<(Vec<u8>, u8)>,
}

impl Given {
    fn random(random: &mut Random, listed: bool) -> Given {
        let len = if random.one_in(40) { 63 } else { 64 };
        Given {
            n: if random.one_in(40) { 12 } else { random.pick(&[4, 4, 8, 16, 32]) },
            bit_depth: if random.one_in(40) { 7 } else { random.between(8, 16) as u8 },
            extended_precision: random.one_in(2),
            qp_prime: random.between(-9, 110) as i32,
            list: listed.then(|| ((0..len).map(|_| random.next() as u8).collect(), random.next() as u8)),
        }
    }

    fn lent(&self) -> Option<(&[u8], u8)> {
        self.list.as_ref().map(|(list, dc)| (&list[..], *dc))
    }

    fn refusal(&self, input_len: usize, output_len: usize) -> u32 {
        let list_len = self.list.as_ref().map_or(64, |(list, _)| list.len());
        Block { n: self.n, bit_depth: self.bit_depth, narrow: false, extended_precision: self.extended_precision, list_len, input_len, output_len }.refusal()
    }
}

fn refused(number: u32) -> Answered {
    Answered { number, ..Answered::default() }
}

/// One short, now and then.
fn short(random: &mut Random, len: usize) -> usize {
    len - usize::from(random.one_in(40)) + random.below(2)
}

/// Row 25 comes after 2 and before 5.
fn with_rotation(number: u32, rotate: bool, n: usize) -> u32 {
    if rotate && n != 4 && !(1..=3).contains(&number) { 25 } else { number }
}

/// Half a turn, then each sample is added to the next of its row or column.
fn modified(values: &mut [i32], n: usize, rotate: bool, accumulate: u8) {
    if rotate {
        values[..n * n].reverse();
    }
    for i in 0..n * n {
        match accumulate {
            0 => (),
            1 if i % n > 0 => values[i] += values[i - 1],
            1 => (),
            _ if i >= n => values[i] += values[i - n],
            _ => (),
        }
    }
}

fn levels(random: &mut Random, len: usize, r: u32) -> Vec<i32> {
    let most = 1i64 << random.between(0, i64::from(r) + 1);
    (0..len).map(|_| if random.one_in(50) { random.pick(&[1 << r, (1 << r) - 1, -(1 << r), -(1 << r) - 1]) } else { random.between(-most, most - 1) as i32 }).collect()
}

fn skip(tally: &mut Tally, seed: u64, cases: usize, name: &'static str, listed: bool) {
    tally.begin(name);
    let mut random = Random::of(seed, name);
    for _ in 0..cases / 20 {
        let given = Given::random(&mut random, listed);
        let n = given.n;
        let len = short(&mut random, n * n);
        let levels = levels(&mut random, len, 22);
        let (rotate, accumulate) = (random.one_in(2), random.pick(&[0, 1, 2, 255]));
        let mut out = vec![7i32; short(&mut random, n * n)];
        let mut due = out.clone();
        let number = with_rotation(given.refusal(levels.len(), out.len()), rotate, n);
        let mut expected = CountAnswered { number, ..CountAnswered::default() };
        if number == 0 {
            expected.limited = reference::limited(&levels, given.lent(), n, given.qp_prime, given.bit_depth, given.extended_precision);
            let (list, dc) = given.lent().unwrap_or((&[], 0));
            let plain = if listed { &scaling::dequantize_transform_skip_scaled_into_scalar_i32 } else { &scaling::dequantize_transform_skip_into_scalar_i32 };
            plain.call(&levels, n, given.qp_prime, given.bit_depth, given.extended_precision, list, dc, &mut due);
            modified(&mut due, n, rotate, accumulate);
        }
        let found = tools::transform_skip_residual(&levels, n, given.qp_prime, given.bit_depth, given.extended_precision, given.lent(), rotate, accumulate, &mut out);
        tally.compared(found.number, found == expected && out == due, || format!("n {n}, rotate {rotate}, accumulate {accumulate}: {found:?}, expected {expected:?}"));
    }
}

fn bypass(tally: &mut Tally, seed: u64, cases: usize) {
    tally.begin("bypass_residual");
    let mut random = Random::of(seed, "bypass_residual");
    for _ in 0..cases / 20 {
        let given = Given::random(&mut random, false);
        let (n, r) = (given.n, reference::range(given.bit_depth, given.extended_precision));
        let len = short(&mut random, n * n);
        let most = random.pick(&[r, r, r, r + 1]);
        let mut levels = levels(&mut random, len, most);
        if most == r {
            levels.iter_mut().for_each(|v| *v = (*v).clamp(-(1 << r), (1 << r) - 1));
        }
        let (rotate, accumulate) = (random.one_in(2), random.pick(&[0, 1, 2, 255]));
        let mut out = vec![7i32; short(&mut random, n * n)];
        let mut due = out.clone();
        let number = with_rotation(given.refusal(levels.len(), out.len()), rotate, n);
        let mut expected = refused(number);
        if number == 0 {
            let long: Vec<i64> = levels.iter().map(|&v| i64::from(v)).collect();
            if let Some(at) = reference::outside(&long, n, n, r) {
                expected = Answered { number: reference::side(long[at]), row: (at / n) as u8, column: (at % n) as u8, place: 0 };
            } else {
                due[..n * n].copy_from_slice(&levels[..n * n]);
                modified(&mut due, n, rotate, accumulate);
            }
        }
        let found = tools::bypass_residual(&levels, n, given.bit_depth, given.extended_precision, rotate, accumulate, &mut out);
        tally.compared(found.number, found == expected && out == due, || format!("n {n}, rotate {rotate}, accumulate {accumulate}: {found:?}, expected {expected:?}"));
    }
}

/// The level of least size that gives x: sizes from 0 up, as far as the range goes, without asking whether scaling keeps the order but for where it has passed x.
fn least_level(given: &Given, m: u8, x: i32) -> Option<i32> {
    let r = reference::range(given.bit_depth, given.extended_precision);
    let scale = |v: i32| scaling::scale_level(v, m, given.n, given.qp_prime, given.bit_depth, given.extended_precision).value;
    for k in 0..=1i32 << r {
        if k < 1 << r && scale(k) == x {
            return Some(k);
        }
        if scale(-k) == x {
            return Some(-k);
        }
        if scale(k) > x && scale(-k) < x {
            return None;
        }
    }
    None
}

fn search(tally: &mut Tally, seed: u64, cases: usize, name: &'static str, listed: bool) {
    tally.begin(name);
    let mut random = Random::of(seed, name);
    for _ in 0..cases / 400 {
        let mut given = Given::random(&mut random, listed);
        given.n = random.pick(&[4, 4, 4, 8, given.n]);
        given.qp_prime = random.between(10, 110) as i32;
        let (n, r) = (given.n, reference::range(given.bit_depth, given.extended_precision));
        let len = short(&mut random, n * n);
        // most coefficients are scaled from small levels, so that the plain search ends soon and they have one
        let most = 1i64 << random.between(0, 9);
        let mut coeff: Vec<i32> = (0..len).map(|_| random.between(-most, most) as i32).collect();
        let number = given.refusal(coeff.len(), n * n);
        let m = |index: usize| match given.lent() {
            None => 16,
            Some((list, dc)) => scaling::scaling_coeff(list, dc, n, index).value as u8,
        };
        if number == 0 && !random.one_in(4) {
            for (i, x) in coeff.iter_mut().enumerate().take(n * n) {
                *x = scaling::scale_level(*x, m(i), n, given.qp_prime, given.bit_depth, given.extended_precision).value;
            }
            if random.one_in(3) {
                coeff[random.below(n * n)] = random.pick(&[1 << r, -(1 << r) - 1, 3]);
            }
        }
        let mut out = vec![7i32; short(&mut random, n * n)];
        let mut due = out.clone();
        let number = given.refusal(coeff.len(), out.len());
        let mut expected = refused(number);
        if number == 0 {
            let all: Vec<Option<i32>> = (0..n * n).map(|i| least_level(&given, m(i), coeff[i])).collect();
            match all.iter().position(Option::is_none) {
                Some(at) => expected = Answered { number: 11, row: (at / n) as u8, column: (at % n) as u8, place: 0 },
                None => due.iter_mut().zip(&all).for_each(|(to, v)| *to = v.expect("a level")),
            }
        }
        let found = tools::find_levels(&coeff, n, given.qp_prime, given.bit_depth, given.extended_precision, given.lent(), &mut out);
        tally.compared(found.number, found == expected && out == due, || format!("n {n}, depth {}, QP\u{2032} {}: {found:?}, expected {expected:?}", given.bit_depth, given.qp_prime));
    }
}

pub fn compare(tally: &mut Tally, seed: u64, cases: usize) {
    skip(tally, seed, cases, "transform_skip_residual", false);
    skip(tally, seed, cases, "transform_skip_scaled_residual", true);
    bypass(tally, seed, cases);
    search(tally, seed, cases, "find_levels", false);
    search(tally, seed, cases, "find_levels_scaled", true);
}
