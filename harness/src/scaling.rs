//! Comparison of scaling: m, one level, and blocks at two widths with and without a list.
use crate::archive::scaling::Blocks;
use crate::archive::{self, CountAnswered};
use crate::blocks::{self, Element, Lent, SHAPES};
use crate::random::Random;
use crate::reference::{self, Block};
use crate::tally::Tally;

type Oracles<E> = fn(&[i32], usize, i32, u8, bool, &[u8; 64], u8, &mut [E]);

/// A function of blocks, on both sides.
pub struct Scaler<E: Element> {
    pub name: &'static str,
    pub listed: bool,
    pub ours: Blocks<E>,
    pub oracle: Oracles<E>,
}

macro_rules! scaler {
    ($name:ident, $listed:expr) => {
        Scaler { name: stringify!($name), listed: $listed, ours: archive::scaling::$name, oracle: oracle::$name }
    };
}

pub const WIDE: [Scaler<i32>; 4] = [
    scaler!(dequantize_into_scalar_i32, false),
    scaler!(dequantize_scaled_into_scalar_i32, true),
    scaler!(dequantize_transform_skip_into_scalar_i32, false),
    scaler!(dequantize_transform_skip_scaled_into_scalar_i32, true),
];

pub const NARROW: [Scaler<i16>; 4] = [
    scaler!(dequantize_into_scalar_i16, false),
    scaler!(dequantize_scaled_into_scalar_i16, true),
    scaler!(dequantize_transform_skip_into_scalar_i16, false),
    scaler!(dequantize_transform_skip_scaled_into_scalar_i16, true),
];

pub const FUNCTIONS: usize = 2 + WIDE.len() + NARROW.len();

pub fn compare(tally: &mut Tally, seed: u64, cases: usize) {
    factors(tally, seed, cases);
    levels(tally, seed, cases);
    for scaler in &WIDE {
        blocks_of(tally, scaler, seed, cases);
    }
    for scaler in &NARROW {
        blocks_of(tally, scaler, seed, cases);
    }
}

fn factors(tally: &mut Tally, seed: u64, cases: usize) {
    tally.begin("scaling_coeff");
    let mut random = Random::of(seed, "scaling_coeff");
    let mut one = |list: &[u8], dc: u8, n: usize, index: usize| {
        let ours = archive::scaling::scaling_coeff(list, dc, n, index);
        let number = if !reference::is_size(n) {
            1
        } else if list.len() != 64 {
            5
        } else if index >= n * n {
            8
        } else {
            0
        };
        let value = if number == 0 { oracle::scaling_coeff(list.try_into().expect("64"), dc, n, index) as u32 } else { 0 };
        let expected = archive::NumberAnswered { number, row: 0, column: 0, place: 0, value };
        tally.compared(ours.number, ours == expected, || format!("list {list:?}, DC {dc}, n {n}, index {index}: {ours:?}, expected {expected:?}"));
    };
    for n in reference::SIZES {
        // entries that are all different, and a DC that is none of them
        let list: Vec<u8> = (0..64).collect();
        for index in (0..n * n + 70).chain([usize::MAX, usize::MAX - 1, 1 << 32]) {
            one(&list, 200, n, index);
        }
        for len in [0, 1, 15, 16, 63, 65, 128] {
            one(&blocks::list(&mut random, len), 200, n, 0);
            one(&blocks::list(&mut random, len), 200, n, n * n);
        }
    }
    for n in 0..100 {
        one(&[16; 64], 3, n, 0);
        one(&[16; 63], 3, n, 5000);
    }
    for _ in 0..cases {
        let list = blocks::list(&mut random, 64);
        let n = random.pick(&reference::SIZES);
        one(&list, random.below(256) as u8, n, random.below(n * n));
    }
}

fn levels(tally: &mut Tally, seed: u64, cases: usize) {
    tally.begin("scale_level");
    let mut random = Random::of(seed, "scale_level");
    // the oracle scales whole blocks: one list of the same m everywhere has the levels of a block scaled by it
    let run = |tally: &mut Tally, levels: &[i32], m: u8, n: usize, qp_prime: i32, bit_depth: u8, extended_precision: bool| {
        let mut block = vec![0; n * n];
        let mut out = vec![0; n * n];
        for part in levels.chunks(n * n) {
            block[..part.len()].copy_from_slice(part);
            oracle::dequantize_scaled_into_scalar_i32(&block, n, qp_prime, bit_depth, extended_precision, &[m; 64], m, &mut out);
            for (&level, &value) in part.iter().zip(&out) {
                let ours = archive::scaling::scale_level(level, m, n, qp_prime, bit_depth, extended_precision);
                let rule = reference::scaled(level, m, n, qp_prime, bit_depth, extended_precision);
                let expected = archive::LevelAnswered { value, level_limited: rule.level_limited, result_limited: rule.result_limited, ..archive::LevelAnswered::default() };
                tally.compared(ours.number, ours == expected && rule.value == i64::from(value), || format!("level {level}, m {m}, n {n}, QP′ {qp_prime}, depth {bit_depth}, extended {extended_precision}: {ours:?}, expected {expected:?}"));
            }
        }
    };
    let every: Vec<i32> = (-40000..=40000).chain([i32::MIN, i32::MIN + 1, i32::MAX - 1, i32::MAX]).collect();
    let settings = [(4, 16, 4, 8, false), (32, 1, 4, 8, false), (8, 255, 51, 9, false), (16, 16, 0, 12, true), (32, 17, 99, 16, true), (4, 16, 30, 16, false)];
    for (n, m, qp_prime, bit_depth, extended_precision) in settings {
        run(tally, &every, m, n, qp_prime, bit_depth, extended_precision);
    }
    let some: Vec<i32> = [-4194305, -4194304, -40000, -32769, -32768, -1000, -2, -1, 0, 1, 2, 1000, 32767, 32768, 4194303, 4194304].into();
    for n in reference::SIZES {
        for bit_depth in reference::DEPTHS {
            for extended_precision in [false, true] {
                for m in 0..=255 {
                    run(tally, &some, m, n, 4 + i32::from(m) % 6, bit_depth, extended_precision);
                }
                for qp_prime in 0..=255 {
                    run(tally, &some, 16, n, qp_prime, bit_depth, extended_precision);
                    run(tally, &some, (qp_prime * 7) as u8, n, -qp_prime, bit_depth, extended_precision);
                }
            }
        }
    }
    for _ in 0..cases / 16 {
        let n = random.pick(&reference::SIZES);
        let levels: Vec<i32> = (0..16).map(|_| blocks::any_magnitude(&mut random, i64::from(i32::MIN), i64::from(i32::MAX)) as i32).collect();
        let qp_prime = blocks::any_qp_prime(&mut random);
        run(tally, &levels, random.below(256) as u8, n, qp_prime, random.between(8, 16) as u8, random.one_in(2));
    }
    for _ in 0..cases / 16 {
        let n = if random.one_in(2) { blocks::odd_size(&mut random) } else { random.pick(&reference::SIZES) };
        let bit_depth = if !reference::is_size(n) && random.one_in(2) { 8 } else { blocks::odd_depth(&mut random) };
        let ours = archive::scaling::scale_level(random.next() as i32, random.below(256) as u8, n, 4, bit_depth, random.one_in(2));
        let expected = archive::LevelAnswered { number: if reference::is_size(n) { 2 } else { 1 }, ..archive::LevelAnswered::default() };
        tally.compared(ours.number, ours == expected, || format!("n {n}, depth {bit_depth}: {ours:?}, expected {expected:?}"));
    }
}

/// A call of a block function.
pub struct Call {
    pub levels: Vec<i32>,
    pub n: usize,
    pub qp_prime: i32,
    pub bit_depth: u8,
    pub extended_precision: bool,
    pub list: Vec<u8>,
    pub dc: u8,
    pub out_len: usize,
}

impl Call {
    pub fn refusal(&self, narrow: bool, listed: bool) -> u32 {
        Block {
            n: self.n,
            bit_depth: self.bit_depth,
            narrow,
            extended_precision: self.extended_precision,
            list_len: if listed { self.list.len() } else { 64 },
            input_len: self.levels.len(),
            output_len: self.out_len,
        }
        .refusal()
    }

    fn random(random: &mut Random, narrow: bool, n: usize) -> Call {
        let bit_depth = if narrow { random.between(8, 9) } else { random.between(8, 16) } as u8;
        let extended_precision = !narrow && random.one_in(2);
        let r = reference::range(bit_depth, extended_precision);
        let shape = random.pick(&SHAPES);
        // levels of the range, a little past it, and of all 32 bits
        let (lo, hi) = match random.below(4) {
            0 => (-(1i64 << r) - 3, (1i64 << r) + 3),
            1 => (i64::from(i32::MIN), i64::from(i32::MAX)),
            2 => (-300, 300),
            _ => (-(1i64 << r), (1i64 << r) - 1),
        };
        let count = n * n + random.pick(&[0, 0, 1, 5]);
        Call {
            levels: blocks::block(random, shape, n, count, lo, hi),
            n,
            qp_prime: blocks::any_qp_prime(random),
            bit_depth,
            extended_precision,
            list: blocks::list(random, 64),
            dc: random.below(256) as u8,
            out_len: n * n + random.pick(&[0, 0, 0, 1, n, 1024]),
        }
    }

    fn damage(&mut self, random: &mut Random) {
        match random.below(7) {
            0 => self.n = blocks::odd_size(random),
            1 => self.bit_depth = blocks::odd_depth(random),
            2 => self.bit_depth = random.between(8, 16) as u8,
            3 => self.extended_precision = true,
            4 => {
                let len = random.pick(&[0, 1, 16, 63, 65, 128]);
                self.list = blocks::list(random, len);
            }
            5 => self.levels.truncate(random.pick(&[0, self.n.wrapping_mul(self.n).wrapping_sub(1) % 2000])),
            _ => self.out_len = random.pick(&[0, self.n.wrapping_mul(self.n).wrapping_sub(1) % 2000]),
        }
    }
}

fn blocks_of<E: Element>(tally: &mut Tally, scaler: &Scaler<E>, seed: u64, cases: usize) {
    tally.begin(scaler.name);
    let mut random = Random::of(seed, scaler.name);
    for case in 0..cases {
        let mut call = Call::random(&mut random, E::NARROW, reference::SIZES[case % 4]);
        if random.one_in(5) {
            for _ in 0..=random.below(3) {
                call.damage(&mut random);
            }
        }
        compare_call(tally, scaler, &call, &mut random);
    }
    borders(tally, scaler, seed);
}

/// Levels at the borders of what is limited: the range's ends and their neighbours, and those at which the result of an index's m leaves the range, with
/// none, one or all of a block limited.
fn borders<E: Element>(tally: &mut Tally, scaler: &Scaler<E>, seed: u64) {
    let mut random = Random::of(seed, "borders");
    let depths = if E::NARROW { 8..=9 } else { reference::DEPTHS };
    for (bit_depth, extended_precision) in depths.flat_map(|b| [(b, false), (b, true)]) {
        if E::NARROW && extended_precision {
            continue;
        }
        let r = reference::range(bit_depth, extended_precision);
        for n in reference::SIZES {
            for qp_prime in [-1, 0, 1, 2, 3, 4, 5, 22, 29, 30, 51, 51 + 6 * (i32::from(bit_depth) - 8), 200] {
                let mut list = blocks::list(&mut random, 64);
                list[..4].copy_from_slice(&[0, 1, 16, 255]);
                let dc = random.pick(&[0, 1, 16, 255]);
                let lent = scaler.listed.then_some((&list[..], dc));
                let edge = |i: usize, up: bool| {
                    let m = reference::factor(lent, n, i);
                    let told = |v: i64| reference::scaled(v as i32, m, n, qp_prime, bit_depth, extended_precision).result_limited;
                    let (mut low, mut high) = (0i64, 1i64 << r);
                    while low < high {
                        let mid = (low + high) / 2;
                        if told(if up { mid } else { -mid }) { high = mid } else { low = mid + 1 }
                    }
                    if up { low } else { -low }
                };
                for kind in 0..6 {
                    let one = random.below(n * n);
                    let levels: Vec<i32> = (0..n * n)
                        .map(|i| match kind {
                            0 => 0,
                            1 => if i == one { 1 << r } else { 0 },
                            2 => random.pick(&[i32::MIN, i32::MAX, 1 << r, -(1 << r) - 1]),
                            3 => random.pick(&[(1 << r) - 1, 1 << r, -(1 << r), -(1 << r) - 1]),
                            4 => (edge(i, true) - random.below(2) as i64) as i32,
                            _ => (edge(i, false) + random.below(2) as i64) as i32,
                        })
                        .collect();
                    let call = Call { levels, n, qp_prime, bit_depth, extended_precision, list: list.clone(), dc, out_len: n * n };
                    compare_call(tally, scaler, &call, &mut random);
                }
            }
        }
    }
}

fn compare_call<E: Element>(tally: &mut Tally, scaler: &Scaler<E>, call: &Call, random: &mut Random) {
    let number = call.refusal(E::NARROW, scaler.listed);
    let mut ours = Lent::<E>::filled(random, call.out_len);
    let mut expected = ours.copy();
    let levels = call.levels.clone();
    let answered = scaler.ours.call(&call.levels, call.n, call.qp_prime, call.bit_depth, call.extended_precision, &call.list, call.dc, ours.lend());
    if number == 0 {
        let flat = [16; 64];
        let list = if scaler.listed { call.list.as_slice().try_into().expect("64") } else { &flat };
        (scaler.oracle)(&call.levels, call.n, call.qp_prime, call.bit_depth, call.extended_precision, list, call.dc, expected.lend());
    }
    let difference = ours.first_difference(&expected);
    let limited = if number == 0 {
        let list = scaler.listed.then_some((&call.list[..], call.dc));
        reference::limited(&call.levels, list, call.n, call.qp_prime, call.bit_depth, call.extended_precision)
    } else {
        0
    };
    let agrees = answered == CountAnswered { number, limited, ..CountAnswered::default() } && difference.is_none() && levels == call.levels;
    tally.compared(answered.number, agrees, || {
        format!(
            "n {}, QP′ {}, depth {}, extended {}, {} levels, {} places, list of {}, DC {}: {answered:?}, expected number {number} and {limited} limited; first element that differs: {difference:?}",
            call.n,
            call.qp_prime,
            call.bit_depth,
            call.extended_precision,
            call.levels.len(),
            call.out_len,
            call.list.len(),
            call.dc,
        )
    });
}
