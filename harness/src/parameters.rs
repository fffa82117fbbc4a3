//! Comparison of the crate `parameters`. The sources of `qp_bd_offset` and `qp_prime` are not at hand: these two are compared with the rule itself.
use crate::archive;
use crate::blocks;
use crate::random::Random;
use crate::reference;
use crate::tally::Tally;

pub const FUNCTIONS: usize = 5;

pub fn compare(tally: &mut Tally, seed: u64, cases: usize) {
    ranges(tally);
    offsets(tally);
    qp_primes(tally, seed, cases);
    dequant(tally, seed, cases);
    transform_skip(tally, seed, cases);
}

fn ranges(tally: &mut Tally) {
    tally.begin("max_log2_transform_dynamic_range");
    for bit_depth in 0..=255 {
        for extended_precision in [false, true] {
            let ours = archive::max_log2_transform_dynamic_range(bit_depth, extended_precision);
            let expected = if reference::is_depth(bit_depth) {
                let value = oracle::max_log2_transform_dynamic_range(bit_depth, extended_precision) as u32;
                archive::NumberAnswered { number: 0, row: 0, column: 0, place: 0, value }
            } else {
                archive::NumberAnswered { number: 2, row: 0, column: 0, place: 0, value: 0 }
            };
            tally.compared(ours.number, ours == expected, || format!("depth {bit_depth}, extended {extended_precision}: {ours:?}, expected {expected:?}"));
        }
    }
}

fn offsets(tally: &mut Tally) {
    tally.begin("qp_bd_offset");
    for bit_depth in 0..=255 {
        let ours = archive::qp_bd_offset(bit_depth);
        let expected = if reference::is_depth(bit_depth) {
            archive::NumberAnswered { number: 0, row: 0, column: 0, place: 0, value: reference::qp_bd_offset(bit_depth) as u32 }
        } else {
            archive::NumberAnswered { number: 2, row: 0, column: 0, place: 0, value: 0 }
        };
        tally.compared(ours.number, ours == expected, || format!("depth {bit_depth}: {ours:?}, expected {expected:?}"));
    }
}

fn qp_primes(tally: &mut Tally, seed: u64, cases: usize) {
    tally.begin("qp_prime");
    let mut one = |qp: i32, bit_depth: u8| {
        let ours = archive::qp_prime(qp, bit_depth);
        let expected = if reference::is_depth(bit_depth) {
            archive::SignedAnswered { number: 0, row: 0, column: 0, place: 0, value: reference::qp_prime(qp, bit_depth) as i32 }
        } else {
            archive::SignedAnswered { number: 2, row: 0, column: 0, place: 0, value: 0 }
        };
        tally.compared(ours.number, ours == expected, || format!("QP {qp}, depth {bit_depth}: {ours:?}, expected {expected:?}"));
    };
    for bit_depth in 0..=255 {
        for qp in -200..=200 {
            one(qp, bit_depth);
        }
        for step in 0..60 {
            one(i32::MAX - step, bit_depth);
            one(i32::MIN + step, bit_depth);
        }
    }
    let mut random = Random::of(seed, "qp_prime");
    for _ in 0..cases {
        one(random.next() as i32, random.between(8, 16) as u8);
    }
}

/// Size, QP′, depth and flag of every call that is worth making whatever the seed, then of random ones.
fn settings(seed: u64, name: &str, cases: usize, mut one: impl FnMut(usize, i32, u8, bool)) {
    for n in reference::SIZES {
        for bit_depth in reference::DEPTHS {
            for extended_precision in [false, true] {
                for qp_prime in (-300..=300).chain([i32::MIN, i32::MIN + 1, i32::MAX - 1, i32::MAX]) {
                    one(n, qp_prime, bit_depth, extended_precision);
                }
            }
        }
        for bit_depth in 0..=255 {
            one(n, 4, bit_depth, false);
            one(n, 4, bit_depth, true);
        }
    }
    for n in 0..300 {
        one(n, 4, 8, false);
        one(n, 4, 7, true);
    }
    let mut random = Random::of(seed, name);
    for _ in 0..cases {
        let n = if random.one_in(8) { blocks::odd_size(&mut random) } else { random.pick(&reference::SIZES) };
        let bit_depth = if random.one_in(8) { blocks::odd_depth(&mut random) } else { random.between(8, 16) as u8 };
        one(n, blocks::any_qp_prime(&mut random), bit_depth, random.one_in(2));
    }
}

fn refusal(n: usize, bit_depth: u8) -> u32 {
    if !reference::is_size(n) {
        1
    } else if !reference::is_depth(bit_depth) {
        2
    } else {
        0
    }
}

fn dequant(tally: &mut Tally, seed: u64, cases: usize) {
    tally.begin("dequant_params");
    settings(seed, "dequant_params", cases, |n, qp_prime, bit_depth, extended_precision| {
        let ours = archive::dequant_params(n, qp_prime, bit_depth, extended_precision);
        let number = refusal(n, bit_depth);
        let mut expected = archive::DequantAnswered { number, ..Default::default() };
        if number == 0 {
            let p = oracle::dequant_params(n, qp_prime, bit_depth, extended_precision);
            expected.factor = p.factor;
            expected.add = p.add;
            expected.shift = p.shift as u32;
            expected.clip_min = p.clip_min;
            expected.clip_max = p.clip_max;
        }
        tally.compared(ours.number, ours == expected, || format!("n {n}, QP′ {qp_prime}, depth {bit_depth}, extended {extended_precision}: {ours:?}, expected {expected:?}"));
    });
}

fn transform_skip(tally: &mut Tally, seed: u64, cases: usize) {
    tally.begin("transform_skip_params");
    settings(seed, "transform_skip_params", cases, |n, qp_prime, bit_depth, extended_precision| {
        let ours = archive::transform_skip_params(n, qp_prime, bit_depth, extended_precision);
        let number = refusal(n, bit_depth);
        let mut expected = archive::TransformSkipAnswered { number, ..Default::default() };
        if number == 0 {
            let p = oracle::transform_skip_params(n, qp_prime, bit_depth, extended_precision);
            expected.factor = p.factor;
            expected.add = p.add;
            expected.shift = p.shift as u32;
            expected.clip_min = p.clip_min;
            expected.clip_max = p.clip_max;
            expected.tr_add = p.tr_add;
            expected.tr_shift = p.tr_shift;
        }
        tally.compared(ours.number, ours == expected, || format!("n {n}, QP′ {qp_prime}, depth {bit_depth}, extended {extended_precision}: {ours:?}, expected {expected:?}"));
    });
}
