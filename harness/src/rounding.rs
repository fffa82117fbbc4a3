//! Comparison of the crate `rounding`, which was not ported: the bound with its rule, S summed up from the matrix; then blocks through the transforms, whose
//! residuals must lie within the bound of the exact product where no stage-one value is limited.
use crate::archive;
use crate::random::Random;
use crate::reference;
use crate::tally::Tally;

pub const FUNCTIONS: usize = 1;

pub fn compare(tally: &mut Tally, seed: u64, cases: usize) {
    tally.begin("rounding_bound");
    bounds(tally);
    #[cfg(has_transform)]
    blocks(tally, seed, cases);
}

fn bound(dst: bool, n: usize, bit_depth: u8, extended_precision: bool) -> i128 {
    let t = reference::matrix(n, dst);
    let sum = (0..n).map(|j| (0..n).map(|k| t[k * n + j].abs()).sum::<i128>()).max().expect("a size");
    64 * sum + (1i128 << (6 + reference::range(bit_depth, extended_precision) + 5 - u32::from(bit_depth)))
}

fn bounds(tally: &mut Tally) {
    for n in (0..=40).chain([64, usize::MAX]) {
        for bit_depth in 0..=255 {
            for (dst, extended_precision) in [(false, false), (false, true), (true, false), (true, true)] {
                let ours = archive::rounding::rounding_bound(dst, n, bit_depth, extended_precision);
                let number = if !reference::is_size(n) {
                    1
                } else if !reference::is_depth(bit_depth) {
                    2
                } else if dst && n != 4 {
                    4
                } else {
                    0
                };
                let value = if number == 0 { bound(dst, n, bit_depth, extended_precision) as u32 } else { 0 };
                let expected = archive::NumberAnswered { number, row: 0, column: 0, place: 0, value };
                tally.compared(ours.number, ours == expected, || format!("dst {dst}, n {n}, depth {bit_depth}, extended {extended_precision}: {ours:?}, expected {expected:?}"));
            }
        }
    }
}

/// Blocks of a few sizes of coefficients: small ones, whose rounding shows most, up to those that are limited now and then, which are passed over.
#[cfg(has_transform)]
fn blocks(tally: &mut Tally, seed: u64, cases: usize) {
    let mut random = Random::of(seed, "rounding_bound");
    for _ in 0..cases / 40 {
        let n = reference::SIZES[random.between(0, 3) as usize];
        let bit_depth = random.between(8, 16) as u8;
        let extended_precision = random.between(0, 1) == 1;
        let r = reference::range(bit_depth, extended_precision);
        let most = 1i64 << random.between(0, i64::from(r) - 2);
        let coeff: Vec<i32> = (0..n * n).map(|_| random.between(-most, most) as i32).collect();
        let mut out = vec![0i32; n * n];
        let answer = if extended_precision {
            archive::transform::inv_transform_into_scalar_extended.call(&coeff, n, bit_depth, n, &mut out)
        } else {
            archive::transform::inv_transform_into_scalar.call(&coeff, n, bit_depth, n, &mut out)
        };
        let Some(worst) = distance(&coeff, &out, n, bit_depth, r) else { continue };
        let most = bound(false, n, bit_depth, extended_precision);
        tally.compared(answer.number, answer.number == 0 && worst <= most, || format!("n {n}, depth {bit_depth}, extended {extended_precision}: {worst} from the exact product, bound {most}"));
    }
}

/// How far 2^(7 + s2) times the residual is from the exact product at most; nothing where a stage-one value is limited.
#[cfg(has_transform)]
fn distance(coeff: &[i32], out: &[i32], n: usize, bit_depth: u8, r: u32) -> Option<i128> {
    let t = reference::matrix(n, false);
    let (lo, hi) = (-(1i128 << r), (1i128 << r) - 1);
    let mut one = vec![0i128; n * n];
    for m in 0..n {
        for c in 0..n {
            one[m * n + c] = (0..n).map(|k| t[k * n + m] * i128::from(coeff[k * n + c])).sum();
            if !(lo..=hi).contains(&((one[m * n + c] + 64) >> 7)) {
                return None;
            }
        }
    }
    let shift = 7 + r + 5 - u32::from(bit_depth);
    let mut worst = 0;
    for m in 0..n {
        for j in 0..n {
            let exact: i128 = (0..n).map(|c| t[c * n + j] * one[m * n + c]).sum();
            worst = worst.max(((i128::from(out[m * n + j]) << shift) - exact).abs());
        }
    }
    Some(worst)
}
