//! The rules of docs/RULES.md, written plainly: the refusals, what scaling limits, and the transforms as two double sums in 128 bits.
//! The oracle decides every value that its 32-bit sums can hold; this decides refusals, and the values past 32 bits.

pub const SIZES: [usize; 4] = [4, 8, 16, 32];
pub const DEPTHS: std::ops::RangeInclusive<u8> = 8..=16;

pub fn is_size(n: usize) -> bool {
    SIZES.contains(&n)
}

pub fn is_depth(bit_depth: u8) -> bool {
    DEPTHS.contains(&bit_depth)
}

/// R. Also answers for depths that are refused, where it is not used.
pub fn range(bit_depth: u8, extended_precision: bool) -> u32 {
    if extended_precision { 15.max(u32::from(bit_depth) + 6) } else { 15 }
}

pub fn qp_bd_offset(bit_depth: u8) -> i64 {
    6 * (i64::from(bit_depth) - 8)
}

pub fn qp_prime(qp: i32, bit_depth: u8) -> i64 {
    let offset = qp_bd_offset(bit_depth);
    (i64::from(qp) + offset).clamp(0, 51 + offset)
}

/// A block call as the table of refusals sees it. `list_len` is 64 where there is no list.
pub struct Block {
    pub n: usize,
    pub bit_depth: u8,
    pub narrow: bool,
    pub extended_precision: bool,
    pub list_len: usize,
    pub input_len: usize,
    pub output_len: usize,
}

impl Block {
    /// Rows 1, 2, 3, 5, 6 and 7: the lowest number that applies, 0 if none does.
    pub fn refusal(&self) -> u32 {
        if !is_size(self.n) {
            1
        } else if !is_depth(self.bit_depth) {
            2
        } else if self.narrow && (self.bit_depth > 9 || self.extended_precision) {
            3
        } else if self.list_len != 64 {
            5
        } else if self.input_len < self.n * self.n {
            6
        } else if self.output_len < self.n * self.n {
            7
        } else {
            0
        }
    }
}

/// A level scaled: its coefficient, whether the level was limited, and whether the result of the limited level was.
#[derive(Clone, Copy, PartialEq, Eq, Debug)]
pub struct Scaled {
    pub value: i64,
    pub level_limited: bool,
    pub result_limited: bool,
}

pub fn scaled(level: i32, m: u8, n: usize, qp_prime: i32, bit_depth: u8, extended_precision: bool) -> Scaled {
    const LEVEL_SCALE: [i128; 6] = [40, 45, 51, 57, 64, 72];
    let r = range(bit_depth, extended_precision);
    let (lo, hi) = (-(1i128 << r), (1i128 << r) - 1);
    let s = u32::from(bit_depth) + n.trailing_zeros() + 10 - r;
    let q = i64::from(qp_prime).clamp(0, 51 + qp_bd_offset(bit_depth)) as usize;
    let near = i128::from(level).clamp(lo, hi);
    let result = (near * i128::from(m) * (LEVEL_SCALE[q % 6] << (q / 6)) + (1 << (s - 1))) >> s;
    Scaled { value: result.clamp(lo, hi) as i64, level_limited: near != i128::from(level), result_limited: !(lo..=hi).contains(&result) }
}

/// m at an index, by a list of 64 entries and its DC number, or without one.
pub fn factor(list: Option<(&[u8], u8)>, n: usize, index: usize) -> u8 {
    match list {
        None => 16,
        Some((entries, _)) if n <= 8 => entries[index],
        Some((_, dc)) if index == 0 => dc,
        Some((entries, _)) => entries[index / n * 8 / n * 8 + index % n * 8 / n],
    }
}

/// How many of the n² indices have a level outside the range, or a result.
pub fn limited(levels: &[i32], list: Option<(&[u8], u8)>, n: usize, qp_prime: i32, bit_depth: u8, extended_precision: bool) -> u16 {
    let told = |i: usize| {
        let s = scaled(levels[i], factor(list, n, i), n, qp_prime, bit_depth, extended_precision);
        u16::from(s.level_limited || s.result_limited)
    };
    (0..n * n).map(told).sum()
}

/// Row 9: the first coefficient outside the range, in row order, among the columns read.
pub fn outside(coeff: &[i64], n: usize, columns: usize, r: u32) -> Option<usize> {
    let (lo, hi) = (-(1i64 << r), (1i64 << r) - 1);
    (0..n * n).find(|&i| i % n < columns && !(lo..=hi).contains(&coeff[i]))
}

/// The row of the table for a coefficient outside its range: 9 above it, 19 below.
pub fn side(value: i64) -> u32 {
    if value < 0 { 19 } else { 9 }
}

/// The matrix of a transform, `n` rows of `n`.
pub fn matrix(n: usize, dst: bool) -> Vec<i128> {
    const F: [i128; 32] = [
        0, 90, 90, 90, 89, 88, 87, 85, 83, 82, 80, 78, 75, 73, 70, 67, 64, 61, 57, 54, 50, 46, 43, 38, 36, 31, 25, 22, 18, 13, 9, 4,
    ];
    if dst {
        return vec![29, 55, 74, 84, 74, 74, 0, -74, 84, -29, -74, 55, 55, -84, 74, -29];
    }
    let mut t = Vec::with_capacity(n * n);
    for row in 0..n {
        for column in 0..n {
            let k = row * (32 / n);
            if k == 0 {
                t.push(64);
                continue;
            }
            let turned = k * (2 * column + 1) % 128;
            let a = if turned > 64 { 128 - turned } else { turned };
            t.push(if a > 32 { -F[64 - a] } else { F[a] });
        }
    }
    t
}

/// Both stages of a block, and whether a sum of either, with its rounding, leaves 32 bits.
pub struct Residual {
    pub intermediate: Vec<i64>,
    pub values: Vec<i64>,
    pub past_32_bits: bool,
}

fn fits(sum: i128) -> bool {
    i32::try_from(sum).is_ok()
}

pub fn residual(t: &[i128], coeff: &[i64], n: usize, bit_depth: u8, r: u32, columns: usize) -> Residual {
    let (lo, hi) = (-(1i128 << r), (1i128 << r) - 1);
    let mut past_32_bits = false;
    let mut intermediate = vec![0i64; n * n];
    for c in 0..columns.min(n) {
        for m in 0..n {
            let mut sum = 0;
            for k in 0..n {
                sum += t[k * n + m] * i128::from(coeff[k * n + c]);
            }
            past_32_bits |= !fits(sum) || !fits(sum + 64);
            intermediate[m * n + c] = ((sum + 64) >> 7).clamp(lo, hi) as i64;
        }
    }
    let (values, past) = rounded_rows(t, &intermediate, n, bit_depth, r);
    Residual { intermediate, values, past_32_bits: past_32_bits || past }
}

/// Stage two over any intermediate.
pub fn stage_two(t: &[i128], intermediate: &[i64], n: usize, bit_depth: u8, r: u32) -> Vec<i64> {
    rounded_rows(t, intermediate, n, bit_depth, r).0
}

fn rounded_rows(t: &[i128], intermediate: &[i64], n: usize, bit_depth: u8, r: u32) -> (Vec<i64>, bool) {
    let s2 = r + 5 - u32::from(bit_depth);
    let half = 1i128 << (s2 - 1);
    let mut past_32_bits = false;
    let mut values = vec![0i64; n * n];
    for m in 0..n {
        for j in 0..n {
            let mut sum = 0;
            for c in 0..n {
                sum += t[c * n + j] * i128::from(intermediate[m * n + c]);
            }
            past_32_bits |= !fits(sum) || !fits(sum + half);
            values[m * n + j] = ((sum + half) >> s2) as i64;
        }
    }
    (values, past_32_bits)
}

/// Where the oracle's 32-bit sums can overflow: docs/DIFFERENCES.md, first entry.
pub fn oracle_can_overflow(n: usize, bit_depth: u8, extended_precision: bool) -> bool {
    extended_precision && ((n == 32 && bit_depth >= 15) || (n == 16 && bit_depth == 16))
}
