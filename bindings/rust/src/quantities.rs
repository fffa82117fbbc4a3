//! The range R, QP and QP', the numbers by which a block is scaled, and the rounding bound.
use crate::{ffi, told, Kind, Refusal};

/// The range R: coefficients lie in -2^R .. 2^R - 1.
pub fn coefficient_range(depth: u8, extended: bool) -> Result<u32, Refusal> {
    told!(unsafe { ffi::residual_max_log2_transform_dynamic_range(depth, extended) }).map(|a| a.value)
}

/// What QP' is above QP.
pub fn qp_bd_offset(depth: u8) -> Result<u32, Refusal> {
    told!(unsafe { ffi::residual_qp_bd_offset(depth) }).map(|a| a.value)
}

/// QP' of a QP: `qp + 6 * (depth - 8)`, limited to `0 .. 51 + 6 * (depth - 8)`.
///
/// ```
/// assert_eq!(foxentu::qp_prime(30, 10), Ok(42));
/// assert_eq!(foxentu::qp_prime(60, 10), Ok(63));
/// ```
pub fn qp_prime(qp: i32, depth: u8) -> Result<i32, Refusal> {
    told!(unsafe { ffi::residual_qp_prime(qp, depth) }).map(|a| a.value)
}

/// The numbers by which a block without a list is scaled: `(level * factor + add) >> shift`, limited to `clip_min ..= clip_max`.
#[derive(Clone, Copy, Debug, PartialEq, Eq)]
#[allow(missing_docs)]
pub struct DequantParams {
    pub factor: i64,
    pub add: i64,
    pub shift: u32,
    pub clip_min: i64,
    pub clip_max: i64,
}

/// The same, and the rounding and shift of transform skip after it; a negative shift is one to the left.
#[derive(Clone, Copy, Debug, PartialEq, Eq)]
#[allow(missing_docs)]
pub struct TransformSkipParams {
    pub dequant: DequantParams,
    pub tr_add: i32,
    pub tr_shift: i32,
}

/// The numbers by which a block of size `n` is scaled.
pub fn dequant_params(n: usize, qp_prime: i32, depth: u8, extended: bool) -> Result<DequantParams, Refusal> {
    let a = told!(unsafe { ffi::residual_dequant_params(n, qp_prime, depth, extended) })?;
    Ok(DequantParams { factor: a.factor, add: a.add, shift: a.shift, clip_min: a.clip_min, clip_max: a.clip_max })
}

/// The numbers of a transform-skip block.
pub fn transform_skip_params(n: usize, qp_prime: i32, depth: u8, extended: bool) -> Result<TransformSkipParams, Refusal> {
    let a = told!(unsafe { ffi::residual_transform_skip_params(n, qp_prime, depth, extended) })?;
    let dequant = DequantParams { factor: a.factor, add: a.add, shift: a.shift, clip_min: a.clip_min, clip_max: a.clip_max };
    Ok(TransformSkipParams { dequant, tr_add: a.tr_add, tr_shift: a.tr_shift })
}

/// By how much `2^(7 + s2)` times a residual may differ from the exact product of its coefficients, where no stage-one value was limited.
///
/// ```
/// use foxentu::Kind;
/// assert_eq!(foxentu::rounding_bound(Kind::Dct, 4, 8, false), Ok(277952));
/// ```
pub fn rounding_bound(kind: Kind, n: usize, depth: u8, extended: bool) -> Result<u32, Refusal> {
    told!(unsafe { ffi::residual_rounding_bound(kind.is_dst(), n, depth, extended) }).map(|a| a.value)
}
