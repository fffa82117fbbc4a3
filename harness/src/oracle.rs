//! The ported Rust, compiled from its source as it stands but for the lines that pick vector code, which `harness/build` leaves out.
//! Built twice: with overflow checks and debug assertions off, and with both on.
//! Nothing here may be inlined into the harness, whose own flags would then decide about overflow.
#[path = "transform_cut.rs"]
#[allow(dead_code, unused)]
mod transform;

/// The numbers of `DequantParams` and, for transform skip, its shift and rounding.
#[derive(Clone, Copy, PartialEq, Eq, Debug)]
pub struct Params {
    pub factor: i64,
    pub add: i64,
    pub shift: i32,
    pub clip_min: i64,
    pub clip_max: i64,
    pub tr_add: i32,
    pub tr_shift: i32,
}

#[inline(never)]
pub fn max_log2_transform_dynamic_range(bit_depth: u8, extended_precision: bool) -> i32 {
    transform::max_log2_transform_dynamic_range(bit_depth, extended_precision)
}

#[inline(never)]
pub fn dequant_params(n: usize, qp_prime: i32, bit_depth: u8, extended_precision: bool) -> Params {
    let p = transform::dequant_params(n, qp_prime, bit_depth, extended_precision);
    Params {
        factor: p.factor,
        add: p.add,
        shift: p.shift,
        clip_min: p.clip_min,
        clip_max: p.clip_max,
        tr_add: 0,
        tr_shift: 0,
    }
}

#[inline(never)]
pub fn transform_skip_params(n: usize, qp_prime: i32, bit_depth: u8, extended_precision: bool) -> Params {
    let p = transform::transform_skip_params(n, qp_prime, bit_depth, extended_precision);
    Params {
        factor: p.dequant.factor,
        add: p.dequant.add,
        shift: p.dequant.shift,
        clip_min: p.dequant.clip_min,
        clip_max: p.dequant.clip_max,
        tr_add: p.tr_add,
        tr_shift: p.tr_shift,
    }
}

/// The scalar code does not read the largest factor, which served the vector code.
fn matrix(list: &[u8; 64], dc: u8, n: usize) -> transform::ScalingMatrix<'_> {
    transform::ScalingMatrix::new_with_max(list, dc, n, false, 255)
}

#[inline(never)]
pub fn scaling_coeff(list: &[u8; 64], dc: u8, n: usize, index: usize) -> i64 {
    matrix(list, dc, n).coeff(index)
}

macro_rules! scaling {
    ($name:ident, $params:ident, $out:ty) => {
        #[inline(never)]
        pub fn $name(levels: &[i32], n: usize, qp_prime: i32, bit_depth: u8, extended_precision: bool, _list: &[u8; 64], _dc: u8, out: &mut [$out]) {
            let params = transform::$params(n, qp_prime, bit_depth, extended_precision);
            transform::$name(levels, n, params, 0, out)
        }
    };
}

macro_rules! scaling_listed {
    ($name:ident, $params:ident, $out:ty) => {
        #[inline(never)]
        pub fn $name(levels: &[i32], n: usize, qp_prime: i32, bit_depth: u8, extended_precision: bool, list: &[u8; 64], dc: u8, out: &mut [$out]) {
            let params = transform::$params(n, qp_prime, bit_depth, extended_precision);
            transform::$name(levels, n, params, matrix(list, dc, n), 0, out)
        }
    };
}

scaling!(dequantize_into_scalar_i32, dequant_params, i32);
scaling!(dequantize_into_scalar_i16, dequant_params, i16);
scaling!(dequantize_transform_skip_into_scalar_i32, transform_skip_params, i32);
scaling!(dequantize_transform_skip_into_scalar_i16, transform_skip_params, i16);
scaling_listed!(dequantize_scaled_into_scalar_i32, dequant_params, i32);
scaling_listed!(dequantize_scaled_into_scalar_i16, dequant_params, i16);
scaling_listed!(dequantize_transform_skip_scaled_into_scalar_i32, transform_skip_params, i32);
scaling_listed!(dequantize_transform_skip_scaled_into_scalar_i16, transform_skip_params, i16);

macro_rules! dct {
    ($name:ident, $element:ty) => {
        #[inline(never)]
        pub fn $name(coeff: &[$element], n: usize, bit_depth: u8, nx: usize, out: &mut [$element]) {
            transform::$name(coeff, n, bit_depth, nx, out)
        }
    };
}

macro_rules! dst {
    ($name:ident, $element:ty) => {
        #[inline(never)]
        pub fn $name(coeff: &[$element], _n: usize, bit_depth: u8, _nx: usize, out: &mut [$element]) {
            transform::$name(coeff, bit_depth, out)
        }
    };
}

dct!(inv_transform_into_scalar, i32);
dct!(inv_transform_into_scalar_extended, i32);
dct!(inv_transform_into_scalar16, i16);
dst!(inv_transform_dst_into_scalar, i32);
dst!(inv_transform_dst_into_scalar_extended, i32);
dst!(inv_transform_dst_into_scalar16, i16);
