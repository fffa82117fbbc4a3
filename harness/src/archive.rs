//! The archive of `c_api_c`, by the declarations of the crate in bindings/rust, which are those of the headers. A slice is a pointer and a length.
//! A group of functions is left out (`cfg`) where the archive does not have it yet; `harness/build` looks.

#[path = "../../bindings/rust/src/ffi.rs"]
#[allow(dead_code)]
mod ffi;

pub use ffi::{Answered, CountAnswered, DequantAnswered, LevelAnswered, NumberAnswered, SignedAnswered, TransformSkipAnswered};

pub fn max_log2_transform_dynamic_range(bit_depth: u8, extended_precision: bool) -> NumberAnswered {
    unsafe { ffi::residual_max_log2_transform_dynamic_range(bit_depth, extended_precision) }
}

pub fn qp_bd_offset(bit_depth: u8) -> NumberAnswered {
    unsafe { ffi::residual_qp_bd_offset(bit_depth) }
}

pub fn qp_prime(qp: i32, bit_depth: u8) -> SignedAnswered {
    unsafe { ffi::residual_qp_prime(qp, bit_depth) }
}

pub fn dequant_params(n: usize, qp_prime: i32, bit_depth: u8, extended_precision: bool) -> DequantAnswered {
    unsafe { ffi::residual_dequant_params(n, qp_prime, bit_depth, extended_precision) }
}

pub fn transform_skip_params(n: usize, qp_prime: i32, bit_depth: u8, extended_precision: bool) -> TransformSkipAnswered {
    unsafe { ffi::residual_transform_skip_params(n, qp_prime, bit_depth, extended_precision) }
}

#[cfg(has_scaling)]
pub mod scaling {
    use super::ffi::*;

    pub fn scaling_coeff(list: &[u8], dc: u8, n: usize, index: usize) -> NumberAnswered {
        unsafe { residual_scaling_coeff(list.as_ptr(), list.len(), dc, n, index) }
    }

    pub fn scale_level(level: i32, m: u8, n: usize, qp_prime: i32, bit_depth: u8, extended_precision: bool) -> LevelAnswered {
        unsafe { residual_scale_level(level, m, n, qp_prime, bit_depth, extended_precision) }
    }

    /// An exported function of blocks. A call goes straight to it: a wrapper between would copy the arguments on the stack once more, two to a vector register, and
    /// that waits for their stores and takes a fifth of the time of a 4×4 block.
    pub enum Blocks<E: 'static> {
        Flat(unsafe extern "C" fn(*const i32, usize, usize, i32, u8, bool, *mut E, usize) -> CountAnswered),
        Listed(unsafe extern "C" fn(*const i32, usize, usize, i32, u8, bool, *const u8, usize, u8, *mut E, usize) -> CountAnswered),
    }

    impl<E> Blocks<E> {
        #[inline(always)]
        pub fn call(&self, levels: &[i32], n: usize, qp_prime: i32, bit_depth: u8, extended_precision: bool, list: &[u8], dc: u8, out: &mut [E]) -> CountAnswered {
            match self {
                Blocks::Flat(linked) => unsafe { linked(levels.as_ptr(), levels.len(), n, qp_prime, bit_depth, extended_precision, out.as_mut_ptr(), out.len()) },
                Blocks::Listed(linked) => unsafe { linked(levels.as_ptr(), levels.len(), n, qp_prime, bit_depth, extended_precision, list.as_ptr(), list.len(), dc, out.as_mut_ptr(), out.len()) },
            }
        }
    }

    macro_rules! flat {
        ($name:ident, $linked:ident, $out:ty) => {
            #[allow(non_upper_case_globals)]
            pub const $name: Blocks<$out> = Blocks::Flat($linked);
        };
    }

    macro_rules! listed {
        ($name:ident, $linked:ident, $out:ty) => {
            #[allow(non_upper_case_globals)]
            pub const $name: Blocks<$out> = Blocks::Listed($linked);
        };
    }

    flat!(dequantize_into_scalar_i32, residual_dequantize_into_scalar_i32, i32);
    flat!(dequantize_into_scalar_i16, residual_dequantize_into_scalar_i16, i16);
    flat!(dequantize_transform_skip_into_scalar_i32, residual_dequantize_transform_skip_into_scalar_i32, i32);
    flat!(dequantize_transform_skip_into_scalar_i16, residual_dequantize_transform_skip_into_scalar_i16, i16);
    listed!(dequantize_scaled_into_scalar_i32, residual_dequantize_scaled_into_scalar_i32, i32);
    listed!(dequantize_scaled_into_scalar_i16, residual_dequantize_scaled_into_scalar_i16, i16);
    listed!(dequantize_transform_skip_scaled_into_scalar_i32, residual_dequantize_transform_skip_scaled_into_scalar_i32, i32);
    listed!(dequantize_transform_skip_scaled_into_scalar_i16, residual_dequantize_transform_skip_scaled_into_scalar_i16, i16);
}

#[cfg(has_transform)]
pub mod transform {
    use super::ffi::*;

    /// An exported inverse transform; a call goes straight to it, as for `scaling::Blocks`.
    pub enum Inverse<E: 'static> {
        Dct(unsafe extern "C" fn(*const E, usize, usize, u8, usize, *mut E, usize) -> Answered),
        Dst(unsafe extern "C" fn(*const E, usize, u8, *mut E, usize) -> Answered),
    }

    impl<E> Inverse<E> {
        #[inline(always)]
        pub fn call(&self, coeff: &[E], n: usize, bit_depth: u8, nx: usize, out: &mut [E]) -> Answered {
            match self {
                Inverse::Dct(linked) => unsafe { linked(coeff.as_ptr(), coeff.len(), n, bit_depth, nx, out.as_mut_ptr(), out.len()) },
                Inverse::Dst(linked) => unsafe { linked(coeff.as_ptr(), coeff.len(), bit_depth, out.as_mut_ptr(), out.len()) },
            }
        }
    }

    macro_rules! dct {
        ($name:ident, $linked:ident, $element:ty) => {
            #[allow(non_upper_case_globals)]
            pub const $name: Inverse<$element> = Inverse::Dct($linked);
        };
    }

    macro_rules! dst {
        ($name:ident, $linked:ident, $element:ty) => {
            #[allow(non_upper_case_globals)]
            pub const $name: Inverse<$element> = Inverse::Dst($linked);
        };
    }

    dct!(inv_transform_into_scalar, residual_inv_transform_into_scalar, i32);
    dct!(inv_transform_into_scalar_extended, residual_inv_transform_into_scalar_extended, i32);
    dct!(inv_transform_into_scalar16, residual_inv_transform_into_scalar16, i16);
    dst!(inv_transform_dst_into_scalar, residual_inv_transform_dst_into_scalar, i32);
    dst!(inv_transform_dst_into_scalar_extended, residual_inv_transform_dst_into_scalar_extended, i32);
    dst!(inv_transform_dst_into_scalar16, residual_inv_transform_dst_into_scalar16, i16);
}

#[cfg(has_edits)]
pub mod edits {
    use super::ffi::*;
    pub use super::ffi::{Block, BlockAnswered, LevelEditAnswered, ListAnswered};

    /// What an opening gets beside the buffers.
    #[derive(Clone, Copy)]
    pub struct Form {
        pub dst: bool,
        pub n: usize,
        pub bit_depth: u8,
        pub extended: bool,
    }

    /// The four buffers of a block.
    pub struct Held<'a> {
        pub levels: &'a mut [i32],
        pub coeff: &'a mut [i32],
        pub inter: &'a mut [i32],
        pub residual: &'a mut [i32],
    }

    /// A list of edits, and the slices for its answers.
    pub struct List<'a> {
        pub rows: &'a [usize],
        pub columns: &'a [usize],
        pub values: &'a [i32],
        pub ways: &'a [bool],
        pub numbers: &'a mut [u8],
        pub named: &'a mut [u8],
        pub across: &'a mut [u8],
        pub limits: &'a mut [u8],
    }

    pub fn refresh_residual(dst: bool, n: usize, bit_depth: u8, extended_precision: bool, inter: &[i32], residual: &mut [i32]) -> Answered {
        unsafe { residual_refresh_residual(dst, n, bit_depth, extended_precision, inter.as_ptr(), inter.len(), residual.as_mut_ptr(), residual.len()) }
    }

    pub fn open_block(f: Form, coeff: &[i32], inter: &mut [i32], residual: &mut [i32]) -> BlockAnswered {
        unsafe { residual_open_block(f.dst, f.n, f.bit_depth, f.extended, coeff.as_ptr(), coeff.len(), inter.as_mut_ptr(), inter.len(), residual.as_mut_ptr(), residual.len()) }
    }

    pub fn edit(block: Block, coeff: &mut [i32], inter: &mut [i32], residual: &mut [i32], row: usize, column: usize, value: i32) -> BlockAnswered {
        unsafe { residual_edit(block, coeff.as_mut_ptr(), coeff.len(), inter.as_mut_ptr(), inter.len(), residual.as_mut_ptr(), residual.len(), row, column, value) }
    }

    /// A call with the four buffers, between what stands before them and after them.
    macro_rules! call {
        ($name:ident, $h:expr, ($($before:expr),*), ($($after:expr),*)) => {
            unsafe { $name($($before,)* $h.levels.as_mut_ptr(), $h.levels.len(), $h.coeff.as_mut_ptr(), $h.coeff.len(), $h.inter.as_mut_ptr(), $h.inter.len(), $h.residual.as_mut_ptr(), $h.residual.len(), $($after),*) }
        };
    }

    macro_rules! call_list {
        ($name:ident, $h:expr, $l:expr, ($($before:expr),*)) => {
            call!($name, $h, ($($before),*), (
                $l.rows.as_ptr(), $l.rows.len(), $l.columns.as_ptr(), $l.columns.len(), $l.values.as_ptr(), $l.values.len(), $l.ways.as_ptr(), $l.ways.len(),
                $l.numbers.as_mut_ptr(), $l.numbers.len(), $l.named.as_mut_ptr(), $l.named.len(), $l.across.as_mut_ptr(), $l.across.len(), $l.limits.as_mut_ptr(), $l.limits.len()))
        };
    }

    pub fn open_levels(f: Form, qp_prime: i32, h: Held) -> BlockAnswered {
        call!(residual_open_levels, h, (f.dst, f.n, f.bit_depth, f.extended, qp_prime), ())
    }

    pub fn open_levels_scaled(f: Form, qp_prime: i32, list: &[u8], dc: u8, h: Held) -> BlockAnswered {
        call!(residual_open_levels_scaled, h, (f.dst, f.n, f.bit_depth, f.extended, qp_prime, list.as_ptr(), list.len(), dc), ())
    }

    pub fn edit_level(block: Block, h: Held, row: usize, column: usize, level: i32) -> LevelEditAnswered {
        call!(residual_edit_level, h, (block), (row, column, level))
    }

    pub fn open_and_edit(f: Form, h: Held, l: List) -> ListAnswered {
        call_list!(residual_open_and_edit, h, l, (f.dst, f.n, f.bit_depth, f.extended))
    }

    pub fn open_levels_and_edit(f: Form, qp_prime: i32, h: Held, l: List) -> ListAnswered {
        call_list!(residual_open_levels_and_edit, h, l, (f.dst, f.n, f.bit_depth, f.extended, qp_prime))
    }

    pub fn open_levels_scaled_and_edit(f: Form, qp_prime: i32, list: &[u8], dc: u8, h: Held, l: List) -> ListAnswered {
        call_list!(residual_open_levels_scaled_and_edit, h, l, (f.dst, f.n, f.bit_depth, f.extended, qp_prime, list.as_ptr(), list.len(), dc))
    }
}

#[cfg(has_picture)]
pub mod picture {
    use super::ffi::*;

    pub fn rebuild_block(n: usize, bit_depth: u8, residual: &[i32], prediction: &[u16], width: usize, height: usize, stride: usize, x: usize, y: usize, plane: &mut [u16]) -> Answered {
        let a = unsafe {
            picture_rebuild_block(
                n, bit_depth, residual.as_ptr(), residual.len(), prediction.as_ptr(), prediction.len(), width, height, stride, x, y, plane.as_mut_ptr(), plane.len(),
            )
        };
        Answered { number: a.number, row: a.row, column: a.column, place: a.place }
    }

    pub fn checksum(width: usize, height: usize, stride: usize, bit_depth: u8, plane: &[u16]) -> NumberAnswered {
        let a = unsafe { picture_checksum(width, height, stride, bit_depth, plane.as_ptr(), plane.len()) };
        NumberAnswered { number: a.number, row: a.row, column: a.column, place: a.place, value: a.value }
    }
}

#[cfg(has_lists)]
pub mod lists {
    pub use super::ffi::BitsAnswered;
    use super::ffi::*;

    pub fn read_scaling_lists(bytes: &[u8], four: &[u8], intra: &[u8], inter: &[u8], lists: &mut [u8], dcs: &mut [u8]) -> BitsAnswered {
        unsafe {
            residual_read_scaling_lists(
                bytes.as_ptr(), bytes.len(), four.as_ptr(), four.len(), intra.as_ptr(), intra.len(), inter.as_ptr(), inter.len(), lists.as_mut_ptr(), lists.len(), dcs.as_mut_ptr(), dcs.len(),
            )
        }
    }

    #[cfg(has_writer)]
    pub fn write_scaling_lists(lists: &[u8], dcs: &[u8], four: &[u8], intra: &[u8], inter: &[u8], out: &mut [u8]) -> BitsAnswered {
        unsafe {
            residual_write_scaling_lists(
                lists.as_ptr(), lists.len(), dcs.as_ptr(), dcs.len(), four.as_ptr(), four.len(), intra.as_ptr(), intra.len(), inter.as_ptr(), inter.len(), out.as_mut_ptr(), out.len(),
            )
        }
    }
}

#[cfg(has_rounding)]
pub mod rounding {
    use super::ffi::*;

    pub fn rounding_bound(dst: bool, n: usize, bit_depth: u8, extended_precision: bool) -> NumberAnswered {
        unsafe { residual_rounding_bound(dst, n, bit_depth, extended_precision) }
    }
}

#[cfg(has_contributions)]
pub mod contributions {
    use super::ffi::*;

    pub fn contributions(dst: bool, n: usize, row: usize, column: usize, coeff: &[i32], out: &mut [i64]) -> Answered {
        unsafe { residual_contributions(dst, n, row, column, coeff.as_ptr(), coeff.len(), out.as_mut_ptr(), out.len()) }
    }
}

#[cfg(has_tables)]
pub mod tables {
    pub use super::ffi::StoreAnswered;
    use super::ffi::*;

    pub fn store_list(table: &mut [u8], stream: usize, list: &[u8], dc: u8) -> StoreAnswered {
        unsafe { residual_store_list(table.as_mut_ptr(), table.len(), stream, list.as_ptr(), list.len(), dc) }
    }

    pub fn drop_list(table: &mut [u8], stream: usize, number: usize) -> Answered {
        unsafe { residual_drop_list(table.as_mut_ptr(), table.len(), stream, number) }
    }

    pub fn list_at(table: &[u8], stream: usize, number: usize, list: &mut [u8]) -> NumberAnswered {
        unsafe { residual_list_at(table.as_ptr(), table.len(), stream, number, list.as_mut_ptr(), list.len()) }
    }

    macro_rules! by_number {
        ($name:ident, $linked:ident, $out:ty) => {
            pub fn $name(table: &[u8], stream: usize, number: usize, levels: &[i32], n: usize, qp_prime: i32, bit_depth: u8, extended_precision: bool, out: &mut [$out]) -> CountAnswered {
                unsafe { $linked(table.as_ptr(), table.len(), stream, number, levels.as_ptr(), levels.len(), n, qp_prime, bit_depth, extended_precision, out.as_mut_ptr(), out.len()) }
            }
        };
    }

    by_number!(dequantize_i32, residual_dequantize_by_number_i32, i32);
    by_number!(dequantize_i16, residual_dequantize_by_number_i16, i16);
    by_number!(dequantize_transform_skip_i32, residual_dequantize_transform_skip_by_number_i32, i32);
    by_number!(dequantize_transform_skip_i16, residual_dequantize_transform_skip_by_number_i16, i16);
}

#[cfg(has_tools)]
pub mod tools {
    use super::ffi::*;

    pub fn transform_skip_residual(levels: &[i32], n: usize, qp_prime: i32, bit_depth: u8, extended_precision: bool, list: Option<(&[u8], u8)>, rotate: bool, accumulate: u8, out: &mut [i32]) -> CountAnswered {
        let (at, len, out_at, out_len) = (levels.as_ptr(), levels.len(), out.as_mut_ptr(), out.len());
        match list {
            None => unsafe { residual_transform_skip_residual(at, len, n, qp_prime, bit_depth, extended_precision, rotate, accumulate, out_at, out_len) },
            Some((list, dc)) => unsafe { residual_transform_skip_scaled_residual(at, len, n, qp_prime, bit_depth, extended_precision, list.as_ptr(), list.len(), dc, rotate, accumulate, out_at, out_len) },
        }
    }

    pub fn bypass_residual(levels: &[i32], n: usize, bit_depth: u8, extended_precision: bool, rotate: bool, accumulate: u8, out: &mut [i32]) -> Answered {
        unsafe { residual_bypass_residual(levels.as_ptr(), levels.len(), n, bit_depth, extended_precision, rotate, accumulate, out.as_mut_ptr(), out.len()) }
    }

    pub fn find_levels(coeff: &[i32], n: usize, qp_prime: i32, bit_depth: u8, extended_precision: bool, list: Option<(&[u8], u8)>, levels: &mut [i32]) -> Answered {
        let (at, len, levels_at, levels_len) = (coeff.as_ptr(), coeff.len(), levels.as_mut_ptr(), levels.len());
        match list {
            None => unsafe { residual_find_levels(at, len, n, qp_prime, bit_depth, extended_precision, levels_at, levels_len) },
            Some((list, dc)) => unsafe { residual_find_levels_scaled(at, len, n, qp_prime, bit_depth, extended_precision, list.as_ptr(), list.len(), dc, levels_at, levels_len) },
        }
    }
}

#[cfg(has_search)]
pub mod search {
    use super::Answered;

    unsafe extern "C" {
        fn residual_find_edits(
            dst: bool, n: usize, bit_depth: u8, extended_precision: bool, coeff: *const i32, coeff_len: usize, target: *const i32, target_len: usize, wanted: *const u8, wanted_len: usize, least: *mut i32, least_len: usize,
            most: *mut i32, most_len: usize,
        ) -> Answered;
        fn residual_find_level_edits(
            dst: bool, n: usize, qp_prime: i32, bit_depth: u8, extended_precision: bool, levels: *const i32, levels_len: usize, target: *const i32, target_len: usize, wanted: *const u8, wanted_len: usize, least: *mut i32,
            least_len: usize, most: *mut i32, most_len: usize,
        ) -> Answered;
        fn residual_find_level_edits_scaled(
            dst: bool, n: usize, qp_prime: i32, bit_depth: u8, extended_precision: bool, list: *const u8, list_len: usize, dc: u8, levels: *const i32, levels_len: usize, target: *const i32, target_len: usize, wanted: *const u8,
            wanted_len: usize, least: *mut i32, least_len: usize, most: *mut i32, most_len: usize,
        ) -> Answered;
    }

    pub fn find_edits(dst: bool, n: usize, bit_depth: u8, extended_precision: bool, coeff: &[i32], target: &[i32], wanted: &[u8], least: &mut [i32], most: &mut [i32]) -> Answered {
        let (from, count, by, flags) = (target.as_ptr(), target.len(), wanted.as_ptr(), wanted.len());
        unsafe { residual_find_edits(dst, n, bit_depth, extended_precision, coeff.as_ptr(), coeff.len(), from, count, by, flags, least.as_mut_ptr(), least.len(), most.as_mut_ptr(), most.len()) }
    }

    pub fn find_level_edits(
        dst: bool, n: usize, qp_prime: i32, bit_depth: u8, extended_precision: bool, list: Option<(&[u8], u8)>, levels: &[i32], target: &[i32], wanted: &[u8], least: &mut [i32], most: &mut [i32],
    ) -> Answered {
        let (at, len, from, count, by, flags) = (levels.as_ptr(), levels.len(), target.as_ptr(), target.len(), wanted.as_ptr(), wanted.len());
        let (first, places, last, room) = (least.as_mut_ptr(), least.len(), most.as_mut_ptr(), most.len());
        match list {
            None => unsafe { residual_find_level_edits(dst, n, qp_prime, bit_depth, extended_precision, at, len, from, count, by, flags, first, places, last, room) },
            Some((list, dc)) => unsafe {
                residual_find_level_edits_scaled(dst, n, qp_prime, bit_depth, extended_precision, list.as_ptr(), list.len(), dc, at, len, from, count, by, flags, first, places, last, room)
            },
        }
    }
}
