//! From levels to coefficients and back, transform skip, and the block tools of the range extensions.
use crate::{ffi, told, Kind, Refusal};

/// A scaling list: 64 entries in row order at every size, and the DC number, which sizes 16 and 32 use.
#[derive(Clone, Copy, Debug, PartialEq, Eq)]
pub struct List<'a> {
    /// The entries; a slice of another length is refused.
    pub entries: &'a [u8],
    /// The factor at index 0 of a block of size 16 or 32.
    pub dc: u8,
}

/// How a block is scaled.
#[derive(Clone, Copy, Debug, PartialEq, Eq)]
pub struct Scaling<'a> {
    /// The block's size: 4, 8, 16 or 32.
    pub n: usize,
    /// QP', not QP ([`crate::qp_prime`]); any number, limited to `0 .. 51 + 6 * (depth - 8)`.
    pub qp_prime: i32,
    /// The bit depth, 8 to 16.
    pub depth: u8,
    /// Extended precision.
    pub extended: bool,
    /// The list in force, if one is.
    pub list: Option<List<'a>>,
}

/// A level scaled.
#[derive(Clone, Copy, Debug, PartialEq, Eq)]
pub struct ScaledLevel {
    /// Its coefficient.
    pub coefficient: i32,
    /// The level lay outside the coefficient range.
    pub level_limited: bool,
    /// The result of the limited level did.
    pub result_limited: bool,
}

/// How residuals are accumulated after the skip shift.
#[derive(Clone, Copy, Debug, PartialEq, Eq)]
#[allow(missing_docs)]
pub enum Accumulate {
    None,
    AlongRows,
    DownColumns,
}

impl Accumulate {
    fn number(self) -> u8 {
        self as u8
    }
}

/// The two widths of an output: `i32`, and `i16` at depths 8 and 9 without extended precision.
pub trait Element: Copy + private::Calls {}

impl Element for i32 {}
impl Element for i16 {}

mod private {
    use crate::ffi;

    type Flat<E> = unsafe extern "C" fn(*const i32, usize, usize, i32, u8, bool, *mut E, usize) -> ffi::CountAnswered;
    type Listed<E> = unsafe extern "C" fn(*const i32, usize, usize, i32, u8, bool, *const u8, usize, u8, *mut E, usize) -> ffi::CountAnswered;
    type Numbered<E> = unsafe extern "C" fn(*const u8, usize, usize, usize, *const i32, usize, usize, i32, u8, bool, *mut E, usize) -> ffi::CountAnswered;

    /// The functions of one width.
    pub trait Calls: Sized {
        const SCALE: (Flat<Self>, Listed<Self>, Numbered<Self>);
        const SKIP: (Flat<Self>, Listed<Self>, Numbered<Self>);
    }

    impl Calls for i32 {
        const SCALE: (Flat<i32>, Listed<i32>, Numbered<i32>) =
            (ffi::residual_dequantize_into_scalar_i32, ffi::residual_dequantize_scaled_into_scalar_i32, ffi::residual_dequantize_by_number_i32);
        const SKIP: (Flat<i32>, Listed<i32>, Numbered<i32>) = (
            ffi::residual_dequantize_transform_skip_into_scalar_i32,
            ffi::residual_dequantize_transform_skip_scaled_into_scalar_i32,
            ffi::residual_dequantize_transform_skip_by_number_i32,
        );
    }

    impl Calls for i16 {
        const SCALE: (Flat<i16>, Listed<i16>, Numbered<i16>) =
            (ffi::residual_dequantize_into_scalar_i16, ffi::residual_dequantize_scaled_into_scalar_i16, ffi::residual_dequantize_by_number_i16);
        const SKIP: (Flat<i16>, Listed<i16>, Numbered<i16>) = (
            ffi::residual_dequantize_transform_skip_into_scalar_i16,
            ffi::residual_dequantize_transform_skip_scaled_into_scalar_i16,
            ffi::residual_dequantize_transform_skip_by_number_i16,
        );
    }
}

impl List<'_> {
    /// m at an index of a block of size `n`.
    ///
    /// ```
    /// let list = foxentu::List { entries: &[20; 64], dc: 30 };
    /// assert_eq!((list.factor(16, 0), list.factor(16, 1), list.factor(8, 0)), (Ok(30), Ok(20), Ok(20)));
    /// ```
    pub fn factor(&self, n: usize, index: usize) -> Result<u32, Refusal> {
        told!(unsafe { ffi::residual_scaling_coeff(self.entries.as_ptr(), self.entries.len(), self.dc, n, index) }).map(|a| a.value)
    }
}

impl Scaling<'_> {
    /// The coefficients of a block of levels. Answers how many were limited: their level or the result lay outside the coefficient range.
    pub fn scale<E: Element>(&self, levels: &[i32], out: &mut [E]) -> Result<u16, Refusal> {
        let (flat, listed, _) = E::SCALE;
        self.call(flat, listed, levels, out)
    }

    /// The residual of a transform-skip block. A list is used at every size; that a block above size 4 has none is the caller's choice.
    /// Answers how many coefficients were limited, before the skip shift.
    pub fn transform_skip<E: Element>(&self, levels: &[i32], out: &mut [E]) -> Result<u16, Refusal> {
        let (flat, listed, _) = E::SKIP;
        self.call(flat, listed, levels, out)
    }

    #[allow(clippy::type_complexity)]
    fn call<E>(
        &self,
        flat: unsafe extern "C" fn(*const i32, usize, usize, i32, u8, bool, *mut E, usize) -> ffi::CountAnswered,
        listed: unsafe extern "C" fn(*const i32, usize, usize, i32, u8, bool, *const u8, usize, u8, *mut E, usize) -> ffi::CountAnswered,
        levels: &[i32],
        out: &mut [E],
    ) -> Result<u16, Refusal> {
        let (at, len, to, room) = (levels.as_ptr(), levels.len(), out.as_mut_ptr(), out.len());
        told!(match self.list {
            None => unsafe { flat(at, len, self.n, self.qp_prime, self.depth, self.extended, to, room) },
            Some(l) => unsafe { listed(at, len, self.n, self.qp_prime, self.depth, self.extended, l.entries.as_ptr(), l.entries.len(), l.dc, to, room) },
        })
        .map(|a| a.limited)
    }

    /// The same by the list that a stream of a table holds under a number, in place of `list`.
    pub(crate) fn scale_by_number<E: Element>(&self, table: &[u8], stream: usize, number: usize, levels: &[i32], out: &mut [E], skip: bool) -> Result<u16, Refusal> {
        let (_, _, numbered) = if skip { E::SKIP } else { E::SCALE };
        let (at, len, to, room) = (levels.as_ptr(), levels.len(), out.as_mut_ptr(), out.len());
        told!(unsafe { numbered(table.as_ptr(), table.len(), stream, number, at, len, self.n, self.qp_prime, self.depth, self.extended, to, room) }).map(|a| a.limited)
    }

    /// The residual of a transform-skip block, rotated (at size 4 alone) and accumulated. Answers how many coefficients were limited.
    pub fn transform_skip_with(&self, rotate: bool, accumulate: Accumulate, levels: &[i32], out: &mut [i32]) -> Result<u16, Refusal> {
        let (at, len, to, room, way) = (levels.as_ptr(), levels.len(), out.as_mut_ptr(), out.len(), accumulate.number());
        told!(match self.list {
            None => unsafe { ffi::residual_transform_skip_residual(at, len, self.n, self.qp_prime, self.depth, self.extended, rotate, way, to, room) },
            Some(l) => unsafe {
                ffi::residual_transform_skip_scaled_residual(at, len, self.n, self.qp_prime, self.depth, self.extended, l.entries.as_ptr(), l.entries.len(), l.dc, rotate, way, to, room)
            },
        })
        .map(|a| a.limited)
    }

    /// For each coefficient the level of least size that scales to it.
    ///
    /// ```
    /// use foxentu::{Refusal, Scaling};
    /// let scaling = Scaling { n: 4, qp_prime: 4, depth: 8, extended: false, list: None };
    /// let mut coefficients = [0; 16];
    /// coefficients[1] = -96;
    /// let mut levels = [0; 16];
    /// scaling.find_levels(&coefficients, &mut levels).unwrap();
    /// assert_eq!(levels[1], -3);
    /// coefficients[6] = 1;
    /// assert_eq!(scaling.find_levels(&coefficients, &mut levels), Err(Refusal::LevelMissing { row: 1, column: 2 }));
    /// ```
    pub fn find_levels(&self, coefficients: &[i32], levels: &mut [i32]) -> Result<(), Refusal> {
        let (at, len, to, room) = (coefficients.as_ptr(), coefficients.len(), levels.as_mut_ptr(), levels.len());
        told!(match self.list {
            None => unsafe { ffi::residual_find_levels(at, len, self.n, self.qp_prime, self.depth, self.extended, to, room) },
            Some(l) => unsafe { ffi::residual_find_levels_scaled(at, len, self.n, self.qp_prime, self.depth, self.extended, l.entries.as_ptr(), l.entries.len(), l.dc, to, room) },
        })
        .map(|_| ())
    }

    /// For each index the least and the most level with which that one level, in place of its own, gives `target` at every sample whose byte in `wanted` is other
    /// than 0; 1 and 0 where there is none. Every level between the two does so, and no other of the coefficient range.
    pub fn find_level_edits(&self, kind: Kind, levels: &[i32], target: &[i32], wanted: &[u8], least: &mut [i32], most: &mut [i32]) -> Result<(), Refusal> {
        let (dst, at, len, to, room) = (kind == Kind::Dst, levels.as_ptr(), levels.len(), most.as_mut_ptr(), most.len());
        let (from, count, by, flags, first, places) = (target.as_ptr(), target.len(), wanted.as_ptr(), wanted.len(), least.as_mut_ptr(), least.len());
        told!(match self.list {
            None => unsafe { ffi::residual_find_level_edits(dst, self.n, self.qp_prime, self.depth, self.extended, at, len, from, count, by, flags, first, places, to, room) },
            Some(l) => unsafe {
                ffi::residual_find_level_edits_scaled(
                    dst, self.n, self.qp_prime, self.depth, self.extended, l.entries.as_ptr(), l.entries.len(), l.dc, at, len, from, count, by, flags, first, places, to, room,
                )
            },
        })
        .map(|_| ())
    }

    /// One level with the factor m.
    pub fn scale_level(&self, level: i32, m: u8) -> Result<ScaledLevel, Refusal> {
        told!(unsafe { ffi::residual_scale_level(level, m, self.n, self.qp_prime, self.depth, self.extended) }).map(|a| ScaledLevel {
            coefficient: a.value,
            level_limited: a.level_limited,
            result_limited: a.result_limited,
        })
    }
}

/// The bypass: the levels are the residual, rotated (at size 4 alone) and accumulated. One outside the coefficient range is refused.
pub fn bypass(n: usize, depth: u8, extended: bool, rotate: bool, accumulate: Accumulate, levels: &[i32], out: &mut [i32]) -> Result<(), Refusal> {
    told!(unsafe { ffi::residual_bypass_residual(levels.as_ptr(), levels.len(), n, depth, extended, rotate, accumulate.number(), out.as_mut_ptr(), out.len()) }).map(|_| ())
}
