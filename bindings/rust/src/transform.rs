//! From coefficients to the residual.
use crate::{ffi, told, Kind, Refusal};

/// The inverse transform of a block; a DCT reads columns from `columns` on as zero, and the DST, which has size 4, reads all.
///
/// ```
/// use foxentu::{inverse_transform, Kind};
/// let mut coefficients = [0; 16];
/// coefficients[0] = 63;
/// let mut residual = [0; 16];
/// inverse_transform(Kind::Dct, 4, 8, false, 4, &coefficients, &mut residual).unwrap();
/// assert_eq!(residual, [1; 16]);
/// ```
pub fn inverse_transform(kind: Kind, n: usize, depth: u8, extended: bool, columns: usize, coefficients: &[i32], out: &mut [i32]) -> Result<(), Refusal> {
    let (at, len, to, room) = (coefficients.as_ptr(), coefficients.len(), out.as_mut_ptr(), out.len());
    let answer = unsafe {
        match (kind, extended) {
            (Kind::Dct, false) => ffi::residual_inv_transform_into_scalar(at, len, n, depth, columns, to, room),
            (Kind::Dct, true) => ffi::residual_inv_transform_into_scalar_extended(at, len, n, depth, columns, to, room),
            (Kind::Dst, _) if n != 4 => return Err(Refusal::DstSizeInvalid),
            (Kind::Dst, false) => ffi::residual_inv_transform_dst_into_scalar(at, len, depth, to, room),
            (Kind::Dst, true) => ffi::residual_inv_transform_dst_into_scalar_extended(at, len, depth, to, room),
        }
    };
    told!(answer).map(|_| ())
}

/// The same with 16-bit coefficients and output, at depths 8 and 9.
pub fn inverse_transform_16(kind: Kind, n: usize, depth: u8, columns: usize, coefficients: &[i16], out: &mut [i16]) -> Result<(), Refusal> {
    let (at, len, to, room) = (coefficients.as_ptr(), coefficients.len(), out.as_mut_ptr(), out.len());
    let answer = unsafe {
        match kind {
            Kind::Dct => ffi::residual_inv_transform_into_scalar16(at, len, n, depth, columns, to, room),
            Kind::Dst if n != 4 => return Err(Refusal::DstSizeInvalid),
            Kind::Dst => ffi::residual_inv_transform_dst_into_scalar16(at, len, depth, to, room),
        }
    };
    told!(answer).map(|_| ())
}

/// The residual of an intermediate alone.
pub fn refresh_residual(kind: Kind, n: usize, depth: u8, extended: bool, intermediate: &[i32], out: &mut [i32]) -> Result<(), Refusal> {
    told!(unsafe { ffi::residual_refresh_residual(kind.is_dst(), n, depth, extended, intermediate.as_ptr(), intermediate.len(), out.as_mut_ptr(), out.len()) }).map(|_| ())
}
