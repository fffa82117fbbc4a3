//! Which edits of one coefficient give the wanted samples of a block's residual, and which coefficient makes one sample of it.
use crate::{ffi, told, Kind, Refusal};

/// For each index the least and the most value with which that one coefficient, in place of its own, gives `target` at every sample whose byte in `wanted` is other
/// than 0; 1 and 0 where there is none. Every value between the two does so, and no other of the coefficient range.
///
/// ```
/// use foxentu::{find_edits, inverse_transform, Kind};
/// let (mut coefficients, mut target) = ([0; 16], [0; 16]);
/// coefficients[0] = 640;
/// inverse_transform(Kind::Dct, 4, 8, false, 4, &coefficients, &mut target).unwrap();
/// coefficients[0] = 0;
/// let (mut least, mut most) = ([0; 16], [0; 16]);
/// find_edits(Kind::Dct, 4, 8, false, &coefficients, &target, &[1; 16], &mut least, &mut most).unwrap();
/// assert!(least[0] <= 640 && 640 <= most[0]);
/// assert!((1..16).all(|i| (least[i], most[i]) == (1, 0)));
/// ```
#[allow(clippy::too_many_arguments)]
pub fn find_edits(
    kind: Kind,
    n: usize,
    depth: u8,
    extended: bool,
    coefficients: &[i32],
    target: &[i32],
    wanted: &[u8],
    least: &mut [i32],
    most: &mut [i32],
) -> Result<(), Refusal> {
    told!(unsafe {
        ffi::residual_find_edits(
            kind == Kind::Dst,
            n,
            depth,
            extended,
            coefficients.as_ptr(),
            coefficients.len(),
            target.as_ptr(),
            target.len(),
            wanted.as_ptr(),
            wanted.len(),
            least.as_mut_ptr(),
            least.len(),
            most.as_mut_ptr(),
            most.len(),
        )
    })
    .map(|_| ())
}

/// `T(k, row) * T(c, column) * coefficient (k, c)` for every row `k` and column `c` of a block, at `k * n + c`: what each coefficient adds to the sample at `row` and
/// `column` before any rounding. Their sum is the exact product, from which `2^(7 + s2)` times the residual there differs by at most
/// [`rounding_bound`](crate::rounding_bound), where no stage-one value was limited. The coefficients may be any.
///
/// ```
/// use foxentu::{contributions, Kind};
/// let (mut coefficients, mut shares) = ([0; 16], [0; 16]);
/// coefficients[0] = 64;
/// coefficients[5] = -100;
/// contributions(Kind::Dct, 4, 0, 3, &coefficients, &mut shares).unwrap();
/// assert_eq!((shares[0], shares[5], shares[1]), (64 * 64 * 64, 83 * 83 * 100, 0));
/// ```
pub fn contributions(kind: Kind, n: usize, row: usize, column: usize, coefficients: &[i32], out: &mut [i64]) -> Result<(), Refusal> {
    told!(unsafe { ffi::residual_contributions(kind.is_dst(), n, row, column, coefficients.as_ptr(), coefficients.len(), out.as_mut_ptr(), out.len()) }).map(|_| ())
}
