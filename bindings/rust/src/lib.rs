//! The residual path of H.265, from quantized levels to residual samples, 8 to 16 bits, with the range extensions, over an archive in which every function is
//! proved to meet its contract.
//!
//! Slices go in and `Result` comes out; what is refused, and with which row of the table, is [`Refusal`]. No call panics, allocates or keeps state, but where a type
//! here owns buffers, and [`feed_text`] and [`listing_text`] their text. A block of size `n` has `n * n` elements, row by row, and a slice may be longer: what lies past the block is never changed.
//!
//! ```
//! use foxentu::{EditedBlock, Kind, Scaling};
//!
//! # fn main() -> Result<(), foxentu::Refusal> {
//! // a level of 2 at the top left of a 4 x 4 block, at QP' 4 and depth 8
//! let scaling = Scaling { n: 4, qp_prime: 4, depth: 8, extended: false, list: None };
//! let mut levels = [0; 16];
//! levels[0] = 2;
//! let mut coefficients = [0; 16];
//! scaling.scale(&levels, &mut coefficients)?;
//! assert_eq!(coefficients[0], 64);
//!
//! let mut block = EditedBlock::open(Kind::Dct, 4, 8, false, &coefficients)?;
//! assert_eq!(block.residual(), [1; 16]);
//! block.edit(0, 1, 100)?;
//! assert_eq!(block.residual()[..4], [2, 1, 0, -1]);
//! block.undo();
//! assert_eq!(block.residual(), [1; 16]);
//! # Ok(())
//! # }
//! ```
//!
//! Calls share no state, so any number of threads may call at once. [`ffi`] has the C declarations as they are.
#![warn(missing_docs)]

#[allow(missing_docs)]
pub mod ffi;

mod edited;
mod feed;
mod lists;
mod picture;
mod quantities;
mod refusal;
mod scaling;
mod search;
mod transform;

pub use edited::{EditedBlock, LevelLimited};
pub use feed::{feed_text, listing_text};
pub use lists::{read_scaling_lists, write_scaling_lists, Defaults, ListTable, ScalingLists, DEFAULTS};
pub use picture::{Block, Picture};
pub use quantities::{coefficient_range, dequant_params, qp_bd_offset, qp_prime, rounding_bound, transform_skip_params, DequantParams, TransformSkipParams};
pub use refusal::Refusal;
pub(crate) use refusal::told;
pub use scaling::{bypass, Accumulate, Element, List, ScaledLevel, Scaling};
pub use search::{contributions, find_edits};
pub use transform::{inverse_transform, inverse_transform_16, refresh_residual};

/// The version of the headers that this crate was written for.
pub const VERSION: &str = env!("CARGO_PKG_VERSION");

/// The version of the archive: 10,000 times the first number, 100 times the second, and the third.
///
/// ```
/// let numbers: Vec<u32> = foxentu::VERSION.split('.').map(|part| part.parse().unwrap()).collect();
/// assert_eq!(foxentu::archive_version(), numbers[0] * 10_000 + numbers[1] * 100 + numbers[2]);
/// ```
pub fn archive_version() -> u32 {
    unsafe { ffi::residual_version() }
}

/// Which transform a block has.
#[derive(Clone, Copy, Debug, PartialEq, Eq)]
pub enum Kind {
    /// The cosine transform, at every size.
    Dct,
    /// The sine transform, at size 4.
    Dst,
}

impl Kind {
    pub(crate) fn is_dst(self) -> bool {
        self == Kind::Dst
    }
}
