//! Samples rebuilt into a plane, and the checksum of a decoded picture.
use crate::{ffi, told, Refusal};

/// The shape of a plane: the sample in column x and row y stands at `y * stride + x`.
#[derive(Clone, Copy, Debug, PartialEq, Eq)]
#[allow(missing_docs)]
pub struct Picture {
    pub width: usize,
    pub height: usize,
    pub stride: usize,
    pub depth: u8,
}

/// A block of a picture: its size, and where its first sample stands.
#[derive(Clone, Copy, Debug, PartialEq, Eq)]
#[allow(missing_docs)]
pub struct Block {
    pub n: usize,
    pub x: usize,
    pub y: usize,
}

impl Picture {
    /// Prediction plus residual, limited to the depth, put into the plane; every other sample stays.
    pub fn rebuild(&self, block: Block, residual: &[i32], prediction: &[u16], plane: &mut [u16]) -> Result<(), Refusal> {
        told!(unsafe {
            ffi::picture_rebuild_block(
                block.n,
                self.depth,
                residual.as_ptr(),
                residual.len(),
                prediction.as_ptr(),
                prediction.len(),
                self.width,
                self.height,
                self.stride,
                block.x,
                block.y,
                plane.as_mut_ptr(),
                plane.len(),
            )
        })
        .map(|_| ())
    }

    /// The checksum of the plane (H.265, Annex D).
    ///
    /// ```
    /// let picture = foxentu::Picture { width: 257, height: 1, stride: 257, depth: 8 };
    /// assert_eq!(picture.checksum(&[0; 257]), Ok(32_641));
    /// ```
    pub fn checksum(&self, plane: &[u16]) -> Result<u32, Refusal> {
        told!(unsafe { ffi::picture_checksum(self.width, self.height, self.stride, self.depth, plane.as_ptr(), plane.len()) }).map(|a| a.value)
    }
}
