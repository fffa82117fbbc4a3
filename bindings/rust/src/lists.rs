//! Scaling lists: read from the bitstream, written back, and held by number for two streams.
use crate::{ffi, told, Element, List, Refusal, Scaling};

/// The default lists that reader and writer are lent, each 64 entries in row order.
#[derive(Clone, Copy, Debug)]
pub struct Defaults<'a> {
    /// That of 4 x 4, of which 16 entries mean something (Table 7-5).
    pub four: &'a [u8],
    /// Those of the other sizes for matrixId 0 to 2 (Table 7-6).
    pub intra: &'a [u8],
    /// And for matrixId 3 to 5.
    pub inter: &'a [u8],
}

/// Tables 7-5 and 7-6 of H.265, in row order.
pub const DEFAULTS: Defaults<'static> = Defaults {
    four: &[16; 64],
    intra: &[
        16, 16, 16, 16, 17, 18, 21, 24, 16, 16, 16, 16, 17, 19, 22, 25, 16, 16, 17, 18, 20, 22, 25, 29, 16, 16, 18, 21, 24, 27, 31, 36, //
        17, 17, 20, 24, 30, 35, 41, 47, 18, 19, 22, 27, 35, 44, 54, 65, 21, 22, 25, 31, 41, 54, 70, 88, 24, 25, 29, 36, 47, 65, 88, 115,
    ],
    inter: &[
        16, 16, 16, 16, 17, 18, 20, 24, 16, 16, 16, 17, 18, 20, 24, 25, 16, 16, 17, 18, 20, 24, 25, 28, 16, 17, 18, 20, 24, 25, 28, 33, //
        17, 18, 20, 24, 25, 28, 33, 41, 18, 20, 24, 25, 28, 33, 41, 54, 20, 24, 25, 28, 33, 41, 54, 71, 24, 25, 28, 33, 41, 54, 71, 91,
    ],
};

/// The 20 lists: six each of 4 x 4, 8 x 8 and 16 x 16, and matrixId 0 and 3 of 32 x 32.
#[derive(Clone, Debug, PartialEq, Eq)]
pub struct ScalingLists {
    entries: Vec<u8>,
    dcs: Vec<u8>,
}

impl ScalingLists {
    /// 20 lists of 64 entries, one after the other, with their DC numbers; what is too short is refused where it is written.
    pub fn new(entries: Vec<u8>, dcs: Vec<u8>) -> ScalingLists {
        ScalingLists { entries, dcs }
    }

    /// List `j`, 0 to 19, in the order of the bitstream.
    pub fn list(&self, j: usize) -> Option<List<'_>> {
        Some(List { entries: self.entries.get(64 * j..64 * j + 64)?, dc: *self.dcs.get(j)? })
    }
}

/// Reads scaling list data (H.265, clause 7.3.4) from the high bit of the first byte on: the lists, and how many bits were read.
///
/// ```
/// use foxentu::{read_scaling_lists, write_scaling_lists, DEFAULTS};
/// // twenty times the default, two bits each
/// let (lists, bits) = read_scaling_lists(&[0x55; 5], DEFAULTS).unwrap();
/// assert_eq!((bits, lists.list(6).unwrap().entries), (40, DEFAULTS.intra));
/// assert_eq!(write_scaling_lists(&lists, DEFAULTS).unwrap(), (vec![0x55; 5], 40));
/// ```
pub fn read_scaling_lists(bytes: &[u8], defaults: Defaults<'_>) -> Result<(ScalingLists, usize), Refusal> {
    let mut lists = ScalingLists { entries: vec![0; 1280], dcs: vec![0; 20] };
    let Defaults { four, intra, inter } = defaults;
    let read = told!(unsafe {
        ffi::residual_read_scaling_lists(
            bytes.as_ptr(),
            bytes.len(),
            four.as_ptr(),
            four.len(),
            intra.as_ptr(),
            intra.len(),
            inter.as_ptr(),
            inter.len(),
            lists.entries.as_mut_ptr(),
            lists.entries.len(),
            lists.dcs.as_mut_ptr(),
            lists.dcs.len(),
        )
    })?;
    Ok((lists, read.bits))
}

/// Writes the lists back as they are read: the bytes, and how many of their bits are in use.
pub fn write_scaling_lists(lists: &ScalingLists, defaults: Defaults<'_>) -> Result<(Vec<u8>, usize), Refusal> {
    let mut out = vec![0; 2765];
    let Defaults { four, intra, inter } = defaults;
    let written = told!(unsafe {
        ffi::residual_write_scaling_lists(
            lists.entries.as_ptr(),
            lists.entries.len(),
            lists.dcs.as_ptr(),
            lists.dcs.len(),
            four.as_ptr(),
            four.len(),
            intra.as_ptr(),
            intra.len(),
            inter.as_ptr(),
            inter.len(),
            out.as_mut_ptr(),
            out.len(),
        )
    })?;
    out.truncate((written.bits + 7) / 8);
    Ok((out, written.bits))
}

/// Lists of two streams, 0 and 1, each under its own numbers 0 to 11; the calls of one stream change nothing for the other.
///
/// ```
/// use foxentu::{List, ListTable, Refusal};
/// let mut table = ListTable::new();
/// assert_eq!(table.store(1, List { entries: &[20; 64], dc: 30 }), Ok(0));
/// assert_eq!(table.get(1, 0).unwrap(), ([20; 64], 30));
/// assert_eq!(table.get(0, 0), Err(Refusal::ListMissing));
/// ```
#[derive(Clone, Debug)]
pub struct ListTable {
    bytes: Vec<u8>,
}

impl Default for ListTable {
    fn default() -> ListTable {
        ListTable::new()
    }
}

impl ListTable {
    /// An empty table.
    pub fn new() -> ListTable {
        ListTable { bytes: vec![0; 1584] }
    }

    /// Stores a list under the lowest free number of its stream, which it hands back.
    pub fn store(&mut self, stream: usize, list: List<'_>) -> Result<usize, Refusal> {
        told!(unsafe { ffi::residual_store_list(self.bytes.as_mut_ptr(), self.bytes.len(), stream, list.entries.as_ptr(), list.entries.len(), list.dc) }).map(|a| a.stored)
    }

    /// Frees a number.
    pub fn drop_list(&mut self, stream: usize, number: usize) -> Result<(), Refusal> {
        told!(unsafe { ffi::residual_drop_list(self.bytes.as_mut_ptr(), self.bytes.len(), stream, number) }).map(|_| ())
    }

    /// The entries and DC stored under a number.
    pub fn get(&self, stream: usize, number: usize) -> Result<([u8; 64], u8), Refusal> {
        let mut entries = [0; 64];
        let dc = told!(unsafe { ffi::residual_list_at(self.bytes.as_ptr(), self.bytes.len(), stream, number, entries.as_mut_ptr(), entries.len()) })?;
        Ok((entries, dc.value as u8))
    }

    /// A block scaled by the list under a number, which stands in place of the scaling's own.
    pub fn scale<E: Element>(&self, stream: usize, number: usize, scaling: &Scaling<'_>, levels: &[i32], out: &mut [E]) -> Result<u16, Refusal> {
        scaling.scale_by_number(&self.bytes, stream, number, levels, out, false)
    }

    /// The residual of a transform-skip block by it.
    pub fn transform_skip<E: Element>(&self, stream: usize, number: usize, scaling: &Scaling<'_>, levels: &[i32], out: &mut [E]) -> Result<u16, Refusal> {
        scaling.scale_by_number(&self.bytes, stream, number, levels, out, true)
    }
}
