//! A block that is opened once and then changed one value at a time.
use crate::{ffi, told, Kind, Refusal, Scaling};

/// A block that owns its buffers and can undo: opened on coefficients and edited by them, or opened on levels and edited by those.
///
/// After any edits intermediate and residual are what a fresh opening would give; the coefficients of a block opened on levels are always the scaling of its levels.
///
/// ```
/// use foxentu::{EditedBlock, Kind, LevelLimited, Refusal, Scaling};
/// let mut block = EditedBlock::open(Kind::Dct, 4, 8, false, &[0; 16])?;
/// block.edit(0, 0, 63)?;
/// assert_eq!((block.residual(), block.columns()), (&[1; 16][..], 1));
/// assert_eq!(block.edit(4, 0, 1), Err(Refusal::PlaceOutside));
/// assert_eq!(block.edit(2, 3, 40_000), Err(Refusal::CoefficientAbove { row: 2, column: 3 }));
/// assert!(block.undo());
/// assert_eq!((block.residual(), block.columns()), (&[0; 16][..], 0));
/// assert!(block.redo());
/// assert_eq!(block.edits().collect::<Vec<_>>(), [(0, 0, 63)]);
///
/// let scaling = Scaling { n: 4, qp_prime: 4, depth: 8, extended: false, list: None };
/// let mut block = EditedBlock::open_levels(Kind::Dct, &scaling, &[0; 16])?;
/// assert_eq!(block.edit_level(0, 0, 2)?, LevelLimited { level: false, result: false });
/// assert_eq!((block.levels()[0], block.coefficients()[0], block.residual()), (2, 64, &[1; 16][..]));
/// assert_eq!(block.edit(0, 0, 63), Err(Refusal::WayMismatched));
/// # Ok::<(), Refusal>(())
/// ```
#[derive(Clone, Debug)]
pub struct EditedBlock {
    record: ffi::Block,
    limited: u16,
    levels: Vec<i32>,
    coefficients: Vec<i32>,
    intermediate: Vec<i32>,
    residual: Vec<i32>,
    done: Vec<Change>,
    undone: Vec<Change>,
}

/// What a level edit limited to the coefficient range.
#[derive(Clone, Copy, Debug, Default, PartialEq, Eq)]
pub struct LevelLimited {
    /// The level lay outside it.
    pub level: bool,
    /// The result of the limited level did.
    pub result: bool,
}

#[derive(Clone, Copy, Debug)]
struct Change {
    row: usize,
    column: usize,
    before: i32,
    after: i32,
}

fn cells(n: usize) -> usize {
    // the call itself refuses another size
    if n <= 32 {
        n * n
    } else {
        0
    }
}

impl EditedBlock {
    /// Opens a block on the first n * n of the coefficients.
    pub fn open(kind: Kind, n: usize, depth: u8, extended: bool, coefficients: &[i32]) -> Result<EditedBlock, Refusal> {
        let mut block = EditedBlock::room(n, Vec::new(), coefficients[..cells(n).min(coefficients.len())].to_vec());
        let (at, len, inter, inter_len, to, room) = block.buffers();
        block.record = told!(unsafe { ffi::residual_open_block(kind.is_dst(), n, depth, extended, at, len, inter, inter_len, to, room) })?.block;
        Ok(block)
    }

    /// Opens a block on the first n * n of the levels.
    pub fn open_levels(kind: Kind, scaling: &Scaling<'_>, levels: &[i32]) -> Result<EditedBlock, Refusal> {
        let Scaling { n, qp_prime, depth, extended, list } = *scaling;
        let mut block = EditedBlock::room(n, levels[..cells(n).min(levels.len())].to_vec(), vec![0; cells(n)]);
        let (from, count) = (block.levels.as_ptr(), block.levels.len());
        let (at, len, inter, inter_len, to, room) = block.buffers();
        let opened = told!(match list {
            None => unsafe { ffi::residual_open_levels(kind.is_dst(), n, depth, extended, qp_prime, from, count, at, len, inter, inter_len, to, room) },
            Some(l) => unsafe {
                ffi::residual_open_levels_scaled(
                    kind.is_dst(), n, depth, extended, qp_prime, l.entries.as_ptr(), l.entries.len(), l.dc, from, count, at, len, inter, inter_len, to, room,
                )
            },
        })?;
        (block.record, block.limited) = (opened.block, opened.limited);
        Ok(block)
    }

    fn room(n: usize, levels: Vec<i32>, coefficients: Vec<i32>) -> EditedBlock {
        let (intermediate, residual) = (vec![0; cells(n)], vec![0; cells(n)]);
        EditedBlock { record: ffi::Block::default(), limited: 0, levels, coefficients, intermediate, residual, done: Vec::new(), undone: Vec::new() }
    }

    /// Coefficients, intermediate and residual as the calls take them.
    fn buffers(&mut self) -> (*mut i32, usize, *mut i32, usize, *mut i32, usize) {
        (
            self.coefficients.as_mut_ptr(),
            self.coefficients.len(),
            self.intermediate.as_mut_ptr(),
            self.intermediate.len(),
            self.residual.as_mut_ptr(),
            self.residual.len(),
        )
    }

    /// Puts one coefficient of a block opened on coefficients. A refused edit changes nothing.
    pub fn edit(&mut self, row: usize, column: usize, value: i32) -> Result<(), Refusal> {
        self.change(row, column, value, false).map(|_| ())
    }

    /// Puts one level of a block opened on levels, and says what of it was limited; any level is accepted.
    pub fn edit_level(&mut self, row: usize, column: usize, level: i32) -> Result<LevelLimited, Refusal> {
        self.change(row, column, level, true)
    }

    fn change(&mut self, row: usize, column: usize, value: i32, of_level: bool) -> Result<LevelLimited, Refusal> {
        let held = if self.record.levels { &self.levels } else { &self.coefficients };
        let inside = row < self.n() && column < self.n();
        let before = if inside { held[row * self.n() + column] } else { 0 };
        let limited = self.put(row, column, value, of_level)?;
        self.done.push(Change { row, column, before, after: value });
        self.undone.clear();
        Ok(limited)
    }

    /// Takes the last edit back; false where there is none.
    pub fn undo(&mut self) -> bool {
        let Some(change) = self.done.pop() else { return false };
        // what stood there was accepted once, so it is accepted again
        let put = self.put(change.row, change.column, change.before, self.record.levels);
        debug_assert!(put.is_ok());
        self.undone.push(change);
        true
    }

    /// Makes the edit again that was taken back last; false where there is none.
    pub fn redo(&mut self) -> bool {
        let Some(change) = self.undone.pop() else { return false };
        let put = self.put(change.row, change.column, change.after, self.record.levels);
        debug_assert!(put.is_ok());
        self.done.push(change);
        true
    }

    fn put(&mut self, row: usize, column: usize, value: i32, of_level: bool) -> Result<LevelLimited, Refusal> {
        let (record, from, count) = (self.record, self.levels.as_mut_ptr(), self.levels.len());
        let (at, len, inter, inter_len, to, room) = self.buffers();
        if of_level {
            let edited = told!(unsafe { ffi::residual_edit_level(record, from, count, at, len, inter, inter_len, to, room, row, column, value) })?;
            self.record = edited.block;
            return Ok(LevelLimited { level: edited.level_limited, result: edited.result_limited });
        }
        self.record = told!(unsafe { ffi::residual_edit(record, at, len, inter, inter_len, to, room, row, column, value) })?.block;
        Ok(LevelLimited::default())
    }

    /// The block's size.
    pub fn n(&self) -> usize {
        self.record.size
    }

    /// One past the last column that has a coefficient other than zero.
    pub fn columns(&self) -> usize {
        self.record.columns
    }

    /// How many coefficients an opening on levels limited; 0 for one on coefficients.
    pub fn limited(&self) -> u16 {
        self.limited
    }

    /// The levels, with the edits in them; none where the block was opened on coefficients.
    pub fn levels(&self) -> &[i32] {
        &self.levels
    }

    /// The coefficients, with the edits in them.
    pub fn coefficients(&self) -> &[i32] {
        &self.coefficients
    }

    /// The values between the two stages.
    pub fn intermediate(&self) -> &[i32] {
        &self.intermediate
    }

    /// The residual.
    pub fn residual(&self) -> &[i32] {
        &self.residual
    }

    /// The edits made and not taken back: row, column and value.
    pub fn edits(&self) -> impl Iterator<Item = (usize, usize, i32)> + '_ {
        self.done.iter().map(|c| (c.row, c.column, c.after))
    }
}
