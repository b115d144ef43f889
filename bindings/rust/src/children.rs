use crate::{child_at, list_into, sys, Refusal};
use std::iter::FusedIterator;

/// A cursor before a descendant of a cell, or after the last: five words to be kept and copied.
///
/// ```
/// use rivetgnome::{Cursor, Refusal};
/// let mut cursor = Cursor::new(0x8009fffffffffff, 1)?;
/// assert_eq!(cursor.left, 6);
/// assert_eq!(cursor.next_child(), Ok(Some(0x81083ffffffffff)));
/// while cursor.next_child()?.is_some() {}
/// assert_eq!(cursor.next_child(), Ok(None));
/// # Ok::<(), Refusal>(())
/// ```
#[repr(C)]
#[derive(Clone, Copy, Debug, PartialEq, Eq, Hash)]
pub struct Cursor {
    /// The resolution of the cell.
    pub own: u64,
    /// The resolution of its descendants.
    pub target: u64,
    /// The next descendant; the last one when none is left.
    pub number: u64,
    /// Under a pentagon the resolution whose digit 1 is skipped next, else -1.
    pub skip: i64,
    /// How many are left.
    pub left: u64,
}

impl Cursor {
    /// A cursor before the first descendant.
    ///
    /// # Errors
    /// As [`crate::children_count`].
    pub fn new(cell: u64, resolution: u32) -> Result<Self, Refusal> {
        let mut cursor = Self {
            own: 0,
            target: 0,
            number: 0,
            skip: 0,
            left: 0,
        };
        sys::rg_cursor(cell, resolution, &mut cursor).answered()?;
        Ok(cursor)
    }

    /// The next descendant, and the cursor moves behind it; `None` where none is left, now and later.
    ///
    /// # Errors
    /// [`Refusal::Position`] where the library cannot have made this cursor, which then stays as it was.
    pub fn next_child(&mut self) -> Result<Option<u64>, Refusal> {
        let child = sys::rg_next(self).answered()?.value;
        Ok((child != 0).then_some(child))
    }
}

/// The descendants of a cell, ascending, made by [`children`].
#[derive(Clone, Debug)]
pub struct Children {
    cell: u64,
    /// The resolution whose cells are listed one after the other, the next of them, and the target.
    middle: u32,
    next: u64,
    target: u32,
    block: Vec<u64>,
    /// What of the block was given out, and what is left in all.
    given: usize,
    left: u64,
}

/// The most resolutions that a block spans, and its room: 7^4.
const SPAN: u32 = 4;
const ROOM: u64 = 2_401;

/// An iterator over the descendants at a resolution, of any count, ascending. It lists one block at a time, the
/// descendants of one cell in between: at most 2,401 cells are held.
///
/// ```
/// use rivetgnome::{child_at, children, Refusal};
/// let cells: Vec<u64> = children(0x8009fffffffffff, 1)?.collect();
/// assert_eq!(cells.len(), 6);
/// assert_eq!(children(0x8009fffffffffff, 15)?.len(), 3_956_301_258_286);
/// let last = child_at(0x8009fffffffffff, 98_041 - 1, 6)?;
/// assert_eq!(children(0x8009fffffffffff, 6)?.last(), Some(last));
/// # Ok::<(), Refusal>(())
/// ```
///
/// # Errors
/// As [`crate::children_count`].
pub fn children(cell: u64, resolution: u32) -> Result<Children, Refusal> {
    let cursor = Cursor::new(cell, resolution)?;
    let own = cursor.own as u32;
    Ok(Children {
        cell,
        middle: own.max(resolution.saturating_sub(SPAN)),
        next: 0,
        target: resolution,
        block: Vec::new(),
        given: 0,
        left: cursor.left,
    })
}

impl Children {
    fn list_next(&mut self) -> Result<(), Refusal> {
        let part = child_at(self.cell, self.next, self.middle)?;
        self.block.resize(ROOM.min(self.left) as usize, 0);
        let count = list_into(part, self.target, &mut self.block)?;
        self.block.truncate(count);
        self.next += 1;
        self.given = 0;
        Ok(())
    }
}

impl Iterator for Children {
    type Item = u64;

    fn next(&mut self) -> Option<u64> {
        if self.left == 0 {
            return None;
        }
        if self.given == self.block.len() {
            self.list_next().expect("a part of the cell");
        }
        let child = self.block[self.given];
        self.given += 1;
        self.left -= 1;
        Some(child)
    }

    fn size_hint(&self) -> (usize, Option<usize>) {
        (self.left as usize, Some(self.left as usize))
    }
}

impl ExactSizeIterator for Children {}
impl FusedIterator for Children {}
