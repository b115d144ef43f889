use crate::{sys, Refusal};

/// [`crate::check`] of each number of a block: `values[n]` is `cells[n]` and `refusals[n]` is 0 where it is a cell, else
/// `values[n]` is 0 and `refusals[n]` the number of its [`Refusal`]. Answers how many there are. Later elements
/// stay as they were.
///
/// ```
/// use rivetgnome::{check_block, Refusal};
/// let (mut values, mut refusals) = ([0; 4], [0; 4]);
/// assert_eq!(check_block(&[0x80f3fffffffffff, 0], &mut values, &mut refusals), Ok(2));
/// assert_eq!(values[..2], [0x80f3fffffffffff, 0]);
/// assert_eq!(refusals[..2], [0, Refusal::Mode.number()]);
/// ```
///
/// # Errors
/// [`Refusal::NoRoom`] where `values` or `refusals` is shorter than the block, and nothing else; then no element is
/// written.
pub fn check_block(cells: &[u64], values: &mut [u64], refusals: &mut [u16]) -> Result<usize, Refusal> {
    Ok(sys::rg_check_block(cells, values, refusals).answered()?.value as usize)
}

/// [`crate::parent`] of each number of a block at one resolution: `values[n]` is the ancestor and `refusals[n]` is 0, or
/// `values[n]` is 0 and `refusals[n]` the number of the [`Refusal`]. Answers how many there are. Later elements
/// stay as they were.
///
/// ```
/// use rivetgnome::{parent_block, Refusal};
/// let (mut values, mut refusals) = ([0; 2], [0; 2]);
/// assert_eq!(parent_block(&[0x8a1fb46622dffff, 0x8009fffffffffff], 5, &mut values, &mut refusals), Ok(2));
/// assert_eq!(values, [0x851fb467fffffff, 0]);
/// assert_eq!(refusals, [0, Refusal::Order.number()]);
/// ```
///
/// # Errors
/// As [`check_block`].
pub fn parent_block(cells: &[u64], resolution: u32, values: &mut [u64], refusals: &mut [u16]) -> Result<usize, Refusal> {
    Ok(sys::rg_ancestor_block(cells, resolution, values, refusals).answered()?.value as usize)
}

/// [`crate::child_position`] of each number of a block under one ancestor: `values[n]` is the position and `refusals[n]` is
/// 0, or `values[n]` is 0 and `refusals[n]` the number of the [`Refusal`]; an ancestor that is no cell is refused at
/// each. Answers how many there are. Later elements stay as they were.
///
/// ```
/// use rivetgnome::{child_position_block, Refusal};
/// let (mut values, mut refusals) = ([0; 2], [0; 2]);
/// let cells = [0x8a1fb46622dffff, 0x8009fffffffffff];
/// assert_eq!(child_position_block(0x881fb46623fffff, &cells, &mut values, &mut refusals), Ok(2));
/// assert_eq!(values, [24, 0]);
/// assert_eq!(refusals, [0, Refusal::NotUnder.number()]);
/// assert_eq!(child_position_block(0x881fb46623fffff, &cells, &mut values[..1], &mut refusals), Err(Refusal::NoRoom));
/// ```
///
/// # Errors
/// As [`check_block`].
pub fn child_position_block(ancestor: u64, cells: &[u64], values: &mut [u64], refusals: &mut [u16]) -> Result<usize, Refusal> {
    Ok(sys::rg_position_block(ancestor, cells, values, refusals).answered()?.value as usize)
}
