//! The Rust's side of the entries: raw numbers in, the same tests, the value or none.
use h3o::{Boundary, CellIndex, Resolution};

pub type Point = [i32; 3];

#[inline(always)]
pub fn cell(n: u64) -> Option<CellIndex> {
    CellIndex::try_from(n).ok()
}
#[inline(always)]
pub fn resolution(r: u32) -> Option<Resolution> {
    Resolution::try_from(u8::try_from(r).ok()?).ok()
}
#[inline(always)]
fn finer(n: u64, target: u32) -> Option<(CellIndex, Resolution)> {
    let (cell, target) = (cell(n)?, resolution(target)?);
    (target >= cell.resolution()).then_some((cell, target))
}
#[inline(always)]
pub fn check(n: u64) -> Option<u64> {
    cell(n).map(|_| 1)
}
#[inline(always)]
pub fn count(n: u64, target: u32) -> Option<u64> {
    let (cell, target) = finer(n, target)?;
    Some(cell.children_count(target))
}
#[inline(always)]
pub fn child_at(n: u64, target: u32, position: u64) -> Option<u64> {
    cell(n)?.child_at(position, resolution(target)?).map(u64::from)
}
#[inline(always)]
pub fn position(first: u64, second: u64) -> Option<u64> {
    let (first, second) = (cell(first)?, cell(second)?);
    let own = first.resolution();
    if second.parent(own) == Some(first) { second.child_position(own) } else { None }
}
#[inline(always)]
pub fn ancestor(n: u64, r: u32) -> Option<u64> {
    cell(n)?.parent(resolution(r)?).map(u64::from)
}
/// The listing into a lent block: the count, or none where it is too short.
#[inline(always)]
pub fn list(n: u64, target: u32, block: &mut [u64]) -> Option<u64> {
    let (cell, target) = finer(n, target)?;
    let count = cell.children_count(target);
    if (block.len() as u64) < count {
        return None;
    }
    for (slot, child) in block.iter_mut().zip(cell.children(target)) {
        *slot = child.into();
    }
    Some(count)
}
#[inline(always)]
pub fn turn(ccw: bool, n: u64, count: u32) -> Option<u64> {
    let cell = cell(n)?;
    (count <= 5).then(|| Boundary::rotate60(ccw, cell.into(), count as usize))
}
#[inline(always)]
pub fn pentagon_turn(ccw: bool, n: u64) -> Option<u64> {
    Some(Boundary::pentagon_rotate60(ccw, cell(n)?.into()))
}
#[inline(always)]
pub fn centre(n: u64) -> Option<Point> {
    Some(Boundary::centre(cell(n)?).into())
}
#[inline(always)]
pub fn read_back(length: u32, p: Point) -> Option<u64> {
    resolution(length)?;
    let (number, left) = Boundary::read_back(length as u8, within(p)?)?;
    (left == (0, 0, 0)).then_some(number)
}
/// The cell and the rotations, asked only where the step stays in its base cell.
#[inline(always)]
pub fn step(n: u64, direction: u32) -> Option<(u64, u64)> {
    let cell = cell(n)?;
    if !(1..=6).contains(&direction) {
        return None;
    }
    Boundary::neighbor_rotations(cell, direction as u8, 0).map(|(cell, turn)| (cell.into(), turn.into()))
}

/// A point in the entry range.
#[inline(always)]
pub fn within(p: Point) -> Option<(i32, i32, i32)> {
    p.iter().all(|c| (-100_000_000..=100_000_000).contains(c)).then_some(p.into())
}
#[inline(always)]
pub fn direction(d: u32) -> Option<u8> {
    (d <= 6).then_some(d as u8)
}
