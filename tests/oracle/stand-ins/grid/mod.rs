//! Stand-in for grid/mod.rs: the algo.rs of the crate, and iterators that its text lacks.
mod algo;
pub use algo::{direction_for_neighbor, neighbor_rotations};
use crate::CellIndex;
pub struct DiskDistancesSafe;
impl DiskDistancesSafe { pub fn new(_: CellIndex, _: u32) -> Self { panic!("stand-in: disk") } }
impl Iterator for DiskDistancesSafe { type Item = (CellIndex, u32); fn next(&mut self) -> Option<Self::Item> { panic!() } }
pub struct DiskDistancesUnsafe;
impl DiskDistancesUnsafe { pub fn new(_: CellIndex, _: u32) -> Self { panic!("stand-in: disk") } }
impl Iterator for DiskDistancesUnsafe { type Item = Option<(CellIndex, u32)>; fn next(&mut self) -> Option<Self::Item> { panic!() } }
pub struct RingUnsafe;
impl RingUnsafe { pub fn new(_: CellIndex, _: u32) -> Option<Self> { panic!("stand-in: ring") } }
impl Iterator for RingUnsafe { type Item = Option<CellIndex>; fn next(&mut self) -> Option<Self::Item> { panic!() } }
