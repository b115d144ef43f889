use crate::coord::CoordIJK;
use core::ops::Index;
#[derive(Clone, Copy, Debug, Default, Eq, PartialEq)]
pub struct Face(u8);
impl Face {
    pub(crate) const fn new_unchecked(v: usize) -> Self { assert!(v < 20); Self(v as u8) }
}
impl From<Face> for usize { fn from(f: Face) -> usize { f.0 as usize } }
impl From<Face> for u8 { fn from(f: Face) -> u8 { f.0 } }
pub struct FaceSet;
impl FaceSet { pub fn new() -> Self { Self } pub fn insert(&mut self, _: Face) { panic!("stand-in: FaceSet") } }
#[derive(Clone, Copy)]
pub struct FaceOrientIJK { pub face: Face, pub translate: CoordIJK, pub ccw_rot60: u8 }
pub const IJ: usize = 1;
pub const KI: usize = 2;
pub const JK: usize = 3;
pub struct Missing;
impl Index<usize> for Missing {
    type Output = [FaceOrientIJK; 4];
    fn index(&self, _: usize) -> &[FaceOrientIJK; 4] { panic!("stand-in: face::NEIGHBORS is not in the text") }
}
pub static NEIGHBORS: Missing = Missing;
