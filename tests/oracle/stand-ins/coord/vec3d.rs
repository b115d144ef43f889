use super::{CoordIJK, LatLng, Vec2d};
use crate::{CellIndex, ExtendedResolution, Face, Resolution};
#[derive(Clone, Copy, Debug, PartialEq)]
pub struct Vec3d;
impl Vec3d {
    pub fn norm(&self) -> f64 { panic!("stand-in: Vec3d") }
    pub fn closest_face(&self) -> (Face, f64) { panic!("stand-in: Vec3d") }
    pub fn from_vec2d(_: Vec2d, _: Face, _: ExtendedResolution, _: bool) -> Self { panic!("stand-in: Vec3d") }
    /// The only way out of module `coord` for the door to reach the crate's
    /// `localij::checked_directions_bits_from_ijk`.
    pub fn digits_from_ijk(ijk: CoordIJK, bits: &mut u64, res: Resolution) -> Option<CoordIJK> {
        super::localij::checked_directions_bits_from_ijk(ijk, bits, res)
    }
}
impl From<CellIndex> for Vec3d { fn from(_: CellIndex) -> Self { panic!("stand-in: Vec3d") } }
impl From<Vec3d> for LatLng { fn from(_: Vec3d) -> Self { panic!("stand-in: Vec3d") } }
