//! The door to what lib.rs, unchanged, keeps inside the crate: functions of `h3o::Boundary`, which
//! it exports. Points are (i, j, k). What the Rust cannot take panics here.
use super::Boundary;
use crate::{
    BaseCell, CellIndex, CoordIJ, Direction, Face, Resolution,
    coord::{CoordIJK, FaceIJK, Vec3d},
    grid,
    index::bits,
};

type Point = (i32, i32, i32);
fn ijk(p: Point) -> CoordIJK { CoordIJK::new(p.0, p.1, p.2) }
fn point(c: CoordIJK) -> Point { (c.i(), c.j(), c.k()) }
fn dir(d: u8) -> Direction { Direction::try_from(d).expect("direction") }
fn res(r: u8) -> Resolution { Resolution::try_from(r).expect("resolution") }
fn base(b: u8) -> BaseCell { BaseCell::try_from(b).expect("base cell") }

impl Boundary {
    // index/bits.rs
    pub fn rotate60(ccw: bool, bits: u64, count: usize) -> u64 {
        if ccw { bits::rotate60::<true>(bits, count) } else { bits::rotate60::<false>(bits, count) }
    }
    pub fn pentagon_rotate60(ccw: bool, bits: u64) -> u64 {
        if ccw { bits::pentagon_rotate60::<true>(bits) } else { bits::pentagon_rotate60::<false>(bits) }
    }
    pub fn first_axe(bits: u64) -> u8 { bits::first_axe(bits).map_or(0, |v| v.get()) }

    // direction.rs
    pub fn unit(d: u8) -> Point { point(dir(d).coordinate()) }
    pub fn direction_rotate60(ccw: bool, d: u8, count: usize) -> u8 {
        if ccw { dir(d).rotate60::<true>(count) } else { dir(d).rotate60::<false>(count) }.into()
    }
    pub fn direction_rotate60_once(ccw: bool, d: u8) -> u8 {
        if ccw { dir(d).rotate60_once::<true>() } else { dir(d).rotate60_once::<false>() }.into()
    }

    // coord/ijk.rs
    pub fn normalize(p: Point) -> Point { point(ijk(p).normalize()) }
    pub fn distance(p: Point, q: Point) -> i32 { ijk(p).distance(&ijk(q)) }
    pub fn down_aperture7(ccw: bool, p: Point) -> Point {
        point(if ccw { ijk(p).down_aperture7::<true>() } else { ijk(p).down_aperture7::<false>() })
    }
    pub fn down_aperture3(ccw: bool, p: Point) -> Point {
        point(if ccw { ijk(p).down_aperture3::<true>() } else { ijk(p).down_aperture3::<false>() })
    }
    pub fn point_rotate60(ccw: bool, p: Point) -> Point {
        point(if ccw { ijk(p).rotate60::<true>() } else { ijk(p).rotate60::<false>() })
    }
    pub fn up_aperture7(ccw: bool, p: Point) -> Point {
        point(if ccw { ijk(p).up_aperture7::<true>() } else { ijk(p).up_aperture7::<false>() })
    }
    pub fn to_ij(p: Point) -> (i32, i32) { let c = CoordIJ::from(&ijk(p)); (c.i, c.j) }
    pub fn from_ij(i: i32, j: i32) -> Option<Point> { CoordIJK::try_from(CoordIJ::new(i, j)).ok().map(point) }
    pub fn direction_of(p: Point) -> Option<u8> { Direction::try_from(ijk(p)).ok().map(u8::from) }
    pub fn neighbor(p: Point, d: u8) -> Point { point(ijk(p).neighbor(dir(d))) }

    /// Centre of the used digits (coord/faceijk.rs): base cell 2 lies at 0,0,0 of its face.
    pub fn centre(c: CellIndex) -> Point { point(FaceIJK::from_bits(c.into(), c.resolution(), base(2)).0.coord) }
    /// Digits read off finest first (coord/localij.rs), as a cell of base cell 0, and the point
    /// that is left at the top.
    pub fn read_back(length: u8, p: Point) -> Option<(u64, Point)> {
        let mut b = bits::set_resolution(0x0800_1fff_ffff_ffff, res(length));
        Vec3d::digits_from_ijk(ijk(p), &mut b, res(length)).map(|c| (b, point(c)))
    }

    /// grid/algo.rs: the neighbour and the rotations.
    pub fn neighbor_rotations(c: CellIndex, d: u8, rotations: u8) -> Option<(CellIndex, u8)> {
        grid::neighbor_rotations(c, dir(d), rotations)
    }

    // base_cell.rs
    pub fn base_neighbor(b: u8, d: u8) -> Option<u8> { base(b).neighbor(dir(d)).map(u8::from) }
    pub fn base_rotation(b: u8, d: u8) -> u8 { base(b).neighbor_rotation(dir(d)) }
    pub fn base_home_face(b: u8) -> u8 { FaceIJK::from(base(b)).face.into() }
    pub fn base_is_cw_offset(b: u8, face: u8) -> bool { base(b).is_cw_offset(Face::new_unchecked(face.into())) }
}
