//! Every export that takes numbers alone: its C name, its form as a line of the line program, and document 01's answer to it by the model.
use crate::model::{self, DOWN3, DOWN7, Step, TURN};
use crate::rg;
use Says::*;
use Takes::*;

/// Cell and Position have 64 bits, the others 32.
#[derive(Clone, Copy, PartialEq)]
pub enum Takes {
    Cell,
    Position,
    Resolution,
    Length,
    Direction,
    Count,
    Coordinate,
}

/// How an answer is written in a line.
#[derive(Clone, Copy)]
pub enum Says {
    Okay,
    Decimal,
    Hexadecimal,
    Truth,
    Point,
    Pair,
    Walk,
    Stepped,
}

pub type Args = [u64; 6];
/// Values that an answer does not have are 0; whole numbers in two's complement.
pub type Answer = Result<[u64; 3], u16>;

pub struct Entry {
    pub line: &'static str,
    pub takes: &'static [Takes],
    pub says: Says,
    pub ours: fn(Args) -> (u16, u16, [u64; 3]),
    pub model: fn(&Args) -> Answer,
}

trait Parts {
    fn parts(self) -> (u16, u16, [u64; 3]);
}
macro_rules! parts {
    ($($of:ident $($field:ident)*;)*) => { $(impl Parts for rg::$of {
        fn parts(self) -> (u16, u16, [u64; 3]) {
            let mut all = [0; 3];
            let fields: &[i64] = &[$(self.$field as i64),*];
            fields.iter().enumerate().for_each(|(at, f)| all[at] = *f as u64);
            (self.refusal, self.zero, all)
        }
    })* };
}
parts! {
    Checked;
    Number value;
    Point i j k;
    Pair i j;
    Walked number carry;
    Stepped kind turn cell;
}

// Six words whatever the export takes: each integer has a register of its own, whose rest is the caller's rubbish.
macro_rules! entries {
    ($($rg:ident: $answer:ident, $line:literal, $takes:expr, $says:expr, $model:expr;)*) => {
        mod c {
            #[allow(clashing_extern_declarations)]
            unsafe extern "C" {
                $(pub safe fn $rg(a: u64, b: u64, c: u64, d: u64, e: u64, f: u64) -> super::rg::$answer;)*
            }
        }
        pub const ENTRIES: &[Entry] = &[$(Entry {
            line: $line, takes: &$takes, says: $says, ours: |[a, b, c, d, e, f]| c::$rg(a, b, c, d, e, f).parts(), model: $model,
        }),*];
    };
}

pub fn cell(n: u64) -> Result<(), u16> {
    match model::check(n) {
        0 => Ok(()),
        refusal => Err(refusal),
    }
}
fn unless(wrong: bool, refusal: u16) -> Result<(), u16> {
    if wrong { Err(refusal) } else { Ok(()) }
}
pub fn finer(n: u64, target: u64) -> Result<(), u16> {
    cell(n)?;
    unless(target > 15, 8)?;
    unless(target < model::resolution(n), 9)
}
fn one(n: u64) -> Answer {
    Ok([n, 0, 0])
}
fn point(p: model::Point) -> Answer {
    Ok(p.map(|c| c as u64))
}
/// The point whose coordinates begin at `at`.
fn at(a: &Args, at: usize) -> Result<model::Point, u16> {
    let p = [0, 1, 2].map(|n| a[at + n] as i64);
    unless(model::outside(&p), 14).map(|()| p)
}
fn image(images: [[model::Point; 3]; 2], ccw: bool, a: &Args) -> Answer {
    point(model::image(images, ccw, at(a, 0)?))
}
fn turn(ccw: bool, a: &Args) -> Answer {
    unless(a[0] > 6, 13)?;
    unless(a[1] > 5, 14)?;
    one(model::turns(ccw, a[0] as i64, a[1] as i64) as u64)
}
fn cell_turn(ccw: bool, a: &Args) -> Answer {
    cell(a[0])?;
    unless(a[1] > 5, 14)?;
    one(model::turned(ccw, a[0], a[1] as u32))
}
fn pentagon_turn(ccw: bool, a: &Args) -> Answer {
    cell(a[0])?;
    one(model::pentagon_turned(ccw, a[0]))
}
fn way(a: &Args) -> Result<u32, u16> {
    cell(a[0])?;
    unless(a[1] == 0 || a[1] > 6, 13).map(|()| a[1] as u32)
}

entries! {
    rg_check: Checked, "check", [Cell], Okay, |a| cell(a[0]).map(|()| [0; 3]);
    rg_count: Number, "count", [Cell, Resolution], Decimal, |a| {
        finer(a[0], a[1])?;
        one(model::count(a[0], a[1]))
    };
    rg_child_at: Number, "childat", [Cell, Resolution, Position], Hexadecimal, |a| {
        finer(a[0], a[1])?;
        unless(a[2] >= model::count(a[0], a[1]), 11)?;
        one(model::child_at(a[0], a[1], a[2]))
    };
    rg_position: Number, "position", [Cell, Cell], Decimal, |a| {
        cell(a[0])?;
        cell(a[1])?;
        let own = model::resolution(a[0]);
        unless(own > model::resolution(a[1]) || model::ancestor(a[1], own) != a[0], 12)?;
        one(model::position(a[1], own))
    };
    rg_ancestor: Number, "ancestor", [Cell, Resolution], Hexadecimal, |a| {
        cell(a[0])?;
        unless(a[1] > 15, 8)?;
        unless(a[1] > model::resolution(a[0]), 9)?;
        one(model::ancestor(a[0], a[1]))
    };
    rg_unit: Point, "unit", [Direction], Point, |a| {
        unless(a[0] > 6, 13)?;
        point(model::unit(a[0] as i64))
    };
    rg_direction_turn_ccw: Number, "drot ccw", [Direction, Count], Decimal, |a| turn(true, a);
    rg_direction_turn_cw: Number, "drot cw", [Direction, Count], Decimal, |a| turn(false, a);
    rg_normalise: Point, "normalise", [Coordinate; 3], Point, |a| point(model::normal(at(a, 0)?));
    rg_neighbour: Point, "neighbour", [Coordinate, Coordinate, Coordinate, Direction], Point, |a| {
        unless(a[3] > 6, 13)?;
        let (p, v) = (at(a, 0)?, model::unit(a[3] as i64));
        point(model::normal([0, 1, 2].map(|n| p[n] + v[n])))
    };
    rg_same_point: Number, "same", [Coordinate; 6], Truth, |a| one((model::normal(at(a, 0)?) == model::normal(at(a, 3)?)).into());
    rg_distance: Number, "distance", [Coordinate; 6], Decimal, |a| one(model::distance(at(a, 0)?, at(a, 3)?) as u64);
    rg_to_ij: Pair, "ij", [Coordinate; 3], Pair, |a| at(a, 0).map(|p| model::ij(p)).map(|[i, j]| [i as u64, j as u64, 0]);
    rg_from_ij: Point, "fromij", [Coordinate; 2], Point, |a| {
        let pair = [a[0] as i64, a[1] as i64];
        unless(model::outside(&pair), 14)?;
        point(model::from_ij(pair))
    };
    rg_down7_ccw: Point, "down7 ccw", [Coordinate; 3], Point, |a| image(DOWN7, true, a);
    rg_down7_cw: Point, "down7 cw", [Coordinate; 3], Point, |a| image(DOWN7, false, a);
    rg_down3_ccw: Point, "down3 ccw", [Coordinate; 3], Point, |a| image(DOWN3, true, a);
    rg_down3_cw: Point, "down3 cw", [Coordinate; 3], Point, |a| image(DOWN3, false, a);
    rg_up7_ccw: Point, "up7 ccw", [Coordinate; 3], Point, |a| point(model::up7(true, at(a, 0)?));
    rg_up7_cw: Point, "up7 cw", [Coordinate; 3], Point, |a| point(model::up7(false, at(a, 0)?));
    rg_point_turn_ccw: Point, "turnpoint ccw", [Coordinate; 3], Point, |a| image(TURN, true, a);
    rg_point_turn_cw: Point, "turnpoint cw", [Coordinate; 3], Point, |a| image(TURN, false, a);
    rg_direction_of: Number, "dirof", [Coordinate; 3], Decimal, |a| one(model::direction_of(at(a, 0)?).ok_or(16u16)? as u64);
    rg_turn_ccw: Number, "turn ccw", [Cell, Count], Hexadecimal, |a| cell_turn(true, a);
    rg_turn_cw: Number, "turn cw", [Cell, Count], Hexadecimal, |a| cell_turn(false, a);
    rg_pentagon_turn_ccw: Number, "pentturn ccw", [Cell], Hexadecimal, |a| pentagon_turn(true, a);
    rg_pentagon_turn_cw: Number, "pentturn cw", [Cell], Hexadecimal, |a| pentagon_turn(false, a);
    rg_centre: Point, "centre", [Cell], Point, |a| {
        cell(a[0])?;
        point(model::centre(a[0]))
    };
    rg_read_back: Number, "readback", [Length, Coordinate, Coordinate, Coordinate], Hexadecimal, |a| {
        unless(a[0] > 15, 8)?;
        one(model::read_back(a[0], at(a, 1)?).ok_or(15u16)?)
    };
    rg_walk: Walked, "walk", [Cell, Direction], Walk, |a| {
        let (number, carry) = model::walked(a[0], way(a)?);
        Ok([number, carry, 0])
    };
    rg_step: Stepped, "step", [Cell, Direction], Stepped, |a| match model::step(a[0], way(a)?) {
        Step::Inside(cell, turn) => Ok([0, turn, cell]),
        Step::Leaves(way) => Ok([1, way, 0]),
        Step::DeletedWay => Err(17),
    };
}
