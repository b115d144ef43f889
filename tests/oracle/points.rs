//! Entries on points.
use crate::asked::{Asked, Coordinate, Direction, Takes, entry, number, pair, point, truth};
use crate::frame::Entry;
use crate::model::{self, Answer};
use crate::rg;
use h3o::Boundary as Rust;

type Ask = fn(&[i64]) -> Answer;
const ONE: &[Takes] = &[Coordinate; 3];
const TWO: &[Takes] = &[Coordinate; 6];

/// Entries that refuse a range and nothing else.
const fn ranged(takes: &'static [Takes], line: &'static str, ours: fn(&[i64]) -> (u16, u16, Answer), model: Ask, rust: Ask) -> Asked {
    Asked { takes, line, refusals: &[14], ours, model, rust }
}

/// The same for one point in and one out.
macro_rules! image {
    ($name:literal, $line:literal, $ours:path, $model:expr, $rust:expr) => {
        entry!($name, ranged(
            ONE,
            $line,
            |a| point(three(a, $ours)),
            |a| { let image: fn(model::Point) -> model::Point = $model; Answer::Point(image(first(a))) },
            |a| { let image: fn((i32, i32, i32)) -> (i32, i32, i32) = $rust; wide(image(thin(a).into())) },
        ))
    };
}

fn first(a: &[i64]) -> model::Point {
    [a[0], a[1], a[2]]
}
fn second(a: &[i64]) -> model::Point {
    [a[3], a[4], a[5]]
}
fn thin(a: &[i64]) -> [i32; 3] {
    first(a).map(|c| c as i32)
}
fn wide(p: (i32, i32, i32)) -> Answer {
    Answer::Point(<[i32; 3]>::from(p).map(i64::from))
}
fn both<T>(a: &[i64], f: fn((i32, i32, i32), (i32, i32, i32)) -> T) -> T {
    f(thin(a).into(), thin(&a[3..]).into())
}
fn six<T>(a: &[i64], f: fn(i32, i32, i32, i32, i32, i32) -> T) -> T {
    let ([i, j, k], [l, m, n]) = (thin(a), thin(&a[3..]));
    f(i, j, k, l, m, n)
}
fn three<T>(a: &[i64], f: fn(i32, i32, i32) -> T) -> T {
    let [i, j, k] = thin(a);
    f(i, j, k)
}
fn unit(direction: Option<i64>) -> Answer {
    direction.map_or(Answer::Refused(16), Answer::Number)
}

pub const ENTRIES: [Entry; 15] = [
    image!("normalise", "normalise", rg::normalise, model::normal, Rust::normalize),
    image!("down7_ccw", "down7 ccw", rg::down7_ccw, |p| model::image(model::DOWN7, true, p), |p| Rust::down_aperture7(true, p)),
    image!("down7_cw", "down7 cw", rg::down7_cw, |p| model::image(model::DOWN7, false, p), |p| Rust::down_aperture7(false, p)),
    image!("down3_ccw", "down3 ccw", rg::down3_ccw, |p| model::image(model::DOWN3, true, p), |p| Rust::down_aperture3(true, p)),
    image!("down3_cw", "down3 cw", rg::down3_cw, |p| model::image(model::DOWN3, false, p), |p| Rust::down_aperture3(false, p)),
    image!("point_turn_ccw", "turnpoint ccw", rg::point_turn_ccw, |p| model::image(model::TURN, true, p), |p| Rust::point_rotate60(true, p)),
    image!("point_turn_cw", "turnpoint cw", rg::point_turn_cw, |p| model::image(model::TURN, false, p), |p| Rust::point_rotate60(false, p)),
    image!("up7_ccw", "up7 ccw", rg::up7_ccw, |p| model::up7(true, p), |p| Rust::up_aperture7(true, p)),
    image!("up7_cw", "up7 cw", rg::up7_cw, |p| model::up7(false, p), |p| Rust::up_aperture7(false, p)),
    entry!("neighbour", Asked {
        takes: &[Coordinate, Coordinate, Coordinate, Direction],
        line: "neighbour",
        refusals: &[13, 14],
        ours: |a| { let [i, j, k] = thin(a); point(rg::neighbour(i, j, k, a[3] as u32)) },
        model: |a| { let (p, u) = (first(a), model::unit(a[3])); Answer::Point(model::normal([0, 1, 2].map(|at| p[at] + u[at]))) },
        rust: |a| wide(Rust::neighbor(thin(a).into(), a[3] as u8)),
    }),
    entry!("to_ij", ranged(
        ONE,
        "ij",
        |a| pair(three(a, rg::to_ij)),
        |a| Answer::Pair(model::ij(first(a))),
        |a| Answer::Pair(<[i32; 2]>::from(Rust::to_ij(thin(a).into())).map(i64::from)),
    )),
    entry!("from_ij", ranged(
        &[Coordinate; 2],
        "fromij",
        |a| point(rg::from_ij(a[0] as i32, a[1] as i32)),
        |a| Answer::Point(model::from_ij([a[0], a[1]])),
        |a| wide(Rust::from_ij(a[0] as i32, a[1] as i32).expect("no overflow within the range")),
    )),
    // the Rust has no such function: its normal forms are compared
    entry!("same_point", ranged(
        TWO,
        "same",
        |a| truth(six(a, rg::same_point)),
        |a| Answer::Truth(model::normal(first(a)) == model::normal(second(a))),
        |a| Answer::Truth(both(a, |p, q| Rust::normalize(p) == Rust::normalize(q))),
    )),
    entry!("distance", ranged(
        TWO,
        "distance",
        |a| number(six(a, rg::distance)),
        |a| Answer::Number(model::distance(first(a), second(a))),
        |a| Answer::Number(both(a, Rust::distance).into()),
    )),
    // the Rust's error is refusal 16
    entry!("direction_of", Asked {
        takes: ONE,
        line: "dirof",
        refusals: &[14, 16],
        ours: |a| number(three(a, rg::direction_of)),
        model: |a| unit(model::direction_of(first(a))),
        rust: |a| unit(Rust::direction_of(thin(a).into()).map(i64::from)),
    }),
];
