//! The entries that take numbers and answer numbers, one row or more each.
use crate::frame::Random;
use crate::inputs::*;
use crate::rust::{self, Point, direction, within};
use crate::time::{Row, alone, beside};
use crate::{model, rg};
use h3o::Boundary as Rust;

fn number(a: rg::Number) -> Option<u64> {
    (a.refusal == 0).then_some(a.value)
}
fn point(a: rg::Point) -> Option<Point> {
    (a.refusal == 0).then_some([a.i, a.j, a.k])
}
fn pair(a: rg::Pair) -> Option<[i32; 2]> {
    (a.refusal == 0).then_some([a.i, a.j])
}
fn stepped(a: rg::Stepped) -> Option<(u64, u64)> {
    (a.refusal == 0).then_some((a.cell, a.turn.into()))
}
fn walked(a: rg::Walked) -> Option<(u64, u64)> {
    (a.refusal == 0).then_some((a.number, a.carry.into()))
}

/// A row whose Rust is one expression of the arguments, called and inlined.
macro_rules! row {
    ($name:expr, $inputs:expr, |$($arg:ident: $of:ty),+| -> $answer:ty: $ours:expr, $rust:expr) => {{
        #[inline(never)]
        fn called($($arg: $of),+) -> Option<$answer> { $rust }
        #[inline(always)]
        fn inlined($($arg: $of),+) -> Option<$answer> { $rust }
        beside($name, $inputs, 1.0, |($($arg,)+): ($($of,)+)| $ours, |($($arg,)+)| called($($arg),+), |($($arg,)+)| inlined($($arg),+))
    }};
}

fn checks(random: &mut Random) -> Vec<Row<'static>> {
    let valid = many(|| (cell(random),));
    let half = many(|| (if random.below(2) == 0 { cell(random) } else { damaged(random) },));
    let check = |name, inputs: &[(u64,)]| row!(name, inputs, |n: u64| -> u64: (rg::check(n).refusal == 0).then_some(1), rust::check(n));
    vec![check("check, valid cells", &valid), check("check, half of them damaged", &half)]
}

fn descendants(random: &mut Random) -> Vec<Row<'static>> {
    let mixed = many(|| { let n = cell(random); child(random, n) });
    let pentagons = many(|| { let r = random.below(16); let n = pentagon_at(random, r); child(random, n) });
    let pairs = |of: &[(u64, u32, u64)]| of.iter().map(|&(n, t, p)| (n, model::child_at(n, t.into(), p))).collect::<Vec<_>>();
    let ancestors = many(|| { let n = cell(random); (n, random.below(model::resolution(n) + 1) as u32) });
    let targets: Vec<_> = mixed.iter().map(|&(n, t, _)| (n, t)).collect();
    let child_at = |name, inputs: &[(u64, u32, u64)]| {
        row!(name, inputs, |n: u64, t: u32, p: u64| -> u64: number(rg::child_at(n, t, p)), rust::child_at(n, t, p))
    };
    let position = |name, inputs: &[(u64, u64)]| row!(name, inputs, |n: u64, y: u64| -> u64: number(rg::position(n, y)), rust::position(n, y));
    vec![
        row!("ancestor", &ancestors, |n: u64, r: u32| -> u64: number(rg::ancestor(n, r)), rust::ancestor(n, r)),
        row!("count", &targets, |n: u64, t: u32| -> u64: number(rg::count(n, t)), rust::count(n, t)),
        child_at("child at", &mixed),
        child_at("child at, pentagons", &pentagons),
        position("position", &pairs(&mixed)),
        position("position, pentagons", &pairs(&pentagons)),
    ]
}

fn turns(random: &mut Random) -> Vec<Row<'static>> {
    let counted = many(|| (cell(random), random.below(6) as u32));
    let cells = many(|| (cell(random),));
    vec![
        row!("turn ccw by a count", &counted, |n: u64, c: u32| -> u64: number(rg::turn_ccw(n, c)), rust::turn(true, n, c)),
        row!("turn cw by a count", &counted, |n: u64, c: u32| -> u64: number(rg::turn_cw(n, c)), rust::turn(false, n, c)),
        row!("pentagon turn ccw", &cells, |n: u64| -> u64: number(rg::pentagon_turn_ccw(n)), rust::pentagon_turn(true, n)),
        row!("pentagon turn cw", &cells, |n: u64| -> u64: number(rg::pentagon_turn_cw(n)), rust::pentagon_turn(false, n)),
    ]
}

fn steps(random: &mut Random) -> Vec<Row<'static>> {
    let cells = many(|| (cell(random),));
    let ways = many(|| (cell(random), 1 + random.below(6) as u32));
    let inside = many(|| loop {
        let (n, d) = (cell(random), 1 + random.below(6) as u32);
        let a = rg::step(n, d);
        if a.refusal == 0 && a.kind == 0 {
            return (n, d);
        }
    });
    let centres = many(|| { let n = cell(random); let p = rg::centre(n); (model::resolution(n) as u32, [p.i, p.j, p.k]) });
    vec![
        row!("step that stays in its base cell", &inside, |n: u64, d: u32| -> (u64, u64): stepped(rg::step(n, d)), rust::step(n, d)),
        alone("walk", &ways, |(n, d)| walked(rg::walk(n, d))),
        row!("centre", &cells, |n: u64| -> Point: point(rg::centre(n)), rust::centre(n)),
        row!("reading back", &centres, |r: u32, p: Point| -> u64: number(rg::read_back(r, p[0], p[1], p[2])), rust::read_back(r, p)),
    ]
}

fn directions(random: &mut Random) -> Vec<Row<'static>> {
    let ways = many(|| (random.below(7) as u32,));
    let counted = many(|| (random.below(7) as u32, random.below(6) as u32));
    vec![
        row!("unit", &ways, |d: u32| -> Point: point(rg::unit(d)), Some(Rust::unit(direction(d)?).into())),
        row!("direction turn ccw", &counted, |d: u32, c: u32| -> u64: number(rg::direction_turn_ccw(d, c)),
            if c <= 5 { Some(Rust::direction_rotate60(true, direction(d)?, c as usize).into()) } else { None }),
        row!("direction turn cw", &counted, |d: u32, c: u32| -> u64: number(rg::direction_turn_cw(d, c)),
            if c <= 5 { Some(Rust::direction_rotate60(false, direction(d)?, c as usize).into()) } else { None }),
    ]
}

fn points(random: &mut Random) -> Vec<Row<'static>> {
    use crate::inputs::point as some;
    let one = many(|| (some(random),));
    let two = many(|| { let p = some(random); (p, if random.below(2) == 0 { p } else { some(random) }) });
    let near = many(|| (some(random), random.below(7) as u32));
    let units = many(|| { let p = rg::unit(random.below(7) as u32); let by = random.below(9) as i32 - 4; ([p.i + by, p.j + by, p.k + by],) });
    macro_rules! image {
        ($name:literal, $ours:path, $rust:expr) => {
            row!($name, &one, |p: Point| -> Point: point($ours(p[0], p[1], p[2])), { let image: fn((i32, i32, i32)) -> (i32, i32, i32) = $rust; Some(image(within(p)?).into()) })
        };
    }
    vec![
        image!("normalise", rg::normalise, Rust::normalize),
        image!("down7 ccw", rg::down7_ccw, |p| Rust::down_aperture7(true, p)),
        image!("down7 cw", rg::down7_cw, |p| Rust::down_aperture7(false, p)),
        image!("down3 ccw", rg::down3_ccw, |p| Rust::down_aperture3(true, p)),
        image!("down3 cw", rg::down3_cw, |p| Rust::down_aperture3(false, p)),
        image!("point turn ccw", rg::point_turn_ccw, |p| Rust::point_rotate60(true, p)),
        image!("point turn cw", rg::point_turn_cw, |p| Rust::point_rotate60(false, p)),
        image!("up7 ccw", rg::up7_ccw, |p| Rust::up_aperture7(true, p)),
        image!("up7 cw", rg::up7_cw, |p| Rust::up_aperture7(false, p)),
        row!("neighbour", &near, |p: Point, d: u32| -> Point: point(rg::neighbour(p[0], p[1], p[2], d)), {
            let d = direction(d)?;
            Some(Rust::neighbor(within(p)?, d).into())
        }),
        row!("distance", &two, |p: Point, q: Point| -> u64: number(rg::distance(p[0], p[1], p[2], q[0], q[1], q[2])),
            Some(Rust::distance(within(p)?, within(q)?) as u64)),
        row!("same point", &two, |p: Point, q: Point| -> u64: number(rg::same_point(p[0], p[1], p[2], q[0], q[1], q[2])),
            Some((Rust::normalize(within(p)?) == Rust::normalize(within(q)?)).into())),
        row!("to IJ", &one, |p: Point| -> [i32; 2]: pair(rg::to_ij(p[0], p[1], p[2])), Some(Rust::to_ij(within(p)?).into())),
        row!("from IJ", &one, |p: Point| -> Point: point(rg::from_ij(p[0], p[1])), {
            let (i, j, _) = within([p[0], p[1], 0])?;
            Rust::from_ij(i, j).map(Point::from)
        }),
        row!("direction of a point", &units, |p: Point| -> u64: number(rg::direction_of(p[0], p[1], p[2])), Rust::direction_of(within(p)?).map(u64::from)),
    ]
}

pub fn rows(random: &mut Random) -> Vec<Row<'static>> {
    [checks, descendants, turns, steps, directions, points].into_iter().flat_map(|rows| rows(random)).collect()
}
