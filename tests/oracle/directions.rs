//! Entries on directions.
use crate::asked::{Asked, Count, Direction, entry, number, point};
use crate::frame::Entry;
use crate::model::{self, Answer};
use crate::rg;
use h3o::Boundary as Rust;

const fn turn(line: &'static str, ours: fn(&[i64]) -> (u16, u16, Answer), model: fn(&[i64]) -> Answer, rust: fn(&[i64]) -> Answer) -> Asked {
    Asked { takes: &[Direction, Count], line, refusals: &[13, 14], ours, model, rust }
}

fn rotated(ccw: bool, a: &[i64]) -> Answer {
    let (d, count) = (a[0] as u8, a[1] as usize);
    let turned = Rust::direction_rotate60(ccw, d, count);
    assert!(count != 1 || turned == Rust::direction_rotate60_once(ccw, d), "the Rust's two turns differ at {d}");
    Answer::Number(turned.into())
}

pub const ENTRIES: [Entry; 3] = [
    entry!("unit", Asked {
        takes: &[Direction],
        line: "unit",
        refusals: &[13],
        ours: |a| point(rg::unit(a[0] as u32)),
        model: |a| Answer::Point(model::unit(a[0])),
        rust: |a| Answer::Point(<[i32; 3]>::from(Rust::unit(a[0] as u8)).map(i64::from)),
    }),
    entry!("direction_turn_ccw", turn(
        "drot ccw",
        |a| number(rg::direction_turn_ccw(a[0] as u32, a[1] as u32)),
        |a| Answer::Number(model::turns(true, a[0], a[1])),
        |a| rotated(true, a),
    )),
    entry!("direction_turn_cw", turn(
        "drot cw",
        |a| number(rg::direction_turn_cw(a[0] as u32, a[1] as u32)),
        |a| Answer::Number(model::turns(false, a[0], a[1])),
        |a| rotated(false, a),
    )),
];
