//! The C functions of include/rivetgnome.h.
use crate::{Cursor, Refusal};

macro_rules! answers {
    ($($name:ident { $($field:ident: $of:ty),* })*) => {
        $(#[repr(C)]
        #[derive(Clone, Copy)]
        pub struct $name {
            refusal: u16,
            zero: u16,
            $(pub $field: $of,)*
        }

        impl $name {
            pub fn answered(self) -> Result<Self, Refusal> {
                match self.refusal {
                    0 => Ok(self),
                    number => Err(Refusal::try_from(number).expect("a refusal of this version")),
                }
            }
        })*
    };
}
answers! {
    Checked {}
    Number { value: u64 }
    Point { i: i32, j: i32, k: i32 }
    Pair { i: i32, j: i32 }
    Walked { carry: u32, number: u64 }
    Stepped { kind: u16, turn: u16, cell: u64 }
}

macro_rules! functions {
    ($($name:ident($($arg:ident: $of:ty),*) -> $answer:ty;)*) => {
        mod c {
            use super::*;
            extern "C" {
                $(pub fn $name($($arg: $of),*) -> $answer;)*
            }
        }
        $(pub fn $name($($arg: $of),*) -> $answer {
            // SAFETY: a pure function of numbers, defined for all of them
            unsafe { c::$name($($arg),*) }
        })*
    };
}
functions! {
    rg_version() -> u32;
    rg_check(cell: u64) -> Checked;
    rg_count(cell: u64, target: u32) -> Number;
    rg_child_at(cell: u64, target: u32, position: u64) -> Number;
    rg_position(first: u64, second: u64) -> Number;
    rg_ancestor(cell: u64, resolution: u32) -> Number;
    rg_unit(direction: u32) -> Point;
    rg_direction_turn_ccw(direction: u32, count: u32) -> Number;
    rg_direction_turn_cw(direction: u32, count: u32) -> Number;
    rg_normalise(i: i32, j: i32, k: i32) -> Point;
    rg_neighbour(i: i32, j: i32, k: i32, direction: u32) -> Point;
    rg_same_point(i: i32, j: i32, k: i32, l: i32, m: i32, n: i32) -> Number;
    rg_distance(i: i32, j: i32, k: i32, l: i32, m: i32, n: i32) -> Number;
    rg_to_ij(i: i32, j: i32, k: i32) -> Pair;
    rg_from_ij(i: i32, j: i32) -> Point;
    rg_down7_ccw(i: i32, j: i32, k: i32) -> Point;
    rg_down7_cw(i: i32, j: i32, k: i32) -> Point;
    rg_down3_ccw(i: i32, j: i32, k: i32) -> Point;
    rg_down3_cw(i: i32, j: i32, k: i32) -> Point;
    rg_up7_ccw(i: i32, j: i32, k: i32) -> Point;
    rg_up7_cw(i: i32, j: i32, k: i32) -> Point;
    rg_point_turn_ccw(i: i32, j: i32, k: i32) -> Point;
    rg_point_turn_cw(i: i32, j: i32, k: i32) -> Point;
    rg_direction_of(i: i32, j: i32, k: i32) -> Number;
    rg_turn_ccw(cell: u64, count: u32) -> Number;
    rg_turn_cw(cell: u64, count: u32) -> Number;
    rg_pentagon_turn_ccw(cell: u64) -> Number;
    rg_pentagon_turn_cw(cell: u64) -> Number;
    rg_centre(cell: u64) -> Point;
    rg_read_back(length: u32, i: i32, j: i32, k: i32) -> Number;
    rg_walk(cell: u64, direction: u32) -> Walked;
    rg_step(cell: u64, direction: u32) -> Stepped;
}

mod lent {
    use super::*;
    extern "C" {
        pub fn rg_list(cell: u64, target: u32, cells: *mut u64, length: usize) -> Number;
        pub fn rg_list_short(cell: u64, cells: *mut u64, length: usize) -> Number;
        pub fn rg_cursor(cell: u64, target: u32, cursor: *mut Cursor) -> Checked;
        pub fn rg_next(cursor: *mut Cursor) -> Number;
        pub fn rg_check_block(cells: *const u64, n: usize, values: *mut u64, v: usize, refusals: *mut u16, r: usize) -> Number;
        pub fn rg_ancestor_block(
            cells: *const u64,
            n: usize,
            resolution: u32,
            values: *mut u64,
            v: usize,
            refusals: *mut u16,
            r: usize,
        ) -> Number;
        pub fn rg_position_block(
            first: u64,
            seconds: *const u64,
            n: usize,
            values: *mut u64,
            v: usize,
            refusals: *mut u16,
            r: usize,
        ) -> Number;
    }
}

pub fn rg_list(cell: u64, target: u32, cells: &mut [u64]) -> Number {
    // SAFETY: a slice of that length, lent to this call alone
    unsafe { lent::rg_list(cell, target, cells.as_mut_ptr(), cells.len()) }
}

pub fn rg_list_short(cell: u64, cells: &mut [u64]) -> Number {
    // SAFETY: as above
    unsafe { lent::rg_list_short(cell, cells.as_mut_ptr(), cells.len()) }
}

pub fn rg_cursor(cell: u64, target: u32, cursor: &mut Cursor) -> Checked {
    // SAFETY: five words, lent to this call alone
    unsafe { lent::rg_cursor(cell, target, cursor) }
}

pub fn rg_next(cursor: &mut Cursor) -> Number {
    // SAFETY: as above
    unsafe { lent::rg_next(cursor) }
}

pub fn rg_check_block(cells: &[u64], values: &mut [u64], refusals: &mut [u16]) -> Number {
    let (v, r) = (values.len(), refusals.len());
    // SAFETY: slices of these lengths; two that are lent as `&mut` overlap nothing
    unsafe { lent::rg_check_block(cells.as_ptr(), cells.len(), values.as_mut_ptr(), v, refusals.as_mut_ptr(), r) }
}

pub fn rg_ancestor_block(cells: &[u64], resolution: u32, values: &mut [u64], refusals: &mut [u16]) -> Number {
    let (v, r) = (values.len(), refusals.len());
    // SAFETY: as above
    unsafe {
        lent::rg_ancestor_block(
            cells.as_ptr(),
            cells.len(),
            resolution,
            values.as_mut_ptr(),
            v,
            refusals.as_mut_ptr(),
            r,
        )
    }
}

pub fn rg_position_block(first: u64, seconds: &[u64], values: &mut [u64], refusals: &mut [u16]) -> Number {
    let (v, r) = (values.len(), refusals.len());
    // SAFETY: as above
    unsafe {
        lent::rg_position_block(
            first,
            seconds.as_ptr(),
            seconds.len(),
            values.as_mut_ptr(),
            v,
            refusals.as_mut_ptr(),
            r,
        )
    }
}
