//! librivetgnome.a through its C face. Nothing checks these declarations against
//! include/rivetgnome.h: whoever changes one changes the other.

#[repr(C)]
#[derive(Clone, Copy)]
pub struct Checked {
    pub refusal: u16,
    pub zero: u16,
}
const _: () = assert!(size_of::<Checked>() == 4 && std::mem::offset_of!(Checked, zero) == 2);

#[repr(C)]
#[derive(Clone, Copy)]
pub struct Number {
    pub refusal: u16,
    pub zero: u16,
    pub value: u64,
}
const _: () = assert!(size_of::<Number>() == 16 && std::mem::offset_of!(Number, value) == 8);

#[repr(C)]
#[derive(Clone, Copy)]
pub struct Point {
    pub refusal: u16,
    pub zero: u16,
    pub i: i32,
    pub j: i32,
    pub k: i32,
}
const _: () = assert!(size_of::<Point>() == 16 && std::mem::offset_of!(Point, k) == 12);

#[repr(C)]
#[derive(Clone, Copy)]
pub struct Pair {
    pub refusal: u16,
    pub zero: u16,
    pub i: i32,
    pub j: i32,
}
const _: () = assert!(size_of::<Pair>() == 12 && std::mem::offset_of!(Pair, j) == 8);

#[repr(C)]
#[derive(Clone, Copy)]
pub struct Walked {
    pub refusal: u16,
    pub zero: u16,
    pub carry: u32,
    pub number: u64,
}
const _: () = assert!(size_of::<Walked>() == 16 && std::mem::offset_of!(Walked, number) == 8);

#[repr(C)]
#[derive(Clone, Copy)]
pub struct Stepped {
    pub refusal: u16,
    pub zero: u16,
    pub kind: u16,
    pub turn: u16,
    pub cell: u64,
}
const _: () = assert!(size_of::<Stepped>() == 16 && std::mem::offset_of!(Stepped, cell) == 8);

/// Each function `rg_NAME` of the archive, as `NAME`.
macro_rules! functions {
    ($($rg:ident $name:ident($($arg:ident: $of:ty),*) -> $answer:ident;)*) => {
        mod c {
            unsafe extern "C" {
                $(pub safe fn $rg($($arg: $of),*) -> super::$answer;)*
            }
        }
        $(pub fn $name($($arg: $of),*) -> $answer {
            c::$rg($($arg),*)
        })*
    };
}

// Pure functions of numbers, so `safe`.
functions! {
    rg_check check(cell: u64) -> Checked;
    rg_count count(cell: u64, target: u32) -> Number;
    rg_child_at child_at(cell: u64, target: u32, position: u64) -> Number;
    rg_position position(first: u64, second: u64) -> Number;
    rg_ancestor ancestor(cell: u64, resolution: u32) -> Number;
    rg_unit unit(direction: u32) -> Point;
    rg_direction_turn_ccw direction_turn_ccw(direction: u32, count: u32) -> Number;
    rg_direction_turn_cw direction_turn_cw(direction: u32, count: u32) -> Number;
    rg_normalise normalise(i: i32, j: i32, k: i32) -> Point;
    rg_neighbour neighbour(i: i32, j: i32, k: i32, direction: u32) -> Point;
    rg_same_point same_point(i: i32, j: i32, k: i32, l: i32, m: i32, n: i32) -> Number;
    rg_distance distance(i: i32, j: i32, k: i32, l: i32, m: i32, n: i32) -> Number;
    rg_to_ij to_ij(i: i32, j: i32, k: i32) -> Pair;
    rg_from_ij from_ij(i: i32, j: i32) -> Point;
    rg_down7_ccw down7_ccw(i: i32, j: i32, k: i32) -> Point;
    rg_down7_cw down7_cw(i: i32, j: i32, k: i32) -> Point;
    rg_down3_ccw down3_ccw(i: i32, j: i32, k: i32) -> Point;
    rg_down3_cw down3_cw(i: i32, j: i32, k: i32) -> Point;
    rg_point_turn_ccw point_turn_ccw(i: i32, j: i32, k: i32) -> Point;
    rg_point_turn_cw point_turn_cw(i: i32, j: i32, k: i32) -> Point;
    rg_up7_ccw up7_ccw(i: i32, j: i32, k: i32) -> Point;
    rg_up7_cw up7_cw(i: i32, j: i32, k: i32) -> Point;
    rg_direction_of direction_of(i: i32, j: i32, k: i32) -> Number;
    rg_turn_ccw turn_ccw(cell: u64, count: u32) -> Number;
    rg_turn_cw turn_cw(cell: u64, count: u32) -> Number;
    rg_pentagon_turn_ccw pentagon_turn_ccw(cell: u64) -> Number;
    rg_pentagon_turn_cw pentagon_turn_cw(cell: u64) -> Number;
    rg_centre centre(cell: u64) -> Point;
    rg_read_back read_back(length: u32, i: i32, j: i32, k: i32) -> Number;
    rg_walk walk(cell: u64, direction: u32) -> Walked;
    rg_step step(cell: u64, direction: u32) -> Stepped;
}

// Functions that are lent a buffer or a cursor.
mod lent {
    unsafe extern "C" {
        pub fn rg_list(cell: u64, target: u32, cells: *mut u64, length: usize) -> super::Number;
        pub fn rg_list_short(cell: u64, cells: *mut u64, length: usize) -> super::Number;
        pub fn rg_cursor(cell: u64, target: u32, cursor: *mut [u64; 5]) -> super::Checked;
        pub fn rg_next(cursor: *mut [u64; 5]) -> super::Number;
        pub fn rg_check_block(cells: *const u64, n: usize, values: *mut u64, v: usize, refusals: *mut u16, r: usize) -> super::Number;
        pub fn rg_ancestor_block(cells: *const u64, n: usize, resolution: u32, values: *mut u64, v: usize, refusals: *mut u16, r: usize) -> super::Number;
        pub fn rg_position_block(first: u64, seconds: *const u64, n: usize, values: *mut u64, v: usize, refusals: *mut u16, r: usize) -> super::Number;
    }
}

pub fn list(cell: u64, target: u32, cells: &mut [u64]) -> Number {
    unsafe { lent::rg_list(cell, target, cells.as_mut_ptr(), cells.len()) }
}
pub fn list_short(cell: u64, cells: &mut [u64]) -> Number {
    unsafe { lent::rg_list_short(cell, cells.as_mut_ptr(), cells.len()) }
}
pub fn cursor(cell: u64, target: u32, cursor: &mut [u64; 5]) -> Checked {
    unsafe { lent::rg_cursor(cell, target, cursor) }
}
pub fn next(cursor: &mut [u64; 5]) -> Number {
    unsafe { lent::rg_next(cursor) }
}

/// The two lent blocks.
pub type Two<'a> = (&'a mut [u64], &'a mut [u16]);

pub fn check_block(cells: &[u64], (v, r): Two) -> Number {
    unsafe { lent::rg_check_block(cells.as_ptr(), cells.len(), v.as_mut_ptr(), v.len(), r.as_mut_ptr(), r.len()) }
}
pub fn ancestor_block(cells: &[u64], resolution: u32, (v, r): Two) -> Number {
    unsafe { lent::rg_ancestor_block(cells.as_ptr(), cells.len(), resolution, v.as_mut_ptr(), v.len(), r.as_mut_ptr(), r.len()) }
}
pub fn position_block(first: u64, seconds: &[u64], (v, r): Two) -> Number {
    unsafe { lent::rg_position_block(first, seconds.as_ptr(), seconds.len(), v.as_mut_ptr(), v.len(), r.as_mut_ptr(), r.len()) }
}
