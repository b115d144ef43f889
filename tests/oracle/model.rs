//! Document 01 in plain Rust, taken from its words alone: neither from our code nor from h3o's.

pub const PENTAGONS: [u64; 12] = [4, 14, 24, 38, 49, 58, 63, 72, 83, 97, 107, 117];

/// The names of the refusals, by number.
pub const REFUSALS: [&str; 18] = [
    "answered", "TopBit", "Mode", "Reserved", "BaseCell", "Digit", "Unused", "Deleted", "Resolution", "Order", "NoRoom", "Position", "NotUnder",
    "Direction", "Range", "NoString", "NotUnit", "DeletedWay",
];

/// What a request ends with. A direction, a distance or a count is a number.
#[derive(Clone, Copy, PartialEq)]
pub enum Answer {
    Refused(u16),
    Number(i64),
    Truth(bool),
    Point(Point),
    Pair([i64; 2]),
}

/// Bits `low` to `high` of a number.
fn bits(n: u64, low: u32, high: u32) -> u64 {
    n / 2u64.pow(low) % 2u64.pow(high - low + 1)
}

/// "The digit of resolution r (1 to 15) has its lowest bit at 3 x (15 - r)."
pub fn digit(n: u64, r: u64) -> u64 {
    let low = 3 * (15 - r as u32);
    bits(n, low, low + 2)
}

pub fn resolution(n: u64) -> u64 {
    bits(n, 52, 55)
}

pub fn base_cell(n: u64) -> u64 {
    bits(n, 45, 51)
}

/// Is refusal `number` (1 to 7) given for this number, were it the only one looked at?
pub fn holds(number: u16, n: u64) -> bool {
    let own = resolution(n);
    match number {
        1 => bits(n, 63, 63) != 0,
        2 => bits(n, 59, 62) != 1,
        3 => bits(n, 56, 58) != 0,
        4 => base_cell(n) > 121,
        5 => (1..=own).any(|r| digit(n, r) == 7),
        6 => (own + 1..=15).any(|r| digit(n, r) != 7),
        7 => PENTAGONS.contains(&base_cell(n)) && (1..=own).map(|r| digit(n, r)).find(|&d| d != 0) == Some(1),
        _ => panic!("not a refusal of a cell: {number}"),
    }
}

/// The first refusal met, or 0: valid.
pub fn check(n: u64) -> u16 {
    (1..=7).find(|&number| holds(number, n)).unwrap_or(0)
}

// Counts and listings.

/// "A cell is a pentagon when its base cell is one of them and all used digits are 0."
pub fn is_pentagon(n: u64) -> bool {
    PENTAGONS.contains(&base_cell(n)) && (1..=resolution(n)).all(|r| digit(n, r) == 0)
}

/// "With n = target minus own resolution, a pentagon has 1 + 5 x (7^n - 1) / 6 descendants, any other cell 7^n."
pub fn count(n: u64, target: u64) -> u64 {
    let sevens = 7u64.pow((target - resolution(n)) as u32);
    if is_pentagon(n) { 1 + 5 * (sevens - 1) / 6 } else { sevens }
}

/// The number with the resolution and the digits of `n` to `own`, the digits `more` after these, and then 7.
fn with_digits(n: u64, own: u64, more: &[u64]) -> u64 {
    let target = own + more.len() as u64;
    let digits = (1..=15).fold(0, |all, r| all * 8 + if r <= own { digit(n, r) } else if r <= target { more[(r - own - 1) as usize] } else { 7 });
    ((bits(n, 56, 63) * 16 + target) * 128 + base_cell(n)) * 8u64.pow(15) + digits
}

/// "Descendants have the target resolution, the same base cell, the same leading digits, and are valid." Ascending.
pub fn descendants(n: u64, target: u64) -> Vec<u64> {
    let (own, places) = (resolution(n), (target - resolution(n)) as u32);
    let string = |number: u64| (0..places).rev().map(|place| number / 7u64.pow(place) % 7).collect::<Vec<_>>();
    (0..7u64.pow(places)).map(|number| with_digits(n, own, &string(number))).filter(|&y| check(y) == 0).collect()
}

/// How many descendants begin with a digit, `rest` places above the target: none where the digit is deleted.
fn below(pentagon: bool, digit: u64, rest: u64) -> u64 {
    let sevens = 7u64.pow(rest as u32);
    match digit {
        0 if pentagon => 1 + 5 * (sevens - 1) / 6,
        1 if pentagon => 0,
        _ => sevens,
    }
}

/// "Child at position and position of child count from 0 in that order."
pub fn child_at(n: u64, target: u64, position: u64) -> u64 {
    let (mut left, mut pentagon, mut digits) = (position, is_pentagon(n), Vec::new());
    for r in resolution(n) + 1..=target {
        let mut digit = 0;
        while left >= below(pentagon, digit, target - r) {
            left -= below(pentagon, digit, target - r);
            digit += 1;
        }
        pentagon &= digit == 0;
        digits.push(digit);
    }
    with_digits(n, resolution(n), &digits)
}

/// The position of `y` under its ancestor at the resolution `own`.
pub fn position(y: u64, own: u64) -> u64 {
    let (mut position, mut pentagon) = (0, is_pentagon(ancestor(y, own)));
    for r in own + 1..=resolution(y) {
        position += (0..digit(y, r)).map(|d| below(pentagon, d, resolution(y) - r)).sum::<u64>();
        pentagon &= digit(y, r) == 0;
    }
    position
}

/// "The ancestor at a resolution cuts the digits and fills with 7."
pub fn ancestor(n: u64, r: u64) -> u64 {
    with_digits(n, r, &[])
}

/// Own resolution, target, next number, skip in two's complement, left.
pub type Words = [u64; 5];

/// The skip that goes with the child `y` of `n`: -1 where `n` is no pentagon, the target while all digits are 0, then the place before the
/// first that is not.
fn skip(n: u64, y: u64) -> u64 {
    let target = resolution(y);
    match is_pentagon(n) {
        true => (1..=target).find(|&r| digit(y, r) != 0).map_or(target, |r| r - 1),
        false => -1i64 as u64,
    }
}

/// The cursor over the descendants of `n` after `calls` calls: with none left it stays at the last.
pub fn cursor(n: u64, target: u64, calls: u64) -> Words {
    let count = count(n, target);
    let y = child_at(n, target, calls.min(count - 1));
    [resolution(n), target, y, skip(n, y), count - calls]
}

/// A cursor that calls could have made, as (its cell, the calls).
pub fn made(words: Words) -> Option<(u64, u64)> {
    let [own, target, y, _, left] = words;
    if own > target || target > 15 || check(y) != 0 || resolution(y) != target {
        return None;
    }
    let n = ancestor(y, own);
    let calls = count(n, target).checked_sub(left)?;
    (cursor(n, target, calls) == words).then_some((n, calls))
}

// Directions and points. Whole numbers here are wide enough that nothing overflows.

pub type Point = [i64; 3];

/// "Value = 4i + 2j + k of the unit vector."
pub fn unit(direction: i64) -> Point {
    let all = [[0, 0, 0], [0, 0, 1], [0, 1, 0], [0, 1, 1], [1, 0, 0], [1, 0, 1], [1, 1, 0]];
    *all.iter().find(|v| 4 * v[0] + 2 * v[1] + v[2] == direction).expect("a direction")
}

/// "One turn counter-clockwise maps 1, 5, 4, 6, 2, 3 each to the next, 3 to 1; clockwise is the reverse; 0 stays."
pub fn turn(ccw: bool, direction: i64) -> i64 {
    let mut ring = [1, 5, 4, 6, 2, 3, 1];
    if !ccw {
        ring.reverse();
    }
    ring.windows(2).find(|w| w[0] == direction).map_or(0, |w| w[1])
}

pub fn turns(ccw: bool, direction: i64, count: i64) -> i64 {
    (0..count).fold(direction, |d, _| turn(ccw, d))
}

/// "a coordinate is outside -100,000,000 to 100,000,000"
pub fn outside(coordinates: &[i64]) -> bool {
    coordinates.iter().any(|c| !(-100_000_000..=100_000_000).contains(c))
}

/// "Normalising subtracts the least component from all three."
pub fn normal(p: Point) -> Point {
    p.map(|c| c - p.iter().min().expect("three components"))
}

/// "Distance is the largest component of the normalised difference."
pub fn distance(p: Point, q: Point) -> i64 {
    *normal([p[0] - q[0], p[1] - q[1], p[2] - q[2]]).iter().max().expect("three components")
}

/// "IJ form is (i - k, j - k)"
pub fn ij(p: Point) -> [i64; 2] {
    [p[0] - p[2], p[1] - p[2]]
}

/// "an IJ pair read back is the point (i, j, 0)"
pub fn from_ij(pair: [i64; 2]) -> Point {
    normal([pair[0], pair[1], 0])
}

/// Images of i, j and k, a row each.
type Images = [Point; 3];
pub const DOWN7: [Images; 2] = [[[3, 1, 0], [0, 3, 1], [1, 0, 3]], [[3, 0, 1], [1, 3, 0], [0, 1, 3]]];
pub const DOWN3: [Images; 2] = [[[2, 1, 0], [0, 2, 1], [1, 0, 2]], [[2, 0, 1], [1, 2, 0], [0, 1, 2]]];
pub const TURN: [Images; 2] = [[[1, 0, 1], [1, 1, 0], [0, 1, 1]], [[1, 1, 0], [0, 1, 1], [1, 0, 1]]];

/// `images[1]` is counter-clockwise.
pub fn image(images: [Images; 2], ccw: bool, p: Point) -> Point {
    let rows = images[ccw as usize];
    normal([0, 1, 2].map(|at| p[0] * rows[0][at] + p[1] * rows[1][at] + p[2] * rows[2][at]))
}

/// "divided by 7 and taken to the nearest whole number, negative ones too. A seventh never lies half way."
fn seventh(n: i64) -> i64 {
    (n - 3..=n + 3).find(|m| m % 7 == 0).expect("one of seven") / 7
}

/// "Up by aperture 7, from IJ: counter-clockwise (3i - j, i + 2j), clockwise (2i + j, 3j - i)"
pub fn up7(ccw: bool, p: Point) -> Point {
    let [i, j] = ij(p);
    from_ij(if ccw { [3 * i - j, i + 2 * j] } else { [2 * i + j, 3 * j - i] }.map(seventh))
}

/// The direction of a unit vector or zero, whichever triple means it.
pub fn direction_of(p: Point) -> Option<i64> {
    (0..=6).find(|&d| unit(d) == normal(p))
}

// Turns of cells, centres, the walk and the step.

/// The number with another digit of resolution r.
fn put(n: u64, r: u64, d: u64) -> u64 {
    let place = 8u64.pow(15 - r as u32);
    n - digit(n, r) * place + d * place
}

fn first(n: u64) -> Option<u64> {
    (1..=resolution(n)).map(|r| digit(n, r)).find(|&d| d != 0)
}

/// "A cell turned by a count 0 to 5 has each used digit turned"
pub fn turned(ccw: bool, n: u64, count: u32) -> u64 {
    (1..=resolution(n)).fold(n, |m, r| put(m, r, turns(ccw, digit(n, r) as i64, count.into()) as u64))
}

/// "where the first non-zero digit is 3 (counter-clockwise) or 5 (clockwise), all digits turn twice, else once"
pub fn pentagon_turned(ccw: bool, n: u64) -> u64 {
    turned(ccw, n, if first(n) == Some(if ccw { 3 } else { 5 }) { 2 } else { 1 })
}

fn plus(p: Point, q: Point) -> Point {
    [0, 1, 2].map(|at| p[at] + q[at])
}

/// "start at 0; for r = 1 upward go down by aperture 7, counter-clockwise for odd r and clockwise for even r, then add the digit's unit vector; normalise"
pub fn centre(n: u64) -> Point {
    normal((1..=resolution(n)).fold([0; 3], |p, r| plus(image(DOWN7, r % 2 == 1, p), unit(digit(n, r) as i64))))
}

/// The string whose centre is the point, "as the cell of base cell 0 with that resolution and those digits": from the finest digit upward, the
/// one digit without which the point is a down image.
pub fn read_back(length: u64, p: Point) -> Option<u64> {
    let mut n = ((1 << 7) + length) * 2u64.pow(52) + 8u64.pow(15) - 1;
    let mut at = normal(p);
    for r in (1..=length).rev() {
        let ccw = r % 2 == 1;
        let (d, above) = (0..=6).find_map(|d| {
            let [i, j] = ij(plus(at, unit(d).map(|c| -c)));
            let [a, b] = if ccw { [3 * i - j, i + 2 * j] } else { [2 * i + j, 3 * j - i] };
            (a % 7 == 0 && b % 7 == 0).then(|| (d, from_ij([a / 7, b / 7])))
        }).expect("one of seven");
        assert!(normal(plus(image(DOWN7, ccw, above), unit(d))) == at);
        n = put(n, r, d as u64);
        at = above;
    }
    (at == [0; 3]).then_some(n)
}

/// "old digit + direction = down image of the adjustment + new digit, as points": the adjustment and the new digit, by resolution (odd or
/// not), old digit and direction.
static RULE: std::sync::LazyLock<[[[(u64, u64); 7]; 7]; 2]> = std::sync::LazyLock::new(|| {
    let solve = |odd: bool, old: i64, direction: i64| {
        let sum = normal(plus(unit(old), unit(direction)));
        let pairs = (0..7).flat_map(|adjustment| (0..7).map(move |new| (adjustment, new)));
        let mut found = pairs.filter(|&(a, new)| normal(plus(image(DOWN7, odd, unit(a)), unit(new))) == sum);
        let (a, new) = found.next().expect("a solution");
        assert!(found.next().is_none(), "a second solution");
        (a as u64, new as u64)
    };
    [false, true].map(|odd| std::array::from_fn(|old| std::array::from_fn(|way| solve(odd, old as i64, way as i64))))
});

/// "Digits change from the finest upward until the adjustment is 0." The number and the carry.
pub fn walked(n: u64, direction: u32) -> (u64, u64) {
    let (mut m, mut way) = (n, u64::from(direction));
    for r in (1..=resolution(n)).rev() {
        if way == 0 {
            break;
        }
        let (adjustment, new) = RULE[(r % 2) as usize][digit(n, r) as usize][way as usize];
        m = put(m, r, new);
        way = adjustment;
    }
    (m, way)
}

#[derive(Clone, Copy, PartialEq)]
pub enum Step {
    Inside(u64, u64),
    Leaves(u64),
    DeletedWay,
}

/// "If the carry is still not 0 at the base cell, the answer is Leaves with that direction .. Otherwise the answer is Inside with a cell and a
/// turn number, 0 unless: in a pentagon base cell the new first non-zero digit is 1."
pub fn step(n: u64, direction: u32) -> Step {
    let (m, carry) = walked(n, direction);
    if carry != 0 {
        return Step::Leaves(carry);
    }
    if !(PENTAGONS.contains(&base_cell(n)) && first(m) == Some(1)) {
        return Step::Inside(m, 0);
    }
    match first(n) {
        None => Step::DeletedWay,
        Some(3) => Step::Inside(turned(true, m, 1), 1),
        Some(5) => Step::Inside(turned(false, m, 1), 5),
        _ => panic!("{n:016x} {direction}: no other origin reaches this"),
    }
}
