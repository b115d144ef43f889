use crate::{sys, CoordIjk, Direction, Refusal};

/// Is the number a cell?
///
/// ```
/// use rivetgnome::{check, Refusal};
/// assert_eq!(check(0x80f3fffffffffff), Ok(()));
/// assert_eq!(check(0x80f5fffffffffff), Err(Refusal::BaseCell));
/// ```
///
/// # Errors
/// The first of [`Refusal::TopBit`] to [`Refusal::Deleted`] that is true of it. All functions that take a
/// cell refuse the same, first.
pub fn check(cell: u64) -> Result<(), Refusal> {
    sys::rg_check(cell).answered().map(drop)
}

/// How many descendants the cell has at a resolution: 7^n at n resolutions down, under a pentagon
/// 1 + 5 (7^n - 1) / 6.
///
/// ```
/// use rivetgnome::{children_count, Refusal};
/// assert_eq!(children_count(0x8a1fb46622dffff, 15), Ok(16_807));
/// assert_eq!(children_count(0x8009fffffffffff, 1), Ok(6));
/// assert_eq!(children_count(0x8a1fb46622dffff, 9), Err(Refusal::Order));
/// assert_eq!(children_count(0x8a1fb46622dffff, 16), Err(Refusal::Resolution));
/// ```
///
/// # Errors
/// As [`check`]; [`Refusal::Resolution`] above 15; [`Refusal::Order`] where the resolution is coarser than the cell's.
pub fn children_count(cell: u64, resolution: u32) -> Result<u64, Refusal> {
    Ok(sys::rg_count(cell, resolution).answered()?.value)
}

/// Writes the descendants, ascending, from the first element on, and answers their count. Later elements stay
/// as they were; where anything is refused all do.
///
/// ```
/// use rivetgnome::{list_into, Refusal};
/// let mut cells = [0; 8];
/// let count = list_into(0x8009fffffffffff, 1, &mut cells)?;
/// assert_eq!(count, 6);
/// assert_eq!(cells[..2], [0x81083ffffffffff, 0x8108bffffffffff]);
/// assert_eq!(list_into(0x8009fffffffffff, 1, &mut cells[..5]), Err(Refusal::NoRoom));
/// # Ok::<(), Refusal>(())
/// ```
///
/// # Errors
/// As [`children_count`]; then [`Refusal::NoRoom`] where the slice is shorter than the count.
pub fn list_into(cell: u64, resolution: u32, cells: &mut [u64]) -> Result<usize, Refusal> {
    Ok(sys::rg_list(cell, resolution, cells).answered()?.value as usize)
}

/// [`list_into`] one resolution below the cell's own: 7 cells, 6 under a pentagon.
///
/// ```
/// use rivetgnome::{list_short_into, Refusal};
/// let mut cells = [0; 7];
/// assert_eq!(list_short_into(0x881fb46623fffff, &mut cells), Ok(7));
/// assert_eq!(list_short_into(0x8f1fb46622d8000, &mut cells), Err(Refusal::Resolution));
/// ```
///
/// # Errors
/// As [`check`]; [`Refusal::Resolution`] where the cell's resolution is 15; then [`Refusal::NoRoom`].
pub fn list_short_into(cell: u64, cells: &mut [u64]) -> Result<usize, Refusal> {
    Ok(sys::rg_list_short(cell, cells).answered()?.value as usize)
}

/// The descendant in a position, counted from 0.
///
/// ```
/// use rivetgnome::{child_at, Refusal};
/// assert_eq!(child_at(0x881fb46623fffff, 24, 10), Ok(0x8a1fb46622dffff));
/// assert_eq!(child_at(0x881fb46623fffff, 49, 10), Err(Refusal::Position));
/// ```
///
/// # Errors
/// As [`children_count`]; then [`Refusal::Position`] where the position is not below the count.
pub fn child_at(cell: u64, position: u64, resolution: u32) -> Result<u64, Refusal> {
    Ok(sys::rg_child_at(cell, resolution, position).answered()?.value)
}

/// The position of `cell` among the descendants of `ancestor` at its resolution. h3o takes the ancestor's
/// resolution instead: its answer is that of `child_position(parent(cell, resolution)?, cell)`.
///
/// ```
/// use rivetgnome::{child_position, Refusal};
/// assert_eq!(child_position(0x881fb46623fffff, 0x8a1fb46622dffff), Ok(24));
/// assert_eq!(child_position(0x8a1fb46622dffff, 0x881fb46623fffff), Err(Refusal::NotUnder));
/// ```
///
/// # Errors
/// As [`check`] for `ancestor`, then for `cell`; then [`Refusal::NotUnder`].
pub fn child_position(ancestor: u64, cell: u64) -> Result<u64, Refusal> {
    Ok(sys::rg_position(ancestor, cell).answered()?.value)
}

/// The ancestor at a resolution; the cell itself at its own.
///
/// ```
/// use rivetgnome::{parent, Refusal};
/// assert_eq!(parent(0x8a1fb46622dffff, 5), Ok(0x851fb467fffffff));
/// assert_eq!(parent(0x8a1fb46622dffff, 11), Err(Refusal::Order));
/// ```
///
/// # Errors
/// As [`check`]; [`Refusal::Resolution`] above 15; [`Refusal::Order`] where the resolution is finer than the cell's.
pub fn parent(cell: u64, resolution: u32) -> Result<u64, Refusal> {
    Ok(sys::rg_ancestor(cell, resolution).answered()?.value)
}

/// The cell turned `count` times by 60 degrees about the centre of its base cell, counter-clockwise where `CCW`.
/// In a pentagon base cell the answer may be a number that [`check`] refuses with [`Refusal::Deleted`].
///
/// ```
/// use rivetgnome::{rotate60, Refusal};
/// assert_eq!(rotate60::<true>(0x81013ffffffffff, 1), Ok(0x8101bffffffffff));
/// assert_eq!(rotate60::<false>(0x8101bffffffffff, 1), Ok(0x81013ffffffffff));
/// assert_eq!(rotate60::<true>(0x81013ffffffffff, 6), Err(Refusal::Range));
/// ```
///
/// # Errors
/// As [`check`]; then [`Refusal::Range`] where `count` is above 5.
pub fn rotate60<const CCW: bool>(cell: u64, count: u32) -> Result<u64, Refusal> {
    let answer = if CCW {
        sys::rg_turn_ccw(cell, count)
    } else {
        sys::rg_turn_cw(cell, count)
    };
    Ok(answer.answered()?.value)
}

/// The turn by 60 degrees that skips the digits a pentagon base cell lacks: where one turn would make the first
/// digit that is not 0 a 1, all digits turn twice. The answer is a cell, in hexagon base cells too.
///
/// ```
/// use rivetgnome::pentagon_rotate60;
/// assert_eq!(pentagon_rotate60::<true>(0x8108fffffffffff), Ok(0x81097ffffffffff));
/// assert_eq!(pentagon_rotate60::<false>(0x81097ffffffffff), Ok(0x8108fffffffffff));
/// ```
///
/// # Errors
/// As [`check`].
pub fn pentagon_rotate60<const CCW: bool>(cell: u64) -> Result<u64, Refusal> {
    let answer = if CCW {
        sys::rg_pentagon_turn_ccw(cell)
    } else {
        sys::rg_pentagon_turn_cw(cell)
    };
    Ok(answer.answered()?.value)
}

/// The point at which the path of the cell's digits ends, whatever the base cell: from (0, 0, 0), for each
/// resolution from 1 on, [`CoordIjk::down_aperture7`] (counter-clockwise at odd ones) and a step in the digit's direction.
///
/// ```
/// use rivetgnome::{center, CoordIjk};
/// assert_eq!(center(0x81013ffffffffff), Ok(CoordIjk::new(1, 0, 0)));
/// ```
///
/// # Errors
/// As [`check`].
pub fn center(cell: u64) -> Result<CoordIjk, Refusal> {
    CoordIjk::told(sys::rg_centre(cell))
}

/// The other way: the cell of base cell 0 and resolution `length` whose path ends at the point.
///
/// ```
/// use rivetgnome::{center, read_back, CoordIjk, Refusal};
/// let cell = 0x88001a3a45fffff;
/// assert_eq!(read_back(8, center(cell)?), Ok(cell));
/// assert_eq!(read_back(1, CoordIjk::new(0, 0, 2)), Err(Refusal::NoString));
/// # Ok::<(), Refusal>(())
/// ```
///
/// # Errors
/// [`Refusal::Resolution`] where `length` is above 15; [`Refusal::Range`]; then [`Refusal::NoString`] where no
/// path of that length ends there.
pub fn read_back(length: u32, point: CoordIjk) -> Result<u64, Refusal> {
    Ok(sys::rg_read_back(length, point.i, point.j, point.k).answered()?.value)
}

/// What [`walk`] answers.
#[derive(Clone, Copy, Debug, PartialEq, Eq, Hash)]
pub struct Walk {
    /// The same base cell and resolution with the new digits.
    pub number: u64,
    /// The direction in which the base cell was left; `None` where it was not.
    pub carry: Option<Direction>,
}

/// The digits of the neighbour in a direction, 1 to 6. Where the base cell was left they count from the one
/// there. Nothing is done for pentagons: the number may be one that [`check`] refuses with [`Refusal::Deleted`].
///
/// ```
/// use rivetgnome::{walk, Direction, Walk};
/// let walked = walk(0x81013ffffffffff, Direction::JK);
/// assert_eq!(walked, Ok(Walk { number: 0x81003ffffffffff, carry: None }));
/// ```
///
/// # Errors
/// As [`check`]; then [`Refusal::Direction`].
pub fn walk(cell: u64, direction: impl Into<u32>) -> Result<Walk, Refusal> {
    let walked = sys::rg_walk(cell, direction.into()).answered()?;
    Ok(Walk {
        number: walked.number,
        carry: (walked.carry != 0).then(|| Direction::known(walked.carry)),
    })
}

/// What [`step`] answers.
#[derive(Clone, Copy, Debug, PartialEq, Eq, Hash)]
pub enum Step {
    /// The neighbour lies in the same base cell.
    Inside {
        /// The neighbour.
        cell: u64,
        /// How often directions turn counter-clockwise on the way: 0, 1 or 5.
        turn: u32,
    },
    /// The base cell is left in this direction.
    Leaves(Direction),
}

/// The neighbour in a direction, 1 to 6, so far as it lies in the same base cell. Where `turn` is not 0, whoever
/// goes on straight ahead goes on in the direction turned so.
///
/// ```
/// use rivetgnome::{step, Direction, Refusal, Step};
/// assert_eq!(
///     step(0x8108fffffffffff, Direction::IK),
///     Ok(Step::Inside { cell: 0x81097ffffffffff, turn: 1 })
/// );
/// assert_eq!(step(0x81013ffffffffff, 4u32), Ok(Step::Leaves(Direction::I)));
/// assert_eq!(step(0x81083ffffffffff, Direction::K), Err(Refusal::DeletedWay));
/// assert_eq!(step(0x81083ffffffffff, Direction::Center), Err(Refusal::Direction));
/// ```
///
/// # Errors
/// As [`check`]; [`Refusal::Direction`]; then [`Refusal::DeletedWay`] where the cell is a pentagon of
/// resolution 1 or finer and the direction is 1.
pub fn step(cell: u64, direction: impl Into<u32>) -> Result<Step, Refusal> {
    let stepped = sys::rg_step(cell, direction.into()).answered()?;
    let turn = u32::from(stepped.turn);
    Ok(if stepped.kind == 0 {
        Step::Inside { cell: stepped.cell, turn }
    } else {
        Step::Leaves(Direction::known(turn))
    })
}
