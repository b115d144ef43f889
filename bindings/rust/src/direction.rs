use crate::{sys, CoordIjk, Refusal};

/// A direction: the centre, or the way to one of the six neighbours of a hexagon. Its number is
/// 4i + 2j + k of its unit vector; once round counter-clockwise they are K, IK, I, IJ, J, JK.
#[derive(Clone, Copy, Debug, PartialEq, Eq, PartialOrd, Ord, Hash)]
#[repr(u8)]
#[allow(clippy::upper_case_acronyms)]
pub enum Direction {
    /// (0, 0, 0)
    Center = 0,
    /// (0, 0, 1)
    K = 1,
    /// (0, 1, 0)
    J = 2,
    /// (0, 1, 1)
    JK = 3,
    /// (1, 0, 0)
    I = 4,
    /// (1, 0, 1)
    IK = 5,
    /// (1, 1, 0)
    IJ = 6,
}

impl Direction {
    /// All, in the order of their numbers.
    pub const ALL: [Self; 7] = [Self::Center, Self::K, Self::J, Self::JK, Self::I, Self::IK, Self::IJ];

    pub(crate) fn known(number: u32) -> Self {
        Self::ALL[number as usize]
    }

    /// The unit vector.
    ///
    /// ```
    /// use rivetgnome::{CoordIjk, Direction};
    /// assert_eq!(Direction::IK.coordinate(), CoordIjk::new(1, 0, 1));
    /// ```
    pub fn coordinate(self) -> CoordIjk {
        CoordIjk::told(sys::rg_unit(self.into())).expect("a direction")
    }

    /// The direction turned `count` times by 60 degrees, counter-clockwise where `CCW`. The centre stays.
    ///
    /// ```
    /// use rivetgnome::{Direction, Refusal};
    /// assert_eq!(Direction::K.rotate60::<true>(1), Ok(Direction::IK));
    /// assert_eq!(Direction::K.rotate60::<false>(1), Ok(Direction::JK));
    /// assert_eq!(Direction::K.rotate60::<true>(6), Err(Refusal::Range));
    /// ```
    ///
    /// # Errors
    /// [`Refusal::Range`] where `count` is above 5.
    pub fn rotate60<const CCW: bool>(self, count: u32) -> Result<Self, Refusal> {
        let turned = if CCW {
            sys::rg_direction_turn_ccw(self.into(), count)
        } else {
            sys::rg_direction_turn_cw(self.into(), count)
        };
        Ok(Self::known(turned.answered()?.value as u32))
    }
}

impl From<Direction> for u32 {
    fn from(direction: Direction) -> Self {
        direction as Self
    }
}

/// The direction of a number.
///
/// ```
/// use rivetgnome::{Direction, Refusal};
/// assert_eq!(Direction::try_from(6), Ok(Direction::IJ));
/// assert_eq!(Direction::try_from(7), Err(Refusal::Direction));
/// ```
impl TryFrom<u32> for Direction {
    type Error = Refusal;

    fn try_from(number: u32) -> Result<Self, Refusal> {
        sys::rg_unit(number).answered().map(|_| Self::known(number))
    }
}

/// The direction whose unit vector the point is.
///
/// ```
/// use rivetgnome::{CoordIjk, Direction, Refusal};
/// assert_eq!(Direction::try_from(CoordIjk::new(2, 1, 2)), Ok(Direction::IK));
/// assert_eq!(Direction::try_from(CoordIjk::new(2, 0, 0)), Err(Refusal::NotUnit));
/// ```
impl TryFrom<CoordIjk> for Direction {
    type Error = Refusal;

    fn try_from(p: CoordIjk) -> Result<Self, Refusal> {
        let number = sys::rg_direction_of(p.i, p.j, p.k).answered()?.value;
        Ok(Self::known(number as u32))
    }
}
