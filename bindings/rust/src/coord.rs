use crate::{sys, Refusal};

/// A hexagon of the plane: so many steps in I, in J and in K, which lie 120 degrees apart.
///
/// (i, j, k) and (i + n, j + n, k + n) are one point; `==` compares the numbers, [`CoordIjk::same_point`]
/// the points. Every point answered is in normal form: its least component is 0. Each coordinate handed in must be
/// -100,000,000 to 100,000,000; any other is refused with [`Refusal::Range`]. Answers may lie beyond.
#[derive(Clone, Copy, Debug, Default, PartialEq, Eq, Hash)]
pub struct CoordIjk {
    /// Steps in I.
    pub i: i32,
    /// Steps in J.
    pub j: i32,
    /// Steps in K.
    pub k: i32,
}

/// The IJ form of a point, (i - k, j - k): one pair for each point.
#[derive(Clone, Copy, Debug, Default, PartialEq, Eq, Hash)]
pub struct CoordIj {
    /// i - k
    pub i: i32,
    /// j - k
    pub j: i32,
}

impl CoordIj {
    /// The pair (i, j).
    pub const fn new(i: i32, j: i32) -> Self {
        Self { i, j }
    }
}

impl CoordIjk {
    /// The triple (i, j, k), as it is.
    pub const fn new(i: i32, j: i32, k: i32) -> Self {
        Self { i, j, k }
    }

    pub(crate) fn told(answer: sys::Point) -> Result<Self, Refusal> {
        let p = answer.answered()?;
        Ok(Self::new(p.i, p.j, p.k))
    }

    /// The normal form.
    ///
    /// ```
    /// use rivetgnome::{CoordIjk, Refusal};
    /// assert_eq!(CoordIjk::new(1, 2, 3).normalize(), Ok(CoordIjk::new(0, 1, 2)));
    /// assert_eq!(CoordIjk::new(0, 0, 100_000_001).normalize(), Err(Refusal::Range));
    /// ```
    ///
    /// # Errors
    /// [`Refusal::Range`].
    pub fn normalize(self) -> Result<Self, Refusal> {
        Self::told(sys::rg_normalise(self.i, self.j, self.k))
    }

    /// The next point in a direction; the point itself in the direction 0.
    ///
    /// ```
    /// use rivetgnome::{CoordIjk, Direction, Refusal};
    /// let p = CoordIjk::new(0, 0, 0);
    /// assert_eq!(p.neighbor(Direction::JK), Ok(CoordIjk::new(0, 1, 1)));
    /// assert_eq!(p.neighbor(7u32), Err(Refusal::Direction));
    /// ```
    ///
    /// # Errors
    /// [`Refusal::Direction`] where a number is above 6; then [`Refusal::Range`].
    pub fn neighbor(self, direction: impl Into<u32>) -> Result<Self, Refusal> {
        Self::told(sys::rg_neighbour(self.i, self.j, self.k, direction.into()))
    }

    /// Are the two one point?
    ///
    /// ```
    /// use rivetgnome::CoordIjk;
    /// assert_eq!(CoordIjk::new(1, 2, 3).same_point(CoordIjk::new(0, 1, 2)), Ok(true));
    /// ```
    ///
    /// # Errors
    /// [`Refusal::Range`].
    pub fn same_point(self, other: Self) -> Result<bool, Refusal> {
        let answer = sys::rg_same_point(self.i, self.j, self.k, other.i, other.j, other.k);
        Ok(answer.answered()?.value != 0)
    }

    /// The number of steps between the two, from hexagon to neighbour.
    ///
    /// ```
    /// use rivetgnome::CoordIjk;
    /// assert_eq!(CoordIjk::new(0, 0, 0).distance(CoordIjk::new(3, 0, 1)), Ok(3));
    /// ```
    ///
    /// # Errors
    /// [`Refusal::Range`].
    pub fn distance(self, other: Self) -> Result<u64, Refusal> {
        let answer = sys::rg_distance(self.i, self.j, self.k, other.i, other.j, other.k);
        Ok(answer.answered()?.value)
    }

    /// The same place in the next finer grid, whose hexagons have a seventh of the area; the grid is turned
    /// counter-clockwise where `CCW`, else clockwise.
    ///
    /// ```
    /// use rivetgnome::CoordIjk;
    /// let i = CoordIjk::new(1, 0, 0);
    /// assert_eq!(i.down_aperture7::<true>(), Ok(CoordIjk::new(3, 0, 1)));
    /// assert_eq!(i.down_aperture7::<false>(), Ok(CoordIjk::new(3, 1, 0)));
    /// ```
    ///
    /// # Errors
    /// [`Refusal::Range`].
    pub fn down_aperture7<const CCW: bool>(self) -> Result<Self, Refusal> {
        let Self { i, j, k } = self;
        Self::told(if CCW {
            sys::rg_down7_ccw(i, j, k)
        } else {
            sys::rg_down7_cw(i, j, k)
        })
    }

    /// As [`CoordIjk::down_aperture7`], with a third of the area.
    ///
    /// ```
    /// use rivetgnome::CoordIjk;
    /// let i = CoordIjk::new(1, 0, 0);
    /// assert_eq!(i.down_aperture3::<true>(), Ok(CoordIjk::new(2, 0, 1)));
    /// assert_eq!(i.down_aperture3::<false>(), Ok(CoordIjk::new(2, 1, 0)));
    /// ```
    ///
    /// # Errors
    /// [`Refusal::Range`].
    pub fn down_aperture3<const CCW: bool>(self) -> Result<Self, Refusal> {
        let Self { i, j, k } = self;
        Self::told(if CCW {
            sys::rg_down3_ccw(i, j, k)
        } else {
            sys::rg_down3_cw(i, j, k)
        })
    }

    /// The hexagon of the next coarser grid under which the point lies. It undoes
    /// [`CoordIjk::down_aperture7`] of the same `CCW`, also with a unit vector added in between.
    ///
    /// ```
    /// use rivetgnome::{CoordIjk, Direction, Refusal};
    /// let i = CoordIjk::new(1, 0, 0);
    /// let finer = i.down_aperture7::<true>()?.neighbor(Direction::JK)?;
    /// assert_eq!(finer.up_aperture7::<true>(), Ok(i));
    /// # Ok::<(), Refusal>(())
    /// ```
    ///
    /// # Errors
    /// [`Refusal::Range`].
    pub fn up_aperture7<const CCW: bool>(self) -> Result<Self, Refusal> {
        let Self { i, j, k } = self;
        Self::told(if CCW { sys::rg_up7_ccw(i, j, k) } else { sys::rg_up7_cw(i, j, k) })
    }

    /// The point turned by 60 degrees about (0, 0, 0), counter-clockwise where `CCW`.
    ///
    /// ```
    /// use rivetgnome::CoordIjk;
    /// let i = CoordIjk::new(1, 0, 0);
    /// assert_eq!(i.rotate60::<true>(), Ok(CoordIjk::new(1, 1, 0)));
    /// assert_eq!(i.rotate60::<false>(), Ok(CoordIjk::new(1, 0, 1)));
    /// ```
    ///
    /// # Errors
    /// [`Refusal::Range`].
    pub fn rotate60<const CCW: bool>(self) -> Result<Self, Refusal> {
        let Self { i, j, k } = self;
        Self::told(if CCW {
            sys::rg_point_turn_ccw(i, j, k)
        } else {
            sys::rg_point_turn_cw(i, j, k)
        })
    }
}

/// ```
/// use rivetgnome::{CoordIj, CoordIjk};
/// assert_eq!(CoordIj::try_from(CoordIjk::new(1, 2, 3)), Ok(CoordIj::new(-2, -1)));
/// ```
impl TryFrom<CoordIjk> for CoordIj {
    type Error = Refusal;

    fn try_from(p: CoordIjk) -> Result<Self, Refusal> {
        let pair = sys::rg_to_ij(p.i, p.j, p.k).answered()?;
        Ok(Self::new(pair.i, pair.j))
    }
}

/// The point (i, j, 0), in normal form.
///
/// ```
/// use rivetgnome::{CoordIj, CoordIjk};
/// assert_eq!(CoordIjk::try_from(CoordIj::new(-2, -1)), Ok(CoordIjk::new(0, 1, 2)));
/// ```
impl TryFrom<CoordIj> for CoordIjk {
    type Error = Refusal;

    fn try_from(pair: CoordIj) -> Result<Self, Refusal> {
        Self::told(sys::rg_from_ij(pair.i, pair.j))
    }
}
