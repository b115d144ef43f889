use std::fmt;

macro_rules! refusals {
    ($($name:ident = $number:literal, $text:literal;)*) => {
        /// Why a request was refused.
        ///
        /// ```
        /// use rivetgnome::{check, Refusal};
        /// let refusal = check(0).unwrap_err();
        /// assert_eq!(refusal, Refusal::Mode);
        /// assert_eq!(refusal.number(), 2);
        /// assert_eq!(refusal.to_string(), "refusal 2 (Mode): the mode is not 1");
        /// ```
        #[derive(Clone, Copy, Debug, PartialEq, Eq, PartialOrd, Ord, Hash)]
        #[repr(u16)]
        pub enum Refusal {
            $(#[doc = $text] $name = $number,)*
        }

        impl Refusal {
            /// All, in the order of their numbers.
            pub const ALL: [Self; 17] = [$(Self::$name),*];

            /// What is wrong, in a few words.
            pub const fn text(self) -> &'static str {
                match self {
                    $(Self::$name => $text,)*
                }
            }
        }
    };
}
refusals! {
    TopBit = 1, "bit 63 is set";
    Mode = 2, "the mode is not 1";
    Reserved = 3, "bits 56 to 58 are not 0";
    BaseCell = 4, "the base cell is above 121";
    Digit = 5, "a used digit is 7";
    Unused = 6, "an unused digit is not 7";
    Deleted = 7, "pentagon base cell, and the first used digit that is not 0 is 1";
    Resolution = 8, "a resolution or length is above 15";
    Order = 9, "the wanted resolution lies on the wrong side of the cell's";
    NoRoom = 10, "the buffer is shorter than the listing, or than the block handed in";
    Position = 11, "no such position, or a cursor that this library did not make";
    NotUnder = 12, "the second cell does not lie under the first";
    Direction = 13, "a direction is above 6, or is 0 where only 1 to 6 will do";
    Range = 14, "a coordinate is beyond 100,000,000 either way, or a turn count above 5";
    NoString = 15, "no digit string of that length has that centre";
    NotUnit = 16, "the point is neither zero nor a unit vector";
    DeletedWay = 17, "a pentagon of resolution 1 or finer has no neighbour in direction 1";
}

impl Refusal {
    /// The number, 1 to 17.
    pub const fn number(self) -> u16 {
        self as u16
    }
}

/// The refusal of a number; a number that has none is handed back.
///
/// ```
/// use rivetgnome::Refusal;
/// assert_eq!(Refusal::try_from(15), Ok(Refusal::NoString));
/// assert_eq!(Refusal::try_from(18), Err(18));
/// ```
impl TryFrom<u16> for Refusal {
    type Error = u16;

    fn try_from(number: u16) -> Result<Self, u16> {
        Self::ALL.into_iter().find(|refusal| refusal.number() == number).ok_or(number)
    }
}

impl fmt::Display for Refusal {
    fn fmt(&self, f: &mut fmt::Formatter<'_>) -> fmt::Result {
        write!(f, "refusal {} ({self:?}): {}", self.number(), self.text())
    }
}

impl std::error::Error for Refusal {}
