//! The integer part of the H3 grid index, proved: safe functions over the library Rivetgnome.
//!
//! A cell is a `u64`, a resolution a `u32`. Any numbers may be handed in: what is wrong is refused with a
//! [`Refusal`], and a refusal writes nothing. The functions keep no state; any number of threads may call them.
//! Names are h3o's where the meaning is the same; `CCW` is `true` for counter-clockwise, as there. A direction is
//! a [`Direction`] or its number, a `u32`.
//!
//! ```
//! use rivetgnome::{child_position, children, parent, Refusal};
//! let cell = 0x8a1fb46622dffff;
//! let ancestor = parent(cell, 5)?;
//! let before = children(ancestor, 10)?.take_while(|&child| child != cell).count() as u64;
//! assert_eq!(child_position(ancestor, cell), Ok(before));
//! # Ok::<(), Refusal>(())
//! ```
//!
//! The build script takes the library from the folder `RIVETGNOME_LIB`, else from where pkg-config finds it, else
//! from `target/staticlib` of the repository, where `make lib` puts it and is run to.
#![warn(missing_docs)]

mod block;
mod cell;
mod children;
mod coord;
mod direction;
mod refusal;
mod sys;

pub use block::{check_block, child_position_block, parent_block};
pub use cell::{
    center, check, child_at, child_position, children_count, list_into, list_short_into, parent, pentagon_rotate60, read_back, rotate60,
    step, walk, Step, Walk,
};
pub use children::{children, Children, Cursor};
pub use coord::{CoordIj, CoordIjk};
pub use direction::Direction;
pub use refusal::Refusal;

/// The version of the library: 10000 x major + 100 x minor + patch.
///
/// ```
/// assert_eq!(rivetgnome::version(), 100);
/// ```
pub fn version() -> u32 {
    sys::rg_version()
}
