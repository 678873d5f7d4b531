//! An updatable bitmap index over one column of bytes, kept in memory that the caller owns or lends.
//!
//! The index itself is a proved static library: each call ends, stays inside the memory lent to it and answers exactly
//! what is promised of it, for arbitrary memory and numbers. This crate gives its calls the types of Rust. Nothing has to
//! be checked first: what is wrong is refused by number ([`Refusal`]), and a refusal changes nothing.
//!
//! # Example
//!
//! A herbarium keeps of each sheet whether it is in, out on loan or withdrawn.
//!
//! ```
//! use upbit::{Index, RowState, Shape, DELETED};
//!
//! const IN: u32 = 0;
//! const ON_LOAN: u32 = 1;
//! const WITHDRAWN: u32 = 2;
//!
//! # fn main() -> Result<(), upbit::Refusal> {
//! // Six sheets, of which the fifth is not there any more, and room for a thousand.
//! let shape = Shape { rows: 1000, values: 3, threshold: 8, spacing: 4 };
//! let mut sheets = Index::of_column(&[0, 1, 0, 2, DELETED, 1], shape)?;
//!
//! sheets.update(2, ON_LOAN)?; // a sheet goes out,
//! sheets.update(1, IN)?; // another comes back,
//! let new_sheet = sheets.insert(ON_LOAN)?; // and a new one goes out at once.
//! assert_eq!(new_sheet, 6);
//!
//! for row in &sheets.query(ON_LOAN)? {
//!     println!("sheet {row} is on loan");
//! }
//! assert_eq!(sheets.query(ON_LOAN)?.rows().collect::<Vec<_>>(), [2, 5, 6]);
//! assert_eq!(sheets.query(WITHDRAWN)?.rows().len(), 1);
//! assert_eq!(sheets.value(4)?.state, RowState::Deleted);
//! assert_eq!(sheets.delete(4).unwrap_err().to_string(), "7 GONE");
//! # Ok(())
//! # }
//! ```
//!
//! # Memory
//!
//! [`Index::of_column`] takes memory from the heap. Over memory of the caller's, an index is made by
//! [`Index::from_parts`], and [`Room::of`] says how much to lend:
//!
//! ```
//! # use upbit::{Fence, Header, Index, Room, Shape};
//! # fn main() -> Result<(), upbit::Refusal> {
//! let shape = Shape { rows: 62, values: 2, threshold: 1, spacing: 1 };
//! let mut words = [0; 14];
//! let mut fences = [Fence::default(); 4];
//! assert_eq!(Room::of(shape)?, Room { words: words.len(), fences: fences.len() });
//!
//! let mut lent = Index::from_parts(Header::default(), &mut words[..], &mut fences[..]);
//! lent.load(&[0, 1, 1], shape)?;
//! let (header, ..) = lent.into_parts();
//!
//! let reader = Index::from_parts(header, &words[..], &fences[..]);
//! assert_eq!(reader.dump()?, [0, 1, 1]);
//! # Ok(())
//! # }
//! ```

#![deny(missing_docs)]
#![deny(unsafe_code)]

mod calls;
mod index;
mod list;
mod refusal;
mod shape;
mod sys;

pub use index::{Index, Row, RowState};
pub use list::{pack, pack_into, unpack, unpack_into, List, Rows};
pub use refusal::Refusal;
pub use shape::{Room, Shape, DELETED, MAX_ROWS, MAX_SPACING, MAX_THRESHOLD, MAX_VALUES};
pub use sys::{Fence, Header};
