//! Searching a text for a list of patterns by its table, in whatever pieces the text comes.
//!
//! The work is done by the proved calls of `libterntrolley.a`; here is what lets safe Rust reach them. [`Table`] can
//! only be made by validation, so that what the fast call asks of its caller holds for every [`Stream`].
//!
//! ```
//! use terntrolley::{Row, Stream, Table};
//!
//! // the table of the one pattern `a`: row 1 shows bit 1, and `a` leads there from anywhere
//! let mut words = vec![0; 2 * 257];
//! words[257] = 1;
//! words[1 + 97] = 1;
//! words[257 + 1 + 97] = 1;
//!
//! let mut stream = Stream::new(Table::new(&words, 2)?, Row(0))?;
//! let mut ends = [0; 3];
//! stream.feed(b"xab", &mut ends)?;
//! assert_eq!((ends, stream.row()), ([0, 1, 0], Row(0)));
//! # Ok::<(), terntrolley::Refused>(())
//! ```
#![deny(missing_docs)]

mod exports;
mod stream;
mod table;

pub use stream::Stream;
pub use table::{Row, Table, feed};

use std::error::Error;
use std::fmt;

/// Why a call read nothing. Nothing was written then.
#[derive(Clone, Copy, Debug, PartialEq, Eq)]
pub enum Refused {
    /// The numbers aren't a table of so many rows, or it has no such row.
    NoTable,
    /// There is less room for bits than the piece has bytes.
    Full,
}

impl fmt::Display for Refused {
    fn fmt(&self, f: &mut fmt::Formatter<'_>) -> fmt::Result {
        f.write_str(match self {
            Refused::NoTable => "no table, or no such row of it",
            Refused::Full => "less room for bits than the piece has bytes",
        })
    }
}

impl Error for Refused {}
