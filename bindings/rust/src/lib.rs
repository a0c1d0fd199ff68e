//! The name console: a table of dotted names that is completed and looked up. What each call answers is proved (docs/PROMISES.md of the
//! repository); this crate hands it on.
//!
//! A query is a text in which each segment ends with a dot, `Live.offset.`; the empty text is the query of no segment.
//!
//! ```
//! use name_console::{Item, Kind, Output, Refusal, Table};
//!
//! let mut table = Table::new(100, 1000);
//! table.insert("Saved.", "offset", Item::register(1))?;
//! table.register_include("Live.", "Saved.")?;
//! table.insert("Live.", "offset", Item::register(3))?;
//! assert_eq!(table.find("Live.offset.")?, Some(Item { kind: Kind::Register, number: 3 }));
//!
//! let mut output = Output::new(10, 100);
//! let listing = table.complete(None, "Live.off.", 4096, &mut output)?;
//! let line = listing.line(0).unwrap();
//! assert_eq!((line.candidate, line.item.to_string(), line.match_length), (&b"Live.offset"[..], "r3".into(), 8));
//!
//! table.insert("Saved.", "late", Item::timer(2))?;
//! let shared = table.complete_shared(None, "S.", 4096, &mut output)?;
//! assert_eq!((shared.listing.len(), shared.beginning), (2, &b"Saved."[..]));
//! let timers = table.complete_shared(Some(Kind::Timer), "S.", 4096, &mut output)?;
//! assert_eq!((timers.listing.len(), timers.beginning), (1, &b"Saved.late"[..]));
//!
//! assert_eq!(table.insert("Live", "offset", Item::port(3)), Err(Refusal::Malformed));
//! # Ok::<(), Refusal>(())
//! ```
//!
//! [`Table`] owns its buffers. [`bytes`] has the same calls over any lent slices, and [`sys`] the C declarations.
#![deny(missing_docs)]
#![warn(unsafe_op_in_unsafe_fn)]

pub mod bytes;
mod item;
mod lines;
mod refusal;
pub mod sys;
mod table;

pub use item::{Item, Kind};
pub use lines::{Line, Listing, Output, Shared, Symbol};
pub use refusal::Refusal;
pub use table::{Filter, Table};
