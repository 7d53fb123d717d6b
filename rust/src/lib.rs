//! A safe wrapper of the proved protocol library: an inertial board that speaks the MS CIP protocol on two serial
//! ports.
//!
//! The library is written in Rattle and proved; `bin/build capi` writes it as a static library, and this crate links
//! it. What each call answers is the paper's ("01", the board's protocol, line by line, with requests 01 to 06, 12 and
//! 13 of the change requests), or for a call that the paper does not list what docs/DECISIONS.md says, for every input.
//! Nothing here adds to it: refusals become the errors of [`Refusal`], the errors of a reply [`ReplyError`], numbers become enums,
//! and lengths become slices. It uses no std and no heap.
//!
//! The archive and this crate have to belong together. [`archive_version`] is [`VERSION`] where they do, and a program does well to
//! compare them once. A number that the library's contracts exclude means that another archive was linked: a call then panics.
//!
//! | Call | What it does |
//! |---|---|
//! | [`Board::start`], [`Board::feed`] | the board: bytes in, replies out, settings and the start-up page kept |
//! | [`Board::silence`] | the line has gone quiet: what is held is read to its end |
//! | [`Board::start_in_place`] | the same start where a board stands, with less stack |
//! | [`Profile`] | what a board is started in: whether port 1 may change anything |
//! | [`Board::tally`], [`Tally::count`] | how bad a line is: the totals of each port, and a record of the driver's own |
//! | [`check_message`], [`write_message`] | one whole message |
//! | [`write_command`], [`write_numbered`], [`append_field`], [`read_reply`], [`read_rows`] | the controller's side |
//! | [`read_field`], [`field_data`], [`field_range`], [`write_data`], [`write_data_bits`] | the data message |
//! | [`check_page`], [`Values::read`], [`Values::write`], [`copy_body`], [`factory_page`] | the start-up page |
//! | [`VERSION`], [`archive_version`] | the version of this crate, and of the archive |
//!
//! [`ffi`] has the same calls one to one, with the numbers and records of the C interface.
//!
//! ```
//! use ketphiroj::{Board, Outcome, Profile};
//!
//! let mut page = [0xFF; 64];
//! let mut board = Board::start(Profile::Full, &page)?;
//! let mut room = [0; Board::REPLY];
//!
//! // A byte of noise, then a Ping.
//! let chunk = [0x00, 0xA5, 0xA5, 0x01, 0x02, 0x02, 0x00, 0x4F, 0x25];
//! let outcome = board.feed(0, &chunk, &mut room, &mut page)?;
//! assert_eq!(outcome, Outcome::Reported { taken: 9, skipped: 1, saved: false, error: None, reply: 10 });
//! assert_eq!(room[..10], [0xA5, 0xA5, 0x01, 0x04, 0x80, 0x02, 0x02, 0x00, 0xD3, 0xCF]);
//! # Ok::<(), ketphiroj::Refusal>(())
//! ```

#![no_std]
#![deny(unsafe_code)]
#![warn(missing_docs)]
#![warn(clippy::missing_errors_doc, clippy::missing_panics_doc, clippy::must_use_candidate)]

mod board;
mod data;
pub mod ffi;
mod message;
mod page;
mod refusal;
mod reply;
mod tally;
mod version;

pub use board::{Board, Outcome, Port, Profile, Settings};
pub use data::{field_data, field_range, read_field, write_data, write_data_bits, Axes, Field};
pub use message::{
    append_field, check_message, code, function, write_command, write_message, write_numbered, NUMBERED,
};
pub use page::{check_page, copy_body, factory_page, Values, PAGE};
pub use refusal::Refusal;
pub use reply::{read_reply, read_rows, Reply, ReplyError};
pub use tally::Tally;
pub use version::{archive_version, VERSION};

/// The program of the repository's README.md, run with the examples.
#[cfg(doctest)]
#[doc = include_str!("../../README.md")]
struct Readme;
