//! The board's protocol in plain Rust, and material to test with.
//!
//! This is a reading of the paper ("01", the board's protocol, line by line), with requests 01 to 06, 12 and 13 of the
//! change requests ("02"), and not of the library. It is slow and obvious, in the papers' words and order; numbers such as
//! 01-014 and 02-01.3 are those of the papers' sentences. READINGS.md says how each sentence is read that leaves a
//! doubt, and which readings docs/DECISIONS.md settles. [`read_page`], [`body`], [`append_field`], [`write_numbered`]
//! and [`start_in_place`] are no calls of the papers': which numbers they give, and in which order, is decided there.
//! [`generate`] makes messages, streams, pages, boards and lists of feeds and silences from a seed.
//!
//! The paper, section by section:
//!
//! | Section | Module |
//! |---|---|
//! | A message | [`message`](mod@message) |
//! | The scan | [`scan`](mod@scan) for a whole stream, [`port`] for a feed and for a silence; [`sum_law`] |
//! | Handling one message | [`handling`]; the command writer in [`writers`], the reply reader in [`readers`] |
//! | The start-up page | [`page`]; starting in [`port`] |
//! | The plain reckoning | [`reckoning`] |
//! | Numbers of the calls | [`number`] |
//! | Data messages | [`readers`], [`writers`] |
//! | Listing | [`listing`](mod@listing) |
//! | Request 13 | [`tally`]: what the board counts, and the driver's own record; the counts from the history in [`reckoning`] |
//!
//! The feed and the plain reckoning are two readings that share only the sums, the parts of a message, the handling of
//! one message on values, and the page's values and writing. The scan is written twice. The totals are counted three times: by
//! the feed, by the driver's record and from the reckoning's history.

#![forbid(unsafe_code)]

pub mod generate;
pub mod handling;
pub mod listing;
pub mod message;
pub mod number;
pub mod page;
pub mod port;
pub mod readers;
pub mod reckoning;
pub mod scan;
pub mod sum_law;
pub mod tally;
pub mod writers;

pub use handling::{fresh, handle, loaded, readable, reply_of, storable, usable, value_size};
pub use handling::{Handled, Profile, Row, Settings, FACTORY};
pub use listing::listing;
pub use message::{check_message, fields_of, message, sums, sums_right, Part, Sums};
pub use page::{body, check_page, factory_page, read_page, values, write_page, Values};
pub use port::{feed, silence, start, start_in_place, Board, Fed, Port, StartedInPlace};
pub use readers::{field_data, field_place, read_field, read_reply, Field, Reply};
pub use reckoning::{drained, Answered, Draining, Reckoned, Reckoning};
pub use scan::{scan, scan_marked, Event};
pub use sum_law::{adds_up, Accepted, SumLaw};
pub use tally::{record, Done, Tally, Told};
pub use writers::{append_field, write_command, write_data, write_message, write_numbered};
