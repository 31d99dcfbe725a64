//! Homie 5 traces and the device table: a safe cover over the proved library.
//!
//! A viewer replays a trace into a table, asks what the devices and their properties hold at the cursor, and moves it
//! back again:
//!
//! ```
//! use homie5::table::{Lane, Table};
//! use homie5::trace::Trace;
//!
//! let file = std::fs::read("../../samples/lamp.trace")?;
//! let mut table = Table::open("homie", 4, 3)?;
//! let mut answers = Vec::new();
//! for event in Trace::new(&file).events()? {
//!     answers.push(match table.message(&event) {
//!         Ok(()) => 0,
//!         Err(refusal) => refusal.number(),
//!     });
//! }
//! assert_eq!(answers, [0, 0, 0, 14]);
//!
//! for device in table.devices() {
//!     println!("{} {}", device.id, device.states.effective);
//!     for (property, lanes) in device.properties() {
//!         println!("  {}/{} {:?}", property.node, property.id, lanes.value);
//!     }
//! }
//! let asked = table.lane("lamp", "light", "on", Lane::Asked)?;
//! assert_eq!(asked.map(|held| held.payload), Some(&b"true"[..]));
//!
//! table.step_back()?;
//! assert_eq!(table.lane("lamp", "light", "on", Lane::Asked)?, None);
//! assert_eq!(table.steps(), 2);
//! # Ok::<(), Box<dyn std::error::Error>>(())
//! ```
//!
//! Every call answers, or refuses with a [`Refusal`] and alters nothing; that of a description tells the byte at fault,
//! which [`description::explain`] shows in the text. Byte strings are slices of what was lent, or of
//! the table's own memory; only the strings of a description that are sent with escapes are copied. IDs, which are
//! ASCII, are text. No call panics unless the library breaks the contract of its
//! header: places inside the bytes that they stand in, strings where it shows some, tables that stay sound. A number
//! that this version does not name, say a refusal of a later library, is carried as `Unknown`.

#![deny(missing_docs, unsafe_code, unsafe_op_in_unsafe_fn)]

pub mod description;
pub mod payload;
pub mod sys;
pub mod table;
pub mod topic;
pub mod trace;

#[allow(unsafe_code)]
mod call;
mod device;
mod explain;
mod named;
mod property;
mod refusal;
mod values;
mod writer;

pub use property::Property;
pub use refusal::Refusal;
