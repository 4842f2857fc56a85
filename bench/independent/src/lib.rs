//! An independent model of a speculative versioning cache, written from the
//! documentation pages alone.
//!
//! Three stores answer the same turns: [`plain::Plain`] (the meaning),
//! [`snooping::Snooping`] (private caches and version ordering lists) and
//! [`buffer::Buffer`] (one table of rows).

pub mod buffer;
pub mod definition;
pub mod fault;
pub mod generate;
pub mod image;
pub mod plain;
pub mod player;
pub mod snooping;
pub mod text;
pub mod turn;

pub use buffer::Buffer;
pub use fault::{Fault, Layer};
pub use plain::Plain;
pub use player::{play, Kind};
pub use snooping::{LineView, Snooping};
pub use turn::{Store, Turn};
