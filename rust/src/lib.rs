//! Reads Microsoft program databases (PDB) by a formally verified library.
//!
//! [`Pdb::parse`] reads a file's bytes, and everything else is reached from it: the streams, the tables of types and
//! of ids, the string table, the section headers, the translation of addresses, and the frames.
//!
//! ```
//! let bytes = std::fs::read("../examples/sample.pdb")?;
//! let pdb = pdb_container::Pdb::parse(&bytes)?;
//! let types = pdb.types()?;
//! for ty in types.iter() {
//!     match ty {
//!         Ok(ty) if ty.is_definition() => println!("{:#x} {}", ty.index, ty.name()?.unwrap_or_default()),
//!         Ok(_) => {}
//!         // A record of a kind that is not read; the iterator goes on.
//!         Err(error) => eprintln!("{error}"),
//!     }
//! }
//! # Ok::<(), Box<dyn std::error::Error>>(())
//! ```
//!
//! The calls of the library are proved: for any bytes they end, read within the bytes, and give the answer that a
//! written grammar of the format gives, or its first error. This crate calls them, and is not proved.
//!
//! Values that keep something open in the library are `Send` and `Sync`: threads share them, and their calls wait for one
//! another. Threads that are not to wait each parse the file, over the same bytes.
#![warn(missing_docs)]

mod addresses;
mod error;
mod file;
mod frames;
mod handle;
mod identity;
mod ids;
mod layouts;
mod names;
pub mod pdb;
mod row;
mod shapes;
#[rustfmt::skip]
pub mod sys;
mod table;
mod types;
mod validation;

pub use addresses::{Address, AddressMap, Omap, Place, Section, Translation};
pub use error::{Error, ErrorKind, Result};
pub use file::{Guid, Information, NamedStream, Pdb, Roles};
pub use frames::{Frame, FrameKind, Frames};
pub use identity::{DebugIdentity, Features, Format, Identity, KeyForm};
pub use ids::{Id, IdIter, Ids};
pub use layouts::{Definitions, Extent, Layout, LayoutIter, LayoutKind, LayoutRow};
pub use names::{Name, NameIter, Names};
pub use row::Row;
pub use shapes::{IdShape, Shape};
pub use types::{Field, FieldIter, Fields, Type, TypeIter, Types};
pub use validation::{Finding, Inconsistency, Part, Problem, validate, validate_all};
