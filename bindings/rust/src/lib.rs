//! A replicated file system as a library: a [`Cluster`] of nodes in this process, and the calls of its [`Client`]s.
//!
//! A client writes to its node; [`Client::fsync`] is answered once all full nodes have what it wrote, and is a sync, unless the client
//! was opened [optimistic](Durability::Optimistic); [`Client::dsync`] is one always. Where a node fails, its clients are over, and each
//! loses at most a tail of its calls behind its last sync, over all files, in order. A client that is opened on another node finds the
//! rest. A program that goes on makes the lost calls again: [`Cluster::fail`] names the first of each client.
//!
//! ```
//! use std::io::Write;
//!
//! # fn main() -> std::io::Result<()> {
//! let cluster = assise::Cluster::new(2, 64, 64)?;
//! let mut letter = cluster.open(1)?.create_file("/letter")?;
//! letter.write_all(b"kept")?;
//! letter.sync_all()?;
//! letter.write_all(b", and lost")?;
//! cluster.fail(1)?;
//! assert_eq!(cluster.open(2)?.read_all("/letter")?, b"kept");
//! # Ok(())
//! # }
//! ```
//!
//! The calls of a client have the names that they have in C and in scripts, as `mkdir`; where std has a type, names are std's, as those of
//! [`File`]. Paths are text.
//!
//! The cluster itself is proved; this crate isn't. It adds a lock, so that threads may share a cluster, and puts errors in
//! [`io::Error`](std::io::Error)s: those of the tree are the system's, as `ENOENT`, and of all others [`Refusal::of`] says which.
//!
//! The cluster keeps each call, and the bytes of each write, in its history: in memory, as long as it is there. [`Cluster::renew`] lets
//! all of that go, and keeps the files.

#![warn(missing_docs)]
#![deny(unsafe_code)]

mod bytes;
mod client;
mod cluster;
#[allow(unsafe_code)]
mod desk;
mod errno;
mod faults;
mod file;
pub mod limits;
mod link;
mod numbers;
mod options;
mod phase;
mod read_dir;
mod refusal;
mod standing;
mod stat;
mod unmade;

pub use client::Client;
pub use cluster::{Cluster, Lost};
pub use desk::version;
pub use file::File;
pub use link::Link;
pub use options::{Durability, Options, Revoker};
pub use phase::Phase;
pub use read_dir::ReadDir;
pub use refusal::Refusal;
pub use standing::Standing;
pub use stat::Stat;
pub use unmade::Unmade;

/// The programs of the page are tests.
#[cfg(doctest)]
#[doc = include_str!("../README.md")]
struct Page;
