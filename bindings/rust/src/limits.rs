//! How much there may be of everything. A cluster keeps to them by itself: what is more is refused, or an error of the tree.

use crate::numbers::define;

/// Nodes of a cluster, at most.
pub const MOST_NODES: u32 = define::MOST_NODES as u32;

/// Clients that are opened on a cluster, at most, and ever: the number of one that is over doesn't come back.
pub const MOST_CLIENTS: u32 = define::MOST_CLIENTS as u32;

/// Records that a client's log holds, at least.
pub const LEAST_LOG: u64 = define::LEAST_LOG;

/// Records that a client's log holds, at most.
pub const MOST_LOG: u64 = define::MOST_LOG;

/// Files and directories that a node keeps hot, at most. The least is 1.
pub const MOST_HOT: u64 = define::MOST_HOT;

/// Bytes of a name, at most.
pub const MOST_NAME_BYTES: usize = define::MOST_NAME_BYTES as usize;

/// Names of a path, at most.
pub const MOST_NAMES: usize = define::MOST_NAMES as usize;

/// Bytes of a file, at most.
pub const MOST_FILE_BYTES: u64 = define::MOST_FILE_BYTES;

/// Names in a directory, at most.
pub const MOST_ENTRIES: u64 = define::MOST_ENTRIES;

/// Files and directories that one client makes, at most.
pub const MOST_INODES: u64 = define::MOST_INODES;

/// Bytes of one request or answer. A read or a write of more, for a write with its path, is several calls.
pub const CALL_BYTES: usize = define::BYTES as usize;
