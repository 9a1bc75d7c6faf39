//! What stands at a path.

/// What stands at a path, and how much it holds.
///
/// ```
/// # fn main() -> std::io::Result<()> {
/// use assise::{Cluster, Stat};
///
/// let client = Cluster::new(1, 64, 64)?.open(1)?;
/// client.mkdir("/box")?;
/// client.write_all("/box/letter", "hello")?;
/// assert_eq!(client.stat("/box")?, Stat::Directory { entries: 1 });
/// assert_eq!(client.stat("/box/letter")?, Stat::File { bytes: 5 });
/// assert!(client.stat("/")?.is_dir());
/// # Ok(())
/// # }
/// ```
#[derive(Clone, Copy, Debug, PartialEq, Eq, Hash)]
pub enum Stat {
    /// A file.
    File {
        /// How many bytes it has, 0 to [`MOST_FILE_BYTES`](crate::limits::MOST_FILE_BYTES).
        bytes: u64,
    },
    /// A directory.
    Directory {
        /// How many names it has, 0 to [`MOST_ENTRIES`](crate::limits::MOST_ENTRIES).
        entries: u64,
    },
}

impl Stat {
    /// Whether it is a file.
    pub fn is_file(&self) -> bool {
        matches!(self, Stat::File { .. })
    }

    /// Whether it is a directory.
    pub fn is_dir(&self) -> bool {
        matches!(self, Stat::Directory { .. })
    }
}
