//! How a client is opened.

use crate::numbers::{durability, kind};

/// How much of a client's log is made safe before another client gets a lease of its.
///
/// ```
/// # fn main() -> std::io::Result<()> {
/// use assise::{Cluster, Revoker};
///
/// let cluster = Cluster::new(2, 64, 64)?;
/// let writer = cluster.open_with(1, Revoker::Whole)?;
/// writer.create("/seen")?;
/// writer.create("/other")?;
/// writer.write("/seen", "text", 0)?;
/// writer.write("/other", "text", 0)?;
///
/// // Another client reads one file. By `Least`, the write behind would be lost with node 1.
/// cluster.open(2)?.read_all("/seen")?;
/// assert_eq!(cluster.fail(1)?, []);
/// # Ok(())
/// # }
/// ```
#[derive(Clone, Copy, Debug, Default, PartialEq, Eq, Hash)]
#[repr(u32)]
pub enum Revoker {
    /// What it wrote to the file or directory that the lease is of, and all before that.
    #[default]
    Least = kind::LEAST,
    /// All that it wrote.
    Whole = kind::WHOLE,
    /// As [`Revoker::Least`], and up to seven records more: to a multiple of 8, or to the log's end.
    Eights = kind::EIGHTS,
}

/// What a client's [`fsync`](crate::Client::fsync) waits for. Its [`dsync`](crate::Client::dsync) is a sync in either case.
///
/// ```
/// # fn main() -> std::io::Result<()> {
/// use assise::{Cluster, Durability, Lost, Options};
///
/// let cluster = Cluster::new(2, 64, 64)?;
/// let client = cluster.open_as(1, Options::new().durability(Durability::Optimistic))?;
/// client.create("/kept")?; // its call 0
/// client.dsync()?; // 1
/// client.create("/lost")?; // 2
/// client.fsync()?; // 3
/// assert_eq!(cluster.fail(1)?, [Lost { client: 1, first_call: 2 }]);
/// # Ok(())
/// # }
/// ```
#[derive(Clone, Copy, Debug, Default, PartialEq, Eq, Hash)]
#[repr(u64)]
pub enum Durability {
    /// Its fsync returns once all full nodes have all that it did.
    #[default]
    Pessimistic = durability::PESSIMISTIC,
    /// Its fsync returns at once and promises nothing: a failure may take what was done before it. Its dsync leaves out what later calls
    /// made up for, as bytes that were overwritten, and so may have less to send.
    Optimistic = durability::OPTIMISTIC,
}

/// How a client is opened by [`Cluster::open_as`](crate::Cluster::open_as): first with [`Revoker::Least`] and
/// [`Durability::Pessimistic`], and then with what is set.
///
/// ```
/// # fn main() -> std::io::Result<()> {
/// use assise::{Cluster, Durability, Options, Revoker};
///
/// let hasty = Options::new().revoker(Revoker::Whole).durability(Durability::Optimistic);
/// let client = Cluster::new(2, 64, 64)?.open_as(1, hasty)?;
/// client.create("/letter")?;
/// client.dsync()?;
/// # Ok(())
/// # }
/// ```
#[derive(Clone, Copy, Debug, Default, PartialEq, Eq, Hash)]
#[must_use = "a client is opened by `Cluster::open_as`"]
pub struct Options {
    pub(crate) revoker: Revoker,
    pub(crate) durability: Durability,
}

impl Options {
    /// As [`Cluster::open`](crate::Cluster::open) opens a client.
    pub fn new() -> Options {
        Options::default()
    }

    /// Sets how much is made safe before a lease goes.
    pub fn revoker(self, revoker: Revoker) -> Options {
        Options { revoker, ..self }
    }

    /// Sets what its fsync waits for.
    pub fn durability(self, durability: Durability) -> Options {
        Options { durability, ..self }
    }
}
