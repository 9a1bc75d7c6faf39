//! A client's calls.

use crate::cluster::{lost_of, Lost};
use crate::desk::{turn, Desk, Request, Shared};
use crate::faults::error_of;
use crate::numbers::{call, define, fault, stands};
use crate::stat::Stat;
use crate::unmade::Unmade;
use std::io;
use std::sync::MutexGuard;

/// A client on a node, and the calls of the file system.
///
/// It is over once its node fails, also where the node comes back, and once its cluster is
/// [renewed](crate::Cluster::renew); files stay, and another client finds them.
///
/// A path is text: `/`, or a slash before each of its names, which are [`MOST_NAMES`](crate::limits::MOST_NAMES) at most, of 1 to
/// [`MOST_NAME_BYTES`](crate::limits::MOST_NAME_BYTES) each.
///
/// # What goes with it
///
/// A clone is the same client. **Dropping it does nothing in the cluster**: the client stays open there, with its leases and with what it
/// didn't sync, and its number is spent. Others still get at its files: the nodes make safe what they look at, and take its leases. The
/// rest of what it didn't sync is on its node alone, and goes with it. So [`dsync`](Client::dsync) first; [`crash`](Client::crash) lets
/// its leases go.
///
/// # Errors
///
/// Errors of the tree are the system's, as `ENOENT`, whose kind is [`NotFound`](io::ErrorKind::NotFound). Besides those that a call names,
/// each may be refused with [`NodeDown`](crate::Refusal::NodeDown), [`ClientGone`](crate::Refusal::ClientGone),
/// [`Busy`](crate::Refusal::Busy), [`LogFull`](crate::Refusal::LogFull) or [`OutOfMemory`](crate::Refusal::OutOfMemory), and each that
/// takes a path for the path: [`NotAbsolute`](crate::Refusal::NotAbsolute), [`EmptyName`](crate::Refusal::EmptyName),
/// [`BadName`](crate::Refusal::BadName), [`NameTooLong`](crate::Refusal::NameTooLong), [`TooDeep`](crate::Refusal::TooDeep),
/// [`BadRequest`](crate::Refusal::BadRequest).
///
/// # Examples
///
/// ```
/// # fn main() -> std::io::Result<()> {
/// let client = assise::Cluster::new(2, 64, 64)?.open(1)?;
/// client.mkdir("/box")?;
/// client.write_all("/box/draft", "hello")?;
/// client.rename("/box/draft", "/box/letter")?;
/// client.fsync()?;
/// assert_eq!(client.list("/box")?, ["letter"]);
/// assert_eq!(client.read_all("/box/letter")?, b"hello");
/// # Ok(())
/// # }
/// ```
#[derive(Clone, Debug)]
#[must_use = "a client that is dropped stays open in its cluster, and its number is spent"]
pub struct Client {
    desk: Shared,
    number: u32,
    /// How often its cluster had been renewed when it was opened.
    renewals: u64,
}

impl Client {
    pub(crate) fn new(desk: Shared, number: u32, renewals: u64) -> Client {
        Client { desk, number, renewals }
    }

    /// Its number, 1 to [`MOST_CLIENTS`](crate::limits::MOST_CLIENTS).
    pub fn number(&self) -> u32 {
        self.number
    }

    /// The client's process stops: it and its clones are over. Nothing that it did is lost by that: the nodes replicate it in their rounds,
    /// and then its leases go. Until then, a failure of its node takes what isn't synced.
    ///
    /// ```
    /// # fn main() -> std::io::Result<()> {
    /// let cluster = assise::Cluster::new(2, 64, 64)?;
    /// let client = cluster.open(1)?;
    /// client.create("/letter")?;
    /// client.crash()?;
    /// while cluster.round()? {}
    /// assert_eq!(cluster.fail(1)?, []);
    /// # Ok(())
    /// # }
    /// ```
    ///
    /// # Errors
    ///
    /// [`ClientGone`](crate::Refusal::ClientGone) where it crashed before or the cluster was renewed,
    /// [`NodeDown`](crate::Refusal::NodeDown).
    #[doc(alias = "assise_crash")]
    pub fn crash(self) -> io::Result<()> {
        self.turn()?.ask(self.request(call::CRASH)).map(drop)
    }

    /// Makes a file without bytes.
    ///
    /// # Errors
    ///
    /// `EEXIST`, `ENOENT`, `ENOTDIR`; `ENOSPC` where the directory has [`MOST_ENTRIES`](crate::limits::MOST_ENTRIES);
    /// [`InodesSpent`](crate::Refusal::InodesSpent).
    #[doc(alias = "create_new")]
    pub fn create(&self, path: impl AsRef<str>) -> io::Result<()> {
        self.done(self.request(call::CREATE), path.as_ref(), &[])
    }

    /// Makes a directory without names.
    ///
    /// # Errors
    ///
    /// Those of [`Client::create`].
    #[doc(alias = "create_dir")]
    pub fn mkdir(&self, path: impl AsRef<str>) -> io::Result<()> {
        self.done(self.request(call::MKDIR), path.as_ref(), &[])
    }

    /// Moves what stands at `from` to `to`, at once. A file may replace a file, and a directory a directory without names.
    ///
    /// # Errors
    ///
    /// `ENOENT`, `ENOTDIR`, `EISDIR`, `ENOTEMPTY`, `ENOSPC`; `EINVAL` of the root, and of a path to one below itself.
    pub fn rename(&self, from: impl AsRef<str>, to: impl AsRef<str>) -> io::Result<()> {
        self.done(self.request(call::RENAME), from.as_ref(), to.as_ref().as_bytes())
    }

    /// Removes a file. It is gone at once, also for who has it open as a [`File`](crate::File).
    ///
    /// # Errors
    ///
    /// `ENOENT`, `ENOTDIR`, `EISDIR`.
    #[doc(alias = "remove_file")]
    pub fn unlink(&self, path: impl AsRef<str>) -> io::Result<()> {
        self.done(self.request(call::UNLINK), path.as_ref(), &[])
    }

    /// Removes a directory without names.
    ///
    /// # Errors
    ///
    /// `ENOENT`, `ENOTDIR`, `ENOTEMPTY`; `EINVAL` of the root.
    #[doc(alias = "remove_dir")]
    pub fn rmdir(&self, path: impl AsRef<str>) -> io::Result<()> {
        self.done(self.request(call::RMDIR), path.as_ref(), &[])
    }

    /// What stands at a path.
    ///
    /// # Errors
    ///
    /// `ENOENT`, `ENOTDIR`.
    #[doc(alias = "metadata")]
    pub fn stat(&self, path: impl AsRef<str>) -> io::Result<Stat> {
        let path = path.as_ref();
        let mut desk = self.turn()?;
        let count = desk.ask_at(self.request(call::STAT), path, &[])?;
        match desk.stands() {
            stands::DIR => Ok(Stat::Directory { entries: count }),
            _ => Ok(Stat::File { bytes: count }),
        }
    }

    /// Returns once all full nodes have all that this client did so far, in whatever files. Of a client that was opened
    /// [optimistic](crate::Durability::Optimistic) it returns at once, and promises nothing.
    ///
    /// # Errors
    ///
    /// Those of each call.
    #[doc(alias = "sync_all")]
    #[doc(alias = "assise_fsync")]
    pub fn fsync(&self) -> io::Result<()> {
        self.turn()?.ask(self.request(call::FSYNC)).map(drop)
    }

    /// Returns once all full nodes have all that this client did so far, in whatever files, however it was opened.
    ///
    /// # Errors
    ///
    /// Those of each call.
    #[doc(alias = "sync_all")]
    #[doc(alias = "assise_dsync")]
    pub fn dsync(&self) -> io::Result<()> {
        self.turn()?.ask(self.request(call::DSYNC)).map(drop)
    }

    /// Makes again what a failure took of another client: of the changes of files from that call on those that are lost, in their order.
    /// Behind a change that isn't made, go on from its call, or from the next.
    ///
    /// ```
    /// # fn main() -> std::io::Result<()> {
    /// let cluster = assise::Cluster::new(2, 64, 64)?;
    /// cluster.open(1)?.create("/letter")?;
    /// let lost = cluster.fail(1)?;
    ///
    /// let client = cluster.open(2)?;
    /// for lost in lost {
    ///     client.redo(lost)?;
    /// }
    /// assert_eq!(client.list("/")?, ["letter"]);
    /// # Ok(())
    /// # }
    /// ```
    ///
    /// # Errors
    ///
    /// [`Unmade`]: which change isn't made again, and why. `?` makes an [`io::Error`] of it.
    #[doc(alias = "assise_redo")]
    pub fn redo(&self, lost: Lost) -> Result<(), Unmade> {
        let mut desk = self.turn().map_err(|error| Unmade { first: lost, error })?;
        let request = Request { kind: lost.client, first: lost.first_call, ..self.request(call::REDO) };
        match desk.ask(request) {
            Ok(_) => Ok(()),
            Err(error) => Err(Unmade { first: lost_of(desk.answer(define::LOSS_BYTES)), error }),
        }
    }

    /// The desk of the client's cluster, for one turn, unless that was renewed since: then another client may have its number.
    pub(crate) fn turn(&self) -> io::Result<MutexGuard<'_, Desk>> {
        let desk = turn(&self.desk);
        if desk.renewals() != self.renewals {
            return Err(error_of(fault::CLIENT_GONE));
        }
        Ok(desk)
    }

    /// A request of the client, by a number of `call`.
    pub(crate) fn request(&self, call: u32) -> Request {
        Request::of_client(call, self.number)
    }

    /// Serves a request that answers with a number of no meaning.
    pub(crate) fn done(&self, request: Request, path: &str, other: &[u8]) -> io::Result<()> {
        self.turn()?.ask_at(request, path, other).map(drop)
    }
}
