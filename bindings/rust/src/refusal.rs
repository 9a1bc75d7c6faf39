//! Why a call wasn't served.

use crate::errno::EINVAL;
use crate::faults::fault_of;
use crate::numbers::fault;
use std::error::Error;
use std::fmt;
use std::io;

/// Why a call wasn't served, where the tree isn't the reason. A refused call stands in no history, and changed no file.
///
/// An [`io::Error`] of this crate either has the system's number, and is the tree's, or carries a refusal, which [`Refusal::of`] gives
/// back. The [`kind`](io::Error::kind) of such an error is that of the system's nearest number, [`Refusal::errno`], which may be one that
/// no program can name: so ask for the refusal.
///
/// ```
/// use assise::{Cluster, Refusal};
///
/// # fn main() -> std::io::Result<()> {
/// let cluster = Cluster::new(2, 64, 64)?;
/// let client = cluster.open(1)?;
/// cluster.fail(1)?;
///
/// let error = client.create("/letter").unwrap_err();
/// assert_eq!(Refusal::of(&error), Some(Refusal::NodeDown));
///
/// // An error of the tree is none.
/// let error = cluster.open(2)?.stat("/letter").unwrap_err();
/// assert_eq!(Refusal::of(&error), None);
/// assert_eq!(error.kind(), std::io::ErrorKind::NotFound);
/// # Ok(())
/// # }
/// ```
#[derive(Clone, Copy, Debug, PartialEq, Eq, Hash)]
#[non_exhaustive]
#[repr(i64)]
pub enum Refusal {
    /// Memory was refused: call again.
    OutOfMemory = fault::OUT_OF_MEMORY,
    /// The call was tried until the nodes had nothing left to do, or 100,000 times, and waited each time: call again, bring a node back,
    /// or [`raise`](crate::Cluster::raise) those that aren't raised.
    Busy = fault::BUSY,
    /// The client's node has failed since the client was opened, or a client was to be opened on a node that isn't full. Open one on
    /// a full node.
    NodeDown = fault::NODE_DOWN,
    /// The client has crashed, or its cluster was renewed: open another.
    ClientGone = fault::CLIENT_GONE,
    /// The client has made [`MOST_INODES`](crate::limits::MOST_INODES) files and directories: open another. A cluster that has more of
    /// them isn't renewed.
    InodesSpent = fault::INODES_SPENT,
    /// A single write is too long. No write of this crate is, since it goes in parts.
    TooLarge = fault::TOO_LARGE,
    /// The only full node can't fail.
    LastNode = fault::LAST_NODE,
    /// There is no such node.
    BadNode = fault::BAD_NODE,
    /// There is no such client, or [`MOST_CLIENTS`](crate::limits::MOST_CLIENTS) were opened, which is all that may be.
    BadClient = fault::BAD_CLIENT,
    /// A node that is down can't fail, and only one that is down comes back. Only a full one is set or raised, and it is raised once.
    WrongPhase = fault::WRONG_PHASE,
    /// A message of an earlier epoch, which no node takes. No call of this crate is refused so.
    StaleMessage = fault::STALE_MESSAGE,
    /// The client's log has no room, and the nodes have nothing left to do: bring a node back, or raise one, and call again.
    LogFull = fault::LOG_FULL,
    /// A path begins with no slash.
    NotAbsolute = fault::NOT_ABSOLUTE,
    /// A name in a path has no bytes: two slashes stand together, or one stands at the end.
    EmptyName = fault::EMPTY_NAME,
    /// A name is `.` or `..`, or has a zero byte.
    BadName = fault::BAD_NAME,
    /// A name has more than [`MOST_NAME_BYTES`](crate::limits::MOST_NAME_BYTES).
    NameTooLong = fault::NAME_TOO_LONG,
    /// A path has more than [`MOST_NAMES`](crate::limits::MOST_NAMES).
    TooDeep = fault::TOO_DEEP,
    /// There is no cluster. No call of this crate is refused so, since a [`Cluster`](crate::Cluster) is one.
    NoCluster = fault::NO_CLUSTER,
    /// A number is out of range, or a path has more bytes than a request.
    BadRequest = fault::BAD_REQUEST,
    /// An answer has more bytes than one may have. No call of this crate is refused so.
    NoRoom = fault::NO_ROOM,
}

const ALL: [Refusal; 20] = [
    Refusal::OutOfMemory,
    Refusal::Busy,
    Refusal::NodeDown,
    Refusal::ClientGone,
    Refusal::InodesSpent,
    Refusal::TooLarge,
    Refusal::LastNode,
    Refusal::BadNode,
    Refusal::BadClient,
    Refusal::WrongPhase,
    Refusal::StaleMessage,
    Refusal::LogFull,
    Refusal::NotAbsolute,
    Refusal::EmptyName,
    Refusal::BadName,
    Refusal::NameTooLong,
    Refusal::TooDeep,
    Refusal::NoCluster,
    Refusal::BadRequest,
    Refusal::NoRoom,
];

impl Refusal {
    /// The refusal that an error of this crate is for, or `None` of one of the tree, and of any other.
    pub fn of(error: &io::Error) -> Option<Refusal> {
        error.get_ref()?.downcast_ref::<Refusal>().copied()
    }

    /// The number of `<errno.h>` that is nearest: `EIO` where node or client is gone, `EAGAIN` where the call waits. A file system
    /// that is called by number, as one under FUSE, answers it.
    ///
    /// ```
    /// assert_eq!(assise::Refusal::NodeDown.errno(), 5); // EIO
    /// ```
    #[doc(alias = "assise_errno")]
    pub fn errno(self) -> i32 {
        fault_of(self as i64).map_or(EINVAL, |fault| fault.errno)
    }

    pub(crate) fn of_code(code: i64) -> Option<Refusal> {
        ALL.into_iter().find(|refusal| *refusal as i64 == code)
    }
}

impl fmt::Display for Refusal {
    fn fmt(&self, out: &mut fmt::Formatter<'_>) -> fmt::Result {
        out.write_str(fault_of(*self as i64).map_or("refused", |fault| fault.text))
    }
}

impl Error for Refusal {}

/// The refusal is the error's inner one, and its kind that of [`Refusal::errno`].
impl From<Refusal> for io::Error {
    fn from(refusal: Refusal) -> io::Error {
        io::Error::new(io::Error::from_raw_os_error(refusal.errno()).kind(), refusal)
    }
}
