//! A cluster.

use crate::client::Client;
use crate::desk::{turn, Desk, Request, Shared};
use crate::faults::unknown;
use crate::numbers::{call, define};
use crate::options::{Options, Revoker};
use crate::phase::Phase;
use std::io;
use std::sync::{Arc, Mutex};

/// What a client lost with its node.
///
/// ```
/// # fn main() -> std::io::Result<()> {
/// use assise::{Cluster, Lost};
///
/// let cluster = Cluster::new(2, 64, 64)?;
/// let client = cluster.open(1)?;
/// client.create("/kept")?; // its call 0
/// client.fsync()?; // 1
/// client.create("/lost")?; // 2
/// assert_eq!(cluster.fail(1)?, [Lost { client: 1, first_call: 2 }]);
/// # Ok(())
/// # }
/// ```
#[derive(Clone, Copy, Debug, PartialEq, Eq, Hash)]
pub struct Lost {
    /// The client's number, from 1.
    pub client: u32,
    /// The number of its first lost call, counted from 0. It and all behind it are lost. A call that found its log full asked for an
    /// fsync, which counts as a call, too, if it was answered.
    pub first_call: u64,
}

/// A cluster of nodes, numbered from 1.
///
/// A clone is the same cluster. It goes with the last clone, client and file, and all that it holds with it. Till then it keeps each
/// call in memory, unless it is [renewed](Cluster::renew).
///
/// Threads may share it: one request is served at a time, and who comes meanwhile waits.
///
/// ```
/// # fn main() -> std::io::Result<()> {
/// let cluster = assise::Cluster::new(3, 64, 64)?;
/// let client = cluster.open(1)?;
/// client.create("/letter")?;
/// client.fsync()?;
///
/// cluster.fail(1)?;
/// cluster.back(1)?;
/// cluster.fail(2)?;
/// assert_eq!(cluster.open(1)?.list("/")?, ["letter"]);
/// assert!(cluster.is_legal()?);
/// # Ok(())
/// # }
/// ```
#[derive(Clone, Debug)]
pub struct Cluster {
    desk: Shared,
}

impl Cluster {
    /// Makes a cluster on which nothing has happened.
    ///
    /// It has 1 to [`MOST_NODES`](crate::limits::MOST_NODES) nodes. A client's log holds `log` records, which are
    /// [`LEAST_LOG`](crate::limits::LEAST_LOG) to [`MOST_LOG`](crate::limits::MOST_LOG), and a node keeps `hot` files and directories
    /// hot, 1 to [`MOST_HOT`](crate::limits::MOST_HOT).
    ///
    /// # Errors
    ///
    /// [`BadRequest`](crate::Refusal::BadRequest) where a number is out of range, [`OutOfMemory`](crate::Refusal::OutOfMemory).
    #[doc(alias = "assise_make")]
    pub fn new(nodes: u32, log: u64, hot: u64) -> io::Result<Cluster> {
        let mut desk = Desk::new();
        desk.ask(Request { node: nodes, first: log, second: hot, ..Request::new(call::MAKE) })?;
        Ok(Cluster { desk: Arc::new(Mutex::new(desk)) })
    }

    /// Opens a client on a full node, with [`Revoker::Least`] and [`Durability::Pessimistic`](crate::Durability::Pessimistic). A cluster
    /// has [`MOST_CLIENTS`](crate::limits::MOST_CLIENTS) in all, and no number comes back, until it is [renewed](Cluster::renew).
    ///
    /// # Errors
    ///
    /// [`BadNode`](crate::Refusal::BadNode), [`NodeDown`](crate::Refusal::NodeDown) where the node isn't full,
    /// [`BadClient`](crate::Refusal::BadClient) where all clients were opened, [`OutOfMemory`](crate::Refusal::OutOfMemory).
    #[doc(alias = "assise_open")]
    pub fn open(&self, node: u32) -> io::Result<Client> {
        self.open_as(node, Options::new())
    }

    /// Opens a client with a revoker of its own.
    ///
    /// # Errors
    ///
    /// Those of [`Cluster::open`].
    pub fn open_with(&self, node: u32, revoker: Revoker) -> io::Result<Client> {
        self.open_as(node, Options::new().revoker(revoker))
    }

    /// Opens a client with options of its own.
    ///
    /// # Errors
    ///
    /// Those of [`Cluster::open`].
    #[doc(alias = "assise_open_as")]
    pub fn open_as(&self, node: u32, options: Options) -> io::Result<Client> {
        let (kind, durability) = (options.revoker as u32, options.durability as u64);
        let mut desk = turn(&self.desk);
        let number = desk.ask(Request { node, kind, second: durability, ..Request::new(call::OPEN) })?;
        Ok(Client::new(Arc::clone(&self.desk), number as u32, desk.renewals()))
    }

    /// A new cluster with the same files and directories comes in place of this one, of these sizes, for which [`Cluster::new`] has the
    /// ranges. Its one client, on node 1, with this revoker and [`Durability::Pessimistic`](crate::Durability::Pessimistic), is returned.
    ///
    /// The history begins anew, and its memory is free again, so that a program may run for ever; and
    /// [`MOST_CLIENTS`](crate::limits::MOST_CLIENTS) may be opened again. **All clients of before are over**, with their files: each of
    /// their calls is refused with [`ClientGone`](crate::Refusal::ClientGone). No call is lost, whether it was synced or not. Links stay
    /// as they were set, and no node is raised. It takes the memory of the new cluster, and twice that of the files, beside the old one.
    ///
    /// ```
    /// # fn main() -> std::io::Result<()> {
    /// use assise::{Cluster, Refusal, Revoker};
    ///
    /// let cluster = Cluster::new(2, 64, 64)?;
    /// let before = cluster.open(2)?;
    /// before.write_all("/letter", "hello")?;
    ///
    /// let client = cluster.renew(3, 64, 64, Revoker::Least)?;
    /// assert_eq!(client.read_all("/letter")?, b"hello");
    /// let error = before.read_all("/letter").unwrap_err();
    /// assert_eq!(Refusal::of(&error), Some(Refusal::ClientGone));
    /// # Ok(())
    /// # }
    /// ```
    ///
    /// # Errors
    ///
    /// Then all is as it was, but that clients may have made a dsync. [`BadRequest`](crate::Refusal::BadRequest) where a number is out of
    /// range; [`Busy`](crate::Refusal::Busy) where a call can't be replicated, as where not all nodes are raised;
    /// [`TooDeep`](crate::Refusal::TooDeep), [`InodesSpent`](crate::Refusal::InodesSpent),
    /// [`OutOfMemory`](crate::Refusal::OutOfMemory).
    #[doc(alias = "assise_renew")]
    pub fn renew(&self, nodes: u32, log: u64, hot: u64, revoker: Revoker) -> io::Result<Client> {
        let mut desk = turn(&self.desk);
        desk.renew(Request { node: nodes, kind: revoker as u32, first: log, second: hot, ..Request::new(call::RENEW) })?;
        Ok(Client::new(Arc::clone(&self.desk), 1, desk.renewals()))
    }

    /// Crashes a client by its number: for one whose [`Client`] was dropped. [`Client::crash`] says what comes of it.
    ///
    /// # Errors
    ///
    /// [`BadClient`](crate::Refusal::BadClient) where none has the number, [`ClientGone`](crate::Refusal::ClientGone) where it crashed,
    /// [`NodeDown`](crate::Refusal::NodeDown) where its node failed.
    #[doc(alias = "assise_crash")]
    pub fn crash(&self, client: u32) -> io::Result<()> {
        self.ask(Request::of_client(call::CRASH, client)).map(drop)
    }

    /// A node stops, and the clients on it are over: what each lost, by their rising numbers. Of a client that isn't named no call is
    /// lost. A program that goes on with a client on another node makes the lost calls again, or forgets what it knew of them.
    ///
    /// # Errors
    ///
    /// [`BadNode`](crate::Refusal::BadNode), [`WrongPhase`](crate::Refusal::WrongPhase) where it is down,
    /// [`LastNode`](crate::Refusal::LastNode) where no other is full, [`OutOfMemory`](crate::Refusal::OutOfMemory).
    #[doc(alias = "assise_fail")]
    pub fn fail(&self, node: u32) -> io::Result<Vec<Lost>> {
        let mut desk = turn(&self.desk);
        let count = desk.ask(Request { node, ..Request::new(call::FAIL) })?;
        Ok(desk.answer(count).chunks_exact(define::LOSS_BYTES as usize).map(lost_of).collect())
    }

    /// A node that is down comes back: it is filled from the others, and full again. Where that is refused midway, for memory, let it
    /// fail and come back again.
    ///
    /// # Errors
    ///
    /// [`BadNode`](crate::Refusal::BadNode), [`WrongPhase`](crate::Refusal::WrongPhase) where it isn't down,
    /// [`OutOfMemory`](crate::Refusal::OutOfMemory).
    #[doc(alias = "assise_back")]
    pub fn back(&self, node: u32) -> io::Result<()> {
        self.ask(Request { node, ..Request::new(call::BACK) }).map(drop)
    }

    /// How a node stands.
    ///
    /// # Errors
    ///
    /// [`BadNode`](crate::Refusal::BadNode).
    #[doc(alias = "assise_phase")]
    pub fn phase(&self, node: u32) -> io::Result<Phase> {
        let number = self.ask(Request { node, ..Request::new(call::PHASE) })?;
        Phase::of_number(number).ok_or_else(|| unknown(number))
    }

    /// Sets how many files and directories a full node keeps hot, 1 to [`MOST_HOT`](crate::limits::MOST_HOT): from here on those that
    /// were used last. Calls are answered as before.
    ///
    /// # Errors
    ///
    /// [`BadRequest`](crate::Refusal::BadRequest) where `hot` is out of range, [`BadNode`](crate::Refusal::BadNode),
    /// [`WrongPhase`](crate::Refusal::WrongPhase) where the node isn't full; [`OutOfMemory`](crate::Refusal::OutOfMemory) where fewer are
    /// to be hot than before, and as many stay hot then.
    #[doc(alias = "assise_set_hot")]
    pub fn set_hot(&self, node: u32, hot: u64) -> io::Result<()> {
        self.ask(Request { node, first: hot, ..Request::new(call::SET_HOT) }).map(drop)
    }

    /// A full node reads version 2 of frames, beside version 1, and sends version 2 from here on. What it sends to a node that isn't
    /// raised waits until that is, so raise all nodes: calls that wait for it are refused with [`Busy`](crate::Refusal::Busy) meanwhile,
    /// after all their tries. Nothing is lost. A node stays raised when it fails, and one that comes back is raised where the node that
    /// fills it is.
    ///
    /// ```
    /// # fn main() -> std::io::Result<()> {
    /// let cluster = assise::Cluster::new(2, 64, 64)?;
    /// let client = cluster.open(1)?;
    /// client.create("/letter")?;
    /// cluster.raise(1)?;
    /// cluster.raise(2)?;
    /// client.fsync()?;
    /// assert_eq!(cluster.fail(1)?, []);
    /// # Ok(())
    /// # }
    /// ```
    ///
    /// # Errors
    ///
    /// [`BadNode`](crate::Refusal::BadNode), [`WrongPhase`](crate::Refusal::WrongPhase) where the node isn't full or was raised.
    #[doc(alias = "assise_raise")]
    pub fn raise(&self, node: u32) -> io::Result<()> {
        self.ask(Request { node, ..Request::new(call::RAISE) }).map(drop)
    }

    /// One round of all nodes: each sends what is to be replicated and digests what all have, and leases go that may. Says whether there
    /// was anything to do. Calls make rounds themselves where they wait.
    ///
    /// # Errors
    ///
    /// None: a cluster always answers it.
    #[doc(alias = "assise_round")]
    pub fn round(&self) -> io::Result<bool> {
        Ok(self.ask(Request::new(call::ROUND))? == 1)
    }

    /// How many entries the history has: each call, each client that was opened or crashed, each failure and return of a node. All are
    /// kept in memory, with the bytes of each write.
    ///
    /// # Errors
    ///
    /// None: a cluster always answers it.
    #[doc(alias = "assise_entries")]
    pub fn entries(&self) -> io::Result<u64> {
        self.ask(Request::new(call::ENTRIES))
    }

    /// The history as a text, a line an entry, as a script's command `history` prints it.
    ///
    /// ```
    /// # fn main() -> std::io::Result<()> {
    /// let cluster = assise::Cluster::new(1, 64, 64)?;
    /// cluster.open(1)?.mkdir("/box")?;
    /// assert_eq!(cluster.history()?, "history 2\nopen 1 1\ncall 1 0 mkdir /box = done");
    /// # Ok(())
    /// # }
    /// ```
    ///
    /// # Errors
    ///
    /// [`OutOfMemory`](crate::Refusal::OutOfMemory).
    #[doc(alias = "assise_print_history")]
    pub fn history(&self) -> io::Result<String> {
        turn(&self.desk).text(Request::new(call::PRINT_HISTORY))
    }

    /// The tree that a node alone gives, that of all replicated calls, as a script's command `tree` prints it.
    ///
    /// ```
    /// # fn main() -> std::io::Result<()> {
    /// let cluster = assise::Cluster::new(2, 64, 64)?;
    /// let client = cluster.open(1)?;
    /// client.mkdir("/box")?;
    /// assert_eq!(cluster.tree(2)?, "tree 0");
    /// client.fsync()?;
    /// assert_eq!(cluster.tree(2)?, "tree 1\n/box dir");
    /// # Ok(())
    /// # }
    /// ```
    ///
    /// # Errors
    ///
    /// [`BadNode`](crate::Refusal::BadNode), [`WrongPhase`](crate::Refusal::WrongPhase) where it isn't full,
    /// [`OutOfMemory`](crate::Refusal::OutOfMemory).
    #[doc(alias = "assise_print_tree")]
    pub fn tree(&self, node: u32) -> io::Result<String> {
        turn(&self.desk).text(Request { node, ..Request::new(call::PRINT_TREE) })
    }

    /// How many bytes the history's calls wrote, read and listed. They are kept in memory with its entries.
    ///
    /// # Errors
    ///
    /// None: a cluster always answers it.
    #[doc(alias = "assise_payload")]
    pub fn payload(&self) -> io::Result<u64> {
        self.ask(Request::new(call::PAYLOAD))
    }

    /// Whether the history is legal, which it is: that is checked anew, and takes long where it is.
    ///
    /// # Errors
    ///
    /// [`OutOfMemory`](crate::Refusal::OutOfMemory).
    #[doc(alias = "assise_legal")]
    pub fn is_legal(&self) -> io::Result<bool> {
        Ok(self.ask(Request::new(call::LEGAL))? == 1)
    }

    pub(crate) fn ask(&self, request: Request) -> io::Result<u64> {
        turn(&self.desk).ask(request)
    }
}

/// A client's number in 4 bytes and that of its first lost call in 8, the lowest first.
pub(crate) fn lost_of(bytes: &[u8]) -> Lost {
    let number = |bytes: &[u8]| bytes.iter().rev().fold(0, |sum, byte| sum << 8 | u64::from(*byte));
    let (client, first_call) = bytes.split_at(4);
    Lost { client: number(client) as u32, first_call: number(first_call) }
}
