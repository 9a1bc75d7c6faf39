//! What becomes of what a node sends.

use crate::cluster::Cluster;
use crate::desk::Request;
use crate::numbers::{call, link};
use std::io;

/// What a link does with each frame that a node sends.
///
/// ```
/// # fn main() -> std::io::Result<()> {
/// use assise::{Cluster, Link};
///
/// let cluster = Cluster::new(2, 64, 64)?;
/// let client = cluster.open(1)?;
/// cluster.set_link(1, Link::Lose)?;
/// client.create("/letter")?;
/// assert!(client.fsync().is_err());
/// cluster.set_link(1, Link::Perfect)?;
/// client.fsync()?;
/// # Ok(())
/// # }
/// ```
#[derive(Clone, Copy, Debug, Default, PartialEq, Eq, Hash)]
pub enum Link {
    /// It comes.
    #[default]
    Perfect,
    /// It is lost.
    Lose,
    /// In place of each second one the one before it comes again.
    Repeat,
    /// It comes one frame later.
    Delay,
    /// At most this many of its first bytes come.
    Cut(u64),
    /// A fault of the device comes in its place.
    Fault,
}

impl Link {
    /// Its number, and how many bytes of a frame it lets through where it cuts.
    fn numbers(self) -> (u32, u64) {
        match self {
            Link::Perfect => (link::PERFECT, 0),
            Link::Lose => (link::LOSE, 0),
            Link::Repeat => (link::REPEAT, 0),
            Link::Delay => (link::DELAY, 0),
            Link::Cut(most) => (link::CUT, most),
            Link::Fault => (link::FAULT, 0),
        }
    }
}

impl Cluster {
    /// What a node sends goes over a new link from here on. A call that waits for what is lost is tried 100,000 times, and then
    /// [`Busy`](crate::Refusal::Busy).
    ///
    /// # Errors
    ///
    /// [`BadNode`](crate::Refusal::BadNode).
    #[doc(alias = "assise_set_link")]
    pub fn set_link(&self, node: u32, link: Link) -> io::Result<()> {
        let (kind, first) = link.numbers();
        self.ask(Request { node, kind, first, ..Request::new(call::SET_LINK) }).map(drop)
    }
}
