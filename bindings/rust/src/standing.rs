//! How a client stands, and how many of its calls are safe.

use crate::client::Client;
use crate::faults::unknown;
use crate::numbers::{call, standing};
use std::io;

/// How a client stands: what [`Client::standing`] tells.
///
/// ```
/// # fn main() -> std::io::Result<()> {
/// use assise::{Cluster, Standing};
///
/// let cluster = Cluster::new(2, 64, 64)?;
/// let client = cluster.open(1)?;
/// assert_eq!(client.standing()?, Standing::Alive);
/// cluster.fail(1)?;
/// assert_eq!(client.standing()?, Standing::CutOff);
/// # Ok(())
/// # }
/// ```
#[derive(Clone, Copy, Debug, PartialEq, Eq, Hash)]
#[repr(u64)]
pub enum Standing {
    /// It may call.
    Alive = standing::ALIVE,
    /// It crashed, and its node is up.
    Crashed = standing::CRASHED,
    /// Its node has failed since it was opened, whether it had crashed or not, and whether the node came back or not.
    CutOff = standing::CUT_OFF,
}

impl Standing {
    fn of_number(number: u64) -> Option<Standing> {
        [Standing::Alive, Standing::Crashed, Standing::CutOff].into_iter().find(|standing| *standing as u64 == number)
    }
}

/// What is asked of it, which is no call of the client's, and is answered where the client is over, too.
impl Client {
    /// How it stands.
    ///
    /// # Errors
    ///
    /// [`ClientGone`](crate::Refusal::ClientGone) where the cluster was renewed since it was opened.
    #[doc(alias = "assise_standing")]
    pub fn standing(&self) -> io::Result<Standing> {
        let number = self.ask(call::STANDING)?;
        Standing::of_number(number).ok_or_else(|| unknown(number))
    }

    /// The node that it was opened on, from 1.
    ///
    /// # Errors
    ///
    /// [`ClientGone`](crate::Refusal::ClientGone) where the cluster was renewed since it was opened.
    #[doc(alias = "assise_home")]
    pub fn home(&self) -> io::Result<u32> {
        self.ask(call::HOME).map(|node| node as u32)
    }

    /// How many of its calls were answered, with an error of the tree or without, and those that a failure took too. So it is the number
    /// that its next call has. A refused call doesn't count; a long read, write or listing counts once for each of its parts, and a
    /// dsync that a full log asked for, if it was answered.
    ///
    /// # Errors
    ///
    /// [`ClientGone`](crate::Refusal::ClientGone) where the cluster was renewed since it was opened.
    #[doc(alias = "assise_answered")]
    pub fn answered(&self) -> io::Result<u64> {
        self.ask(call::ANSWERED)
    }

    /// Of a client whose node is up: how many of its calls, from the first on, no failure can take any more. It never falls. Behind a
    /// sync it is all of them, and it rises without one, too, as where another client looks at what this one did.
    ///
    /// Of a client whose node failed it doesn't tell what was lost: [`Cluster::fail`](crate::Cluster::fail) does.
    ///
    /// ```
    /// # fn main() -> std::io::Result<()> {
    /// use assise::{Cluster, Lost};
    ///
    /// let cluster = Cluster::new(2, 64, 64)?;
    /// let client = cluster.open(1)?;
    /// client.create("/kept")?; // its call 0
    /// client.fsync()?; // 1
    /// client.create("/lost")?; // 2
    /// assert_eq!((client.answered()?, client.replicated()?), (3, 2));
    /// assert_eq!(cluster.fail(1)?, [Lost { client: 1, first_call: 2 }]);
    /// # Ok(())
    /// # }
    /// ```
    ///
    /// # Errors
    ///
    /// [`ClientGone`](crate::Refusal::ClientGone) where the cluster was renewed since it was opened.
    #[doc(alias = "assise_replicated")]
    pub fn replicated(&self) -> io::Result<u64> {
        self.ask(call::REPLICATED)
    }

    fn ask(&self, call: u32) -> io::Result<u64> {
        self.turn()?.ask(self.request(call))
    }
}
