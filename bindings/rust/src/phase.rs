//! How a node stands.

use crate::numbers::phase;

/// How a node stands: what [`Cluster::phase`](crate::Cluster::phase) tells.
///
/// ```
/// # fn main() -> std::io::Result<()> {
/// use assise::{Cluster, Phase};
///
/// let cluster = Cluster::new(2, 64, 64)?;
/// cluster.fail(1)?;
/// assert_eq!(cluster.phase(1)?, Phase::Down);
/// cluster.back(1)?;
/// assert_eq!(cluster.phase(1)?, Phase::Full);
/// # Ok(())
/// # }
/// ```
#[derive(Clone, Copy, Debug, PartialEq, Eq, Hash)]
#[repr(u64)]
pub enum Phase {
    /// It has all that is replicated, and clients are opened on it.
    Full = phase::FULL,
    /// It failed.
    Down = phase::DOWN,
    /// It comes back, and may lack something: a [`back`](crate::Cluster::back) was refused midway, for memory.
    Returning = phase::RETURNING,
}

impl Phase {
    pub(crate) fn of_number(number: u64) -> Option<Phase> {
        [Phase::Full, Phase::Down, Phase::Returning].into_iter().find(|phase| *phase as u64 == number)
    }
}
