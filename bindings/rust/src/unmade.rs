//! A change that isn't made again.

use crate::cluster::Lost;
use std::error::Error;
use std::fmt::{self, Display, Formatter};
use std::io;

/// Why [`redo`](crate::Client::redo) ended before all was made again.
#[derive(Debug)]
pub struct Unmade {
    /// The first change that isn't made. All in front of it are.
    pub first: Lost,
    /// Why: the tree's error, since what another client did is in its way, or a refusal.
    pub error: io::Error,
}

impl Display for Unmade {
    fn fmt(&self, f: &mut Formatter<'_>) -> fmt::Result {
        let Lost { client, first_call } = self.first;
        write!(f, "call {first_call} of client {client} isn't made again: {}", self.error)
    }
}

impl Error for Unmade {
    fn source(&self) -> Option<&(dyn Error + 'static)> {
        Some(&self.error)
    }
}

impl From<Unmade> for io::Error {
    fn from(unmade: Unmade) -> io::Error {
        unmade.error
    }
}
