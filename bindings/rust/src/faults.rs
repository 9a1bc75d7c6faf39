//! Results below 0, as errors.

use crate::numbers::FAULTS;
use crate::refusal::Refusal;
use std::fmt::Display;
use std::io::{self, ErrorKind};

/// What the header says of a result below 0.
pub(crate) struct Fault {
    pub(crate) code: i64,
    /// The system's number that is nearest to it.
    pub(crate) errno: i32,
    pub(crate) text: &'static str,
}

/// What the header says of a result, if it says anything.
pub(crate) fn fault_of(code: i64) -> Option<&'static Fault> {
    FAULTS.iter().find(|fault| fault.code == code)
}

/// The error for a result below 0: a refusal, or else the system's own, since it is the tree's.
pub(crate) fn error_of(result: i64) -> io::Error {
    match (Refusal::of_code(result), fault_of(result)) {
        (Some(refusal), _) => refusal.into(),
        (None, Some(fault)) => io::Error::from_raw_os_error(fault.errno),
        (None, None) => unknown(result),
    }
}

/// The error for a result that the header doesn't have.
pub(crate) fn unknown(result: impl Display) -> io::Error {
    io::Error::new(ErrorKind::Other, format!("result {result}"))
}

#[cfg(test)]
mod tests {
    use super::*;
    use crate::errno;

    /// The errors of the tree, as POSIX names them for the calls of the same names.
    const TREE: [i32; 8] =
        [errno::ENOENT, errno::EEXIST, errno::ENOTDIR, errno::EISDIR, errno::ENOTEMPTY, errno::EINVAL, errno::EFBIG, errno::ENOSPC];

    #[test]
    fn each_fault_has_its_error() {
        let tree = FAULTS.iter().filter(|fault| fault.code > -100);
        assert!(tree.clone().map(|fault| fault.code).eq((1..=8).map(|number| -number)));
        for (fault, number) in tree.zip(TREE) {
            let error = error_of(fault.code);
            assert_eq!((error.raw_os_error(), Refusal::of(&error)), (Some(number), None));
        }
        for fault in FAULTS.iter().filter(|fault| fault.code < -100) {
            let error = error_of(fault.code);
            let refusal = Refusal::of(&error).unwrap_or_else(|| panic!("no Refusal is {}", fault.code));
            assert_eq!((refusal as i64, refusal.errno(), error.to_string()), (fault.code, fault.errno, fault.text.to_string()));
            assert_eq!(error.kind(), io::Error::from_raw_os_error(fault.errno).kind());
        }
        assert_eq!(error_of(-999).to_string(), "result -999");
    }
}
