//! The place at which requests are served: the structs of `assise.h` in Rust, and the two functions of the library.

use crate::faults::error_of;
use crate::limits::CALL_BYTES;
use crate::numbers::{call, fault};
use std::ffi::{c_char, c_void, CStr};
use std::fmt;
use std::io;
use std::mem::MaybeUninit;
use std::ptr::addr_of;
use std::sync::{Arc, Mutex, MutexGuard, PoisonError};

/// A request's words: what is asked for, by or of whom, and two numbers more.
#[derive(Clone, Copy, Default)]
#[repr(C)]
pub(crate) struct Request {
    pub(crate) call: u32,
    pub(crate) client: u32,
    pub(crate) node: u32,
    pub(crate) path_bytes: u32,
    pub(crate) other_bytes: u32,
    pub(crate) kind: u32,
    pub(crate) first: u64,
    pub(crate) second: u64,
}

impl Request {
    /// A request of one of the numbers of `call`.
    pub(crate) fn new(call: u32) -> Request {
        Request { call, ..Request::default() }
    }

    pub(crate) fn of_client(call: u32, client: u32) -> Request {
        Request { client, ..Request::new(call) }
    }
}

/// A request, its answer, and the cluster, which is the library's.
#[repr(C)]
struct Place {
    request: Request,
    result: i64,
    stands: u64,
    bytes: [u8; CALL_BYTES],
    cluster: [*mut c_void; 4],
}

extern "C" {
    static assise_version_text: [c_char; 0];
    fn assise_begin(place: *mut Place);
    fn assise_serve(place: *mut Place);
}

/// The version and commit of the library that the program is linked with, and whether it is proved: `0.1.0 (d329e992a, unproved)`.
///
/// ```
/// println!("assise {}", assise::version());
/// ```
#[doc(alias = "assise_version")]
pub fn version() -> &'static str {
    // SAFETY: it is a text of the library's that ends with a zero byte, and nobody writes it.
    let text = unsafe { CStr::from_ptr(addr_of!(assise_version_text).cast()) };
    text.to_str().unwrap_or("unknown")
}

/// A desk, whose cluster goes with it.
pub(crate) struct Desk {
    place: Box<Place>,
    /// How often its cluster was renewed.
    renewals: u64,
}

// SAFETY: a cluster is memory of its own, by malloc and free, and the library keeps nothing of it elsewhere: not in a thread's memory, and
// not in the process's. It isn't `Sync`: who asks has it alone, as `&mut`.
unsafe impl Send for Desk {}

impl Desk {
    /// A desk without a cluster.
    pub(crate) fn new() -> Desk {
        let place = Box::into_raw(Box::new(MaybeUninit::<Place>::uninit())).cast::<Place>();
        // SAFETY: the memory is the box's, and `assise_begin` writes all of it.
        unsafe {
            assise_begin(place);
            Desk { place: Box::from_raw(place), renewals: 0 }
        }
    }

    /// Serves a request: a result of 0 or more, or the error for another.
    pub(crate) fn ask(&mut self, request: Request) -> io::Result<u64> {
        self.place.request = request;
        // SAFETY: the desk was begun, nobody else has it, and its cluster is the library's own.
        unsafe { assise_serve(&mut *self.place) };
        u64::try_from(self.place.result).map_err(|_| error_of(self.place.result))
    }

    /// Serves a request with a path, and behind it other bytes: what is written, or a second path.
    pub(crate) fn ask_at(&mut self, mut request: Request, path: &str, other: &[u8]) -> io::Result<u64> {
        let end = path.len().saturating_add(other.len());
        if end > CALL_BYTES {
            return Err(error_of(fault::BAD_REQUEST));
        }
        self.place.bytes[..path.len()].copy_from_slice(path.as_bytes());
        self.place.bytes[path.len()..end].copy_from_slice(other);
        request.path_bytes = path.len() as u32;
        request.other_bytes = other.len() as u32;
        self.ask(request)
    }

    /// The first bytes of the answer.
    pub(crate) fn answer(&self, count: u64) -> &[u8] {
        let count = usize::try_from(count).unwrap_or(CALL_BYTES);
        &self.place.bytes[..count.min(CALL_BYTES)]
    }

    /// How often its cluster was renewed: a client of before has no number in it.
    pub(crate) fn renewals(&self) -> u64 {
        self.renewals
    }

    /// Serves a request for a renewal.
    pub(crate) fn renew(&mut self, request: Request) -> io::Result<()> {
        self.ask(request)?;
        self.renewals += 1;
        Ok(())
    }

    /// The text that a request prints.
    pub(crate) fn text(&mut self, request: Request) -> io::Result<String> {
        let length = self.ask(request)?;
        let mut text = Vec::new();
        while (text.len() as u64) < length {
            let count = self.ask(Request { first: text.len() as u64, ..Request::new(call::PAGE) })?;
            text.extend_from_slice(self.answer(count));
        }
        String::from_utf8(text).map_err(|error| io::Error::new(io::ErrorKind::InvalidData, error))
    }

    /// What stands at a path that was looked at, or how many entries a directory has that was listed.
    pub(crate) fn stands(&self) -> u64 {
        self.place.stands
    }
}

impl Drop for Desk {
    fn drop(&mut self) {
        // It is refused only where there is no cluster.
        let _ = self.ask(Request::new(call::FREE));
    }
}

impl fmt::Debug for Desk {
    fn fmt(&self, out: &mut fmt::Formatter<'_>) -> fmt::Result {
        out.debug_struct("Desk").finish_non_exhaustive()
    }
}

/// A desk that a cluster, its clients and their files share.
pub(crate) type Shared = Arc<Mutex<Desk>>;

/// The desk, for one turn. A thread that panicked with it left it whole: the library returns from each request.
pub(crate) fn turn(desk: &Shared) -> MutexGuard<'_, Desk> {
    desk.lock().unwrap_or_else(PoisonError::into_inner)
}

#[cfg(test)]
mod tests {
    use super::*;
    use crate::numbers::define;
    use std::mem::{align_of, size_of};

    #[test]
    fn a_desk_lies_as_in_c() {
        assert_eq!((size_of::<Request>(), align_of::<Request>()), (6 * 4 + 2 * 8, 8));
        assert_eq!((size_of::<Place>(), align_of::<Place>()), (size_of::<Request>() + 2 * 8 + CALL_BYTES + 4 * size_of::<usize>(), 8));
    }

    #[test]
    fn crate_header_and_library_are_of_one_version() {
        assert_eq!(define::VERSION, env!("CARGO_PKG_VERSION"));
        assert!(version().starts_with(&format!("{} (", define::VERSION)));
    }
}
