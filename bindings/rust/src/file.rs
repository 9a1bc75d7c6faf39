//! A file with a place in it.

use crate::client::Client;
use crate::faults::error_of;
use crate::numbers::fault;
use crate::stat::Stat;
use std::io::{self, ErrorKind, Read, Seek, SeekFrom, Write};

/// A client's file with a place in it, to [`Read`] from, to [`Write`] to and to [`Seek`] in. [`Client::open_file`] and
/// [`Client::create_file`] give it.
///
/// It is a path and a place, and nothing stands for it in the cluster: what stands at the path is looked up by each call. So it has no
/// modes, what goes elsewhere by a [`rename`](Client::rename) is no longer found, and what is unlinked is gone at once. Dropping it does
/// nothing, and syncs nothing.
///
/// # Errors
///
/// Each call of it has those of [`Client::read`], [`Client::write`] and [`Client::stat`].
///
/// # Examples
///
/// ```
/// # fn main() -> std::io::Result<()> {
/// use std::io::{BufRead, BufReader, Read, Seek, Write};
///
/// let client = assise::Cluster::new(2, 64, 64)?.open(1)?;
/// let mut file = client.create_file("/lines")?;
/// writeln!(file, "first")?;
/// writeln!(file, "second")?;
/// file.sync_all()?;
///
/// file.rewind()?;
/// let mut text = String::new();
/// file.read_to_string(&mut text)?;
/// assert_eq!(text, "first\nsecond\n");
///
/// let lines = BufReader::new(client.open_file("/lines")?).lines();
/// assert_eq!(lines.count(), 2);
/// # Ok(())
/// # }
/// ```
#[derive(Debug)]
pub struct File {
    client: Client,
    path: String,
    at: u64,
}

impl File {
    pub(crate) fn new(client: Client, path: &str) -> File {
        File { client, path: path.to_string(), at: 0 }
    }

    /// Its path.
    pub fn path(&self) -> &str {
        &self.path
    }

    /// Returns once all full nodes have all that its client did so far, in this file and in others. Of a client that was opened
    /// [optimistic](crate::Durability::Optimistic) it returns at once, and promises nothing: there, [`Client::dsync`].
    ///
    /// # Errors
    ///
    /// Those of [`Client::fsync`].
    pub fn sync_all(&self) -> io::Result<()> {
        self.client.fsync()
    }

    /// Gives it another size, in bytes, as [`Client::truncate`]. The place in it stays.
    ///
    /// # Errors
    ///
    /// Those of [`Client::truncate`].
    pub fn set_len(&self, size: u64) -> io::Result<()> {
        self.client.truncate(&self.path, size)
    }

    /// What stands at its path.
    ///
    /// # Errors
    ///
    /// Those of [`Client::stat`].
    pub fn metadata(&self) -> io::Result<Stat> {
        self.client.stat(&self.path)
    }

    /// How many bytes the file has.
    fn size(&self) -> io::Result<u64> {
        match self.metadata()? {
            Stat::File { bytes } => Ok(bytes),
            Stat::Directory { .. } => Err(error_of(fault::IS_DIR)),
        }
    }
}

/// Each read is one call, of at most [`CALL_BYTES`](crate::limits::CALL_BYTES): fewer than there is room for at the file's end, or where
/// the room is more than that.
impl Read for File {
    fn read(&mut self, buffer: &mut [u8]) -> io::Result<usize> {
        let count = self.client.read_once(&self.path, buffer, self.at)?;
        self.at = self.at.saturating_add(count as u64);
        Ok(count)
    }

    /// Reads the rest, while no other call comes between.
    fn read_to_end(&mut self, bytes: &mut Vec<u8>) -> io::Result<usize> {
        let begin = bytes.len();
        let result = self.client.read_on(&self.path, self.at, bytes);
        let count = bytes.len() - begin;
        self.at = self.at.saturating_add(count as u64);
        result.map(|()| count)
    }
}

/// Each write is one call, and made as a whole or not at all: of the bytes that fit, which are [`CALL_BYTES`](crate::limits::CALL_BYTES)
/// less those of the path, and so may be fewer than are given.
impl Write for File {
    fn write(&mut self, bytes: &[u8]) -> io::Result<usize> {
        let count = self.client.write_once(&self.path, bytes, self.at)?;
        self.at = self.at.saturating_add(count as u64);
        Ok(count)
    }

    /// Does nothing: each write is the client's call by then, and other clients see it. What keeps it if the node fails is
    /// [`File::sync_all`].
    fn flush(&mut self) -> io::Result<()> {
        Ok(())
    }
}

/// The place may be behind the file's end: a read there finds nothing, and a write fills the gap with zeros.
impl Seek for File {
    /// Only a place from the end makes a call, which looks up the size. One below 0 or over 2^64 - 1 is
    /// [`InvalidInput`](ErrorKind::InvalidInput), and the place stays.
    fn seek(&mut self, to: SeekFrom) -> io::Result<u64> {
        let place = match to {
            SeekFrom::Start(place) => Some(place),
            SeekFrom::Current(by) => self.at.checked_add_signed(by),
            SeekFrom::End(by) => self.size()?.checked_add_signed(by),
        };
        self.at = place.ok_or_else(|| io::Error::new(ErrorKind::InvalidInput, "the place is out of range"))?;
        Ok(self.at)
    }
}
