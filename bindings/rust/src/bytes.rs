//! A client's calls at the bytes of files.

use crate::client::Client;
use crate::desk::{Desk, Request};
use crate::faults::error_of;
use crate::file::File;
use crate::limits::CALL_BYTES;
use crate::numbers::{call, fault};
use crate::stat::Stat;
use std::io::{self, ErrorKind, Write};

impl Client {
    /// Opens the file at a path, at its beginning.
    ///
    /// # Errors
    ///
    /// `ENOENT`, `ENOTDIR`, `EISDIR`.
    pub fn open_file(&self, path: impl AsRef<str>) -> io::Result<File> {
        let path = path.as_ref();
        match self.stat(path)? {
            Stat::File { .. } => Ok(File::new(self.clone(), path)),
            Stat::Directory { .. } => Err(error_of(fault::IS_DIR)),
        }
    }

    /// Opens a file without bytes: it is made, or, where one stands there, cut to none by a second call.
    ///
    /// # Errors
    ///
    /// `ENOENT`, `ENOTDIR`, `EISDIR`, `ENOSPC`, [`InodesSpent`](crate::Refusal::InodesSpent).
    pub fn create_file(&self, path: impl AsRef<str>) -> io::Result<File> {
        let path = path.as_ref();
        match self.create(path) {
            Err(error) if error.kind() == ErrorKind::AlreadyExists => self.truncate(path, 0)?,
            made => made?,
        }
        Ok(File::new(self.clone(), path))
    }

    /// Reads from an offset on, and says how many bytes: fewer than there is room for at the file's end, none behind it.
    ///
    /// What has more than [`CALL_BYTES`](crate::limits::CALL_BYTES) is read by several calls, between which no other comes.
    ///
    /// # Errors
    ///
    /// `ENOENT`, `ENOTDIR`, `EISDIR`.
    #[doc(alias = "read_at")]
    pub fn read(&self, path: impl AsRef<str>, buffer: &mut [u8], offset: u64) -> io::Result<usize> {
        let path = path.as_ref();
        let (mut desk, mut done) = (self.turn()?, 0);
        loop {
            let want = CALL_BYTES.min(buffer.len() - done);
            let found = self.read_part(&mut desk, path, want, offset.saturating_add(done as u64))?;
            buffer[done..done + found.len()].copy_from_slice(found);
            done += found.len();
            if found.len() < want || done == buffer.len() {
                return Ok(done);
            }
        }
    }

    /// All bytes of a file, read as [`Client::read`] does.
    ///
    /// # Errors
    ///
    /// `ENOENT`, `ENOTDIR`, `EISDIR`.
    pub fn read_all(&self, path: impl AsRef<str>) -> io::Result<Vec<u8>> {
        let mut bytes = Vec::new();
        self.read_on(path.as_ref(), 0, &mut bytes)?;
        Ok(bytes)
    }

    /// Reads from an offset to the file's end, behind what there is. Where a part of it is refused, those before it stand there.
    pub(crate) fn read_on(&self, path: &str, offset: u64, bytes: &mut Vec<u8>) -> io::Result<()> {
        let (mut desk, mut at) = (self.turn()?, offset);
        loop {
            let found = self.read_part(&mut desk, path, CALL_BYTES, at)?;
            bytes.extend_from_slice(found);
            at = at.saturating_add(found.len() as u64);
            if found.len() < CALL_BYTES {
                return Ok(());
            }
        }
    }

    /// What one call reads: at most `want` bytes.
    fn read_part<'a>(&self, desk: &'a mut Desk, path: &str, want: usize, offset: u64) -> io::Result<&'a [u8]> {
        let request = Request { first: offset, second: want as u64, ..self.request(call::READ) };
        let got = desk.ask_at(request, path, &[])?;
        Ok(desk.answer(got.min(want as u64)))
    }

    /// Writes all bytes at an offset. A gap behind the file's end is filled with zeros.
    ///
    /// What has, with its path, more than [`CALL_BYTES`](crate::limits::CALL_BYTES) is written by several calls. Each is made as a whole or
    /// not at all: where one comes to an error, those before it stand, and a failure may lose the last of them.
    ///
    /// # Errors
    ///
    /// `ENOENT`, `ENOTDIR`, `EISDIR`; `EFBIG` where the file would have more than [`MOST_FILE_BYTES`](crate::limits::MOST_FILE_BYTES).
    #[doc(alias = "write_all_at")]
    pub fn write(&self, path: impl AsRef<str>, bytes: impl AsRef<[u8]>, offset: u64) -> io::Result<()> {
        let (path, bytes) = (path.as_ref(), bytes.as_ref());
        let (mut desk, mut done) = (self.turn()?, 0);
        loop {
            done += self.write_part(&mut desk, path, &bytes[done..], offset.saturating_add(done as u64))?;
            if done == bytes.len() {
                return Ok(());
            }
        }
    }

    /// What [`Client::read`] does, by one call, which may read less.
    pub(crate) fn read_once(&self, path: &str, buffer: &mut [u8], offset: u64) -> io::Result<usize> {
        let mut desk = self.turn()?;
        let found = self.read_part(&mut desk, path, CALL_BYTES.min(buffer.len()), offset)?;
        buffer[..found.len()].copy_from_slice(found);
        Ok(found.len())
    }

    /// What [`Client::write`] does, by one call, which may write less. Says how many bytes it wrote.
    pub(crate) fn write_once(&self, path: &str, bytes: &[u8], offset: u64) -> io::Result<usize> {
        self.write_part(&mut *self.turn()?, path, bytes, offset)
    }

    fn write_part(&self, desk: &mut Desk, path: &str, bytes: &[u8], offset: u64) -> io::Result<usize> {
        // A path that leaves no room is refused by its one byte more.
        let most = CALL_BYTES.saturating_sub(path.len()).max(1);
        let part = &bytes[..bytes.len().min(most)];
        desk.ask_at(Request { first: offset, ..self.request(call::WRITE) }, path, part)?;
        Ok(part.len())
    }

    /// Gives a path a file with these bytes and no others, by [`Client::create_file`] and [`Client::write`]. A failure may leave the
    /// beginning of them: to replace a file at once, write another, and [`rename`](Client::rename) it.
    ///
    /// # Errors
    ///
    /// Those of both calls.
    pub fn write_all(&self, path: impl AsRef<str>, bytes: impl AsRef<[u8]>) -> io::Result<()> {
        self.create_file(path)?.write_all(bytes.as_ref())
    }

    /// Gives a file another size, in bytes: it is cut, or filled up with zeros.
    ///
    /// # Errors
    ///
    /// Those of [`Client::write`].
    #[doc(alias = "set_len")]
    pub fn truncate(&self, path: impl AsRef<str>, size: u64) -> io::Result<()> {
        self.done(Request { first: size, ..self.request(call::TRUNCATE) }, path.as_ref(), &[])
    }
}
