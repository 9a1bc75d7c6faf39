//! The names in a directory.

use crate::client::Client;
use crate::desk::{Desk, Request};
use crate::numbers::call;
use std::io::{self, ErrorKind};
use std::iter::FusedIterator;
use std::vec;

/// The names in a directory, a page at a time: what [`Client::read_dir`] gives.
///
/// They are those that stood there at once, whatever is made or removed between two pages. Behind an error comes no more.
///
/// ```
/// # fn main() -> std::io::Result<()> {
/// let client = assise::Cluster::new(1, 64, 64)?.open(1)?;
/// client.create("/a")?;
/// client.create("/b")?;
/// for name in client.read_dir("/")? {
///     println!("{}", name?);
/// }
/// assert!(client.read_dir("/none").is_err());
/// # Ok(())
/// # }
/// ```
#[derive(Debug)]
pub struct ReadDir {
    client: Client,
    /// Where the history has the listing, counted from 0.
    place: u64,
    page: vec::IntoIter<String>,
    /// How many names of the directory came with this page and those before it.
    passed: u64,
    is_over: bool,
}

impl Client {
    /// The names in a directory, rising by their bytes, as they stand at once: no other call comes between its pages.
    ///
    /// # Errors
    ///
    /// `ENOENT`, `ENOTDIR`.
    pub fn list(&self, path: impl AsRef<str>) -> io::Result<Vec<String>> {
        let path = path.as_ref();
        let mut desk = self.turn()?;
        let (place, mut names, mut is_last) = self.first_page(&mut desk, path)?;
        while !is_last {
            let (page, is_over) = next_page(&mut desk, place, names.len() as u64)?;
            names.extend(page);
            is_last = is_over;
        }
        Ok(names)
    }

    /// The names in a directory, rising by their bytes, a page at a time. The first page is read at once.
    ///
    /// # Errors
    ///
    /// `ENOENT`, `ENOTDIR`. Each later page may come to any error of a call, in the place of a name.
    pub fn read_dir(&self, path: impl AsRef<str>) -> io::Result<ReadDir> {
        let path = path.as_ref();
        let (place, page, is_over) = self.first_page(&mut *self.turn()?, path)?;
        Ok(ReadDir { client: self.clone(), place, passed: page.len() as u64, page: page.into_iter(), is_over })
    }

    /// Where the history has a listing that is made now, with its first page of names, and whether it is the last.
    fn first_page(&self, desk: &mut Desk, path: &str) -> io::Result<(u64, Vec<String>, bool)> {
        let count = desk.ask_at(self.request(call::LIST), path, &[])?;
        let (names, is_last) = page_of(desk, count, 0)?;
        let place = desk.ask(Request::new(call::ENTRIES))?.saturating_sub(1);
        Ok((place, names, is_last))
    }
}

/// The page of a listing from name `first` on, and whether it is the last.
fn next_page(desk: &mut Desk, place: u64, first: u64) -> io::Result<(Vec<String>, bool)> {
    let count = desk.ask(Request { first, second: place, ..Request::new(call::LISTED) })?;
    page_of(desk, count, first)
}

/// The names in these first bytes of the answer, and whether they are the last.
fn page_of(desk: &Desk, count: u64, first: u64) -> io::Result<(Vec<String>, bool)> {
    let names = names_of(desk.answer(count))?;
    let passed = first.saturating_add(names.len() as u64);
    let is_last = names.is_empty() || passed >= desk.stands();
    Ok((names, is_last))
}

impl ReadDir {
    fn turn_page(&mut self) -> io::Result<()> {
        let read = self.client.turn().and_then(|mut desk| next_page(&mut desk, self.place, self.passed));
        self.is_over = read.as_ref().map_or(true, |page| page.1);
        self.page = read?.0.into_iter();
        self.passed = self.passed.saturating_add(self.page.len() as u64);
        Ok(())
    }
}

impl Iterator for ReadDir {
    type Item = io::Result<String>;

    fn next(&mut self) -> Option<io::Result<String>> {
        if self.page.len() == 0 && !self.is_over {
            if let Err(error) = self.turn_page() {
                return Some(Err(error));
            }
        }
        self.page.next().map(Ok)
    }
}

impl FusedIterator for ReadDir {}

/// Names that each have a zero byte behind them.
fn names_of(bytes: &[u8]) -> io::Result<Vec<String>> {
    let names = bytes.split_inclusive(|byte| *byte == 0).map(|name| name.strip_suffix(&[0]).unwrap_or(name).to_vec());
    names.map(|name| String::from_utf8(name).map_err(|error| io::Error::new(ErrorKind::InvalidData, error))).collect()
}
