//! Calls, replies, refusals, effects and records.

use std::collections::{HashMap, HashSet};
use std::hash::{BuildHasherDefault, Hasher};
use std::io::{self, Write};
use std::rc::Rc;

pub type Inode = u64;
pub const MAX_FILE: u64 = 1 << 20;
pub const MAX_WRITE: usize = 65_536;
pub const MAX_ENTRIES: usize = 4_096;
pub const MAX_MADE: u64 = 1 << 20;
pub const MAX_NODES: u64 = 16;
pub const MAX_CLIENTS: usize = 32;
pub const BATCH: usize = 64;

/// A hasher for inode numbers: one multiplication, folded.
#[derive(Default, Clone, Copy)]
pub struct InodeHasher(u64);

impl Hasher for InodeHasher {
    fn write(&mut self, bytes: &[u8]) {
        for &byte in bytes {
            self.write_u64(u64::from(byte));
        }
    }
    fn write_u64(&mut self, value: u64) {
        let wide =
            u128::from(self.0 ^ value).wrapping_mul(0x9E37_79B9_7F4A_7C15_F39C_C060_5CED_C835);
        self.0 = (wide as u64) ^ ((wide >> 64) as u64);
    }
    fn finish(&self) -> u64 {
        self.0
    }
}

pub type InodeMap<V> = HashMap<Inode, V, BuildHasherDefault<InodeHasher>>;
pub type InodeSet = HashSet<Inode, BuildHasherDefault<InodeHasher>>;

/// The places of the bits.
pub fn places(mut bits: u32) -> impl Iterator<Item = usize> {
    std::iter::from_fn(move || {
        (bits != 0).then(|| {
            let place = bits.trailing_zeros() as usize;
            bits &= bits - 1;
            place
        })
    })
}

#[derive(Clone, Copy, PartialEq, Eq)]
pub enum TreeError {
    NoEnt,
    Exists,
    NotDir,
    IsDir,
    NotEmpty,
    Invalid,
    TooBig,
    DirFull,
}

impl TreeError {
    pub fn text(self) -> &'static str {
        match self {
            TreeError::NoEnt => "E1 NoEnt",
            TreeError::Exists => "E2 Exists",
            TreeError::NotDir => "E3 NotDir",
            TreeError::IsDir => "E4 IsDir",
            TreeError::NotEmpty => "E5 NotEmpty",
            TreeError::Invalid => "E6 Invalid",
            TreeError::TooBig => "E7 TooBig",
            TreeError::DirFull => "E8 DirFull",
        }
    }
}

/// F1, no memory, is left out: the program ends.
#[derive(Clone, Copy, PartialEq, Eq)]
pub enum Refusal {
    Busy,
    NodeDown,
    ClientGone,
    InodesSpent,
    TooLarge,
    LastNode,
    BadNode,
    BadClient,
    WrongPhase,
    StaleMessage,
    LogFull,
}

impl Refusal {
    pub fn text(self) -> &'static str {
        match self {
            Refusal::Busy => "F2 Busy",
            Refusal::NodeDown => "F3 NodeDown",
            Refusal::ClientGone => "F4 ClientGone",
            Refusal::InodesSpent => "F5 InodesSpent",
            Refusal::TooLarge => "F6 TooLarge",
            Refusal::LastNode => "F7 LastNode",
            Refusal::BadNode => "F8 BadNode",
            Refusal::BadClient => "F9 BadClient",
            Refusal::WrongPhase => "F10 WrongPhase",
            Refusal::StaleMessage => "F11 StaleMessage",
            Refusal::LogFull => "F12 LogFull",
        }
    }
}

/// A lawful path, kept as its only spelling.
#[derive(Clone, PartialEq, Eq)]
pub struct Path(Rc<str>);

pub fn is_lawful_name(name: &str) -> bool {
    !name.is_empty()
        && name.len() <= 255
        && name != "."
        && name != ".."
        && !name.bytes().any(|byte| byte == b'/' || byte == 0)
}

impl Path {
    pub fn parse(text: &str) -> Result<Path, &'static str> {
        let Some(rest) = text.strip_prefix('/') else {
            return Err("not absolute");
        };
        if rest.is_empty() {
            return Ok(Path(Rc::from(text)));
        }
        let mut depth = 0;
        for name in rest.split('/') {
            if name.is_empty() {
                return Err("empty name");
            }
            if name.len() > 255 {
                return Err("name too long");
            }
            if name == "." || name == ".." || name.as_bytes().contains(&0) {
                return Err("bad name");
            }
            depth += 1;
        }
        if depth > 32 {
            return Err("too deep");
        }
        Ok(Path(Rc::from(text)))
    }

    pub fn text(&self) -> &str {
        &self.0
    }

    pub fn is_root(&self) -> bool {
        self.0.len() == 1
    }

    pub fn names(&self) -> Names<'_> {
        Names(&self.0[if self.is_root() { 1 } else { 0 }..])
    }

    /// The names of the parent, and the last name. The path isn't the root.
    pub fn split_last(&self) -> (Names<'_>, &str) {
        let at = self.0.bytes().rposition(|byte| byte == b'/').unwrap_or(0);
        (Names(&self.0[..at]), &self.0[at + 1..])
    }

    pub fn is_front_of(&self, other: &Path) -> bool {
        if self.is_root() {
            return !other.is_root();
        }
        other.0.len() > self.0.len()
            && other.0.starts_with(&*self.0)
            && other.0.as_bytes()[self.0.len()] == b'/'
    }
}

/// What is left of a path's names: empty, or a slash, a name and so on.
#[derive(Clone)]
pub struct Names<'a>(&'a str);

impl<'a> Iterator for Names<'a> {
    type Item = &'a str;
    fn next(&mut self) -> Option<&'a str> {
        if self.0.is_empty() {
            return None;
        }
        let rest = &self.0[1..];
        let end = rest
            .bytes()
            .position(|byte| byte == b'/')
            .unwrap_or(rest.len());
        self.0 = &rest[end..];
        Some(&rest[..end])
    }
}

#[derive(Clone, PartialEq, Eq)]
pub enum Operation {
    Create(Path),
    Mkdir(Path),
    Read(Path, u64, u64),
    Write(Path, u64, Rc<[u8]>),
    Truncate(Path, u64),
    Rename(Path, Path),
    Unlink(Path),
    Rmdir(Path),
    List(Path),
    Stat(Path),
    Fsync,
    Dsync,
}

impl Operation {
    pub fn write_text(&self, out: &mut impl Write) -> io::Result<()> {
        match self {
            Operation::Create(path) => write!(out, "create {}", path.text()),
            Operation::Mkdir(path) => write!(out, "mkdir {}", path.text()),
            Operation::Read(path, offset, length) => {
                write!(out, "read {} {offset} {length}", path.text())
            }
            Operation::Write(path, offset, data) => {
                write!(out, "write {} {offset} {}", path.text(), data.len())
            }
            Operation::Truncate(path, size) => write!(out, "truncate {} {size}", path.text()),
            Operation::Rename(from, to) => write!(out, "rename {} {}", from.text(), to.text()),
            Operation::Unlink(path) => write!(out, "unlink {}", path.text()),
            Operation::Rmdir(path) => write!(out, "rmdir {}", path.text()),
            Operation::List(path) => write!(out, "list {}", path.text()),
            Operation::Stat(path) => write!(out, "stat {}", path.text()),
            Operation::Fsync => out.write_all(b"fsync"),
            Operation::Dsync => out.write_all(b"dsync"),
        }
    }
}

#[derive(Clone, PartialEq, Eq)]
pub enum Reply {
    Done,
    Bytes(Rc<[u8]>),
    Names(Rc<[Rc<str>]>),
    File(u64),
    Directory(u64),
    Error(TreeError),
}

impl Reply {
    pub fn write_text(&self, out: &mut impl Write) -> io::Result<()> {
        match self {
            Reply::Done => out.write_all(b"done"),
            Reply::Bytes(bytes) => {
                write!(out, "bytes {} x", bytes.len())?;
                const HEX: &[u8; 16] = b"0123456789abcdef";
                let mut text = [0u8; 512];
                for chunk in bytes.chunks(256) {
                    for (pair, byte) in text.chunks_exact_mut(2).zip(chunk) {
                        pair[0] = HEX[usize::from(byte >> 4)];
                        pair[1] = HEX[usize::from(byte & 15)];
                    }
                    out.write_all(&text[..chunk.len() * 2])?;
                }
                Ok(())
            }
            Reply::Names(names) => {
                write!(out, "names {}", names.len())?;
                for name in names.iter() {
                    out.write_all(b" ")?;
                    out.write_all(name.as_bytes())?;
                }
                Ok(())
            }
            Reply::File(size) => write!(out, "file {size}"),
            Reply::Directory(entries) => write!(out, "dir {entries}"),
            Reply::Error(error) => out.write_all(error.text().as_bytes()),
        }
    }
}

#[derive(Clone, PartialEq, Eq)]
pub enum Effect {
    NewFile(Inode),
    NewDirectory(Inode),
    Write {
        inode: Inode,
        offset: u32,
        data: Rc<[u8]>,
    },
    SetLength {
        inode: Inode,
        length: u32,
    },
    Link {
        directory: Inode,
        name: Rc<str>,
        inode: Inode,
    },
    Unlink {
        directory: Inode,
        name: Rc<str>,
    },
    Free(Inode),
}

impl Effect {
    pub fn touched(&self) -> Inode {
        match *self {
            Effect::NewFile(inode) | Effect::NewDirectory(inode) | Effect::Free(inode) => inode,
            Effect::Write { inode, .. } | Effect::SetLength { inode, .. } => inode,
            Effect::Link { directory, .. } | Effect::Unlink { directory, .. } => directory,
        }
    }
}

/// A record is cheap to copy: its effects are shared. `last` marks the last record of a group.
#[derive(Clone, PartialEq, Eq)]
pub struct Record {
    pub call: u64,
    pub last: bool,
    pub effects: Rc<[Effect]>,
}

/// How many records of a holder's log all nodes digest before its lease is handed over.
#[derive(Clone, Copy, PartialEq, Eq)]
pub enum Revoker {
    Least,
    Whole,
    Eights,
}

impl Revoker {
    /// The cut of a log from `first` to `end`, whose last record that touches the inode is `last_touch`.
    pub fn cut(self, first: u64, end: u64, last_touch: Option<u64>) -> u64 {
        let least = last_touch.map_or(first, |number| number + 1);
        match self {
            Revoker::Least => least,
            Revoker::Whole => end,
            Revoker::Eights => least.div_ceil(8).saturating_mul(8).min(end),
        }
    }
}

#[derive(Clone)]
pub enum Entry {
    Open {
        client: u32,
        node: u32,
        optimistic: bool,
    },
    Call {
        client: u32,
        number: u64,
        operation: Operation,
        reply: Reply,
    },
    Crash(u32),
    Fail(u32, Box<[(u32, u64)]>),
    Return(u32),
}

pub fn write_pairs(out: &mut impl Write, pairs: &[(u32, u64)]) -> io::Result<()> {
    for (client, call) in pairs {
        write!(out, " {client}:{call}")?;
    }
    Ok(())
}

impl Entry {
    pub fn write_text(&self, out: &mut impl Write) -> io::Result<()> {
        match self {
            Entry::Open {
                client,
                node,
                optimistic,
            } => {
                write!(
                    out,
                    "open {client} {node}{}",
                    if *optimistic { " optimistic" } else { "" }
                )
            }
            Entry::Call {
                client,
                number,
                operation,
                reply,
            } => {
                write!(out, "call {client} {number} ")?;
                operation.write_text(out)?;
                out.write_all(b" = ")?;
                reply.write_text(out)
            }
            Entry::Crash(client) => write!(out, "crash {client}"),
            Entry::Fail(node, pairs) => {
                write!(out, "fail {node}")?;
                write_pairs(out, pairs)
            }
            Entry::Return(node) => write!(out, "return {node}"),
        }
    }
}
