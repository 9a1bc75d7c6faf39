//! The plain tree of the checker, and the check of a history.

use crate::types::*;
use std::collections::BTreeMap;
use std::rc::Rc;

enum Tree {
    File(Vec<u8>),
    Directory(BTreeMap<Rc<str>, Tree>),
}

type Answer = Result<Reply, TreeError>;

impl Tree {
    fn at<'a>(&mut self, names: impl Iterator<Item = &'a str>) -> Result<&mut Tree, TreeError> {
        let mut tree = self;
        for name in names {
            tree = match tree {
                Tree::File(_) => return Err(TreeError::NotDir),
                Tree::Directory(directory) => directory.get_mut(name).ok_or(TreeError::NoEnt)?,
            };
        }
        Ok(tree)
    }

    fn directory_at<'a>(
        &mut self,
        names: impl Iterator<Item = &'a str>,
    ) -> Result<&mut BTreeMap<Rc<str>, Tree>, TreeError> {
        match self.at(names)? {
            Tree::File(_) => Err(TreeError::NotDir),
            Tree::Directory(directory) => Ok(directory),
        }
    }

    fn file_at(&mut self, path: &Path) -> Result<&mut Vec<u8>, TreeError> {
        match self.at(path.names())? {
            Tree::File(bytes) => Ok(bytes),
            Tree::Directory(_) => Err(TreeError::IsDir),
        }
    }

    fn make(&mut self, path: &Path, new: Tree) -> Answer {
        if path.is_root() {
            return Err(TreeError::Exists);
        }
        let (parent, name) = path.split_last();
        let directory = self.directory_at(parent)?;
        if directory.contains_key(name) {
            return Err(TreeError::Exists);
        }
        if directory.len() >= MAX_ENTRIES {
            return Err(TreeError::DirFull);
        }
        directory.insert(name.into(), new);
        Ok(Reply::Done)
    }

    fn read(&mut self, path: &Path, offset: u64, length: u64) -> Answer {
        let bytes = self.file_at(path)?;
        let start = offset.min(bytes.len() as u64) as usize;
        let count = length.min((bytes.len() - start) as u64) as usize;
        Ok(Reply::Bytes(Rc::from(&bytes[start..start + count])))
    }

    fn write(&mut self, path: &Path, offset: u64, data: &[u8]) -> Answer {
        let bytes = self.file_at(path)?;
        if u128::from(offset) + data.len() as u128 > u128::from(MAX_FILE) {
            return Err(TreeError::TooBig);
        }
        if !data.is_empty() {
            let (start, end) = (offset as usize, offset as usize + data.len());
            if bytes.len() < end {
                bytes.resize(end, 0);
            }
            bytes[start..end].copy_from_slice(data);
        }
        Ok(Reply::Done)
    }

    fn truncate(&mut self, path: &Path, size: u64) -> Answer {
        let bytes = self.file_at(path)?;
        if size > MAX_FILE {
            return Err(TreeError::TooBig);
        }
        bytes.resize(size as usize, 0);
        Ok(Reply::Done)
    }

    fn unlink(&mut self, path: &Path) -> Answer {
        if path.is_root() {
            return Err(TreeError::IsDir);
        }
        self.file_at(path)?;
        let (parent, name) = path.split_last();
        self.directory_at(parent)?.remove(name);
        Ok(Reply::Done)
    }

    fn remove_directory(&mut self, path: &Path) -> Answer {
        if path.is_root() {
            return Err(TreeError::Invalid);
        }
        if !self.directory_at(path.names())?.is_empty() {
            return Err(TreeError::NotEmpty);
        }
        let (parent, name) = path.split_last();
        self.directory_at(parent)?.remove(name);
        Ok(Reply::Done)
    }

    fn list(&mut self, path: &Path) -> Answer {
        let entries = self.directory_at(path.names())?;
        Ok(Reply::Names(entries.keys().cloned().collect()))
    }

    fn stat(&mut self, path: &Path) -> Answer {
        Ok(match self.at(path.names())? {
            Tree::File(bytes) => Reply::File(bytes.len() as u64),
            Tree::Directory(entries) => Reply::Directory(entries.len() as u64),
        })
    }

    fn rename(&mut self, from: &Path, to: &Path) -> Answer {
        if from.is_root() || to.is_root() || from.is_front_of(to) {
            return Err(TreeError::Invalid);
        }
        let from_is_file = matches!(self.at(from.names())?, Tree::File(_));
        let ((old_parent, old_name), (new_parent, new_name)) = (from.split_last(), to.split_last());
        let one_parent = old_parent.clone().eq(new_parent.clone());
        let entries = self.directory_at(new_parent.clone())?;
        if from == to {
            return Ok(Reply::Done);
        }
        match entries.get(new_name) {
            Some(Tree::Directory(_)) if from_is_file => return Err(TreeError::IsDir),
            Some(Tree::File(_)) if !from_is_file => return Err(TreeError::NotDir),
            Some(Tree::Directory(target)) if !target.is_empty() => return Err(TreeError::NotEmpty),
            None if !one_parent && entries.len() >= MAX_ENTRIES => return Err(TreeError::DirFull),
            _ => {}
        }
        let moved = self.directory_at(old_parent)?.remove(old_name);
        let moved = moved.ok_or(TreeError::NoEnt)?;
        self.directory_at(new_parent)?
            .insert(new_name.into(), moved);
        Ok(Reply::Done)
    }

    fn answer(&mut self, operation: &Operation) -> Answer {
        match operation {
            Operation::Create(path) => self.make(path, Tree::File(Vec::new())),
            Operation::Mkdir(path) => self.make(path, Tree::Directory(BTreeMap::new())),
            Operation::Read(path, offset, length) => self.read(path, *offset, *length),
            Operation::Write(path, offset, data) => self.write(path, *offset, data),
            Operation::Truncate(path, size) => self.truncate(path, *size),
            Operation::Unlink(path) => self.unlink(path),
            Operation::Rmdir(path) => self.remove_directory(path),
            Operation::List(path) => self.list(path),
            Operation::Stat(path) => self.stat(path),
            Operation::Rename(from, to) => self.rename(from, to),
            Operation::Fsync | Operation::Dsync => Ok(Reply::Done),
        }
    }

    fn gives(&mut self, operation: &Operation, reply: &Reply) -> bool {
        self.answer(operation).unwrap_or_else(Reply::Error) == *reply
    }
}

struct Opened {
    node: u32,
    optimistic: bool,
    calls: u64,
    synced: Option<u64>,
    crashed: bool,
    node_failed: bool,
    /// The client's calls from this one on are lost.
    lost_from: u64,
}

struct Checker<'a> {
    history: &'a [Entry],
    tree: Tree,
    clients: Vec<Opened>,
    down: Vec<u32>,
}

impl Checker<'_> {
    fn client(&mut self, client: u32) -> Option<&mut Opened> {
        self.clients.get_mut((client as usize).checked_sub(1)?)
    }

    /// Takes the entry of an index in; None where the history isn't legal with it.
    fn take_in(&mut self, at: usize) -> Option<()> {
        match &self.history[at] {
            Entry::Open {
                client,
                node,
                optimistic,
            } => self.open(*client, *node, *optimistic),
            Entry::Call {
                client,
                number,
                operation,
                reply,
            } => self.call(*client, *number, operation, reply),
            Entry::Crash(client) => {
                let opened = self.client(*client)?;
                let was_crashed = std::mem::replace(&mut opened.crashed, true);
                (!was_crashed).then_some(())
            }
            Entry::Fail(node, lost) => {
                self.fail(*node, lost)?;
                lost.is_empty().then_some(()).or_else(|| self.play(at))
            }
            Entry::Return(node) => {
                let place = self.down.iter().position(|down| down == node)?;
                self.down.swap_remove(place);
                Some(())
            }
        }
    }

    fn open(&mut self, client: u32, node: u32, optimistic: bool) -> Option<()> {
        if client as usize != self.clients.len() + 1 || self.down.contains(&node) {
            return None;
        }
        self.clients.push(Opened {
            node,
            optimistic,
            calls: 0,
            synced: None,
            crashed: false,
            node_failed: false,
            lost_from: u64::MAX,
        });
        Some(())
    }

    fn call(
        &mut self,
        client: u32,
        number: u64,
        operation: &Operation,
        reply: &Reply,
    ) -> Option<()> {
        let opened = self.client(client)?;
        if opened.crashed || opened.node_failed || opened.calls != number {
            return None;
        }
        opened.calls += 1;
        let waits = match operation {
            Operation::Dsync => true,
            Operation::Fsync => !opened.optimistic,
            _ => false,
        };
        if waits {
            opened.synced = Some(number);
        }
        self.tree.gives(operation, reply).then_some(())
    }

    fn fail(&mut self, node: u32, lost: &[(u32, u64)]) -> Option<()> {
        let mut before = 0;
        for &(client, call) in lost {
            let opened = self.client(client)?;
            let was_synced = opened.synced.is_some_and(|synced| call <= synced);
            if client <= before || opened.node != node || opened.node_failed || was_synced {
                return None;
            }
            before = client;
            opened.lost_from = opened.lost_from.min(call);
        }
        for opened in self.clients.iter_mut().filter(|opened| opened.node == node) {
            opened.node_failed = true;
        }
        if !self.down.contains(&node) {
            self.down.push(node);
        }
        Some(())
    }

    /// Plays the calls before an entry that aren't lost on an empty tree.
    fn play(&mut self, end: usize) -> Option<()> {
        self.tree = Tree::Directory(BTreeMap::new());
        for entry in &self.history[..end] {
            let Entry::Call {
                client,
                number,
                operation,
                reply,
            } = entry
            else {
                continue;
            };
            let is_kept = *number < self.clients[*client as usize - 1].lost_from;
            if is_kept && !self.tree.gives(operation, reply) {
                return None;
            }
        }
        Some(())
    }
}

/// Whether a history is legal.
pub fn check(history: &[Entry]) -> bool {
    let mut checker = Checker {
        history,
        tree: Tree::Directory(BTreeMap::new()),
        clients: Vec::new(),
        down: Vec::new(),
    };
    (0..history.len()).all(|at| checker.take_in(at).is_some())
}
