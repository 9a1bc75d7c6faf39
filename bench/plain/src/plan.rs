//! The calls on inodes: the area of the client's node under its own undigested effects, leased.

use crate::area::{Area, Content, File};
use crate::leases::{Leases, Mode};
use crate::pending::{Undigested, Value};
use crate::types::*;
use std::rc::Rc;

pub struct View<'a> {
    pub client: usize,
    pub node: usize,
    pub fresh: Inode,
    pub leases: &'a mut Leases,
    pub pending: &'a Undigested,
    pub area: &'a mut Area,
}

pub enum Stop {
    Error(TreeError),
    Missing(Inode, Mode),
}

/// A reply and, where it has effects, what the record holds.
pub type Planned = (Reply, Option<Rc<[Effect]>>);

impl From<TreeError> for Stop {
    fn from(error: TreeError) -> Stop {
        Stop::Error(error)
    }
}

impl View<'_> {
    fn want(&mut self, inode: Inode, mode: Mode) -> Result<(), Stop> {
        match self.leases.get(self.client, self.node, inode, mode) {
            true => Ok(()),
            false => Err(Stop::Missing(inode, mode)),
        }
    }

    /// The entry of a directory; NotDir for a file.
    fn child(&mut self, directory: Inode, name: &str) -> Result<Option<Inode>, TreeError> {
        match self.pending.0.get(&directory) {
            Some(pending) => match &pending.value {
                Value::Directory(changes) => Ok(changes.get(name, self.area, directory)),
                _ => Err(TreeError::NotDir),
            },
            None => match self.area.get(directory) {
                Some(Content::Directory(entries)) => Ok(entries.get(name).copied()),
                _ => Err(TreeError::NotDir),
            },
        }
    }

    /// The count of a directory's entries, or None for a file.
    fn entries(&mut self, inode: Inode) -> Option<usize> {
        match self.pending.0.get(&inode) {
            Some(pending) => match &pending.value {
                Value::Directory(changes) => Some(changes.count()),
                _ => None,
            },
            None => match self.area.get(inode) {
                Some(Content::Directory(entries)) => Some(entries.len()),
                _ => None,
            },
        }
    }

    fn is_full(&mut self, directory: Inode) -> bool {
        self.entries(directory)
            .is_some_and(|count| count >= MAX_ENTRIES)
    }

    /// What `use_file` makes of a file; IsDir for a directory.
    fn with_file<T>(
        &mut self,
        inode: Inode,
        use_file: impl Fn(&File) -> T,
    ) -> Result<T, TreeError> {
        match self.pending.0.get(&inode) {
            Some(pending) => match &pending.value {
                Value::File(file) => Ok(use_file(file)),
                _ => Err(TreeError::IsDir),
            },
            None => match self.area.get(inode) {
                Some(Content::File(file)) => Ok(use_file(file)),
                _ => Err(TreeError::IsDir),
            },
        }
    }

    fn walk<'n>(&mut self, names: impl Iterator<Item = &'n str>) -> Result<Inode, Stop> {
        let mut inode = 0;
        self.want(0, Mode::Read)?;
        for name in names {
            inode = self.child(inode, name)?.ok_or(TreeError::NoEnt)?;
            self.want(inode, Mode::Read)?;
        }
        Ok(inode)
    }

    fn make(&mut self, path: &Path, new: impl Fn(Inode) -> Effect) -> Result<Planned, Stop> {
        if path.is_root() {
            return Err(TreeError::Exists.into());
        }
        let (parent, name) = path.split_last();
        let directory = self.walk(parent)?;
        if self.child(directory, name)?.is_some() {
            return Err(TreeError::Exists.into());
        }
        if self.is_full(directory) {
            return Err(TreeError::DirFull.into());
        }
        self.want(self.fresh, Mode::Write)?;
        self.want(directory, Mode::Write)?;
        let link = Effect::Link {
            directory,
            name: Rc::from(name),
            inode: self.fresh,
        };
        Ok((Reply::Done, Some(Rc::new([new(self.fresh), link]))))
    }

    /// The walk of a path that isn't the root, and its parent.
    fn walk_with_parent<'p>(&mut self, path: &'p Path) -> Result<(Inode, &'p str, Inode), Stop> {
        let (parent, name) = path.split_last();
        let directory = self.walk(parent)?;
        let inode = self.child(directory, name)?.ok_or(TreeError::NoEnt)?;
        self.want(inode, Mode::Read)?;
        Ok((directory, name, inode))
    }

    fn take_out(&mut self, directory: Inode, name: &str, inode: Inode) -> Result<Planned, Stop> {
        self.want(directory, Mode::Write)?;
        self.want(inode, Mode::Write)?;
        Ok((
            Reply::Done,
            Some(Rc::new([
                Effect::Unlink {
                    directory,
                    name: Rc::from(name),
                },
                Effect::Free(inode),
            ])),
        ))
    }

    fn rename(&mut self, from: &Path, to: &Path) -> Result<Planned, Stop> {
        if from.is_root() || to.is_root() || from.is_front_of(to) {
            return Err(TreeError::Invalid.into());
        }
        let (old_parent, old_name, moved) = self.walk_with_parent(from)?;
        let (parent, new_name) = to.split_last();
        let new_parent = self.walk(parent)?;
        let target = self.child(new_parent, new_name)?;
        if from == to {
            return Ok((Reply::Done, None));
        }
        let unlink = Effect::Unlink {
            directory: old_parent,
            name: Rc::from(old_name),
        };
        let link = Effect::Link {
            directory: new_parent,
            name: Rc::from(new_name),
            inode: moved,
        };
        let Some(target) = target else {
            if old_parent != new_parent && self.is_full(new_parent) {
                return Err(TreeError::DirFull.into());
            }
            self.want(old_parent, Mode::Write)?;
            self.want(new_parent, Mode::Write)?;
            return Ok((Reply::Done, Some(Rc::new([unlink, link]))));
        };
        self.can_replace(moved, target)?;
        self.want(new_parent, Mode::Write)?;
        self.want(target, Mode::Write)?;
        self.want(old_parent, Mode::Write)?;
        let out = Effect::Unlink {
            directory: new_parent,
            name: Rc::from(new_name),
        };
        let effects = Rc::new([out, Effect::Free(target), unlink, link]);
        Ok((Reply::Done, Some(effects)))
    }

    fn can_replace(&mut self, moved: Inode, target: Inode) -> Result<(), Stop> {
        self.want(target, Mode::Read)?;
        match (self.entries(moved), self.entries(target)) {
            (None, Some(_)) => Err(TreeError::IsDir.into()),
            (Some(_), None) => Err(TreeError::NotDir.into()),
            (Some(_), Some(count)) if count > 0 => Err(TreeError::NotEmpty.into()),
            _ => Ok(()),
        }
    }

    fn read(&mut self, path: &Path, offset: u64, length: u64) -> Result<Planned, Stop> {
        let inode = self.walk(path.names())?;
        let bytes = self.with_file(inode, |file| file.read(offset, length))?;
        Ok((Reply::Bytes(bytes), None))
    }

    fn write(&mut self, path: &Path, offset: u64, data: &Rc<[u8]>) -> Result<Planned, Stop> {
        let inode = self.walk(path.names())?;
        self.with_file(inode, |_| ())?;
        if offset > MAX_FILE - data.len() as u64 {
            return Err(TreeError::TooBig.into());
        }
        if data.is_empty() {
            return Ok((Reply::Done, None));
        }
        self.want(inode, Mode::Write)?;
        let write = Effect::Write {
            inode,
            offset: offset as u32,
            data: data.clone(),
        };
        Ok((Reply::Done, Some(Rc::new([write]))))
    }

    fn truncate(&mut self, path: &Path, size: u64) -> Result<Planned, Stop> {
        let inode = self.walk(path.names())?;
        self.with_file(inode, |_| ())?;
        if size > MAX_FILE {
            return Err(TreeError::TooBig.into());
        }
        self.want(inode, Mode::Write)?;
        let length = size as u32;
        let effects = Rc::new([Effect::SetLength { inode, length }]);
        Ok((Reply::Done, Some(effects)))
    }

    fn unlink(&mut self, path: &Path) -> Result<Planned, Stop> {
        if path.is_root() {
            return Err(TreeError::IsDir.into());
        }
        let (directory, name, inode) = self.walk_with_parent(path)?;
        self.with_file(inode, |_| ())?;
        self.take_out(directory, name, inode)
    }

    fn remove_directory(&mut self, path: &Path) -> Result<Planned, Stop> {
        if path.is_root() {
            return Err(TreeError::Invalid.into());
        }
        let (directory, name, inode) = self.walk_with_parent(path)?;
        match self.entries(inode) {
            None => Err(TreeError::NotDir.into()),
            Some(0) => self.take_out(directory, name, inode),
            Some(_) => Err(TreeError::NotEmpty.into()),
        }
    }

    fn list(&mut self, path: &Path) -> Result<Planned, Stop> {
        let inode = self.walk(path.names())?;
        let names = match self.pending.0.get(&inode) {
            Some(pending) => match &pending.value {
                Value::Directory(changes) => changes.names(self.area, inode),
                _ => return Err(TreeError::NotDir.into()),
            },
            None => match self.area.get(inode) {
                Some(Content::Directory(entries)) => entries.keys().cloned().collect(),
                _ => return Err(TreeError::NotDir.into()),
            },
        };
        Ok((Reply::Names(names), None))
    }

    fn stat(&mut self, path: &Path) -> Result<Planned, Stop> {
        let inode = self.walk(path.names())?;
        let reply = match self.entries(inode) {
            Some(count) => Reply::Directory(count as u64),
            None => Reply::File(self.with_file(inode, |file| file.len())? as u64),
        };
        Ok((reply, None))
    }

    pub fn plan(&mut self, operation: &Operation) -> Result<Planned, Stop> {
        match operation {
            Operation::Create(path) => self.make(path, Effect::NewFile),
            Operation::Mkdir(path) => self.make(path, Effect::NewDirectory),
            Operation::Read(path, offset, length) => self.read(path, *offset, *length),
            Operation::Write(path, offset, data) => self.write(path, *offset, data),
            Operation::Truncate(path, size) => self.truncate(path, *size),
            Operation::Unlink(path) => self.unlink(path),
            Operation::Rmdir(path) => self.remove_directory(path),
            Operation::List(path) => self.list(path),
            Operation::Stat(path) => self.stat(path),
            Operation::Rename(from, to) => self.rename(from, to),
            Operation::Fsync | Operation::Dsync => Ok((Reply::Done, None)),
        }
    }
}
