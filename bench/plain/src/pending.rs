//! A client's undigested effects, by inode: what its calls see instead of the area's value.

use crate::area::{Area, Content, Directory, File};
use crate::types::*;
use std::collections::BTreeMap;
use std::rc::Rc;

pub struct Pending {
    /// The last undigested record that touches the inode.
    pub last: u64,
    pub value: Value,
}

pub enum Value {
    Gone,
    File(File),
    Directory(Changes),
}

/// A directory as changes of the area's one, or, if `new`, of an empty one.
pub struct Changes {
    new: bool,
    entries: BTreeMap<Rc<str>, Option<Inode>>,
    count: usize,
}

impl Changes {
    pub fn count(&self) -> usize {
        self.count
    }

    pub fn get(&self, name: &str, area: &mut Area, directory: Inode) -> Option<Inode> {
        match self.entries.get(name) {
            Some(changed) => *changed,
            None if self.new => None,
            None => match area.get(directory) {
                Some(Content::Directory(base)) => base.get(name).copied(),
                _ => None,
            },
        }
    }

    pub fn names(&self, area: &mut Area, directory: Inode) -> Rc<[Rc<str>]> {
        let mut all: Vec<Rc<str>> = Vec::with_capacity(self.count);
        let mut changes = self.entries.iter().peekable();
        if !self.new {
            if let Some(Content::Directory(base)) = area.get(directory) {
                for name in base.keys() {
                    while let Some((changed, inode)) =
                        changes.next_if(|(changed, _)| *changed < name)
                    {
                        if inode.is_some() {
                            all.push(changed.clone());
                        }
                    }
                    match changes.next_if(|(changed, _)| *changed == name) {
                        Some((_, None)) => {}
                        _ => all.push(name.clone()),
                    }
                }
            }
        }
        all.extend(
            changes
                .filter(|(_, inode)| inode.is_some())
                .map(|(name, _)| name.clone()),
        );
        all.into()
    }
}

#[derive(Default)]
pub struct Undigested(pub InodeMap<Pending>);

impl Undigested {
    pub fn add(&mut self, number: u64, effect: &Effect, area: &mut Area) {
        let inode = effect.touched();
        let value = match effect {
            Effect::NewFile(_) => Value::File(File::default()),
            Effect::NewDirectory(_) => Value::Directory(Changes {
                new: true,
                entries: BTreeMap::new(),
                count: 0,
            }),
            Effect::Free(_) => Value::Gone,
            _ => {
                let pending = self.0.entry(inode).or_insert_with(|| {
                    let value = match area.get(inode) {
                        Some(Content::File(file)) => Value::File(file.clone()),
                        Some(Content::Directory(directory)) => Value::Directory(Changes {
                            new: false,
                            entries: BTreeMap::new(),
                            count: directory.len(),
                        }),
                        None => Value::Gone,
                    };
                    Pending {
                        last: number,
                        value,
                    }
                });
                pending.last = number;
                change(&mut pending.value, effect);
                return;
            }
        };
        self.0.insert(
            inode,
            Pending {
                last: number,
                value,
            },
        );
    }

    /// Digests a client's records, numbered from `first`, into the area of its own node: an inode
    /// that no later record touches gets its value as it stands here.
    pub fn digest<'a>(
        &mut self,
        first: u64,
        records: impl ExactSizeIterator<Item = &'a Record>,
        area: &mut Area,
    ) {
        let end = first + records.len() as u64;
        for record in records {
            for effect in record.effects.iter() {
                let inode = effect.touched();
                match self.0.get(&inode) {
                    Some(pending) if pending.last >= end => area.apply(effect),
                    Some(_) => {
                        if let Some(pending) = self.0.remove(&inode) {
                            install(pending.value, inode, area);
                        }
                    }
                    None => {}
                }
            }
        }
    }
}

fn change(value: &mut Value, effect: &Effect) {
    match (value, effect) {
        (Value::File(file), Effect::Write { offset, data, .. }) => {
            file.write(*offset as usize, data)
        }
        (Value::File(file), Effect::SetLength { length, .. }) => file.set_length(*length as usize),
        (Value::Directory(directory), Effect::Link { name, inode, .. }) => {
            directory.entries.insert(name.clone(), Some(*inode));
            directory.count += 1;
        }
        (Value::Directory(directory), Effect::Unlink { name, .. }) => {
            match directory.new {
                true => directory.entries.remove(name),
                false => directory.entries.insert(name.clone(), None),
            };
            directory.count -= 1;
        }
        _ => {}
    }
}

fn install(value: Value, inode: Inode, area: &mut Area) {
    match value {
        Value::Gone => area.remove(inode),
        Value::File(file) => area.put(inode, Content::File(file)),
        Value::Directory(changes) if changes.new => {
            let directory: Directory = changes
                .entries
                .into_iter()
                .filter_map(|(name, inode)| Some((name, inode?)))
                .collect();
            area.put(inode, Content::Directory(directory));
        }
        Value::Directory(changes) => {
            if let Some(Content::Directory(directory)) = area.get(inode) {
                for (name, inode) in changes.entries {
                    match inode {
                        Some(inode) => directory.insert(name, inode),
                        None => directory.remove(&name),
                    };
                }
            }
        }
    }
}
