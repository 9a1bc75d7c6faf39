//! A group of records without what later ones of the group override.

use crate::types::*;
use std::rc::Rc;

/// What later effects of a group do to an inode.
#[derive(Default)]
struct Later {
    made_anew: bool,
    names: Vec<Rc<str>>,
    writes: Vec<(u32, u32)>,
}

impl Later {
    /// Takes one effect more, from the last on; true if later ones override it.
    fn overrides(&mut self, effect: &Effect) -> bool {
        let made_anew = self.made_anew;
        match effect {
            Effect::NewFile(_) | Effect::NewDirectory(_) | Effect::Free(_) => {
                self.made_anew = true;
                made_anew
            }
            Effect::Write { offset, data, .. } => {
                let (start, end) = (*offset, offset + data.len() as u32);
                let mut writes = self.writes.iter();
                let covered = writes.any(|&(from, to)| from <= start && end <= to);
                self.writes.push((start, end));
                made_anew || covered
            }
            Effect::Link { name, .. } | Effect::Unlink { name, .. } => {
                let changed = self.names.contains(name);
                self.names.push(name.clone());
                made_anew || changed
            }
            Effect::SetLength { .. } => made_anew,
        }
    }
}

/// The last record that is left is marked.
pub fn coalesced(group: &[Record]) -> Vec<Record> {
    let mut later: InodeMap<Later> = InodeMap::default();
    let mut left: Vec<Record> = Vec::with_capacity(group.len());
    for record in group.iter().rev() {
        let mut kept: Vec<Effect> = Vec::with_capacity(record.effects.len());
        for effect in record.effects.iter().rev() {
            if !later.entry(effect.touched()).or_default().overrides(effect) {
                kept.push(effect.clone());
            }
        }
        if !kept.is_empty() {
            kept.reverse();
            left.push(Record {
                call: record.call,
                last: left.is_empty(),
                effects: kept.into(),
            });
        }
    }
    left.reverse();
    left
}
