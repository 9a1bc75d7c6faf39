//! File bytes in shared blocks, inodes, and a node's area: hot (least recently used) over cold.

use crate::types::*;
use std::collections::BTreeMap;
use std::rc::Rc;

pub const BLOCK: usize = 4096;
type Block = [u8; BLOCK];

thread_local! {
    static ZEROS: Rc<Block> = Rc::new([0; BLOCK]);
}

/// Whole blocks; the bytes past `length` in the last one are zero.
#[derive(Clone, Default)]
pub struct File {
    length: usize,
    blocks: Vec<Rc<Block>>,
}

impl File {
    pub fn len(&self) -> usize {
        self.length
    }

    fn grow(&mut self, length: usize) {
        if length > self.length {
            let wanted = length.div_ceil(BLOCK);
            if wanted > self.blocks.len() {
                ZEROS.with(|zeros| self.blocks.resize_with(wanted, || zeros.clone()));
            }
            self.length = length;
        }
    }

    pub fn write(&mut self, offset: usize, data: &[u8]) {
        self.grow(offset + data.len());
        let (mut at, mut rest) = (offset, data);
        while !rest.is_empty() {
            let (index, start) = (at / BLOCK, at % BLOCK);
            let count = rest.len().min(BLOCK - start);
            let (piece, after) = rest.split_at(count);
            let block = &mut self.blocks[index];
            match <&Block>::try_from(piece) {
                Ok(whole) => match Rc::get_mut(block) {
                    Some(bytes) => *bytes = *whole,
                    None => *block = Rc::new(*whole),
                },
                Err(_) => Rc::make_mut(block)[start..start + count].copy_from_slice(piece),
            }
            at += count;
            rest = after;
        }
    }

    pub fn set_length(&mut self, length: usize) {
        if length < self.length {
            self.blocks.truncate(length.div_ceil(BLOCK));
            self.length = length;
            if length % BLOCK != 0 {
                if let Some(block) = self.blocks.last_mut() {
                    Rc::make_mut(block)[length % BLOCK..].fill(0);
                }
            }
        } else {
            self.grow(length);
        }
    }

    pub fn read(&self, offset: u64, length: u64) -> Rc<[u8]> {
        if offset >= self.length as u64 || length == 0 {
            return Rc::from(&[][..]);
        }
        let start = offset as usize;
        let count = length.min((self.length - start) as u64) as usize;
        if start % BLOCK + count <= BLOCK {
            return Rc::from(&self.blocks[start / BLOCK][start % BLOCK..start % BLOCK + count]);
        }
        let mut bytes = Rc::<[u8]>::new_uninit_slice(count);
        let to = Rc::get_mut(&mut bytes).expect("not shared");
        let mut done = 0;
        while done < count {
            let at = start + done;
            let piece = (BLOCK - at % BLOCK).min(count - done);
            let from = &self.blocks[at / BLOCK][at % BLOCK..at % BLOCK + piece];
            // SAFETY: `to[done..done + piece]` is in bounds and can't overlap a block; in the
            // end each of the `count` bytes has been written once.
            unsafe {
                std::ptr::copy_nonoverlapping(
                    from.as_ptr(),
                    to.as_mut_ptr().add(done).cast(),
                    piece,
                )
            };
            done += piece;
        }
        // SAFETY: see above.
        unsafe { bytes.assume_init() }
    }
}

pub type Directory = BTreeMap<Rc<str>, Inode>;

#[derive(Clone)]
pub enum Content {
    File(File),
    Directory(Directory),
}

const NONE: u32 = u32::MAX;

struct Slot {
    inode: Inode,
    value: Option<Content>,
    before: u32,
    after: u32,
}

/// One map from inode to value; at most `capacity` of the last used ones are hot.
pub struct Area {
    capacity: usize,
    index: InodeMap<u32>,
    slots: Vec<Slot>,
    free: Vec<u32>,
    newest: u32,
    oldest: u32,
    cold: BTreeMap<Inode, Content>,
}

impl Area {
    pub fn new(capacity: usize) -> Area {
        Area {
            capacity,
            index: InodeMap::default(),
            slots: Vec::new(),
            free: Vec::new(),
            newest: NONE,
            oldest: NONE,
            cold: BTreeMap::from([(0, Content::Directory(Directory::new()))]),
        }
    }

    fn unlink(&mut self, slot: u32) {
        let (before, after) = (
            self.slots[slot as usize].before,
            self.slots[slot as usize].after,
        );
        match before {
            NONE => self.newest = after,
            _ => self.slots[before as usize].after = after,
        }
        match after {
            NONE => self.oldest = before,
            _ => self.slots[after as usize].before = before,
        }
    }

    fn link_newest(&mut self, slot: u32) {
        let newest = self.newest;
        self.slots[slot as usize].before = NONE;
        self.slots[slot as usize].after = newest;
        match newest {
            NONE => self.oldest = slot,
            _ => self.slots[newest as usize].before = slot,
        }
        self.newest = slot;
    }

    fn take_slot(&mut self, slot: u32) -> (Inode, Content) {
        self.unlink(slot);
        let place = &mut self.slots[slot as usize];
        let (inode, value) = (place.inode, place.value.take().expect("a used slot"));
        self.index.remove(&inode);
        self.free.push(slot);
        (inode, value)
    }

    fn put_hot(&mut self, inode: Inode, value: Content) -> u32 {
        if self.index.len() >= self.capacity {
            let (old, cold) = self.take_slot(self.oldest);
            self.cold.insert(old, cold);
        }
        let place = Slot {
            inode,
            value: Some(value),
            before: NONE,
            after: NONE,
        };
        let slot = match self.free.pop() {
            Some(slot) => {
                self.slots[slot as usize] = place;
                slot
            }
            None => {
                self.slots.push(place);
                (self.slots.len() - 1) as u32
            }
        };
        self.index.insert(inode, slot);
        self.link_newest(slot);
        slot
    }

    /// Makes the inode hot.
    pub fn get(&mut self, inode: Inode) -> Option<&mut Content> {
        let slot = match self.index.get(&inode) {
            Some(&slot) => {
                if self.newest != slot {
                    self.unlink(slot);
                    self.link_newest(slot);
                }
                slot
            }
            None => {
                let value = self.cold.remove(&inode)?;
                self.put_hot(inode, value)
            }
        };
        self.slots[slot as usize].value.as_mut()
    }

    /// Moves nothing.
    pub fn peek(&self, inode: Inode) -> Option<&Content> {
        match self.index.get(&inode) {
            Some(&slot) => self.slots[slot as usize].value.as_ref(),
            None => self.cold.get(&inode),
        }
    }

    pub fn put(&mut self, inode: Inode, value: Content) {
        match self.index.get(&inode) {
            Some(&slot) => self.slots[slot as usize].value = Some(value),
            None => {
                self.cold.insert(inode, value);
            }
        }
    }

    pub fn remove(&mut self, inode: Inode) {
        match self.index.get(&inode) {
            Some(&slot) => {
                self.take_slot(slot);
            }
            None => {
                self.cold.remove(&inode);
            }
        }
    }

    pub fn set_capacity(&mut self, capacity: usize) {
        self.capacity = capacity;
        while self.index.len() > capacity {
            let (inode, value) = self.take_slot(self.oldest);
            self.cold.insert(inode, value);
        }
    }

    pub fn apply(&mut self, effect: &Effect) {
        match effect {
            Effect::NewFile(inode) => self.put(*inode, Content::File(File::default())),
            Effect::NewDirectory(inode) => self.put(*inode, Content::Directory(Directory::new())),
            Effect::Free(inode) => self.remove(*inode),
            _ => {
                if let Some(value) = self.get(effect.touched()) {
                    change(value, effect);
                }
            }
        }
    }
}

/// An effect that makes no inode and frees none, on a value.
fn change(value: &mut Content, effect: &Effect) {
    match (value, effect) {
        (Content::File(file), Effect::Write { offset, data, .. }) => {
            file.write(*offset as usize, data)
        }
        (Content::File(file), Effect::SetLength { length, .. }) => {
            file.set_length(*length as usize)
        }
        (Content::Directory(directory), Effect::Link { name, inode, .. }) => {
            directory.insert(name.clone(), *inode);
        }
        (Content::Directory(directory), Effect::Unlink { name, .. }) => {
            directory.remove(name);
        }
        _ => {}
    }
}

/// An effect on a value that may be absent.
pub fn apply_to(value: &mut Option<Content>, effect: &Effect) {
    match effect {
        Effect::NewFile(_) => *value = Some(Content::File(File::default())),
        Effect::NewDirectory(_) => *value = Some(Content::Directory(Directory::new())),
        Effect::Free(_) => *value = None,
        _ => {
            if let Some(value) = value {
                change(value, effect);
            }
        }
    }
}
