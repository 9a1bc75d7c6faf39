//! Frames of version 1 and 2.

use crate::types::*;
use std::rc::Rc;

pub struct Frame {
    pub version: u8,
    pub epoch: u64,
    pub client: u32,
    pub first: u64,
    /// In a version 1 frame `last` of a record says nothing.
    pub records: Vec<Record>,
}

pub fn encode(frame: &Frame, out: &mut Vec<u8>) {
    out.extend_from_slice(b"AS");
    out.push(frame.version);
    out.extend_from_slice(&frame.epoch.to_be_bytes());
    out.extend_from_slice(&frame.client.to_be_bytes());
    out.extend_from_slice(&frame.first.to_be_bytes());
    out.extend_from_slice(&(frame.records.len() as u16).to_be_bytes());
    let length_at = out.len();
    out.extend_from_slice(&[0; 4]);
    for record in &frame.records {
        out.extend_from_slice(&record.call.to_be_bytes());
        if frame.version == 2 {
            out.push(u8::from(record.last));
        }
        out.push(record.effects.len() as u8);
        for effect in record.effects.iter() {
            encode_effect(effect, out);
        }
    }
    let length = (out.len() - length_at - 4) as u32;
    out[length_at..length_at + 4].copy_from_slice(&length.to_be_bytes());
}

fn encode_effect(effect: &Effect, out: &mut Vec<u8>) {
    match effect {
        Effect::NewFile(inode) => encode_tag(out, 1, *inode),
        Effect::NewDirectory(inode) => encode_tag(out, 2, *inode),
        Effect::Write {
            inode,
            offset,
            data,
        } => {
            encode_tag(out, 3, *inode);
            out.extend_from_slice(&offset.to_be_bytes());
            out.extend_from_slice(&(data.len() as u32).to_be_bytes());
            out.extend_from_slice(data);
        }
        Effect::SetLength { inode, length } => {
            encode_tag(out, 4, *inode);
            out.extend_from_slice(&length.to_be_bytes());
        }
        Effect::Link {
            directory,
            name,
            inode,
        } => {
            encode_tag(out, 5, *directory);
            encode_name(out, name);
            out.extend_from_slice(&inode.to_be_bytes());
        }
        Effect::Unlink { directory, name } => {
            encode_tag(out, 6, *directory);
            encode_name(out, name);
        }
        Effect::Free(inode) => encode_tag(out, 7, *inode),
    }
}

fn encode_tag(out: &mut Vec<u8>, tag: u8, inode: Inode) {
    out.push(tag);
    out.extend_from_slice(&inode.to_be_bytes());
}

fn encode_name(out: &mut Vec<u8>, name: &str) {
    out.push(name.len() as u8);
    out.extend_from_slice(name.as_bytes());
}

/// Reads fields from the left; a field that isn't there, or isn't lawful, is None.
struct Reader<'a>(&'a [u8]);

impl<'a> Reader<'a> {
    fn take(&mut self, count: usize) -> Option<&'a [u8]> {
        let (field, rest) = self.0.split_at_checked(count)?;
        self.0 = rest;
        Some(field)
    }

    fn array<const N: usize>(&mut self) -> Option<[u8; N]> {
        self.take(N)?.try_into().ok()
    }

    fn u8(&mut self) -> Option<u8> {
        Some(self.array::<1>()?[0])
    }

    fn u32(&mut self) -> Option<u32> {
        Some(u32::from_be_bytes(self.array()?))
    }

    fn u64(&mut self) -> Option<u64> {
        Some(u64::from_be_bytes(self.array()?))
    }

    fn name(&mut self) -> Option<Rc<str>> {
        let length = usize::from(self.u8()?);
        let name = std::str::from_utf8(self.take(length)?).ok()?;
        is_lawful_name(name).then(|| Rc::from(name))
    }

    fn write(&mut self, inode: Inode) -> Option<Effect> {
        let offset = self.u32()?;
        let length = self.u32()?;
        if length == 0
            || length as usize > MAX_WRITE
            || u64::from(offset) + u64::from(length) > MAX_FILE
        {
            return None;
        }
        let data = Rc::from(self.take(length as usize)?);
        Some(Effect::Write {
            inode,
            offset,
            data,
        })
    }

    fn effect(&mut self) -> Option<Effect> {
        let tag = self.u8()?;
        let inode = self.u64()?;
        Some(match tag {
            1 => Effect::NewFile(inode),
            2 => Effect::NewDirectory(inode),
            3 => self.write(inode)?,
            4 => Effect::SetLength {
                inode,
                length: self.u32().filter(|length| u64::from(*length) <= MAX_FILE)?,
            },
            5 => Effect::Link {
                directory: inode,
                name: self.name()?,
                inode: self.u64()?,
            },
            6 => Effect::Unlink {
                directory: inode,
                name: self.name()?,
            },
            7 => Effect::Free(inode),
            _ => return None,
        })
    }

    fn effects(&mut self) -> Option<Rc<[Effect]>> {
        Some(match self.u8()? {
            1 => Rc::new([self.effect()?]),
            2 => Rc::new([self.effect()?, self.effect()?]),
            3 => Rc::new([self.effect()?, self.effect()?, self.effect()?]),
            4 => Rc::new([
                self.effect()?,
                self.effect()?,
                self.effect()?,
                self.effect()?,
            ]),
            _ => return None,
        })
    }

    /// Whether this is the last record of a group.
    fn mark(&mut self, is_last_of_frame: bool) -> Option<bool> {
        match self.u8()? {
            0 if !is_last_of_frame => Some(false),
            1 => Some(true),
            _ => None,
        }
    }
}

/// The frame that the bytes begin with, up to the version `newest`; None where they don't begin with one.
pub fn decode(bytes: &[u8], newest: u8) -> Option<Frame> {
    let mut header = Reader(bytes);
    if header.array()? != *b"AS" {
        return None;
    }
    let version = header.u8()?;
    let (epoch, client, first) = (header.u64()?, header.u32()?, header.u64()?);
    let count = u16::from_be_bytes(header.array()?);
    let length = header.u32()? as usize;
    let mut body = Reader(header.take(length)?);
    let lawful_version = 1 <= version && version <= newest;
    let lawful_count = 1 <= count && usize::from(count) <= BATCH;
    if !lawful_version || !lawful_count || client == 0 {
        return None;
    }
    first.checked_add(u64::from(count))?;
    let mut records = Vec::with_capacity(usize::from(count));
    for number in 1..=count {
        records.push(Record {
            call: body.u64()?,
            last: version == 1 || body.mark(number == count)?,
            effects: body.effects()?,
        });
    }
    body.0.is_empty().then_some(Frame {
        version,
        epoch,
        client,
        first,
        records,
    })
}
