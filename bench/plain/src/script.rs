//! Scripts to commands.

use crate::types::*;
use std::rc::Rc;

#[derive(Clone, Copy)]
pub enum LinkKind {
    Perfect,
    Lose,
    Repeat,
    Delay,
    Cut(u64),
    Fault,
}

pub enum Command {
    Cluster {
        nodes: usize,
        log: usize,
        hot: usize,
    },
    Manual,
    Open {
        node: u64,
        revoker: Revoker,
        optimistic: bool,
    },
    Call {
        client: u64,
        operation: Operation,
    },
    Crash(u64),
    Fail(u64),
    Back(u64),
    Refill(u64),
    Join(u64),
    Carry(u64),
    Digest(u64),
    Release,
    Tree(u64),
    History,
    Hot {
        node: u64,
        capacity: usize,
    },
    Link {
        node: u64,
        kind: LinkKind,
    },
    Raise(u64),
    Check,
}

pub enum ScriptFault {
    NotUtf8,
    UnknownCommand,
    WrongCount,
    BadNumber,
    BadPath(&'static str),
    BadData,
    BadRevoker,
    NoCluster,
    SecondCluster,
    BadLimit,
    BadLink,
    BadMode,
}

impl ScriptFault {
    pub fn text(&self) -> String {
        match self {
            ScriptFault::NotUtf8 => "not UTF-8".into(),
            ScriptFault::UnknownCommand => "unknown command".into(),
            ScriptFault::WrongCount => "wrong number of words".into(),
            ScriptFault::BadNumber => "bad number".into(),
            ScriptFault::BadPath(what) => format!("bad path: {what}"),
            ScriptFault::BadData => "bad data".into(),
            ScriptFault::BadRevoker => "unknown revoker".into(),
            ScriptFault::NoCluster => "no cluster yet".into(),
            ScriptFault::SecondCluster => "second cluster".into(),
            ScriptFault::BadLimit => "out of limits".into(),
            ScriptFault::BadLink => "unknown link".into(),
            ScriptFault::BadMode => "unknown mode".into(),
        }
    }
}

pub fn parse(script: &[u8]) -> Result<Vec<(usize, Command)>, (usize, ScriptFault)> {
    let mut commands = Vec::new();
    let mut cluster = false;
    let mut rest = script;
    let mut number = 0;
    while !rest.is_empty() {
        number += 1;
        let line = match rest.iter().position(|&byte| byte == b'\n') {
            Some(end) => {
                let line = &rest[..end];
                rest = &rest[end + 1..];
                line.strip_suffix(b"\r").unwrap_or(line)
            }
            None => std::mem::take(&mut rest),
        };
        if line.first() == Some(&b'#') {
            continue;
        }
        if let Some(command) = parse_line(line, cluster).map_err(|fault| (number, fault))? {
            cluster |= matches!(command, Command::Cluster { .. });
            commands.push((number, command));
        }
    }
    Ok(commands)
}

const CALLS: [(&str, usize); 12] = [
    ("create", 3),
    ("mkdir", 3),
    ("unlink", 3),
    ("rmdir", 3),
    ("list", 3),
    ("stat", 3),
    ("read", 5),
    ("write", 5),
    ("truncate", 4),
    ("rename", 4),
    ("fsync", 2),
    ("dsync", 2),
];

const COMMANDS: [&str; 17] = [
    "cluster", "manual", "open", "crash", "fail", "back", "refill", "join", "carry", "digest",
    "release", "tree", "history", "hot", "link", "raise", "check",
];

/// The words of a line. No command has more than five; a sixth only shows that there are too many.
struct Line<'a> {
    words: [&'a str; 6],
    count: usize,
}

// What is inlined takes no longer than one function would.
impl<'a> Line<'a> {
    #[inline(always)]
    fn of(text: &'a str) -> Line<'a> {
        let mut line = Line {
            words: [""; 6],
            count: 0,
        };
        for word in text.split(' ').filter(|word| !word.is_empty()) {
            if line.count == 6 {
                break;
            }
            line.words[line.count] = word;
            line.count += 1;
        }
        line
    }

    fn number(&self, at: usize) -> Result<u64, ScriptFault> {
        parse_number(self.words[at])
    }

    fn limited(&self, at: usize, least: u64, most: u64) -> Result<usize, ScriptFault> {
        let value = self.number(at)?;
        if value < least || value > most {
            return Err(ScriptFault::BadLimit);
        }
        Ok(value as usize)
    }

    #[inline(always)]
    fn path(&self, at: usize) -> Result<Path, ScriptFault> {
        Path::parse(self.words[at]).map_err(ScriptFault::BadPath)
    }

    #[inline(always)]
    fn call(&self, cluster: bool) -> Result<Command, ScriptFault> {
        let client = self.number(0)?;
        let Some(&(call, wanted)) = CALLS.iter().find(|(name, _)| *name == self.words[1]) else {
            return Err(ScriptFault::UnknownCommand);
        };
        if !cluster {
            return Err(ScriptFault::NoCluster);
        }
        if self.count != wanted {
            return Err(ScriptFault::WrongCount);
        }
        let operation = match call {
            "create" => Operation::Create(self.path(2)?),
            "mkdir" => Operation::Mkdir(self.path(2)?),
            "unlink" => Operation::Unlink(self.path(2)?),
            "rmdir" => Operation::Rmdir(self.path(2)?),
            "list" => Operation::List(self.path(2)?),
            "stat" => Operation::Stat(self.path(2)?),
            "read" => Operation::Read(self.path(2)?, self.number(3)?, self.number(4)?),
            "write" => Operation::Write(self.path(2)?, self.number(3)?, parse_data(self.words[4])?),
            "truncate" => Operation::Truncate(self.path(2)?, self.number(3)?),
            "rename" => Operation::Rename(self.path(2)?, self.path(3)?),
            "fsync" => Operation::Fsync,
            _ => Operation::Dsync,
        };
        Ok(Command::Call { client, operation })
    }

    fn open(&self) -> Result<Command, ScriptFault> {
        Ok(Command::Open {
            node: self.number(1)?,
            revoker: match self.words[2] {
                "least" => Revoker::Least,
                "whole" => Revoker::Whole,
                "eights" => Revoker::Eights,
                _ => return Err(ScriptFault::BadRevoker),
            },
            optimistic: match self.words[3] {
                "" => false,
                "optimistic" => true,
                _ => return Err(ScriptFault::BadMode),
            },
        })
    }

    fn link(&self) -> Result<Command, ScriptFault> {
        Ok(Command::Link {
            node: self.number(1)?,
            kind: match self.words[2] {
                "perfect" => LinkKind::Perfect,
                "lose" => LinkKind::Lose,
                "repeat" => LinkKind::Repeat,
                "delay" => LinkKind::Delay,
                "cut" => LinkKind::Cut(self.number(3)?),
                "fault" => LinkKind::Fault,
                _ => return Err(ScriptFault::BadLink),
            },
        })
    }

    fn has_right_count(&self, command: &str) -> bool {
        match command {
            "manual" | "release" | "history" | "check" => self.count == 1,
            "cluster" => self.count == 4,
            "open" => self.count == 3 || self.count == 4,
            "hot" => self.count == 3,
            "link" => self.count == if self.words[2] == "cut" { 4 } else { 3 },
            _ => self.count == 2,
        }
    }

    fn command(&self, cluster: bool) -> Result<Command, ScriptFault> {
        let Some(&command) = COMMANDS.iter().find(|name| **name == self.words[0]) else {
            return Err(ScriptFault::UnknownCommand);
        };
        if command == "cluster" && cluster {
            return Err(ScriptFault::SecondCluster);
        }
        if command != "cluster" && !cluster {
            return Err(ScriptFault::NoCluster);
        }
        if !self.has_right_count(command) {
            return Err(ScriptFault::WrongCount);
        }
        Ok(match command {
            "cluster" => Command::Cluster {
                nodes: self.limited(1, 1, MAX_NODES)?,
                log: self.limited(2, 8, 4096)?,
                hot: self.limited(3, 1, 4096)?,
            },
            "manual" => Command::Manual,
            "open" => self.open()?,
            "crash" => Command::Crash(self.number(1)?),
            "fail" => Command::Fail(self.number(1)?),
            "back" => Command::Back(self.number(1)?),
            "refill" => Command::Refill(self.number(1)?),
            "join" => Command::Join(self.number(1)?),
            "carry" => Command::Carry(self.number(1)?),
            "digest" => Command::Digest(self.number(1)?),
            "release" => Command::Release,
            "tree" => Command::Tree(self.number(1)?),
            "history" => Command::History,
            "hot" => Command::Hot {
                node: self.number(1)?,
                capacity: self.limited(2, 1, 4096)?,
            },
            "link" => self.link()?,
            "raise" => Command::Raise(self.number(1)?),
            _ => Command::Check,
        })
    }
}

/// The command of a line; None where it has no words. `cluster` is whether there is a cluster already.
fn parse_line(text: &[u8], cluster: bool) -> Result<Option<Command>, ScriptFault> {
    let line = Line::of(std::str::from_utf8(text).map_err(|_| ScriptFault::NotUtf8)?);
    if line.count == 0 {
        return Ok(None);
    }
    if line.words[0].as_bytes()[0].is_ascii_digit() {
        return line.call(cluster).map(Some);
    }
    line.command(cluster).map(Some)
}

fn parse_number(word: &str) -> Result<u64, ScriptFault> {
    if word.is_empty() {
        return Err(ScriptFault::BadNumber);
    }
    let mut value = 0u64;
    for byte in word.bytes() {
        if !byte.is_ascii_digit() {
            return Err(ScriptFault::BadNumber);
        }
        value = value
            .checked_mul(10)
            .and_then(|value| value.checked_add(u64::from(byte - b'0')))
            .ok_or(ScriptFault::BadNumber)?;
    }
    Ok(value)
}

fn parse_data(word: &str) -> Result<Rc<[u8]>, ScriptFault> {
    let (kind, rest) = word.as_bytes().split_first().ok_or(ScriptFault::BadData)?;
    match kind {
        b't' => Ok(Rc::from(rest)),
        b'x' => {
            if rest.len() % 2 != 0 {
                return Err(ScriptFault::BadData);
            }
            let mut bytes = Vec::with_capacity(rest.len() / 2);
            for pair in rest.chunks_exact(2) {
                let (high, low) = (HEX[usize::from(pair[0])], HEX[usize::from(pair[1])]);
                if (high | low) > 15 {
                    return Err(ScriptFault::BadData);
                }
                bytes.push(high << 4 | low);
            }
            Ok(Rc::from(bytes))
        }
        b'z' => {
            let count = parse_number(&word[1..]).map_err(|_| ScriptFault::BadData)?;
            if count > MAX_FILE {
                return Err(ScriptFault::BadData);
            }
            Ok(Rc::from(vec![0; count as usize]))
        }
        _ => Err(ScriptFault::BadData),
    }
}

const HEX: [u8; 256] = {
    let mut table = [255; 256];
    let mut digit = 0;
    while digit < 16 {
        table[b"0123456789abcdef"[digit] as usize] = digit as u8;
        table[b"0123456789ABCDEF"[digit] as usize] = digit as u8;
        digit += 1;
    }
    table
};
