//! Commands to answers: calls with their rounds, links and the printed lines.

use crate::cluster::{Cluster, Turn};
use crate::frame::{decode, encode};
use crate::script::{Command, LinkKind};
use crate::tree::check;
use crate::types::*;
use std::io::{self, Write};

/// What a node's frames are carried by.
struct Link {
    kind: LinkKind,
    carries: u64,
    before: Option<Vec<u8>>,
}

impl Link {
    fn new(kind: LinkKind) -> Link {
        Link {
            kind,
            carries: 0,
            before: None,
        }
    }

    /// What `receive` makes of the bytes that the link hands on; None where it hands on none.
    fn carry<T>(&mut self, bytes: &[u8], receive: impl FnOnce(&[u8]) -> Option<T>) -> Option<T> {
        self.carries += 1;
        match self.kind {
            LinkKind::Perfect => receive(bytes),
            LinkKind::Lose | LinkKind::Fault => None,
            LinkKind::Cut(count) => receive(&bytes[..count.min(bytes.len() as u64) as usize]),
            LinkKind::Delay => self
                .before
                .replace(bytes.to_vec())
                .and_then(|before| receive(&before)),
            LinkKind::Repeat => {
                let before = self.before.replace(bytes.to_vec());
                match before {
                    Some(before) if self.carries % 2 == 0 => receive(&before),
                    _ => receive(bytes),
                }
            }
        }
    }
}

struct Engine {
    cluster: Cluster,
    links: Vec<Link>,
    buffer: Vec<u8>,
    manual: bool,
    turns: u64,
}

impl Engine {
    fn new(nodes: usize, log: usize, hot: usize, turns: u64) -> Engine {
        Engine {
            cluster: Cluster::new(nodes, log, hot),
            links: (0..nodes).map(|_| Link::new(LinkKind::Perfect)).collect(),
            buffer: Vec::new(),
            manual: false,
            turns,
        }
    }

    /// One replicate turn of a node; answers how many frames were accepted.
    fn carry(&mut self, node: u64) -> Result<usize, Refusal> {
        let frames = self.cluster.outgoing(node)?;
        let mut accepted = 0;
        for (frame, to) in frames {
            self.buffer.clear();
            encode(&frame, &mut self.buffer);
            drop(frame);
            let level = self.cluster.level(to as usize - 1);
            let carried =
                self.links[node as usize - 1].carry(&self.buffer, |bytes| decode(bytes, level));
            if let Some(frame) = carried {
                accepted += usize::from(self.cluster.deliver(frame, to).is_ok());
            }
        }
        Ok(accepted)
    }

    fn round(&mut self) {
        for node in 1..=self.cluster.node_count() as u64 {
            // Fails only for a node that isn't full, and does nothing then.
            let _ = self.carry(node);
        }
        for node in 1..=self.cluster.node_count() as u64 {
            let _ = self.cluster.digest(node);
        }
        self.cluster.release_ready();
    }

    fn call(&mut self, client: u64, operation: &Operation) -> Result<Turn, Refusal> {
        for turn in 1.. {
            match self.cluster.try_call(client, operation)? {
                Turn::NotYet if self.manual => return Ok(Turn::NotYet),
                Turn::NotYet if turn < self.turns => self.round(),
                Turn::NotYet => return Err(Refusal::Busy),
                answered => return Ok(answered),
            }
        }
        Err(Refusal::Busy)
    }

    fn back(&mut self, node: u64) -> Result<(), Refusal> {
        self.cluster.back(node)?;
        while self.cluster.refill(node)? > 0 {}
        self.cluster.join(node)
    }

    /// Prints the answer of any command but `cluster` and `manual`.
    fn answer(
        &mut self,
        command: &Command,
        out: &mut impl Write,
    ) -> Result<io::Result<()>, Refusal> {
        let cluster = &mut self.cluster;
        Ok(match command {
            Command::Open {
                node,
                revoker,
                optimistic,
            } => {
                let client = cluster.open(*node, *revoker, *optimistic)?;
                write!(out, "client {client}")
            }
            Command::Call { client, operation } => match self.call(*client, operation)? {
                Turn::Answered(reply) => reply.write_text(out),
                Turn::NotYet => out.write_all(b"wait"),
            },
            Command::Carry(node) => {
                let accepted = self.carry(*node)?;
                write!(out, "carried {accepted}")
            }
            Command::Digest(node) => {
                let digested = cluster.digest(*node)?;
                write!(out, "digested {digested}")
            }
            Command::Release => write!(out, "released {}", cluster.release_ready()),
            Command::Tree(node) => write_tree(&cluster.tree(*node)?, out),
            Command::History => write_history(cluster.history(), out),
            Command::Check if check(cluster.history()) => out.write_all(b"legal"),
            Command::Check => out.write_all(b"illegal"),
            Command::Hot { .. } | Command::Link { .. } | Command::Raise(_) => {
                return self.answer_setting(command, out)
            }
            _ => return self.answer_failure(command, out),
        })
    }

    /// Prints the answer of a command that sets something.
    fn answer_setting(
        &mut self,
        command: &Command,
        out: &mut impl Write,
    ) -> Result<io::Result<()>, Refusal> {
        let cluster = &mut self.cluster;
        Ok(match command {
            Command::Hot { node, capacity } => {
                cluster.set_hot(*node, *capacity)?;
                write!(out, "hot {node}")
            }
            Command::Link { node, kind } => {
                let index = node.checked_sub(1).ok_or(Refusal::BadNode)? as usize;
                let link = self.links.get_mut(index).ok_or(Refusal::BadNode)?;
                *link = Link::new(*kind);
                write!(out, "linked {node}")
            }
            Command::Raise(node) => {
                cluster.raise(*node)?;
                write!(out, "raised {node}")
            }
            _ => Ok(()),
        })
    }

    /// Prints the answer of a command with which something fails or returns.
    fn answer_failure(
        &mut self,
        command: &Command,
        out: &mut impl Write,
    ) -> Result<io::Result<()>, Refusal> {
        let cluster = &mut self.cluster;
        Ok(match command {
            Command::Crash(client) => {
                cluster.crash(*client)?;
                write!(out, "crashed {client}")
            }
            Command::Fail(node) => {
                let lost = cluster.fail(*node)?;
                write!(out, "failed {node}").and_then(|()| write_pairs(out, &lost))
            }
            Command::Back(node) if self.manual => {
                let stale = cluster.back(*node)?;
                write!(out, "back {node} stale {stale}")
            }
            Command::Back(node) => {
                self.back(*node)?;
                write!(out, "returned {node}")
            }
            Command::Refill(node) => {
                let left = cluster.refill(*node)?;
                write!(out, "left {left}")
            }
            Command::Join(node) => {
                cluster.join(*node)?;
                write!(out, "returned {node}")
            }
            _ => Ok(()),
        })
    }
}

fn write_tree(lines: &[(String, Option<usize>)], out: &mut impl Write) -> io::Result<()> {
    write!(out, "tree {}", lines.len())?;
    lines.iter().try_for_each(|(path, size)| match size {
        Some(size) => write!(out, "\n{path} file {size}"),
        None => write!(out, "\n{path} dir"),
    })
}

fn write_history(history: &[Entry], out: &mut impl Write) -> io::Result<()> {
    write!(out, "history {}", history.len())?;
    history.iter().try_for_each(|entry| {
        out.write_all(b"\n")?;
        entry.write_text(out)
    })
}

pub fn run(commands: Vec<(usize, Command)>, turns: u64, out: &mut impl Write) -> io::Result<()> {
    let mut engine = None;
    for (line, command) in &commands {
        if let Command::Cluster { nodes, log, hot } = *command {
            engine = Some(Engine::new(nodes, log, hot, turns));
            continue;
        }
        // The parser lets no command come before the cluster.
        let Some(engine) = &mut engine else { continue };
        if matches!(command, Command::Manual) {
            engine.manual = true;
            continue;
        }
        write!(out, "{line}: ")?;
        match engine.answer(command, out) {
            Ok(written) => written?,
            Err(refusal) => out.write_all(refusal.text().as_bytes())?,
        }
        out.write_all(b"\n")?;
    }
    Ok(())
}
