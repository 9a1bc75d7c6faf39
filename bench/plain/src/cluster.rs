//! The machine: nodes, clients, leases, epochs and the history.

use crate::area::{apply_to, Area, Content};
use crate::coalesce::coalesced;
use crate::frame::Frame;
use crate::leases::{Leases, Mode};
use crate::pending::Undigested;
use crate::plan::{Planned, Stop, View};
use crate::types::*;
use std::collections::{BTreeSet, VecDeque};
use std::rc::Rc;

#[derive(Clone, Copy, PartialEq, Eq)]
pub enum Phase {
    Full,
    Down,
    Returning,
}

pub enum Turn {
    Answered(Reply),
    NotYet,
}

#[derive(Clone, Default)]
struct Log {
    first: u64,
    records: VecDeque<Record>,
    digested: u64,
}

impl Log {
    fn end(&self) -> u64 {
        self.first + self.records.len() as u64
    }
    fn at(&self, number: u64) -> &Record {
        &self.records[(number - self.first) as usize]
    }
    fn range(&self, from: u64, to: u64) -> std::collections::vec_deque::Iter<'_, Record> {
        self.records
            .range((from - self.first) as usize..(to - self.first) as usize)
    }
    fn is_border(&self, number: u64) -> bool {
        number <= self.first || number > self.end() || self.at(number - 1).last
    }
    /// The end of the whole groups from a border on, up to another one, that have at most `most` records.
    fn groups_end(&self, from: u64, to: u64, most: usize) -> u64 {
        let limit = from.saturating_add(most as u64);
        if to <= limit {
            return to;
        }
        let mut end = limit;
        while end > from && !self.is_border(end) {
            end -= 1;
        }
        end
    }
    /// The last record that touches the inode, of those that are digested here.
    fn last_digested_touch(&self, inode: Inode) -> Option<u64> {
        let digested = self.range(self.first, self.digested);
        let touches = |record: &Record| {
            record
                .effects
                .iter()
                .any(|effect| effect.touched() == inode)
        };
        let back = digested.rev().position(touches)?;
        Some(self.digested - 1 - back as u64)
    }

    fn drop_front(&mut self, to: u64) {
        if to > self.first {
            self.records.drain(..(to - self.first) as usize);
            self.first = to;
        }
    }
}

struct Node {
    phase: Phase,
    area: Area,
    /// One for each client while the node is full, else none.
    logs: Vec<Log>,
    since: Option<u64>,
    stale: BTreeSet<Inode>,
    donor: usize,
    level: u8,
}

struct Client {
    home: usize,
    revoker: Revoker,
    optimistic: bool,
    goal: u64,
    calls: u64,
    made: u64,
    node_failed: bool,
    crashed: bool,
    pending: Undigested,
}

pub struct Cluster {
    nodes: Vec<Node>,
    clients: Vec<Client>,
    leases: Leases,
    /// The full nodes as bits.
    full: u32,
    epoch: u64,
    written: Vec<(u64, InodeSet)>,
    history: Vec<Entry>,
    limit: usize,
}

/// What a node or a client is called outside: the first is 1.
fn number_of(index: usize) -> u32 {
    index as u32 + 1
}

/// The next full node after `node` in the chain that begins at `head`.
fn successor(full: u32, nodes: usize, head: usize, node: usize) -> Option<usize> {
    if full & 1 << node == 0 {
        return None;
    }
    let mut next = node;
    loop {
        next = if next + 1 == nodes { 0 } else { next + 1 };
        if next == head || next == node {
            return None;
        }
        if full & 1 << next != 0 {
            return Some(next);
        }
    }
}

impl Cluster {
    pub fn new(nodes: usize, limit: usize, hot: usize) -> Cluster {
        let node = || Node {
            phase: Phase::Full,
            area: Area::new(hot),
            logs: Vec::new(),
            since: None,
            stale: BTreeSet::new(),
            donor: 0,
            level: 1,
        };
        Cluster {
            nodes: (0..nodes).map(|_| node()).collect(),
            clients: Vec::new(),
            leases: Leases::default(),
            full: ((1u64 << nodes) - 1) as u32,
            epoch: 1,
            written: Vec::new(),
            history: Vec::new(),
            limit,
        }
    }

    /// The index of a node.
    fn node(&self, node: u64) -> Result<usize, Refusal> {
        match node {
            0 => Err(Refusal::BadNode),
            _ if node > self.nodes.len() as u64 => Err(Refusal::BadNode),
            _ => Ok(node as usize - 1),
        }
    }

    fn full_node(&self, node: u64) -> Result<usize, Refusal> {
        let node = self.node(node)?;
        if self.nodes[node].phase != Phase::Full {
            return Err(Refusal::WrongPhase);
        }
        Ok(node)
    }

    /// The index of a client, if it can call.
    fn client(&self, client: u64) -> Result<usize, Refusal> {
        if client == 0 || client > self.clients.len() as u64 {
            return Err(Refusal::BadClient);
        }
        let client = client as usize - 1;
        if self.clients[client].crashed {
            return Err(Refusal::ClientGone);
        }
        if self.clients[client].node_failed {
            return Err(Refusal::NodeDown);
        }
        Ok(client)
    }

    fn lowest_full(&self) -> usize {
        self.full.trailing_zeros() as usize
    }

    pub fn node_count(&self) -> usize {
        self.nodes.len()
    }

    fn is_full(&self, node: usize) -> bool {
        self.full & 1 << node != 0
    }

    pub fn history(&self) -> &[Entry] {
        &self.history
    }

    pub fn level(&self, node: usize) -> u8 {
        self.nodes[node].level
    }

    fn acknowledged(&self, client: usize) -> u64 {
        places(self.full)
            .map(|node| self.nodes[node].logs[client].end())
            .min()
            .unwrap_or(0)
    }

    pub fn open(&mut self, node: u64, revoker: Revoker, optimistic: bool) -> Result<u32, Refusal> {
        let home = self.node(node)?;
        if self.nodes[home].phase != Phase::Full {
            return Err(Refusal::NodeDown);
        }
        let client = self.clients.len();
        if client == MAX_CLIENTS {
            return Err(Refusal::BadClient);
        }
        for node in places(self.full) {
            self.nodes[node].logs.push(Log::default());
        }
        self.clients.push(Client {
            home,
            revoker,
            optimistic,
            goal: 0,
            calls: 0,
            made: 0,
            node_failed: false,
            crashed: false,
            pending: Undigested::default(),
        });
        self.leases.enrol(client, home);
        let client = number_of(client);
        self.history.push(Entry::Open {
            client,
            node: node as u32,
            optimistic,
        });
        Ok(client)
    }

    fn enter(&mut self, client: usize, operation: &Operation, reply: &Reply) {
        let number = self.clients[client].calls;
        self.clients[client].calls += 1;
        self.history.push(Entry::Call {
            client: number_of(client),
            number,
            operation: operation.clone(),
            reply: reply.clone(),
        });
    }

    pub fn try_call(&mut self, client: u64, operation: &Operation) -> Result<Turn, Refusal> {
        let client = self.client(client)?;
        match operation {
            Operation::Write(_, _, data) if data.len() > MAX_WRITE => {
                return Err(Refusal::TooLarge)
            }
            Operation::Fsync if self.clients[client].optimistic => {
                self.enter(client, operation, &Reply::Done);
                return Ok(Turn::Answered(Reply::Done));
            }
            Operation::Fsync | Operation::Dsync => return Ok(self.try_sync(client, operation)),
            _ => {}
        }
        let Some((reply, effects)) = self.plan(client, operation) else {
            return Ok(Turn::NotYet);
        };
        if let Some(effects) = effects {
            let makes = matches!(operation, Operation::Create(_) | Operation::Mkdir(_));
            self.write(client, effects, makes)?;
        }
        self.enter(client, operation, &reply);
        Ok(Turn::Answered(reply))
    }

    /// A call's reply and effects; None while a lease is missing.
    #[inline(always)]
    fn plan(&mut self, client: usize, operation: &Operation) -> Option<Planned> {
        let Client { home, made, .. } = self.clients[client];
        loop {
            let mut view = View {
                client,
                node: home,
                fresh: (u64::from(number_of(client)) << 32) + made,
                leases: &mut self.leases,
                pending: &self.clients[client].pending,
                area: &mut self.nodes[home].area,
            };
            match view.plan(operation) {
                Ok(planned) => return Some(planned),
                Err(Stop::Error(error)) => return Some((Reply::Error(error), None)),
                Err(Stop::Missing(inode, mode)) if self.ask(client, inode, mode) => {}
                Err(Stop::Missing(..)) => return None,
            }
        }
    }

    /// Writes the record of a call, which makes an inode or not, into its client's log.
    #[inline(always)]
    fn write(&mut self, client: usize, effects: Rc<[Effect]>, makes: bool) -> Result<(), Refusal> {
        let caller = &mut self.clients[client];
        if makes && caller.made >= MAX_MADE {
            return Err(Refusal::InodesSpent);
        }
        let Node { logs, area, .. } = &mut self.nodes[caller.home];
        let log = &mut logs[client];
        if log.records.len() >= self.limit {
            return Err(Refusal::LogFull);
        }
        caller.made += u64::from(makes);
        let number = log.end();
        for effect in effects.iter() {
            caller.pending.add(number, effect, area);
        }
        log.records.push_back(Record {
            call: caller.calls,
            last: true,
            effects,
        });
        Ok(())
    }

    /// Asks for a lease; true if it was granted after all.
    fn ask(&mut self, client: usize, inode: Inode, mode: Mode) -> bool {
        let (clients, nodes) = (&mut self.clients, &self.nodes);
        let home = clients[client].home;
        self.leases.ask(client, home, inode, mode, |other| {
            let holder = &mut clients[other];
            let log = &nodes[holder.home].logs[other];
            let pending = holder.pending.0.get(&inode).map(|pending| pending.last);
            let last_touch = pending.or_else(|| log.last_digested_touch(inode));
            let mut cut = holder.revoker.cut(log.first, log.end(), last_touch);
            while !log.is_border(cut) {
                cut += 1;
            }
            holder.goal = holder.goal.max(cut);
            cut
        })
    }

    fn try_sync(&mut self, client: usize, operation: &Operation) -> Turn {
        if self.clients[client].optimistic {
            self.coalesce(client);
        }
        let end = self.nodes[self.clients[client].home].logs[client].end();
        self.clients[client].goal = end;
        if self.acknowledged(client) < end {
            return Turn::NotYet;
        }
        self.enter(client, operation, &Reply::Done);
        Turn::Answered(Reply::Done)
    }

    /// Cuts the records that nobody else has or was promised into groups, and coalesces each.
    fn coalesce(&mut self, client: usize) {
        let Client { home, goal, .. } = self.clients[client];
        let others = places(self.full & !(1 << home))
            .map(|node| self.nodes[node].logs[client].end())
            .max()
            .unwrap_or(0);
        let start = goal.max(self.acknowledged(client)).max(others);
        let log = &mut self.nodes[home].logs[client];
        if start >= log.end() {
            return;
        }
        let records: Vec<Record> = log.records.drain((start - log.first) as usize..).collect();
        let pending = &mut self.clients[client].pending.0;
        for group in records.chunks(BATCH) {
            let at = log.records.len();
            log.records.extend(coalesced(group));
            log.records[at].call = group[0].call;
            for (place, record) in log.records.range(at..).enumerate() {
                let number = log.first + (at + place) as u64;
                for effect in record.effects.iter() {
                    if let Some(pending) = pending.get_mut(&effect.touched()) {
                        pending.last = number;
                    }
                }
            }
        }
    }

    /// For each client at most one frame, and the node that it is for.
    pub fn outgoing(&self, node: u64) -> Result<Vec<(Frame, u64)>, Refusal> {
        let node = self.full_node(node)?;
        let mut frames = Vec::new();
        for (client, owner) in self.clients.iter().enumerate() {
            let log = &self.nodes[node].logs[client];
            let to = owner.goal.min(log.end());
            // The log's front is what all nodes have digested.
            if to <= log.first {
                continue;
            }
            let Some(next) = successor(self.full, self.nodes.len(), owner.home, node) else {
                continue;
            };
            let from = self.nodes[next].logs[client].end();
            if from >= to {
                continue;
            }
            let end = log.groups_end(from, to, BATCH);
            let frame = Frame {
                version: self.nodes[node].level,
                epoch: self.epoch,
                client: number_of(client),
                first: from,
                records: log.range(from, end).cloned().collect(),
            };
            frames.push((frame, u64::from(number_of(next))));
        }
        Ok(frames)
    }

    pub fn deliver(&mut self, frame: Frame, node: u64) -> Result<u64, Refusal> {
        let node = self.full_node(node)?;
        if frame.client == 0 || u64::from(frame.client) > self.clients.len() as u64 {
            return Err(Refusal::BadClient);
        }
        let client = frame.client as usize - 1;
        let received = self.nodes[node].logs[client].end();
        if frame.epoch != self.epoch
            || frame.first > received
            || frame.version > self.nodes[node].level
        {
            return Err(Refusal::StaleMessage);
        }
        let end = frame.first + frame.records.len() as u64;
        if end <= received {
            return Ok(received);
        }
        let Client {
            home, node_failed, ..
        } = self.clients[client];
        if node_failed {
            return Err(Refusal::StaleMessage);
        }
        let own = &self.nodes[home].logs[client];
        if end > own.end() || !own.is_border(end) {
            return Err(Refusal::StaleMessage);
        }
        let mut news = frame.records;
        news.drain(..(received - frame.first) as usize);
        for (new, own) in news.iter_mut().zip(own.range(received, end)) {
            if new.call != own.call
                || new.effects != own.effects
                || frame.version == 2 && new.last != own.last
            {
                return Err(Refusal::StaleMessage);
            }
            new.last = own.last;
        }
        self.nodes[node].logs[client].records.extend(news);
        Ok(end)
    }

    pub fn digest(&mut self, node: u64) -> Result<usize, Refusal> {
        let node = self.full_node(node)?;
        let mut left = BATCH;
        for client in 0..self.clients.len() {
            let log = &self.nodes[node].logs[client];
            let digested = log.digested;
            if digested == log.end() {
                continue;
            }
            let acknowledged = self.acknowledged(client);
            let log = &self.nodes[node].logs[client];
            let end = log.groups_end(digested, acknowledged, left);
            if end > digested {
                self.digest_records(node, client, end);
                left -= (end - digested) as usize;
            }
            if end < acknowledged {
                break;
            }
        }
        Ok(BATCH - left)
    }

    fn digest_records(&mut self, node: usize, client: usize, end: u64) {
        if self.full.count_ones() as usize != self.nodes.len() {
            let log = &self.nodes[node].logs[client];
            let touched: Vec<Inode> = log
                .range(log.digested, end)
                .flat_map(|record| record.effects.iter().map(Effect::touched))
                .collect();
            for other in &mut self.nodes {
                if other.phase == Phase::Returning && other.donor == node {
                    other.stale.extend(&touched);
                }
            }
            if let Some((_, written)) = self.written.last_mut() {
                written.extend(touched);
            }
        }
        let Node { logs, area, .. } = &mut self.nodes[node];
        let log = &mut logs[client];
        let owner = &mut self.clients[client];
        let records = log.range(log.digested, end);
        if owner.home == node && !owner.node_failed {
            owner.pending.digest(log.digested, records, area);
        } else {
            for effect in records.flat_map(|record| record.effects.iter()) {
                area.apply(effect);
            }
        }
        log.digested = end;
        self.drop_fronts(client);
    }

    fn drop_fronts(&mut self, client: usize) {
        let least = places(self.full)
            .map(|node| self.nodes[node].logs[client].digested)
            .min()
            .unwrap_or(0);
        for node in places(self.full) {
            self.nodes[node].logs[client].drop_front(least);
        }
    }

    pub fn release_ready(&mut self) -> usize {
        let lowest = self.lowest_full();
        let (clients, logs) = (&self.clients, &self.nodes[lowest].logs);
        let released = self
            .leases
            .release(|client| clients[client].home, |client| logs[client].first);
        for node in 0..self.nodes.len() {
            if !self.is_full(node) {
                self.leases.free_node(node);
            }
        }
        released
    }

    pub fn crash(&mut self, client: u64) -> Result<(), Refusal> {
        let client = self.client(client)?;
        let end = self.nodes[self.clients[client].home].logs[client].end();
        self.clients[client].crashed = true;
        self.clients[client].goal = end;
        self.leases.freeze(client, end);
        self.history.push(Entry::Crash(number_of(client)));
        Ok(())
    }

    pub fn fail(&mut self, node: u64) -> Result<Box<[(u32, u64)]>, Refusal> {
        let node = self.node(node)?;
        let mut lost = Vec::new();
        match self.nodes[node].phase {
            Phase::Down => return Err(Refusal::WrongPhase),
            Phase::Full if self.full == 1 << node => return Err(Refusal::LastNode),
            Phase::Returning => {
                self.nodes[node].phase = Phase::Down;
                self.nodes[node].stale.clear();
            }
            Phase::Full => lost = self.fail_full(node),
        }
        let lost: Box<[(u32, u64)]> = lost.into();
        self.history
            .push(Entry::Fail(number_of(node), lost.clone()));
        Ok(lost)
    }

    /// The clients that lost calls, and the first call that each lost.
    fn fail_full(&mut self, node: usize) -> Vec<(u32, u64)> {
        self.full &= !(1 << node);
        let mut lost = Vec::new();
        for client in 0..self.clients.len() {
            if self.clients[client].home == node && !self.clients[client].node_failed {
                let first_lost = self.fail_client(client);
                lost.extend(first_lost.map(|call| (number_of(client), call)));
            }
        }
        let mut touched = InodeSet::default();
        for survivor in places(self.full) {
            let logs = self.nodes[survivor].logs.iter();
            for record in logs.flat_map(|log| &log.records) {
                touched.extend(record.effects.iter().map(Effect::touched));
            }
        }
        self.epoch += 1;
        self.written.push((self.epoch, touched));
        let failed = &mut self.nodes[node];
        failed.phase = Phase::Down;
        failed.logs = Vec::new();
        failed.since = Some(self.epoch);
        for client in 0..self.clients.len() {
            self.drop_fronts(client);
        }
        for other in 0..self.nodes.len() {
            if self.nodes[other].phase == Phase::Returning && self.nodes[other].donor == node {
                self.find_donor(other);
            }
        }
        lost
    }

    /// Keeps of a client, whose node has just failed, what all full nodes have; the first call that is lost, if one is.
    fn fail_client(&mut self, client: usize) -> Option<u64> {
        let kept = self.acknowledged(client);
        let own = &self.nodes[self.clients[client].home].logs[client];
        let first_lost = (kept < own.end()).then(|| own.at(kept).call);
        for survivor in places(self.full) {
            let log = &mut self.nodes[survivor].logs[client];
            log.records.truncate((kept - log.first) as usize);
        }
        self.leases.freeze(client, kept);
        let owner = &mut self.clients[client];
        owner.node_failed = true;
        owner.goal = owner.goal.min(kept);
        owner.pending = Undigested::default();
        first_lost
    }

    fn find_donor(&mut self, node: usize) {
        let donor = self.lowest_full();
        let node = &mut self.nodes[node];
        node.donor = donor;
        let since = node.since.unwrap_or(0);
        let lists = self.written.iter().filter(|(epoch, _)| *epoch >= since);
        node.stale = lists.flat_map(|(_, inodes)| inodes).copied().collect();
    }

    pub fn back(&mut self, node: u64) -> Result<usize, Refusal> {
        let node = self.node(node)?;
        if self.nodes[node].phase != Phase::Down {
            return Err(Refusal::WrongPhase);
        }
        self.nodes[node].phase = Phase::Returning;
        self.find_donor(node);
        let Node { area, stale, .. } = &mut self.nodes[node];
        for &inode in stale.iter() {
            area.remove(inode);
        }
        Ok(stale.len())
    }

    fn returning(&self, node: u64) -> Result<usize, Refusal> {
        let node = self.node(node)?;
        if self.nodes[node].phase != Phase::Returning {
            return Err(Refusal::WrongPhase);
        }
        Ok(node)
    }

    pub fn refill(&mut self, node: u64) -> Result<usize, Refusal> {
        let node = self.returning(node)?;
        let Some(inode) = self.nodes[node].stale.pop_first() else {
            return Ok(0);
        };
        let donor = self.nodes[node].donor;
        match self.nodes[donor].area.peek(inode).cloned() {
            Some(value) => self.nodes[node].area.put(inode, value),
            None => self.nodes[node].area.remove(inode),
        }
        Ok(self.nodes[node].stale.len())
    }

    pub fn join(&mut self, node: u64) -> Result<(), Refusal> {
        let node = self.returning(node)?;
        if !self.nodes[node].stale.is_empty() {
            return Err(Refusal::Busy);
        }
        let donor = self.nodes[node].donor;
        let (logs, level) = (self.nodes[donor].logs.clone(), self.nodes[donor].level);
        let joined = &mut self.nodes[node];
        joined.phase = Phase::Full;
        joined.logs = logs;
        joined.level = joined.level.max(level);
        joined.since = None;
        self.full |= 1 << node;
        self.epoch += 1;
        if self.full.count_ones() as usize == self.nodes.len() {
            self.written.clear();
        } else {
            self.written.push((self.epoch, InodeSet::default()));
        }
        self.history.push(Entry::Return(number_of(node)));
        Ok(())
    }

    pub fn set_hot(&mut self, node: u64, capacity: usize) -> Result<(), Refusal> {
        let node = self.full_node(node)?;
        self.nodes[node].area.set_capacity(capacity);
        Ok(())
    }

    pub fn raise(&mut self, node: u64) -> Result<(), Refusal> {
        let node = self.full_node(node)?;
        if self.nodes[node].level != 1 {
            return Err(Refusal::WrongPhase);
        }
        self.nodes[node].level = 2;
        Ok(())
    }

    /// The lines of the tree that one region spells: its area followed by its acknowledged
    /// undigested records. Each is a path and a file's size or None.
    pub fn tree(&self, node: u64) -> Result<Vec<(String, Option<usize>)>, Refusal> {
        let node = self.full_node(node)?;
        let Node { area, logs, .. } = &self.nodes[node];
        let mut changed: InodeMap<Option<Content>> = InodeMap::default();
        for (client, log) in logs.iter().enumerate() {
            for effect in log
                .range(log.digested, self.acknowledged(client))
                .flat_map(|record| record.effects.iter())
            {
                let inode = effect.touched();
                apply_to(
                    changed
                        .entry(inode)
                        .or_insert_with(|| area.peek(inode).cloned()),
                    effect,
                );
            }
        }
        let mut lines = Vec::new();
        let mut path = String::new();
        lines_of(&changed, area, 0, &mut path, &mut lines);
        Ok(lines)
    }
}

fn lines_of(
    changed: &InodeMap<Option<Content>>,
    area: &Area,
    directory: Inode,
    path: &mut String,
    lines: &mut Vec<(String, Option<usize>)>,
) {
    let value = |inode: Inode| {
        changed
            .get(&inode)
            .map_or_else(|| area.peek(inode), Option::as_ref)
    };
    let Some(Content::Directory(entries)) = value(directory) else {
        return;
    };
    for (name, &inode) in entries {
        let length = path.len();
        path.push('/');
        path.push_str(name);
        match value(inode) {
            Some(Content::File(file)) => lines.push((path.clone(), Some(file.len()))),
            _ => {
                lines.push((path.clone(), None));
                lines_of(changed, area, inode, path, lines);
            }
        }
        path.truncate(length);
    }
}
