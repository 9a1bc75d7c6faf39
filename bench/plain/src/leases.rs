//! Leases at three levels, one table: the manager's and the nodes' holders of each inode as bits.

use crate::types::*;

#[derive(Clone, Copy, PartialEq, Eq)]
pub enum Mode {
    Read,
    Write,
}

/// A holder has a bit in one of `read` and `write`; a frozen or asked one in the third too.
#[derive(Clone, Copy, Default)]
struct Holders {
    read: u32,
    write: u32,
    frozen: u32,
}

impl Holders {
    fn all(self) -> u32 {
        self.read | self.write
    }
    fn strong_enough(self, mode: Mode) -> u32 {
        match mode {
            Mode::Read => self.all(),
            Mode::Write => self.write,
        }
    }
    fn serving(self, mode: Mode) -> u32 {
        self.strong_enough(mode) & !self.frozen
    }
    fn against(self, mode: Mode, holder: u32) -> u32 {
        let others = match mode {
            Mode::Read => self.write,
            Mode::Write => self.all(),
        };
        others & !holder
    }
    /// Gives or raises.
    fn give(&mut self, mode: Mode, holder: u32) {
        match mode {
            Mode::Read if self.write & holder == 0 => self.read |= holder,
            Mode::Read => {}
            Mode::Write => {
                self.read &= !holder;
                self.write |= holder;
            }
        }
    }
    fn take(&mut self, holder: u32) {
        self.read &= !holder;
        self.write &= !holder;
        self.frozen &= !holder;
    }
}

#[derive(Clone, Copy, Default)]
struct Lease {
    clients: Holders,
    nodes: Holders,
}

#[derive(Default)]
pub struct Leases {
    table: InodeMap<Lease>,
    /// The clients of each node, those of an earlier life too.
    clients_of: [u32; MAX_NODES as usize],
    held: [usize; MAX_CLIENTS],
    granted: [usize; MAX_NODES as usize],
    /// Client, inode and cut of each frozen lease.
    frozen: Vec<(usize, Inode, u64)>,
}

impl Leases {
    pub fn enrol(&mut self, client: usize, node: usize) {
        self.clients_of[node] |= 1 << client;
    }

    /// True if the client holds the inode so and unfrozen, or gets it without asking anybody.
    pub fn get(&mut self, client: usize, node: usize, inode: Inode, mode: Mode) -> bool {
        let (client_bit, node_bit) = (1 << client, 1 << node);
        let lease = self.table.entry(inode).or_default();
        if lease.clients.serving(mode) & client_bit != 0 {
            return true;
        }
        let locals = self.clients_of[node];
        if lease.clients.frozen & client_bit != 0
            || lease.clients.against(mode, client_bit) & locals != 0
        {
            return false;
        }
        if lease.nodes.serving(mode) & node_bit == 0 {
            if lease.nodes.frozen & node_bit != 0 || lease.nodes.against(mode, node_bit) != 0 {
                return false;
            }
            self.granted[node] += usize::from(lease.nodes.all() & node_bit == 0);
            lease.nodes.give(mode, node_bit);
        }
        self.held[client] += usize::from(lease.clients.all() & client_bit == 0);
        lease.clients.give(mode, client_bit);
        true
    }

    /// Asks all that stand against the client; `cut` is called for each lease that is frozen now.
    /// True if the client has got the lease after all.
    pub fn ask(
        &mut self,
        client: usize,
        node: usize,
        inode: Inode,
        mode: Mode,
        mut cut: impl FnMut(usize) -> u64,
    ) -> bool {
        let (client_bit, node_bit) = (1 << client, 1 << node);
        let lease = self.table.entry(inode).or_default();
        let mut asked = lease.clients.against(mode, client_bit) & self.clients_of[node];
        if lease.nodes.serving(mode) & node_bit == 0 {
            for other in places(lease.nodes.against(mode, node_bit)) {
                let below = lease.clients.all() & self.clients_of[other];
                if below == 0 {
                    lease.nodes.take(1 << other);
                    self.granted[other] -= 1;
                } else {
                    lease.nodes.frozen |= 1 << other;
                    asked |= below;
                }
            }
            if (lease.nodes.against(mode, node_bit) | lease.nodes.frozen & node_bit) == 0 {
                self.granted[node] += usize::from(lease.nodes.all() & node_bit == 0);
                lease.nodes.give(mode, node_bit);
            }
        }
        for other in places(asked & !lease.clients.frozen) {
            lease.clients.frozen |= 1 << other;
            self.frozen.push((other, inode, cut(other)));
        }
        self.get(client, node, inode, mode)
    }

    /// Freezes all leases of a client with one cut.
    pub fn freeze(&mut self, client: usize, cut: u64) {
        self.frozen.retain(|frozen| frozen.0 != client);
        if self.held[client] == 0 {
            return;
        }
        for (&inode, lease) in &mut self.table {
            if lease.clients.all() & 1 << client != 0 {
                lease.clients.frozen |= 1 << client;
                self.frozen.push((client, inode, cut));
            }
        }
    }

    /// Releases each frozen lease whose cut is digested everywhere, and with the last client
    /// below the asked lease of its node; answers how many clients' leases.
    pub fn release(
        &mut self,
        home: impl Fn(usize) -> usize,
        digested: impl Fn(usize) -> u64,
    ) -> usize {
        let before = self.frozen.len();
        let Leases {
            table,
            clients_of,
            held,
            granted,
            frozen,
        } = self;
        frozen.retain(|&(client, inode, cut)| {
            if cut > digested(client) {
                return true;
            }
            let lease = table.get_mut(&inode).expect("a frozen lease");
            lease.clients.take(1 << client);
            held[client] -= 1;
            let node = home(client);
            if lease.nodes.frozen & 1 << node != 0 && lease.clients.all() & clients_of[node] == 0 {
                lease.nodes.take(1 << node);
                granted[node] -= 1;
            }
            if lease.clients.all() | lease.nodes.all() == 0 {
                table.remove(&inode);
            }
            false
        });
        before - self.frozen.len()
    }

    /// Frees the leases of a node that isn't full, once no client of it holds one.
    pub fn free_node(&mut self, node: usize) {
        if self.granted[node] == 0
            || places(self.clients_of[node]).any(|client| self.held[client] != 0)
        {
            return;
        }
        self.table.retain(|_, lease| {
            lease.nodes.take(1 << node);
            lease.clients.all() | lease.nodes.all() != 0
        });
        self.granted[node] = 0;
    }
}
