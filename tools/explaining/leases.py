"""The leases of clients below those of their nodes: who holds which inode, who stands in whose way, and who is asked for what."""

from dataclasses import dataclass

READ, WRITE = "read", "write"


@dataclass
class Lease:
    """A lease of an inode, and whether it is asked for."""

    mode: str
    is_revoked: bool = False

    def serves(self, mode):
        return not self.is_revoked and (self.mode == WRITE or mode == READ)

    def is_against(self, mode):
        return WRITE in (self.mode, mode)


@dataclass(frozen=True)
class Asked:
    """A client that is asked for its lease of an inode, which goes once its log is digested up to a cut, or up to its last one once it is
    over."""

    client: int
    inode: tuple
    cut: int


class Leases:
    """By inodes the leases of clients, and those of nodes. `homes` has the node of each client."""

    def __init__(self):
        self.homes = {}
        self.clients, self.nodes = {}, {}

    def of(self, inode):
        return self.clients.setdefault(inode, {}), self.nodes.setdefault(inode, {})

    def holds(self, client, inode, mode):
        lease = self.of(inode)[0].get(client)
        return lease is not None and lease.serves(mode)

    def in_the_way(self, client, inode, mode):
        """The clients whose leases stand in the way of a client."""
        clients, nodes = self.of(inode)
        home = self.homes[client]
        found = []
        for other, lease in clients.items():
            node = self.homes[other]
            is_local = node == home and lease.is_against(mode)
            is_below = node != home and node in nodes and nodes[node].is_against(mode)
            if other != client and (is_local or is_below):
                found.append(other)
        return found

    def asked_for(self, client, inode):
        """The clients of a client's node, it among them, that have still to give up a lease: until then the node gets no other."""
        return [other for other, lease in self.of(inode)[0].items() if lease.is_revoked and self.homes[other] == self.homes[client]]

    def is_free(self, client, inode, mode):
        clients, nodes = self.of(inode)
        own = [leases[holder] for leases, holder in ((clients, client), (nodes, self.homes[client])) if holder in leases]
        return not self.in_the_way(client, inode, mode) and not any(lease.is_revoked for lease in own)

    def give_up(self, client, inode, mode):
        """Nodes give up what stands against a mode and no client of them holds."""
        clients, nodes = self.of(inode)
        busy = {self.homes[other] for other in clients} | {self.homes[client]}
        for node in [node for node, lease in nodes.items() if node not in busy and lease.is_against(mode)]:
            del nodes[node]

    def grant(self, client, inode, mode):
        self.give_up(client, inode, mode)
        for leases, holder in zip(self.of(inode), (client, self.homes[client])):
            has_more = holder in leases and leases[holder].mode == WRITE
            leases[holder] = Lease(WRITE if has_more else mode)

    def ask(self, client, inode, mode, cut):
        """Asks who stands in the way and wasn't asked before; `cut` says of a client what its revoker answers."""
        clients, nodes = self.of(inode)
        asked = []
        for other in self.in_the_way(client, inode, mode):
            if not clients[other].is_revoked:
                asked.append(Asked(other, inode, cut(other, inode)))
                clients[other].is_revoked = True
        self.give_up(client, inode, mode)
        home = self.homes[client]
        rivals = [lease for node, lease in nodes.items() if node != home and lease.is_against(mode)]
        for lease in rivals:
            lease.is_revoked = True
        if not rivals and home in nodes and not nodes[home].is_revoked and mode == WRITE:
            nodes[home].mode = WRITE
        return asked

    def release(self, client, inode):
        clients, nodes = self.of(inode)
        clients.pop(client, None)
        home = self.homes[client]
        if home in nodes and nodes[home].is_revoked and not any(self.homes[other] == home for other in clients):
            del nodes[home]

    def revoke_all(self, is_chosen):
        """Revokes all leases of some clients, and lists those that weren't asked for."""
        asked = []
        for inode, clients in self.clients.items():
            for client, lease in clients.items():
                if is_chosen(client) and not lease.is_revoked:
                    lease.is_revoked = True
                    asked.append(Asked(client, inode, 0))
        return asked

    def free(self, node):
        """A node whose clients hold nothing gives up all its leases."""
        if not any(self.homes[client] == node for clients in self.clients.values() for client in clients):
            for nodes in self.nodes.values():
                nodes.pop(node, None)
