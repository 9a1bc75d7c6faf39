"""What a cluster does with records and leases: tries of calls, rounds and their steps, failures and returns."""

from dataclasses import dataclass, field
from typing import List, Optional, Tuple

from exploring.members import FULL

from explaining.leases import READ, WRITE, Leases
from explaining.links import Link, is_taken, message
from explaining.logs import Log

MOST_DIGESTED = 64

# After how many rounds without any change a call waits for good.
IDLE_ROUNDS = 6


@dataclass(frozen=True)
class Want:
    """What a call lacks: a lease of an inode, and each client that has one which stands in its way, with the last of its calls that all
    full nodes have to digest before, if there is one."""

    inode: tuple
    holders: Tuple[Tuple[int, Optional[int]], ...]


@dataclass
class Tried:
    """How a call went: how many rounds it took, the leases that it waited for, and the one for which it still waits. `is_full` says that
    the client's log has no room for its record."""

    rounds: int = 0
    wants: List[Want] = field(default_factory=list)
    waits: Optional[Want] = None
    is_answered: bool = False
    is_full: bool = False


class Machine:
    """Logs by clients, leases, those asked for, links by nodes, and the epoch. `members` has which nodes are full and their levels."""

    def __init__(self, members, limit):
        self.members, self.limit = members, limit
        self.logs, self.leases, self.asked = {}, Leases(), []
        self.links = {node: Link() for node in members.nodes}
        self.donors, self.epoch = {}, 0

    def full(self):
        return self.members.full()

    # ---- clients

    def opens(self, client, node, kind, is_optimistic):
        log = Log(node, kind, is_optimistic, self.limit)
        log.received, log.digested = dict.fromkeys(self.full(), 0), dict.fromkeys(self.full(), 0)
        self.logs[client] = log
        self.leases.homes[client] = node

    def crashes(self, client):
        log = self.logs[client]
        log.goal = log.last_cut = log.end()
        log.is_over = True
        self.asked += self.leases.revoke_all(lambda other: other == client)

    def lacked(self, client, plan):
        """The first lease that a call lacks and doesn't get at once."""
        wanted = [(inode, READ) for inode in plan.visits] + [(effect[1], WRITE) for effect in plan.effects]
        for inode, mode in wanted:
            if self.leases.holds(client, inode, mode):
                continue
            if not self.leases.is_free(client, inode, mode):
                holders = self.leases.in_the_way(client, inode, mode) or self.leases.asked_for(client, inode)
                self.ask(client, inode, mode)
                return Want(inode, tuple((holder, self.last_call(holder, inode)) for holder in holders))
            self.leases.grant(client, inode, mode)
        return None

    def last_call(self, client, inode):
        """The last call of a client whose record all full nodes have to digest before its lease of an inode goes, if there is one."""
        log = self.logs[client]
        cut = next(self.cut(asked) for asked in self.asked if (asked.client, asked.inode) == (client, inode))
        return log.records[cut - 1 - log.first].call if cut > log.digested_by_all() else None

    def ask(self, client, inode, mode):
        asked = self.leases.ask(client, inode, mode, lambda other, at: self.logs[other].cut(at))
        for each in asked:
            log = self.logs[each.client]
            log.goal = max(log.goal, each.cut)
        self.asked += asked

    def try_sync(self, client, is_dsync):
        """Whether a sync is answered. One that isn't wants the whole log replicated."""
        log = self.logs[client]
        if log.is_optimistic and not is_dsync:
            return True
        is_there = log.acked() == log.end()
        if not is_there and log.is_optimistic:
            log.coalesce()
        log.goal = max(log.goal, log.end())
        return is_there

    def tries(self, attempt, turns):
        """Tries a call so many times, with a round between two."""
        tried = Tried()
        idle = 0
        while not attempt(tried):
            if tried.rounds + 1 >= turns or idle == IDLE_ROUNDS:
                return tried
            before = self.shown()
            if not self.round():
                return tried
            idle = idle + 1 if self.shown() == before else 0
            tried.rounds += 1
        tried.is_answered, tried.waits = not tried.is_full, None
        return tried

    def shown(self):
        places = [(log.first, log.goal, sorted(log.received.items()), sorted(log.digested.items())) for log in self.logs.values()]
        return places, len(self.asked)

    def sync(self, client, is_dsync, turns):
        return self.tries(lambda tried: self.try_sync(client, is_dsync), turns)

    def call(self, client, number, plan, turns):
        """Tries a call that isn't a sync, and leaves its record."""

        def attempt(tried):
            tried.waits = self.lacked(client, plan)
            if tried.waits and tried.waits.inode not in [want.inode for want in tried.wants]:
                tried.wants.append(tried.waits)
            return tried.waits is None

        tried, log = self.tries(attempt, turns), self.logs[client]
        if tried.is_answered and plan.effects:
            if len(log.records) == log.limit:
                tried.is_full, tried.is_answered = True, False
            else:
                log.add(number, plan.effects)
        return tried

    # ---- what nodes do

    def round(self):
        """A round; whether there was anything to do."""
        sent = [self.carry(node)[0] for node in self.full()]
        digested = [self.digest(node) for node in self.full()]
        return any([*sent, *digested, self.release()])

    def frames(self, node):
        """What a node sends, with the node that it is for."""
        version = self.members.nodes[node].level
        for client, log in self.logs.items():
            chain = [each for each in self.full() if each >= log.home] + [each for each in self.full() if each < log.home]
            behind = chain[chain.index(node) + 1 :]
            frame = message(log, node, behind[0], client, self.epoch, version) if behind else None
            if frame:
                yield frame, behind[0]

    def carry(self, node):
        """A node sends: how many frames, and which came to whom."""
        frames, taken = list(self.frames(node)), []
        for frame, target in frames:
            came = self.links[node].carry(frame)
            log = self.logs[came.client] if came else None
            if came and is_taken(log, came, target, self.epoch, self.members.nodes[target].level):
                log.received[target] = max(log.received[target], came.first + len(came.records))
                taken.append((came, target))
        return len(frames), taken

    def digest(self, node):
        """A node digests: which records of which clients."""
        left, found = MOST_DIGESTED, {}
        for client, log in self.logs.items():
            begin = log.digested[node]
            most = min(left, log.acked() - begin)
            count = log.whole_count(begin, most)
            log.digested[node] += count
            left -= count
            if count:
                found[client] = log.since(begin, begin + count)
            if count < most:
                break
        for log in self.logs.values():
            log.drop()
        return found

    def is_ripe(self, asked):
        return self.cut(asked) <= self.logs[asked.client].digested_by_all()

    def cut(self, asked):
        log = self.logs[asked.client]
        return log.last_cut if log.is_over or log.has_failed else asked.cut

    def release(self):
        """Leases go that may: which."""
        gone = [asked for asked in self.asked if self.is_ripe(asked)]
        for asked in gone:
            self.leases.release(asked.client, asked.inode)
            self.asked.remove(asked)
        for node in self.members.nodes:
            if node not in self.full():
                self.leases.free(node)
        return gone

    # ---- nodes go and come; these are called before the members know

    def kept(self, node, log):
        """Up to which record a node's failure leaves a log."""
        if log.has_failed or log.home != node:
            return log.end()
        return min([log.end(), *(place for other, place in log.received.items() if other != node)])

    def fails(self, node):
        """A node fails: of each client that loses records, the first one's call, and the nodes that lacked it."""
        if self.members.nodes[node].phase != FULL:
            return {}
        kept = {client: self.kept(node, log) for client, log in self.logs.items()}
        lost = {}
        for client, log in self.logs.items():
            if kept[client] < log.end():
                lacking = [other for other, place in sorted(log.received.items()) if other != node and place == kept[client]]
                lost[client] = (log.since(kept[client])[0].call, lacking)
        for client, log in self.logs.items():
            del log.received[node], log.digested[node]
            if log.home == node:
                log.cut_tail(kept[client])
                log.has_failed, log.goal, log.last_cut = True, min(log.goal, kept[client]), kept[client]
        self.asked += self.leases.revoke_all(lambda client: self.leases.homes[client] == node)
        self.epoch += 1
        left = [other for other in self.full() if other != node]
        self.donors = {other: left[0] if donor == node else donor for other, donor in self.donors.items()}
        for log in self.logs.values():
            log.drop()
        return lost

    def begins(self, node):
        self.donors[node] = self.full()[0]

    def joins(self, node):
        donor = self.donors.pop(node)
        for log in self.logs.values():
            log.received[node], log.digested[node] = log.received[donor], log.digested[donor]
        self.epoch += 1
