"""What a call waits for, and what it has waited for."""

from exploring.tree import SYNCS

from explaining import naming
from explaining.naming import listed, nodes, sentence, together


def waited(names, step):
    """Of a call that was answered: whose leases it waited for, and what became safe by that."""
    wants, caller = [], int(step.words[0])
    for want in step.tried.wants:
        for client, last in want.holders:
            records = f" (its records up to {names.line(client, last)})" if last is not None else ""
            wants.append(f"{whose(caller, client)} lease of {names.inode(want.inode)}{records}")
    return together(sentence(f"it waited for {listed(wants)}" if wants else ""), became_safe(names, step, caller))


def became_safe(names, step, besides=0):
    """Which clients' calls a step made safe, besides those of one."""
    safe = names.of_clients({client: places for client, places in step.safe.items() if client != besides})
    return sentence(f"by that {safe} became safe" if safe else "")


def waits(names, step):
    """Of a call that waits: for which lease of whom, or which node lacks which records, and what holds that up."""
    client = int(step.words[0])
    if step.words[1] in SYNCS:
        return together(sentence(sync(names, client)), held_up(names.model))
    found = [sentence(lease(names, client, step.tried.waits.inode, holder)) for holder, _ in step.tried.waits.holders]
    return together(*found, held_up(names.model))


def sync(names, client):
    log = names.model.machine.logs[client]
    return f"it waits until every full node has client {client}'s records: {lacking(names, client, log.end())}"


def whose(client, holder):
    return f"client {holder}'s{' own' * (holder == client)}"


def lease(names, client, inode, holder):
    """Which lease a client's call waits for, and what that one waits for. Its own it waits for where another client asked for that."""
    machine = names.model.machine
    last = machine.last_call(holder, inode)
    what = f"it waits for {whose(client, holder)} lease of {names.inode(inode)}, which{' was asked for and' * (holder == client)}"
    if last is None:
        return f"{what} may go: `release` lets it go"
    goes = f"goes once all full nodes have digested its records up to {names.line(holder, last)}"
    return f"{what} {goes}: {missing(names, holder, inode)}"


def stays(names, asked):
    """Why a lease that is asked for stays."""
    last = names.model.machine.last_call(asked.client, asked.inode)
    what = f"client {asked.client}'s lease of {names.inode(asked.inode)}"
    return f"{what} stays until all full nodes have digested {names.line(asked.client, last)}: {missing(names, asked.client, asked.inode)}"


def missing(names, holder, inode):
    """Which nodes lack records, or haven't digested them."""
    machine = names.model.machine
    log = machine.logs[holder]
    cut = next(machine.cut(asked) for asked in machine.asked if (asked.client, asked.inode) == (holder, inode))
    undigested = [node for node, place in sorted(log.digested.items()) if place < cut]
    return lacking(names, holder, cut) or f"{nodes(undigested)} {'has' if len(undigested) == 1 else 'have'} still to"


def lacking(names, client, end):
    """Which nodes lack which of a client's records up to a place."""
    found = {}
    for node, place in sorted(names.model.machine.logs[client].received.items()):
        if place < end:
            found.setdefault(names.records(client, place, end), []).append(node)
    return listed([f"{nodes(who)} {'lacks' if len(who) == 1 else 'lack'} {what}" for what, who in found.items()])


def held_up(model):
    """Why frames don't come: links that aren't perfect, and nodes that don't read what others send."""
    full = {node: model.members.nodes[node] for node in model.machine.full()}
    links = [f"node {node} sends over a link of the kind {each.link}" for node, each in full.items() if each.link != "perfect"]
    old = [node for node, each in full.items() if each.level == 1]
    raised = [node for node, each in full.items() if each.level == 2]
    levels = [f"{nodes(old)} can't read what raised nodes send"] if old and raised else []
    return sentence(listed(links + levels))


def log_full(names, client):
    """Of a call that needs a record: what keeps the client's log full."""
    model = names.model
    log = model.machine.logs[client]
    first = names.line(client, log.records[0].call)
    without = [node for node, place in sorted(log.received.items()) if place <= log.first]
    if without:
        what = f"{nodes(without)} {'lacks' if len(without) == 1 else 'lack'} the first of them, of {first}"
    else:
        undigested = [node for node, place in sorted(log.digested.items()) if place <= log.first]
        what = f"{nodes(undigested)} {'has' if len(undigested) == 1 else 'have'} still to digest the first of them, of {first}"
    return together(sentence(f"client {client}'s log is full with {naming.counted(log.limit, 'record')}: {what}"), held_up(model))
