"""Why each line was answered as it was, in a line of plain words."""

from exploring.tree import SYNCS

from explaining import refusals, waiting
from explaining.errors import ERRORS
from explaining.naming import Names, counted, lines, listed, nodes, sentence, together

HANDS_OVER = {
    "least": "its records up to the last that changed what is asked for",
    "eights": "its records up to the last that changed what is asked for, and up to 7 more",
    "whole": "all its records",
}

BRINGS = {
    "perfect": "all comes",
    "repeat": "at even times the frame before comes again",
    "delay": "a frame comes with the next one",
    "cut": "frames of more bytes don't come",
}


def why(model, step):
    """Why a step's line was answered so."""
    names, called = Names(model), step.words[0]
    if step.refusal:
        return refusals.refused(names, step)
    if not called[0].isdigit():
        return TOLD[called](names, step)
    if step.tried.is_full:
        return waiting.log_full(names, int(called))
    if not step.tried.is_answered:
        return waiting.waits(names, step)
    return sync(names, step) if step.words[1] in SYNCS else call(names, step)


# ---- calls


def call(names, step):
    """A call that was answered: what it waited for, and what becomes of its record."""
    before = waiting.waited(names, step)
    if step.text() in ERRORS:
        return together(before, sentence(f"{ERRORS[step.text()]}; an error leaves no record"))
    if not step.plan.effects:
        return together(before, sentence("it changes nothing, and leaves no record"))
    machine = names.model.machine
    home = machine.logs[int(step.words[0])].home
    if machine.full() == [home]:
        return together(before, sentence(f"node {home} is the only full node, so its record is safe at once"))
    return together(before, sentence(f"node {home} alone has its record, and a failure of node {home} takes it"))


def sync(names, step):
    client = int(step.words[0])
    log = names.model.machine.logs[client]
    if log.is_optimistic and step.words[1] == "fsync":
        return sentence(f"client {client} is optimistic: its fsync is answered at once, and promises nothing")
    own = names.changes(client, *step.safe[client]) if client in step.safe else []
    who = f"node {log.home}, the only full one," if names.model.machine.full() == [log.home] else "every full node"
    taken = "it" if len(own) == 1 else "them"
    nothing = f"{who} had all records of client {client} before"
    said = f"{who} has client {client}'s {lines(own)}: no failure takes {taken}" if own else nothing
    return together(sentence(said), waiting.became_safe(names, step, client))


# ---- nodes and clients that come and go


def cluster(names, step):
    count, limit = int(step.words[1]), int(step.words[2])
    copies = ", each with a copy of the files" if count > 1 else ""
    return sentence(f"{counted(count, 'node')}{copies}; a client's log has room for {limit} records")


def opened(names, step):
    node, kind = int(step.words[1]), step.words[2]
    full = names.model.machine.full()
    chain = [each for each in full if each > node] + [each for each in full if each < node]
    alone = f"node {node} is the only full node, and what it does is safe at once"
    way = f"its records go from node {node} to {nodes(chain)}" if chain else alone
    hands = f"with a lease it hands over {HANDS_OVER[kind]}"
    mode = "its fsync promises nothing, its dsync does" if step.words[3:] else ""
    return together(sentence(f"{way}; {hands}"), sentence(mode))


def crash(names, step):
    client = int(step.words[1])
    log = names.model.machine.logs[client]
    left = names.records(client, log.digested_by_all(), log.end())
    when = f"once all full nodes have digested {left}" if left else "at the next release"
    return sentence(f"it calls no more, and nothing is lost; its leases go {when}")


def fail(names, step):
    """What a failure took, which nodes lacked it, and what kept the rest."""
    node = int(step.words[1])
    over = [client for client, line in names.model.ended.items() if line == step.number]
    taken = [sentence(loss(names, step, client)) for client in step.found]
    if not taken:
        nothing = "every other full node had all records of its clients" if over else "no living client was on it"
        taken = [sentence(f"it takes nothing: {nothing}")]
    became = names.of_clients(step.safe)
    gone = f"{'client' if len(over) == 1 else 'clients'} {listed(over)} {'is' if len(over) == 1 else 'are'} over" if over else ""
    return together(*taken, sentence(gone), sentence(f"node {node} alone lacked {became}, safe now" if became else ""))


def loss(names, step, client):
    """What a client lost, and what kept the calls before."""
    first, end, lacking = step.found[client]
    taken, kept = names.calls(client, first, end), names.model.lines[client][:first]
    said = f"{nodes(lacking)} lacked the record of {names.line(client, first)}, so client {client} lost {lines(taken)}"
    syncs = [number for number, each in enumerate(kept) if names.model.calls.is_sync(client, each.words[1:])]
    behind = syncs[-1] if syncs else 0
    sync = [f"the sync of line {kept[behind].number} kept what came before"] if syncs else []
    made = {}
    for number in range(behind, first):
        made.setdefault(names.model.made_safe[client][number], []).extend(names.changes(client, number, number + 1))
    handed = [f"line {line} made {lines(which)} safe" for line, which in made.items() if which and which != [line]]
    return f"{said}. {sentence(listed(sync + handed))[:-1]}" if sync + handed else said


def back(names, step):
    node, text = int(step.words[1]), step.text()
    if text.startswith("returned"):
        return joined(names, step)
    if text.startswith("F"):
        return sentence("this tool doesn't know why")
    count = text.split(" ")[-1]
    return sentence(f"what was written since it failed is stale there: {counted(int(count), 'inode')}, and each `refill {node}` brings one")


def joined(names, step):
    node = int(step.words[1])
    if step.text().startswith("returned"):
        return sentence(f"node {node} has what was written while it was down, and is full again")
    lacks = names.model.members.nodes[node].lacks
    return sentence(f"node {node} may still lack {counted(lacks, 'inode') if lacks else 'an inode'}: `refill {node}` until `left 0`")


def refill(names, step):
    node, left = int(step.words[1]), int(step.text().split(" ")[-1])
    return sentence(f"it may still lack {counted(left, 'inode')}" if left else f"it lacks no inode, and `join {node}` makes it full")


# ---- single steps


def carry(names, step):
    """What came to which node; or why nothing did."""
    node = int(step.words[1])
    model = names.model
    count, taken = step.found
    came = [f"node {target} has client {frame.client}'s {names.of_records(frame.client, frame.records)}" for frame, target in taken]
    if came:
        return together(sentence(listed(came)), waiting.became_safe(names, step))
    if count:
        return together(sentence("what was sent came to nothing"), waiting.held_up(model))
    behind = [client for client, log in model.machine.logs.items() if log.home == node and log.goal < log.end()]
    asks = f"no sync, lease or crash asks for the records of client{'' if len(behind) == 1 else 's'} {listed(behind)} yet" if behind else ""
    return sentence(asks or "nothing is to be sent from it")


def digest(names, step):
    found = [f"client {client}'s {names.of_records(client, records)}" for client, records in step.found.items()]
    if found:
        return sentence(f"its files have {listed(found)} now")
    return sentence("it has digested all that every full node has")


def release(names, step):
    model = names.model
    if step.found:
        return sentence(listed([f"client {asked.client}'s lease of {names.inode(asked.inode)}" for asked in step.found]) + " went")
    holders = [waiting.stays(names, asked) for asked in model.machine.asked]
    return sentence(listed(holders)) if holders else sentence("no lease is asked for")


def link(names, step):
    node, kind = step.words[1], " ".join(step.words[2:])
    return sentence(f"what node {node} sends goes over a new link of the kind {kind}: {BRINGS.get(step.words[2], 'nothing comes')}")


def tree(names, step):
    """Which calls a tree has."""
    model = names.model
    living = [client for client, log in model.machine.logs.items() if not log.has_failed]
    missing = names.of_clients({client: (model.safe()[client], model.calls.accounts[client].count) for client in living})
    node = int(step.words[1])
    if missing:
        return sentence(f"node {node} shows what every full node has: all that no failure took but {missing}")
    return sentence(f"every full node has all that no failure took, and node {node} shows it")


def says(text):
    return lambda names, step: sentence(text)


TOLD = {
    "cluster": cluster, "open": opened, "crash": crash, "fail": fail, "back": back, "join": joined, "refill": refill, "carry": carry,
    "digest": digest, "release": release, "link": link, "tree": tree,
    "manual": says("from here on a call is tried once, and nodes do what a line says"),
    "hot": says("it changes which inodes the node keeps at hand, and no answer"),
    "raise": says("it reads both versions of frames, and sends version 2"),
    "history": says("what happened, in order; a failure's line has the first call that each client lost"),
    "check": says("each reply is what a plain tree says after the calls that no failure took"),
}
