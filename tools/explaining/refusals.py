"""What a refusal wants, where nodes or clients are its reason."""

from exploring.members import DOWN, FULL, RETURNING

from explaining.naming import sentence


def refused(names, step):
    """Why a line is refused."""
    reasons = {
        "F3": node_down, "F4": gone, "F6": too_large, "F7": last_node, "F8": bad_node, "F9": bad_client, "F10": wrong_phase,
    }
    return sentence(reasons[step.refusal.split(" ")[0]](names.model, step))


def number_of(step):
    return int(step.words[0] if step.words[0].isdigit() else step.words[1])


def node_down(model, step):
    if step.words[0] == "open":
        return f"node {number_of(step)} {phase(model, number_of(step))}: a client needs a full one"
    client = number_of(step)
    node = model.members.clients[client].node
    return f"client {client} is over: its node {node} failed in line {model.ended[client]}. Another client can be opened"


def gone(model, step):
    return f"client {number_of(step)} crashed in line {model.ended[number_of(step)]}"


def too_large(model, step):
    return "one write takes 65536 bytes at most"


def last_node(model, step):
    return f"node {number_of(step)} is the only full one, and one has to stay"


def bad_node(model, step):
    count = len(model.members.nodes)
    return "there is node 1 alone" if count == 1 else f"nodes are 1 to {count}"


def bad_client(model, step):
    count = len(model.members.clients)
    if step.words[0] == "open":
        return f"{count} clients were opened, and no more can be"
    return {0: "no client is opened", 1: "there is client 1 alone"}.get(count, f"clients are 1 to {count}")


def wrong_phase(model, step):
    node = number_of(step)
    if step.words[0] == "raise" and model.members.nodes[node].phase == FULL:
        return f"node {node} is raised already"
    return f"node {node} {phase(model, node)}, and `{step.words[0]}` is for {wanted(step.words[0])}"


def wanted(called):
    return {"fail": "one that isn't", "back": "one that is down", "refill": "one that comes back", "join": "one that comes back"}.get(
        called, "a full one"
    )


def phase(model, node):
    said = {FULL: "is full", DOWN: "is down", RETURNING: "is coming back"}
    return said[model.members.nodes[node].phase]

