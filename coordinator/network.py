"""Which links conduct at an answer, and the junctions whose head nothing determines. The proved program decides
whether there are any; this names them all.

The rule, from the coefficients that the solver gives each link (the original's pipe.rs and valve.rs):

- A link with an end out of service is not in the equations: it neither conducts nor holds.
- A pipe conducts, save at Closed and TempClosed (1/BIG_VALUE). FixedClosed does conduct: only those two
  statuses are tested. A check valve that the flow presses against (flow at -Q_ZERO or below) is a barrier
  of the same smallness, so such a pipe does not conduct either.
- A valve at Closed, TempClosed or FixedClosed does not conduct (1/BIG_VALUE); at Open or FixedOpen it does.
- An Active PRV or PSV has conductance 0 and does not join its ends. It holds a head: the PRV at its end
  node, the PSV at its start node. At XPressure or Xhead it is a short open link and conducts.
- At every other status: a TCV and a PBV conduct. An FCV conducts while its flow is below its setting; from
  there on it fixes the flow and no head (1/BIG_VALUE). A PCV conducts at a setting above 0; at 0 or below
  it is fully shut.

A head is determined if conducting links join its node, directly or through others, to a reservoir, a tank
or a node that an Active regulator holds. What 1/BIG_VALUE joins is not joined: the solver then gives a head
that is a hundred million times the flow, or whatever the last roundings left. A grounded node is tied to a
reservoir that is not there, and that determines nothing.
"""
from .sheet_format import LINK_KINDS, NODE_KINDS, STATUSES

# the solver's tolerance for zero flow, where a check valve's barrier sets in
Q_ZERO = 1e-6

JUNCTION = NODE_KINDS.index("junction")
ACTIVE = STATUSES.index("Active")
SHUT_PIPE = {STATUSES.index(name) for name in ("Closed", "TempClosed")}
SHUT_VALVE = SHUT_PIPE | {STATUSES.index("FixedClosed")}
OPEN_VALVE = {STATUSES.index(name) for name in ("Open", "FixedOpen")}
# the end at which an Active regulator holds a head
HOLDS = {"PRV": "end", "PSV": "start"}


def serves(node):
    """A junction in service."""
    return node["kind"] == JUNCTION and not node["disabled"]


def is_hydrant(node):
    """A junction in service that asks for water."""
    return serves(node) and node["demand"] > 0


def in_service(link, nodes):
    return not (nodes[link["start"]]["disabled"] or nodes[link["end"]]["disabled"])


def pipe_conducts(pipe, status, flow):
    pressed_shut = pipe["check_valve"] and flow <= -Q_ZERO
    return status not in SHUT_PIPE and not pressed_shut


def valve_conducts(kind, valve, status, flow):
    if status in SHUT_VALVE or status in OPEN_VALVE:
        return status in OPEN_VALVE
    if kind in HOLDS:
        return status != ACTIVE
    if kind == "FCV":
        return flow < valve["setting"]
    if kind == "PCV":
        return valve["setting"] > 0
    return True


def conducts(link, status, flow):
    """Whether a link in service joins the heads of its two ends."""
    kind = LINK_KINDS[link["kind"]]
    if kind == "pipe":
        return pipe_conducts(link, status, flow)
    return valve_conducts(kind, link, status, flow)


def held(nodes, links, statuses):
    """The nodes whose head is given: reservoirs, tanks, and those that an Active regulator holds."""
    found = {i for i, node in enumerate(nodes) if node["kind"] != JUNCTION}
    for link, status in zip(links, statuses):
        side = HOLDS.get(LINK_KINDS[link["kind"]])
        if side and status == ACTIVE and in_service(link, nodes):
            found.add(link[side])
    return found


def neighbours(nodes, links, joins):
    """For each node the nodes that some link joins it to, in link order."""
    beside = [[] for _ in nodes]
    for number, link in enumerate(links):
        if joins(number, link):
            beside[link["start"]].append(link["end"])
            beside[link["end"]].append(link["start"])
    return beside


def reached(starts, beside):
    """Every node that can be walked to, in the order of a walk that follows one line to its end first."""
    seen, order, waiting = set(), [], list(reversed(starts))
    while waiting:
        node = waiting.pop()
        if node not in seen:
            seen.add(node)
            order.append(node)
            waiting += reversed(beside[node])
    return order


def undetermined(nodes, links, statuses, flows):
    """The junctions in service whose head nothing determines, ascending."""
    beside = neighbours(nodes, links, lambda number, link: in_service(link, nodes)
                        and conducts(link, statuses[number], flows[number]))
    determined = set(reached(sorted(held(nodes, links, statuses)), beside))
    return [i for i, node in enumerate(nodes) if serves(node) and i not in determined]


def along(nodes, links, heads):
    """All nodes in an order for a picture: from the highest source on, each line to its end."""
    beside = neighbours(nodes, links, lambda number, link: True)
    sources = [i for i, node in enumerate(nodes) if node["kind"] != JUNCTION]
    sources.sort(key=lambda i: -heads[i])
    return reached(sources + list(range(len(nodes))), beside)
