"""Ways of many acts: from two nodes that run to two connections that run."""
from script_refusals import look_at_the_way
from script_values import BadSource


def track_each_other(*nodes):
    """Each of these nodes tracks all of them, and its tracker takes that."""
    for node in nodes:
        node.track(next_index(node), nodes)
    for node in nodes:
        node.tracker()


def dial(node, seed=None):
    """The dialer asks whom to dial, and for the first key of the list, which the seed draws; its last step begins the attempt."""
    node.dialer()
    node.tracker()
    node.dialer(seed=seed)
    return dial_next(node, asked=True)


def dial_next(node, asked=False):
    """The dialer asks for the next key of its list; its last step begins the attempt."""
    if not asked:
        node.dialer()
    node.tracker()
    return node.dialer()


def arrive(attempt, to):
    """An attempt is linked to the listener of a node, and takes that; the link."""
    node = dialer_of(attempt)
    link = node.connect(attempt, to=to)
    node.attempt(attempt)
    return link


def admit(node):
    """The listener takes who arrived, and the handshake that this begins is told that its peer may connect."""
    if node.waits.has_news:
        node.listener()
    handshake = node.listener()
    node.tracker()
    node.handshake(handshake)
    return handshake


def exchange_keys(link, handshake):
    """Keys are exchanged over a link, and both ends hand their reservations to their spawners."""
    script = link.script
    script.finish(link)
    dialed, listened = script.nodes[link.said['node']], script.nodes[link.said['to']]
    dialed.attempt(link.said['attempt'])
    listened.handshake(handshake)
    listened.tracker()
    listened.handshake(handshake)


def begin(here, there):
    """Two connections of one link begin, and run."""
    nodes = [conn.script.nodes[conn.said['node']] for conn in (here, there)]
    for node, conn in zip(nodes, (here, there)):
        node.send_step(conn)
    for node in nodes:
        while node.waits.router.most():
            node.router()
    for node, conn in zip(nodes, (here, there)):
        node.send_step(conn)
    for node in nodes:
        node.tracker()


def reach(a, b, again=False):
    """The way from `track` to the connection of each with the other, which have not begun: `a` dials `b`. Of two that were connected
    before, the source says with `again` that both connections have ended."""
    script = a.script
    script.at(look_at_the_way(a, b, again))
    script.is_on_a_way = True
    make_ready(a, b)
    track_again(a, b)
    attempt = dial(a)
    link = arrive(attempt, b)
    exchange_keys(link, admit(b))
    conns = a.spawner(), b.spawner()
    remember(a, b, conns, link)
    script.is_on_a_way = False
    return conns


def connect(a, b, again=False):
    """The whole way from `track` until the connection of each with the other runs: `a` dials `b`."""
    here, there = reach(a, b, again)
    begin(here, there)
    return here, there


def link_of(conn):
    """The link of a connection that a way made."""
    script = conn.script
    links = {name: link for node in script.nodes for name, link in node.waits.links.items()}
    if conn.number not in links:
        raise BadSource('event %d is no connection that a way made' % conn.number)
    return script.events[links[conn.number]]


# ---- what they are made of

def next_index(node):
    return 0 if node.waits.index is None else node.waits.index + 1


def dialer_of(attempt):
    return attempt.script.nodes[attempt.said['node']]


def make_ready(a, b):
    """Nothing waits for either tracker any more, nor for the listener of `b`."""
    for node in (a, b):
        while node.waits.tracker.most() or node.waits.has_due_blocks(node.script.moment):
            node.tracker()
    if b.waits.has_news:
        b.listener()


def track_again(a, b):
    """Each of both that does not track the other yet tracks it now, beside all whom it has tracked."""
    new = [(node, other) for node, other in ((a, b), (b, a)) if other.key not in node.waits.tracked()]
    for node, other in new:
        peers = {**node.waits.tracked(), node.key: node.address, other.key: other.address}
        node.track(next_index(node), sorted(peers.items()))
    for node, _ in new:
        node.tracker()


def remember(a, b, conns, link):
    """What the way leaves: two connections over a link, and nothing that waits."""
    for node, peer, conn in ((a, b, conns[0]), (b, a, conns[1])):
        node.waits.peers[peer] = conn.number
        node.waits.links[conn.number] = link.number
        node.waits.granted_at[peer] = node.script.moment
        node.waits.tracker.came = 0
        node.waits.spawns = 0
    a.waits.dialed_at = a.script.moment
