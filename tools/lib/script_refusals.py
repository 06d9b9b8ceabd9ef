"""Why a way cannot be gone, as far as the events so far show, and from when it can."""
import ipaddress

from script_values import BadSource, egress_of, ingress_of


def refuse_where(is_so, node, reason):
    if is_so:
        raise BadSource('the way cannot be gone: node %d, of key %s, %s' % (node.place, node.key, reason))


def look_at_the_way(a, b, again):
    """Refuses the way on which `a` dials `b`, or tells the moment from which it can be gone."""
    refuse_where(a.script is not b.script or a is b, b, 'is the same node or one of another script')
    for node, peer in ((a, b), (b, a)):
        look_at_either(node, peer, again)
    look_at_the_dialer(a, b)
    look_at_the_listener(b, a)
    return max(a.script.moment, first_moment(a, b))


def first_moment(a, b):
    """When the dialer of `a` has come to its deadline, and both may reserve each other again."""
    found = [0]
    if a.waits.dialed_at is not None:
        found.append(a.waits.dialed_at + a.waits.configuration['dial_frequency'])
    for node, peer, is_listed in ((a, b, True), (b, a, False)):
        if peer in node.waits.granted_at:
            cooldown = node.waits.configuration['peer_connection_cooldown']
            found.append(node.waits.granted_at[peer] + cooldown + is_listed * (cooldown // 2))
    return max(found)


def look_at_either(node, peer, again):
    waits = node.waits
    refuse_where(waits.has_stopped, node, 'has stopped')
    refuse_where(not waits.is_up, node, 'has not started')
    refuse_where(waits.spawns, node, 'may have a peer that waits for its spawner')
    refuse_where(peer in waits.peers and waits.peers[peer] not in waits.ended, node, 'is connected with key %s' % peer.key)
    refuse_where(peer in waits.peers and not again, node,
                 'was connected with key %s; if both these connections have ended, say again=True' % peer.key)
    ends = [end for key, end in waits.blocks.items() if key == peer.key and (end is None or end > node.script.moment)]
    refuse_where(ends, node, 'may still block key %s' % peer.key)
    count = len({*waits.tracked(), node.key, peer.key})
    refuse_where(count > waits.configuration['max_peers_per_set'], node, 'would track %d keys, beyond its max_peers_per_set' % count)


def is_refused_as_private(node, socket):
    return not node.waits.configuration['allow_private_ips'] and not ipaddress.ip_address(bytes(socket['ip'])).is_global


def look_at_the_dialer(node, peer):
    """Nobody but the peer may be dialed, and that at a socket."""
    waits = node.waits
    refuse_where(waits.was_dialed_by_hand, node, 'has a dialer that was stepped by hand')
    connected = {other.key for other, conn in waits.peers.items() if conn not in waits.ended}
    others = sorted(set(waits.tracked()) - connected - {node.key, peer.key})
    refuse_where(others, node, 'tracks key %s too, which its dialer may dial first' % (others or [None])[0])
    ingress = ingress_of(waits.tracked().get(peer.key, peer.address))
    refuse_where('ip' not in ingress, node, 'knows key %s by a name, which is resolved by hand' % peer.key)
    refuse_where(is_refused_as_private(node, ingress), node, 'may not dial key %s, whose address is private' % peer.key)


def look_at_the_listener(node, peer):
    """The peer comes from the address that the node knows, and nobody else waits."""
    waits = node.waits
    refuse_where(waits.arrivals, node, 'may have somebody who waits for its listener')
    egress = egress_of(waits.tracked().get(peer.key, peer.address))
    refuse_where(egress['ip'] != egress_of(peer.address)['ip'], node, 'knows key %s by another address' % peer.key)
    refuse_where(is_refused_as_private(node, egress), node, 'may not listen to key %s, whose address is private' % peer.key)
