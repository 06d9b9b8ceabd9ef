"""The words of a source: what `from script import ..` has. docs/SCRIPTS.md lists them."""
from script_maker import Script
from script_values import MILLISECOND, SECOND, BadSource, address, duration, name, quota, socket
from script_ways import admit, arrive, begin, connect, dial, dial_next, exchange_keys, link_of, reach, track_each_other

__all__ = [
    'BadSource', 'MILLISECOND', 'SECOND', 'Script', 'address', 'admit', 'arrive', 'begin', 'connect', 'dial', 'dial_next', 'duration',
    'exchange_keys', 'link_of', 'name', 'quota', 'reach', 'socket', 'track_each_other',
]
