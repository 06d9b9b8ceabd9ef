"""The first example taken apart: how its two nodes get a connection, as the beginning of other scripts, and what is written of that."""
import json
import os

from files import TOP, read_text

PATH = os.path.join(TOP, 'examples', 'hello.json')


def configurations():
    return json.loads(read_text(PATH))['configs']


def events():
    """All events of the example."""
    return json.loads(read_text(PATH))['script']


def acts(act):
    """The number of each event of this act."""
    return [number for number, event in enumerate(events()) if event['do'] == act]


# The message comes last: the events before it make the connection, by which the first node sends to the second.
BEFORE, = acts('send')
LINK, = acts('connect')
SENDING, RECEIVING = acts('spawner')


def beginning(burst):
    """The events before the message, of channels with this burst."""
    found = events()[:BEFORE]
    for event in found:
        if event['do'] == 'register':
            event['quota']['burst'] = burst
    return found


def lines_of_beginning(burst):
    """What is written of these events."""
    lines = read_text(os.path.splitext(PATH)[0] + '.report').splitlines()[:BEFORE]
    found = [json.loads(line) for line in lines]
    for line in found:
        if isinstance(line['reply'], dict) and 'capacity' in line['reply']:
            line['reply']['capacity'] *= burst
    return found
