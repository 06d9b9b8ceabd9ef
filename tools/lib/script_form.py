"""The form of a script: its tree as configurations and events, with what is not built yet told apart."""
import later
from address_form import a_socket, some_peers, some_sockets
from faults import Fault, listed, perhaps
from presets import PRESETS
from samples import FORMS, either
from words import U32, Field, a_flag, a_text, an_array, an_object, some_bytes, whole

CONFIGURATION_FORMS = {
    'key': whole,
    'max_peers_per_set': lambda field: whole(field, 1),
    'max_message_size': lambda field: whole(field, 0, U32),
    'mailbox_size': lambda field: whole(field, 1),
}


def a_rate(field):
    """A quota: its burst."""
    an_object(field, ['burst', 'period'])
    burst = whole(field.at_name('burst'), 1, U32)
    whole(field.at_name('period'), 1)
    return burst


# What may be left out: the preset gives it.
GIVEN_FORMS = {
    'tracked_peer_sets': lambda field: whole(field, 1),
    'send_batch_size': lambda field: whole(field, 1),
    'ping_frequency': whole,
    'allow_private_ips': a_flag,
    'allow_dns': a_flag,
    'bypass_ip_check': a_flag,
    'peer_connection_cooldown': whole,
    'block_duration': whole,
    'max_concurrent_handshakes': lambda field: whole(field, 1, U32),
    'allowed_handshake_rate_per_ip': a_rate,
    'allowed_handshake_rate_per_subnet': a_rate,
    'handshake_timeout': whole,
    'dial_timeout': whole,
    'dial_frequency': whole,
}


class NotBuilt(Fault):
    """A form that a script will have, but that is not built yet."""


RECIPIENTS = either(FORMS['to'])


def recipients(field):
    """Whom a message is for: a key for each copy, or 'all'."""
    if field.value.kind == 'text':
        if field.value.held != 'all':
            raise field.due(RECIPIENTS)
        return 'all'
    if field.value.kind != 'object':
        raise field.due(RECIPIENTS)
    an_object(field, ['one', 'some'])
    if field.has('one') and not field.has('some'):
        return [whole(field.at_name('one'))]
    if field.has('some') and not field.has('one'):
        return [whole(item) for item in an_array(field.at_name('some'))]
    raise field.due(RECIPIENTS)


ACT_FORMS = {
    'register': {'channel': whole, 'node': whole, 'quota': a_rate},
    'start': {'node': whole},
    'stop': {'node': whole},
    'send': {'bytes': some_bytes, 'channel': whole, 'node': whole, 'priority': a_flag, 'to': recipients},
    'check': {'channel': whole, 'node': whole, 'to': recipients},
    'send_checked': {'bytes': some_bytes, 'check': whole, 'priority': a_flag},
    'router': {'node': whole},
    'send_step': {'conn': whole, 'node': whole},
    'recv_step': {'conn': whole, 'node': whole},
    'recv': {'channel': whole, 'node': whole},
    'close': {'channel': whole, 'node': whole},
    'track': {'index': whole, 'node': whole, 'primary': some_peers},
    'overwrite': {'node': whole, 'peers': some_peers},
    'block': {'key': whole, 'node': whole},
    'peer_set': {'index': whole, 'node': whole},
    'subscribe': {'node': whole},
    'blocked': {'node': whole},
    'answer': {'question': whole},
    'next': {'question': whole},
    'tracker': {'node': whole},
    'dialer': {'node': whole},
    'attempt': {'attempt': whole, 'node': whole},
    'resolve': {'addresses': some_sockets, 'attempt': whole, 'node': whole},
    'connect': {'attempt': whole, 'from': a_socket, 'node': whole, 'to': whole},
    'refuse': {'attempt': whole, 'node': whole},
    'finish': {'link': whole, 'ok': a_flag},
    'cut': {'link': whole},
    'listener': {'node': whole},
    'handshake': {'handshake': whole, 'node': whole},
    'spawner': {'node': whole},
}

# The names of an act that may be left out.
OPTIONAL_FORMS = {'start': {'bind': a_flag}, 'track': {'secondary': some_peers}}


class Part:
    """A configuration or an event: its number, what it says, and where."""

    def __init__(self, number, field, said, act=None):
        self.number = number
        self.field = field
        self.said = said
        self.act = act

    def fault(self, name, reason):
        """What is wrong with the value at this name."""
        value = self.field.value.get(name)
        at = self.field.value.at if value is None else value.at
        return Fault(at, '%s, `%s`' % (self.field.what, name), reason)


class Script:
    """The parts of a script, what is wrong with its form, and what of it is not built yet."""

    def __init__(self):
        self.configurations = []
        self.events = []
        self.faults = []
        self.not_built = []

    def read_each(self, fields, read, parts):
        for number, field in enumerate(fields):
            try:
                parts.append(read(number, field))
            except NotBuilt as fault:
                self.not_built.append(fault)
            except Fault as fault:
                self.faults.append(fault)


def read_names(field, forms, optional_forms):
    """What stands at each name of the first, and at those of the second that are there."""
    said = {name: form(field.at_name(name)) for name, form in forms.items()}
    said.update((name, form(field.at_name(name))) for name, form in optional_forms.items() if field.has(name))
    return said


def read_configuration(number, field):
    field.what = 'configuration %d' % number
    an_object(field, ['preset', *CONFIGURATION_FORMS, *GIVEN_FORMS])
    preset = a_text(field.at_name('preset'))
    if preset not in PRESETS:
        near = perhaps(preset, PRESETS)
        raise field.at_name('preset').fault('"%s" is no preset%s; the presets are %s' % (preset, near, listed(PRESETS)))
    return Part(number, field, {**PRESETS[preset], **read_names(field, CONFIGURATION_FORMS, GIVEN_FORMS)})


def read_event(number, field):
    field.what = 'event %d' % number
    if field.value.kind != 'object':
        raise field.due('an object', ', as {"at":0,"do":"start","node":0}')
    at = whole(field.at_name('at'))
    if field.has('seed'):
        whole(field.at_name('seed'))
    act = a_text(field.at_name('do'))
    if act in later.ACTS:
        raise NotBuilt(field.value.get('do').at, field.what, '"%s" is an act that is not built yet' % act)
    if act not in ACT_FORMS:
        near = perhaps(act, [*ACT_FORMS, *later.ACTS])
        raise field.at_name('do').fault('"%s" is no act%s; the acts are %s' % (act, near, listed(ACT_FORMS)))
    field.what = 'event %d (%s)' % (number, act)
    return read_act(number, field, act, at)


def read_act(number, field, act, at):
    forms, optional_forms = ACT_FORMS[act], OPTIONAL_FORMS.get(act, {})
    an_object(field, ['at', 'seed', 'do', *forms, *optional_forms])
    said = read_names(field, forms, optional_forms)
    said['at'] = at
    return Part(number, field, said, act)


def read_script(tree):
    """The script that a tree says."""
    script = Script()
    try:
        top = an_object(Field(tree, 'the script'), ['configs', 'script'])
        configurations, events = an_array(top.at_name('configs')), an_array(top.at_name('script'))
    except Fault as fault:
        script.faults.append(fault)
        return script
    script.read_each(configurations, read_configuration, script.configurations)
    script.read_each(events, read_event, script.events)
    return script
