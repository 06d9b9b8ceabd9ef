"""The program on many inputs, several at a time."""
import os
import subprocess
from concurrent.futures import ThreadPoolExecutor


def program():
    """The program that tools/test --program names; ./p2p itself may begin to build, and so is not run several times at once."""
    return os.environ['P2P_PROGRAM']


def of_each(act, given):
    """What the act comes to for each of these, in order; as many run at a time as there are processors."""
    with ThreadPoolExecutor(max_workers=os.cpu_count() or 1) as pool:
        yield from pool.map(act, given)


def run_program(data):
    """What comes of a script, given as bytes."""
    return subprocess.run([program(), 'run'], input=data, capture_output=True, check=False, timeout=60)


def run_each(scripts):
    """Each of these scripts, given as bytes, with what comes of it."""
    return zip(scripts, of_each(run_program, scripts))
