"""The files that the tests read, and how they run a tool."""
import glob
import os
import subprocess

TOP = os.path.dirname(os.path.dirname(os.path.dirname(os.path.realpath(__file__))))


def read_bytes(path):
    with open(path, 'rb') as source:
        return source.read()


def read_text(path):
    return read_bytes(path).decode('utf-8')


def examples():
    """The scripts of examples/, in order."""
    return sorted(glob.glob(os.path.join(TOP, 'examples', '*.json')))


def reports():
    """The reports of examples/, in order."""
    return sorted(glob.glob(os.path.join(TOP, 'examples', '*.report')))


def broken_scripts():
    """The scripts of the tests, most of them broken, in order."""
    return sorted(glob.glob(os.path.join(TOP, 'tools', 'tests', 'scripts', '*.json')))


def beside(path, ending):
    """The file beside this one with another ending."""
    return os.path.splitext(path)[0] + ending


def run_tool(name, *words, given=None):
    """Runs a tool with these words, and with these bytes as its standard input."""
    return subprocess.run([os.path.join(TOP, 'tools', name), *words], input=given, capture_output=True, check=False, timeout=60)
