"""Runs the source of a script, and compares what it makes with the script beside it."""
import glob
import os
import runpy
import traceback

from script_maker import Script
from script_values import BadSource


class Unmade(Exception):
    """A source makes no script: where, and why."""


def place_in(path, error):
    """The last line of the source that the error came through."""
    lines = [frame.lineno for frame in traceback.extract_tb(error.__traceback__) if frame.filename == path]
    return '%s:%d' % (path, lines[-1]) if lines else path


def made_text(path):
    """The text of the script that a source calls `script`."""
    try:
        said = runpy.run_path(path)
    except OSError as error:
        raise Unmade('%s: %s' % (path, error.strerror or error)) from None
    except SyntaxError as error:
        raise Unmade('%s:%s: %s' % (path, error.lineno, error.msg)) from None
    except BadSource as bad:
        raise Unmade('%s: %s' % (place_in(path, bad), bad)) from None
    except Exception as error:
        raise Unmade('%s: %s: %s' % (place_in(path, error), type(error).__name__, error)) from None
    if not isinstance(said.get('script'), Script):
        raise Unmade('%s: it has no `script = Script(..)`' % path)
    return said['script'].text()


def difference(path):
    """What is wrong with the script beside a source, if anything is."""
    beside = os.path.splitext(path)[0] + '.json'
    try:
        with open(beside, encoding='utf-8', newline='') as written:
            is_equal = written.read() == made_text(path)
    except OSError as error:
        return '%s: %s' % (beside, error.strerror or error)
    except Unmade as unmade:
        return str(unmade)
    return None if is_equal else '%s: tools/script %s makes another script' % (beside, path)


def check_directory(directory):
    """A line for each source whose script is not what it makes, and how many sources there are."""
    sources = sorted(glob.glob(os.path.join(directory, '*.py')))
    return [line for line in map(difference, sources) if line], len(sources)
