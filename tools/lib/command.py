"""How a tool reads its files, and how it ends: with its status, and in silence where nobody reads on."""
import os
import sys


STANDARD_INPUT = '-'


def read_file(path, most=-1):
    """The bytes of a file, or of standard input where the path is `-`; as many as these at most."""
    if path == STANDARD_INPUT:
        return sys.stdin.buffer.read(most)
    with open(path, 'rb') as source:
        return source.read(most)


def end_with(main):
    """Runs the tool on the words of the command line and ends with its status."""
    for stream in (sys.stdout, sys.stderr):
        stream.reconfigure(errors='backslashreplace')
    try:
        status = main(sys.argv[1:])
        sys.stdout.flush()
    except BrokenPipeError:
        os.dup2(os.open(os.devnull, os.O_WRONLY), sys.stdout.fileno())
        status = 1
    except KeyboardInterrupt:
        status = 1
    sys.exit(status)
