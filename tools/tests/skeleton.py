"""A small tree with the wrapper and the tools that it calls, a `rt` that proves nothing, and a program that says its words."""
import os
import pty
import shutil
import stat
import subprocess

from files import TOP, read_text

# It notes how it was called. What a trial writes, says and ends with is in files beside it.
RT = '''#!/usr/bin/env bash
echo "${PWD##*/} $*" >>"%(folder)s/rt.calls"
case "$1" in
lib)
    [ ! -e src/broken ] || { echo "not proved"; exit 1; }
    mkdir -p out/rlib
    echo >out/rlib/stamp
    ;;
run)
    mkdir -p out
    rm -f out/p2p
    cp "%(folder)s/program" out/p2p
    ;;
try)
    [ -f /dev/stdin ] && echo file >"%(folder)s/try.kind"
    cat >"%(folder)s/try.given"
    cat "%(folder)s/try.stdout"
    cat "%(folder)s/try.stderr" >&2
    exit "$(cat "%(folder)s/try.status")"
    ;;
must-fail)
    ls "crates/$2/must-fail" >"%(folder)s/must-fail.listed"
    cat "%(folder)s/must-fail.said"
    exit "$(cat "%(folder)s/must-fail.status")"
    ;;
esac
'''

# It notes its words, and writes what it reads. A script that is a number is the status.
PROGRAM = '''#!/usr/bin/env bash
echo "$*" >>"%(folder)s/program.calls"
[ "$1" = run ] || exit 0
given="$(cat)"
echo "ran $given"
[[ $given =~ ^[0-9]+$ ]] && exit "$given"
exit 0
'''

ENDED = '''checked: ended status=%d
races: not looked for
run=ended status=%d runners=1 races=unchecked proved=no
'''


class Skeleton:
    """The tree, in a folder that is there. No file of the repository is touched."""

    def __init__(self, folder):
        self.folder = folder
        self.top = os.path.join(folder, 'tree')
        os.makedirs(os.path.join(self.top, 'tools'))
        shutil.copy2(os.path.join(TOP, 'p2p'), self.top)
        for name in ('build', 'unproved', 'wrong-bodies'):
            shutil.copy2(os.path.join(TOP, 'tools', name), os.path.join(self.top, 'tools'))
        shutil.copytree(os.path.join(TOP, 'tools', 'lib'), os.path.join(self.top, 'tools', 'lib'))
        for path, text in (('crates.txt', 'low: std\np2p: low\n'), ('HANDLES', 'Handles allowed: none.\n'),
                           ('crates/low/src/lib.rt', 'fn one() {}\nfn two() {}\n'), ('crates/p2p/src/main.rt', 'fn main() {}\n'),
                           ('crates/p2p/stdin', '')):
            self.write(os.path.join('tree', path), text)
        for name, text in (('bin/rt', RT), ('program', PROGRAM)):
            os.chmod(self.write(name, text % {'folder': folder}), 0o755)
        self.set_trial('', ENDED % (0, 0), 0)

    def write(self, name, text):
        path = os.path.join(self.folder, name)
        os.makedirs(os.path.dirname(path), exist_ok=True)
        with open(path, 'w', encoding='utf-8') as out:
            out.write(text)
        return path

    def set_trial(self, stdout, stderr, status):
        """What the next trial of rt writes, says and ends with."""
        for name, text in (('stdout', stdout), ('stderr', stderr), ('status', '%d\n' % status)):
            self.write('try.' + name, text)

    def noted(self, name):
        """The lines that a file of the folder has; none, where it is not there."""
        path = os.path.join(self.folder, name)
        return read_text(path).splitlines() if os.path.exists(path) else []

    def forget(self):
        for name in ('rt.calls', 'program.calls'):
            if os.path.exists(os.path.join(self.folder, name)):
                os.remove(os.path.join(self.folder, name))

    def run(self, *words, given=b'', tool='p2p', with_rt=True):
        """Runs the wrapper, or another tool: its status, and what it writes on standard output and standard error."""
        path = os.environ['PATH'] if with_rt else ''
        parts = [os.path.join(self.folder, 'bin')] * with_rt + [part for part in path.split(':') if part]
        parts = parts or [os.path.dirname(self.plain_path())]
        ran = subprocess.run([os.path.join(self.top, tool), *words], input=given, capture_output=True, check=False,
                             timeout=60, env={**os.environ, 'PATH': ':'.join(parts)})
        return ran.returncode, ran.stdout.decode(), ran.stderr.decode()

    def plain_path(self):
        """A folder with what the tools are run by, and without rt; answers one of its files."""
        place = os.path.join(self.folder, 'plain')
        os.makedirs(place, exist_ok=True)
        for name in ('bash', 'python3', 'env', 'find', 'date'):
            if not os.path.exists(os.path.join(place, name)):
                os.symlink(shutil.which(name), os.path.join(place, name))
        return os.path.join(place, 'env')

    def run_on_terminal(self, *words):
        """The same with a terminal as standard input."""
        outer, inner = pty.openpty()
        try:
            ran = subprocess.run([os.path.join(self.top, 'p2p'), *words], stdin=inner, capture_output=True, check=False, timeout=60)
        finally:
            os.close(outer)
            os.close(inner)
        return ran.returncode, ran.stdout.decode(), ran.stderr.decode()

    def program(self):
        return os.path.join(self.top, 'crates', 'p2p', 'out', 'p2p')

    def set_age(self, path, seconds):
        """Lets a file of the tree be changed so many seconds after, or before, the program."""
        moment = os.stat(self.program())[stat.ST_MTIME] + seconds
        os.utime(os.path.join(self.top, path), (moment, moment))
