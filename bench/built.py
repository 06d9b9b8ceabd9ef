"""Proves and builds the program of a benchmark, a crate of a repository of its own under build/bench, so that the gate need not; and measures
a program."""
import os
import shutil
import subprocess
import sys

TOP = os.path.join(os.path.dirname(os.path.abspath(__file__)), '..')
RUNS = 9


def build(name, below, uses, words=()):
    """Builds the program of bench/NAME.source over the crates below it, of which it uses some, and answers where it is. It is run once, with
    these words."""
    scratch = os.path.join(TOP, 'build', 'bench', name)
    program = os.path.join(scratch, 'crates', name)
    shutil.rmtree(scratch, ignore_errors=True)
    for crate in below:
        shutil.copytree(os.path.join(TOP, 'crates', crate), os.path.join(scratch, 'crates', crate), ignore=shutil.ignore_patterns('must-fail'))
    os.makedirs(os.path.join(program, 'src'))
    shutil.copy(os.path.join(TOP, 'bench', name + '.source'), os.path.join(program, 'src', 'main.rt'))
    with open(os.path.join(TOP, 'crates.txt'), encoding='utf-8') as lines, open(os.path.join(scratch, 'crates.txt'), 'w', encoding='utf-8') as out:
        out.writelines(line for line in lines if line.split(':')[0] in below)
        out.write(f'{name}: {" ".join(uses)}\n')
    subprocess.run(['rt', 'run', '--', *words], cwd=program, stdout=subprocess.DEVNULL, check=True)
    return os.path.join(program, 'out', name)


def measure(words):
    """Returns the least processor seconds of some runs, and what was written."""
    least = float('inf')
    for _ in range(RUNS):
        child = subprocess.Popen(words, stdin=subprocess.DEVNULL, stdout=subprocess.PIPE)
        text = child.stdout.read()
        _, status, used = os.wait4(child.pid, 0)
        if status != 0:
            sys.exit(f'{words[0]} ended with {status}')
        least = min(least, used.ru_utime + used.ru_stime)
    return least, text
