"""The graph of the repository's crates, as crates.txt has it."""
import os

SOURCES = ('src', 'specs', 'proofs')


def crate_of_line(line):
    """The crate that a line of crates.txt is for, or '', and what it uses."""
    head, colon, tail = line.partition('#')[0].partition(':')
    return (head.split()[0], tail.split()) if colon else ('', [])


def read_graph(top):
    """The crates of crates.txt, each with the crates of the repository that it uses."""
    with open(os.path.join(top, 'crates.txt'), encoding='utf-8') as lines:
        uses = dict(crate_of_line(line) for line in lines)
    uses.pop('', None)
    return {name: [used for used in names if used in uses] for name, names in uses.items()}


def closure(graph, crate):
    """The crate and all that it stands on, each after what it uses."""
    found = []

    def visit(name):
        if name not in found:
            for used in graph[name]:
                visit(used)
            found.append(name)

    visit(crate)
    return found


def source_folders(top, crates):
    """The folders of the crates' sources, from the top."""
    folders = [os.path.join('crates', crate, part) for crate in crates for part in SOURCES]
    return [folder for folder in folders if os.path.isdir(os.path.join(top, folder))]


def folder_size(folder):
    """How many bytes the files of a folder have."""
    return sum(os.path.getsize(os.path.join(place, name)) for place, _, names in os.walk(folder) for name in names)


def is_newer(folders, moment):
    """Whether one of these folders, or anything in them, was changed after this moment."""
    return any(os.path.getmtime(os.path.join(place, name)) > moment
               for folder in folders for place, _, names in os.walk(folder) for name in ['', *names])


def code_size(top, crate):
    """How many bytes of code a crate has, by which what its proof takes can be guessed."""
    return folder_size(os.path.join(top, 'crates', crate, 'src'))


def remaining_work(graph, crates, sizes):
    """For each of these crates, the sizes along the heaviest chain of crates from it upwards."""
    work = {}
    for crate in reversed(crates):
        above = [work[other] for other in work if crate in graph[other]]
        work[crate] = sizes[crate] + max(above, default=0)
    return work
