"""A copy of crates in which rt tries wrong bodies: it has them in the place of a crate's must-fail edits, and no other edits."""
import os
import shutil

from crate_graph import SOURCES, closure, crate_of_line, read_graph
from lane import link_folder

BODIES = 'wrong-bodies'


def crates_with_bodies(top):
    """The crates that have wrong bodies, in the order of crates.txt, and after them the folders that are no crate's."""
    graph = read_graph(top)
    found = os.listdir(os.path.join(top, BODIES))
    return [crate for crate in graph if crate in found], sorted(set(found) - set(graph))


def bodies_of(top, crate):
    """The names of a crate's wrong bodies."""
    names = os.listdir(os.path.join(top, BODIES, crate))
    return sorted(os.path.splitext(name)[0] for name in names if name.endswith('.edit'))


def list_crates(top, room, crates):
    """Writes the lines of crates.txt that the copy has folders for: rt reads no others."""
    with open(os.path.join(top, 'crates.txt'), encoding='utf-8') as lines, \
            open(os.path.join(room, 'crates.txt'), 'w', encoding='utf-8') as out:
        out.writelines(line for line in lines if crate_of_line(line)[0] in crates)


def fill_copy(top, room, tried):
    """Fills a folder with these crates, their wrong bodies, and all that they stand on, of which what is built is taken too."""
    graph = read_graph(top)
    crates = {below for crate in tried for below in closure(graph, crate)}
    shutil.copy2(os.path.join(top, 'HANDLES'), room)
    list_crates(top, room, crates)
    for crate in crates:
        one, other = (os.path.join(place, 'crates', crate) for place in (top, room))
        for part in SOURCES:
            if os.path.isdir(os.path.join(one, part)):
                shutil.copytree(os.path.join(one, part), os.path.join(other, part))
        link_folder(os.path.join(one, 'out', 'rlib'), os.path.join(other, 'out', 'rlib'))
    for crate in tried:
        shutil.copytree(os.path.join(top, BODIES, crate), os.path.join(room, 'crates', crate, 'must-fail'))
