"""A lane: a copy of a crate and of all that it stands on, in which rt builds the crate's library beside other crates.

rt keeps every other rt out of the folders of a crate and of all that it stands on, so of two crates that stand on one
library only one can be built in a tree at a time. In a lane each has folders of its own. A lane takes next to no room:
each file in it is a second name of the tree's file, since rt writes a library's files anew and never into one that is
there, and the crate's own out/ is moved into the lane and back again.
"""
import fcntl
import os
import shutil

from crate_graph import SOURCES, crate_of_line


def link_or_copy(one, other):
    try:
        os.link(one, other)
    except OSError:
        shutil.copy2(one, other)


def link_folder(one, other):
    if os.path.isdir(one):
        shutil.copytree(one, other, copy_function=link_or_copy)


class Lane:
    """The lane of a crate, in build/lanes/CRATE."""

    def __init__(self, top, crate):
        self.top = top
        self.crate = crate
        self.root = os.path.join(top, 'build', 'lanes', crate)
        self.home = os.path.join(top, 'crates', crate)
        self.folder = os.path.join(self.root, 'crates', crate)
        self.held = None

    def take_home(self):
        """Keeps every rt out of the crate's folder in the tree, and answers whether none was at work there."""
        self.held = os.open(self.home, os.O_RDONLY)
        try:
            fcntl.flock(self.held, fcntl.LOCK_EX | fcntl.LOCK_NB)
            return True
        except BlockingIOError:
            self.leave_home()
            return False

    def leave_home(self):
        if self.held is not None:
            os.close(self.held)
            self.held = None

    def open(self, below):
        """Fills the lane with the crate, and with the sources and the built libraries of all that it stands on."""
        os.makedirs(self.folder)
        crates = [*below, self.crate]
        link_or_copy(os.path.join(self.top, 'HANDLES'), os.path.join(self.root, 'HANDLES'))
        self.list_crates(crates)
        for crate in crates:
            parts = SOURCES if crate == self.crate else (*SOURCES, os.path.join('out', 'rlib'))
            for part in parts:
                link_folder(os.path.join(self.top, 'crates', crate, part), os.path.join(self.root, 'crates', crate, part))
        self.move_out(self.home, self.folder)

    def list_crates(self, crates):
        """Writes the lines of crates.txt that the lane has folders for: rt reads no others."""
        with open(os.path.join(self.top, 'crates.txt'), encoding='utf-8') as lines, \
                open(os.path.join(self.root, 'crates.txt'), 'w', encoding='utf-8') as out:
            out.writelines(line for line in lines if crate_of_line(line)[0] in crates)

    def close(self):
        """Lays what the lane built into the tree, and removes the lane."""
        if os.path.isdir(self.folder):
            # An rt that outlived its build may still work here.
            at_work = os.open(self.folder, os.O_RDONLY)
            fcntl.flock(at_work, fcntl.LOCK_EX)
            self.move_out(self.folder, self.home)
            os.close(at_work)
        shutil.rmtree(self.root, ignore_errors=True)
        self.leave_home()

    def move_out(self, one, other):
        """Moves a crate's out/ where the other folder has none."""
        if os.path.isdir(os.path.join(one, 'out')) and not os.path.exists(os.path.join(other, 'out')):
            os.rename(os.path.join(one, 'out'), os.path.join(other, 'out'))


def lanes_left(top):
    """The crates whose lanes stand: where no build runs, those of one that was ended hard."""
    lanes = os.path.join(top, 'build', 'lanes')
    return sorted(os.listdir(lanes)) if os.path.isdir(lanes) else []


def close_left(top):
    """Lays into the tree what the lanes that are left have built, and waits for an rt that still works in one."""
    for crate in lanes_left(top):
        if os.path.isdir(os.path.join(top, 'crates', crate)):
            Lane(top, crate).close()
    shutil.rmtree(os.path.join(top, 'build', 'lanes'), ignore_errors=True)
