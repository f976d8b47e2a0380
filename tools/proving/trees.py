"""Trees in which crates are proved, and the commands that run there.

`rt` locks the crates below the one that it works on, so each crate has a tree of its own, in ~/.cache/dilkwafam-prove.
"""
import contextlib
import fcntl
import hashlib
import os
import re
import shutil
import subprocess
import sys
import time

from proving.crates import LINES, TOP, bytes_of, cache_folder, folder_of, with_below

# The folder in out/ of the programs that are compiled without a proof.
UNPROVED = "unproved"
PROCESSORS = len(os.sched_getaffinity(0))
# The memory that a check was observed to take, in GB.
EACH_GB = 4


class Board:
    """The time at which the run began, the running commands, and which of its crates are proved."""

    def __init__(self, names):
        self.began, self.shown, self.runs, self.ends, self.proved = time.time(), 0, set(), False, set()
        self.bytes = {it: bytes_of(it) for it in names}

    def end(self):
        """Ends the running commands, and those that begin later."""
        self.ends = True
        for run in list(self.runs):
            run.terminate()

    def text(self):
        """Says how far the run is: in crates, and by the bytes of the sources."""
        part = 100 * sum(map(self.bytes.get, self.proved)) / sum(self.bytes.values())
        counts = (len(self.proved), len(self.bytes), part, *divmod(time.time() - self.began, 60))
        return "proving: %d of %d crates, %d %% of the sources, %d min %d s" % counts

    def show(self):
        """Shows how far the run is: in a terminal each second, else each half minute."""
        is_terminal = sys.stderr.isatty()
        if time.time() - self.shown >= (1 if is_terminal else 30):
            self.shown = time.time()
            print(("\r\033[K%s" if is_terminal else "%s\n") % self.text(), end="", file=sys.stderr, flush=True)


def call(board, folder, words, **more):
    """Runs a command in a folder. Returns its status and its output."""
    how = {"stdout": subprocess.PIPE, "stderr": subprocess.STDOUT, "errors": "replace"}
    with subprocess.Popen(words, cwd=folder, stdin=subprocess.DEVNULL, **how, **more) as run:
        board.runs.add(run)
        if board.ends:
            run.terminate()
        said = run.communicate()[0]
    board.runs.discard(run)
    return run.returncode, said


def share(source, target):
    """Links a file that `rt` only replaces, and never writes into. Copies any other file."""
    try:
        if source.endswith(".oantt") or "/out/rlib/" in source:
            return os.link(source, target)
    except OSError:
        pass
    return shutil.copy2(source, target)


def put(tree, name, parts):
    """Links or copies parts of a crate into a tree."""
    for part in parts:
        source, target = folder_of(TOP, name, part), folder_of(tree, name, part)
        if os.path.isdir(source):
            shutil.copytree(source, target, copy_function=share)
        elif os.path.isfile(source):
            os.makedirs(os.path.dirname(target), exist_ok=True)
            shutil.copy2(source, target)


def take_back(tree, name):
    """Moves the results of a crate from its tree to this one."""
    os.makedirs(folder_of(TOP, name, "out"), exist_ok=True)
    for part in os.listdir(folder_of(tree, name, "out")):
        made, here = folder_of(tree, name, "out", part), folder_of(TOP, name, "out", part)
        old = os.path.join(tree, part)
        # (moved next to it and renamed last, so that no partial result remains if the run is killed)
        shutil.rmtree(here + ".new", ignore_errors=True)
        shutil.move(made, here + ".new")
        if os.path.isdir(here):
            shutil.move(here, old)
        os.rename(here + ".new", here)
        shutil.rmtree(old, ignore_errors=True)


def results_of(name):
    """Returns what proofs of a crate have made."""
    out = folder_of(TOP, name, "out")
    return ["out/" + it for it in (os.listdir(out) if os.path.isdir(out) else []) if it != UNPROVED]


def lay_out(tree, name, of_below, own):
    """Makes a tree for a crate, with these parts of it and of the crates below."""
    shutil.rmtree(tree, ignore_errors=True)
    for below in with_below(name)[:-1]:
        put(tree, below, of_below)
    put(tree, name, own)
    shutil.copy(os.path.join(TOP, "HANDLES"), tree)
    with open(os.path.join(tree, "crates.txt"), "w", encoding="utf-8") as file:
        # (rt requires the folder of each crate in the list)
        file.write("".join(LINES[it] + "\n" for it in with_below(name)))


def clear(tree, name):
    """Keeps of a tree only what rt in other clones may use, and that only if it is shared."""
    if os.stat(tree).st_dev != os.stat(TOP).st_dev:
        return shutil.rmtree(tree, ignore_errors=True)
    for below in with_below(name)[:-1]:
        shutil.rmtree(folder_of(tree, below), ignore_errors=True)
    return put(tree, name, ["out/incremental", "out/rlib"])


def remove_lost(room):
    """Removes the trees of clones that are gone."""
    for name in os.listdir(room):
        with contextlib.suppress(OSError), open(os.path.join(room, name, "clone"), encoding="utf-8") as file:
            if not os.path.isdir(file.read()):
                shutil.rmtree(os.path.join(room, name), ignore_errors=True)


def room_of():
    """Makes and returns the folder of the trees, outside the clone, since `rt ci` refuses a second crates.txt in it."""
    room = cache_folder("dilkwafam-prove")
    remove_lost(room)
    own = os.path.join(room, os.path.basename(TOP) + "-" + hashlib.sha256(TOP.encode()).hexdigest()[:12])
    os.makedirs(own, mode=0o700, exist_ok=True)
    with open(os.path.join(own, "clone"), "w", encoding="utf-8") as file:
        file.write(TOP)
    return own


def lock(folder, other):
    """Waits until no other process locks a folder, and locks it until this process ends."""
    held = os.open(folder, os.O_RDONLY)
    try:
        fcntl.flock(held, fcntl.LOCK_EX | fcntl.LOCK_NB)
    except BlockingIOError:
        print("waiting for another " + other, file=sys.stderr)
        fcntl.flock(held, fcntl.LOCK_EX)
    except OSError:
        # some file systems have no locks
        pass


def at_once():
    """Returns how many checks can run at once: one for each processor, if there is memory."""
    with open("/proc/meminfo", encoding="ascii") as file:
        free_gb = int(re.search(r"MemAvailable: *(\d+)", file.read())[1]) / 1e6
    return max(1, min(PROCESSORS, int(free_gb / EACH_GB)))
