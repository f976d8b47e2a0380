"""The crates: the list of them, the folders and digests of their sources, the kit, and what outlives a clone."""
import contextlib
import hashlib
import importlib
import os
import shutil
import sys
import tempfile

TOP = os.path.realpath(os.path.join(os.path.dirname(os.path.realpath(__file__)), "../.."))
SOURCES = ["src", "specs", "proofs"]


def read_list():
    """Returns the lines of crates.txt, each by its first crate."""
    with open(os.path.join(TOP, "crates.txt"), encoding="utf-8") as file:
        lines = [it.split("#")[0].strip() for it in file]
    return {it.split(":")[0].split()[0]: it for it in lines if it}


LINES = read_list()
DEPS = {name: [it for it in line.partition(":")[2].split() if it in LINES] for name, line in LINES.items()}


def with_below(name):
    """Returns the crates below a crate, lowest first, and then the crate itself."""
    found = []
    for below in DEPS[name]:
        found += [it for it in with_below(below) if it not in found]
    return found + [name]


def files_below(folder):
    """Yields the paths of all files below a folder, in a fixed order."""
    for at, folders, files in os.walk(folder):
        folders.sort()
        yield from (os.path.join(at, it) for it in sorted(files))


def folder_of(tree, name, *parts):
    return os.path.join(tree, "crates", name, *parts)


def sources_of(tree, name, parts=SOURCES):
    """Returns the paths of the sources of a crate and of those below it, in a fixed order."""
    return [it for below in with_below(name) for part in parts for it in files_below(folder_of(tree, below, part))]


def bytes_of(name):
    """Returns how many bytes the sources of a crate have."""
    return sum(os.path.getsize(it) for part in SOURCES for it in files_below(folder_of(TOP, name, part)))


def digest_of(tree, name, parts=SOURCES):
    """Returns a digest of what a crate is built from: sources and lines of crates.txt, of it and the crates below."""
    found = hashlib.sha256("\n".join(LINES[it] for it in with_below(name)).encode())
    for path in sources_of(tree, name, parts):
        with open(path, "rb") as file:
            found.update(("\n%s %d\n" % (os.path.relpath(path, tree), os.path.getsize(path))).encode() + file.read())
    return found.hexdigest()


def is_program(name):
    return os.path.isfile(folder_of(TOP, name, "src", "main.rt"))


def is_static(name):
    return "staticlib" in LINES[name].partition(":")[0]


def kit_folder():
    """Returns the folder of the kit, which has the command rt in bin/."""
    return os.path.dirname(os.path.dirname(os.path.realpath(shutil.which("rt") or sys.exit("there is no command rt"))))


def kit_module():
    """Returns the module of which rt is made, for what no command of rt does. The kit promises nothing of it."""
    sys.dont_write_bytecode = True
    sys.path.insert(0, os.path.join(kit_folder(), "bin"))
    return importlib.import_module("rtlib")


def digest_of_all():
    """Returns a digest of the sources of all crates and of the kit's version."""
    found = hashlib.sha256("".join(digest_of(TOP, it) for it in sorted(LINES)).encode())
    with open(os.path.join(kit_folder(), "WHAT"), "rb") as file:
        found.update(file.read())
    return found.hexdigest()


def key_of(tree, name):
    """Returns a digest of all that the proof of a crate reads: its sources, those below, and the kit's version."""
    with open(os.path.join(kit_folder(), "WHAT"), "rb") as file:
        return hashlib.sha256(digest_of(tree, name).encode() + file.read()).hexdigest()


def cache_folder(name):
    """Makes and returns a folder of this name for what outlives a clone."""
    homes = [os.environ.get("XDG_CACHE_HOME", ""), os.path.expanduser("~/.cache")]
    folders = [os.path.join(it, name) for it in homes if os.path.isabs(it)]
    folders.append(os.path.join(tempfile.gettempdir(), "%s-%d" % (name, os.getuid())))
    for folder in folders:
        with contextlib.suppress(OSError):
            os.makedirs(folder, mode=0o700, exist_ok=True)
            # (another user may have made the one for temporary files)
            if os.stat(folder).st_uid == os.getuid() and os.access(folder, os.W_OK | os.X_OK):
                return folder
    sys.exit("no folder can be made in any of " + " ".join(folders))
