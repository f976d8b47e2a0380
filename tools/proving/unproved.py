"""Programs that are compiled without a proof.

`rt try` compiles a program without a proof, runs it, and then removes it; it has no option that keeps it. So it gets a
copy of the kit whose linker, before it ends, copies the program to a place of ours. This relies on three things that
the kit doesn't promise: `rt` takes the kit that its own file is in, that kit has its linker in toolchain/bin/ld.lld,
and the linker writes the program as `program` in the folder that it runs in. If one of them were otherwise, nothing
would be kept, and ./prove would end with status 3.

No claim of a proof rests on what is kept. It stays in out/unproved/, where neither `rt` nor another part of ./prove
reads it, and whoever runs it is told that it isn't proved.
"""
import concurrent.futures
import os
import re
import shlex
import shutil
import sys
import tempfile

from proving.crates import TOP, digest_of, folder_of, kit_folder
from proving.trees import UNPROVED, Board, call, lay_out, lock

NO_RT = "the command rt of the Rattle kit is missing: README.md, \"Set up\", has where it comes from"
# How many programs stay, and from what they are compiled.
STAY, COMPILED = 4, ["src"]
# What takes the place of a kit's linker: it calls that, and keeps a copy of the program.
LINKER = """#!/bin/sh
%s "$@" || exit
command -p cp program %s.new && command -p mv %s.new %s
exit 0
"""


def keeping_kit(room, kept):
    """Makes a copy of the kit, of links, whose linker leaves a copy of the program at a path. Returns its rt."""
    kit, made = kit_folder(), os.path.join(room, "kit")
    for at in ("", "bin", "toolchain", "toolchain/bin"):
        os.mkdir(os.path.join(made, at))
        for name in os.listdir(os.path.join(kit, at)):
            # (rt takes the kit that its own file is in; it asks the prover only what a proof will refuse)
            how = shutil.copy2 if at == "bin" and name.startswith("rt") else os.symlink
            if name not in ("bin", "toolchain") and (at, name) != ("bin", "rattle"):
                how(os.path.join(kit, at, name), os.path.join(made, at, name))
    linker = os.path.join(made, "toolchain/bin/ld.lld")
    its = os.readlink(linker)
    os.remove(linker)
    with open(linker, "w", encoding="utf-8") as file:
        file.write(LINKER % (shlex.quote(its), *[shlex.quote(kept)] * 3))
    os.chmod(linker, 0o755)
    return os.path.join(made, "bin/rt")


def unproved_file_of(tree, name):
    """Returns the path of a program that is compiled without a proof from the sources in a tree."""
    return folder_of(TOP, name, "out", UNPROVED, digest_of(tree, name, COMPILED)[:16], name)


def compile_unproved(board, name):
    """Compiles a program without a proof, if that isn't done yet. Returns its path. It raises an OSError if the program
    can't be kept."""
    path, folder = unproved_file_of(TOP, name), folder_of(TOP, name, "out", UNPROVED)
    if os.access(path, os.X_OK):
        return path
    if not shutil.which("rt"):
        sys.exit(name + ": no program is built yet, and " + NO_RT)
    os.makedirs(folder, exist_ok=True)
    lock(folder, "./prove --unproved " + name)
    with tempfile.TemporaryDirectory() as room:
        tree, made = os.path.join(room, "tree"), os.path.join(room, name)
        lay_out(tree, name, COMPILED, COMPILED)
        path = unproved_file_of(tree, name)
        if os.access(path, os.X_OK):
            return path
        words = [keeping_kit(room, made), "try", "--steps", "1"]
        print("%s: compiling its sources without a proof, in one or two minutes" % name, file=sys.stderr)
        said = call(board, folder_of(tree, name), words, env={**os.environ, "TMPDIR": room})[1]
        if not os.path.exists(made) and not re.search("^run=ended ", said, re.M):
            sys.exit("%s can't be compiled\n%s" % (name, said.rstrip()))
        # (moved next to its place and then renamed, so that no part of a program is ever in its place)
        os.makedirs(os.path.dirname(path), exist_ok=True)
        new = "%s.%d" % (path, os.getpid())
        shutil.move(made, new)
        os.rename(new, path)
    for old in sorted(os.listdir(folder), key=lambda it: os.path.getmtime(os.path.join(folder, it)))[:-STAY]:
        shutil.rmtree(os.path.join(folder, old), ignore_errors=True)
    return path


def compile_all(names):
    """Compiles programs side by side without a proof, and prints their paths."""
    board = Board([])
    with concurrent.futures.ThreadPoolExecutor(len(names)) as pool:
        try:
            running = [pool.submit(compile_unproved, board, it) for it in names]
            # (a signal that arrives just before a wait begins is handled only after it)
            while concurrent.futures.wait(running, 0.2).not_done:
                pass
            print("\n".join(it.result() for it in running))
        except OSError as error:
            print("%s: no program can be kept: %s" % (" and ".join(names), error), file=sys.stderr)
            sys.exit(3)
        except BaseException:
            board.end()
            raise
