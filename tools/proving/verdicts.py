"""The prover's last lines of crates, each of a run that took nothing from an earlier one.

They are kept outside the clones, in ~/.cache/dilkwafam-prove/verdicts, by what they were proved from.
"""
import contextlib
import os
import re
import shutil

from proving.crates import SOURCES, TOP, cache_folder, digest_of, folder_of, key_of, kit_module
from proving.trees import call, lay_out

# What the prover takes as it is in each run: the kit's logic and libraries as they were built, and that the statements
# of a crate's libraries are proved.
TAKEN = {"logic-built", "libraries-built", "statements"}
# The part of the output of `rt ci` on a crate that it proved, from nothing.
PART = re.compile(r"^== (\w+)\n(.*?)^rt: \1 proved$", re.M | re.S)


def is_from_nothing(line):
    """Returns whether a line is the prover's verdict on a crate, by a run that took nothing from an earlier one."""
    return line.startswith("logic=proved ") and {*re.findall(r"(\S+)=trusted\b", line)} <= TAKEN


def lines_of(said):
    """Returns the prover's lines on axioms, and its verdict, or nothing if it has none from nothing."""
    lines = re.findall(r"^(?:axioms |logic=).*$", said, re.M)
    ends = [number for number, it in enumerate(lines) if is_from_nothing(it)]
    return lines[:ends[0] + 1] if ends else []


def path_of(tree, name):
    return os.path.join(cache_folder("dilkwafam-prove"), "verdicts", key_of(tree, name))


def keep(tree, name, said):
    """Keeps what the prover said of a crate in a tree. Returns whether it was a verdict."""
    lines, path = lines_of(said), path_of(tree, name)
    if lines:
        os.makedirs(os.path.dirname(path), exist_ok=True)
        with open("%s.%d" % (path, os.getpid()), "w", encoding="utf-8") as file:
            file.write("".join(it + "\n" for it in lines))
        os.replace(file.name, path)
    return bool(lines)


def keep_those_of_ci(path):
    """Keeps the verdicts in the output of `rt ci`, a file. It has none of the crates that an earlier run proved."""
    with open(path, encoding="utf-8", errors="replace") as file:
        for name, said in PART.findall(file.read()):
            keep(TOP, name, said)


def texts_of(names):
    """Returns the kept lines of crates, each as a text, and the crates that have none."""
    texts, missing = [], []
    for name in names:
        try:
            with open(path_of(TOP, name), encoding="utf-8") as file:
                lines = ["%s, of sources with the digest %s" % (name, digest_of(TOP, name)), *file.read().split("\n")]
            texts.append("\n    ".join(lines).rstrip())
        except OSError:
            missing.append(name)
    return texts, missing


def words_from_nothing(tree, name):
    """Returns the words of a check that takes nothing from an earlier one, or None if the libraries below aren't built
    from the sources in the tree. `rt` has such a check only of a crate with all below, so this asks rt's own module."""
    rtlib = kit_module()
    crate = next(it for it in rtlib.crates_below(tree) if it.name == name)
    is_built = all(it.is_built() for it in crate.below())
    return [rtlib.RATTLE, "check", *crate.words(["--jobs", "1"], keeps=False)] if is_built else None


def prove_anew(board, tree, name, _jobs):
    """Proves a crate from nothing, over the libraries as they are built, and keeps the prover's lines. Returns the
    output if that fails, else None. It takes one processor, so that a verdict has no more parts than it needs."""
    tree += "-anew"
    lay_out(tree, name, SOURCES + ["out/rlib"], SOURCES)
    try:
        words = words_from_nothing(tree, name)
        none = 1, "./prove builds the libraries below it\n"
        status, said = call(board, folder_of(tree, name), words) if words else none
        if status == 0 and keep(tree, name, said):
            board.proved.add(name)
            return None
        return "%s is not proved\n%s" % (name, said)
    finally:
        with contextlib.suppress(OSError):
            shutil.rmtree(tree)
