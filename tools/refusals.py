"""Writes the codes of dma330.h as errors in Rust and exceptions in Python, with what the header's comments say of them.
"""
import re
import textwrap

import header

# The codes of a line or an offset, those that the crate has by their names, and those that it never gets. The others,
# and PROGRAM_TOO_LONG, are errors by themselves.
OF_LINE = ["BAD_MNEMONIC", "BAD_OPERAND", "NUMBER_OUT_OF_RANGE", "PROGRAM_TOO_LONG"]
OF_OFFSET = ["CUT_INSTRUCTION", "UNKNOWN_INSTRUCTION", "BAD_FIELD"]
CODES = ["OK", "NO_RESULT", "NOT_RUNNING", "BUFFER_TOO_SMALL", "BUSY", "RUNNING", "UNEXPLAINED"]
NEVER = ["NOT_OPEN", "ALREADY_OPEN", "BAD_ACCESS"]
WIDTH = 120

RUST = '''\
//! The codes of dma330.h as errors. `tools/declarations` writes this file: change the header's comments, not the file.

use crate::Cause;

/// Why a call was refused: of the causes that the call's documentation lists, the first that applies. A refused call
/// changes nothing, except for [`Device::restore`](crate::Device::restore) with `BadSave`.
///
/// ```
/// let busy = dma330::Error::Busy { channel: 1, cookie: 3 };
/// assert_eq!(busy.to_string(), "cookie 3 of channel 1 runs, and conflicts");
/// ```
#[derive(Clone, Copy, Debug, PartialEq, Eq, Hash)]
#[non_exhaustive]
pub enum Error {
%(plain)s
    /// The call conflicts with a running transfer.
    Busy {
        /// Its channel, the lowest of several.
        channel: u8,
        /// Its cookie.
        cookie: u32,
    },
    /// A checkpoint was requested while a transfer runs.
    Running {
        /// Its channel, the lowest of several.
        channel: u8,
        /// Its cookie.
        cookie: u32,
    },
    /// A line of assembly text has a fault.
    Assembly {
        /// Its number, from 1.
        line: usize,
        /// Its fault.
        fault: AssemblyFault,
    },
    /// No instruction begins at a byte of a program.
    Disassembly {
        /// The byte's offset.
        offset: usize,
        /// Why none begins there.
        fault: DisassemblyFault,
    },
    /// A program isn't explained.
    Unexplained {
        /// Why.
        cause: Cause,
        /// The offset of the instruction that has the cause.
        pc: u32,
        /// How many instructions are executed before it.
        steps: u32,
    },
}

/// What is wrong with a line of assembly text.
#[derive(Clone, Copy, Debug, PartialEq, Eq, Hash)]
pub enum AssemblyFault {
%(lines)s
}

/// Why no instruction begins at a byte.
#[derive(Clone, Copy, Debug, PartialEq, Eq, Hash)]
pub enum DisassemblyFault {
%(offsets)s
}

/// What the header says of each code that is an error by itself.
pub const TEXTS: [(Error, &str); %(plain_count)d] = [
%(plain_texts)s
];

/// What it says of each code of a line.
pub const LINE_TEXTS: [(AssemblyFault, &str); %(lines_count)d] = [
%(lines_texts)s
];

/// What it says of each code of an offset.
pub const OFFSET_TEXTS: [(DisassemblyFault, &str); %(offsets_count)d] = [
%(offsets_texts)s
];
'''
PYTHON = '''\
"""The exceptions: one for each code of the library, all of which are `Error`.

A call raises the first that applies of those in its documentation; `NotOpen` comes before all others. A call that
raises has changed nothing, except that `BadSave` leaves a device in its state after a reset. Wrong arguments, such as a
guest's, are a `ValueError`, too. `Busy` and `Running` have the channel to step before the call is made again.

`tools/declarations` writes this file: change the comments of dma330.h, not the file.
"""
from __future__ import annotations

from ._error import Error
from .values import Cause

%s
'''
# The exceptions' bases beside Error. The others are a ValueError.
BASES = {"NO_MEMORY": "MemoryError", **dict.fromkeys(["NO_RESULT", "NOT_RUNNING"], "LookupError"), **dict.fromkeys(
    ["NOT_OPEN", "ALREADY_OPEN", "BUFFER_TOO_SMALL", "NO_PROGRAM", "BUSY", "RUNNING", "COOKIES_SPENT", "STEPS_SPENT"],
    "RuntimeError")}
# What is said of exceptions beside the header's comments, and their members.
SAID = {
    "BUFFER_TOO_SMALL": "The module makes room, so no call raises it.",
    **dict.fromkeys(["BUSY", "RUNNING"], "It is `cookie` on `channel`, of several the one on the lowest channel."),
    **dict.fromkeys(OF_LINE, "`place` is the line, from 1."),
    **dict.fromkeys(OF_OFFSET, "`place` is the offset of the instruction's first byte."),
    "UNKNOWN_INSTRUCTION": "`place` is its offset.",
    "PROGRAM_TOO_LONG": "Of `assemble`, `place` is the line with which it does, else 0.",
    "UNEXPLAINED": "`cause` is a `Cause`, `pc` the offset of the instruction that has it, and `steps` how many are "
                   "executed before it. `addr` is the lowest address that is stored twice, for STORES_TWICE, or read "
                   "and stored, for STORES_SOURCE; else it is 0.",
}
MEMBERS = {
    **dict.fromkeys(["BUSY", "RUNNING"], ["channel: int", "cookie: int"]),
    **dict.fromkeys(OF_LINE + OF_OFFSET, ["place: int"]),
    "PROGRAM_TOO_LONG": ["place: int = 0"],
    "UNEXPLAINED": ["cause: Cause", "pc: int", "steps: int", "addr: int"],
}


def camel(name):
    return name.title().replace("_", "")


def texts():
    """Returns what the header's comments say of the codes, with names as they are outside C."""
    return {name: re.sub(r"\bdma330_(\w+)", lambda it: camel(it[1]), text.replace("DMA330_", ""))
            for name, text in header.comments("code").items()}


def filled(text, first, rest=None):
    """Returns a text with these indents of its first line and of the others."""
    return textwrap.fill(text, WIDTH, initial_indent=first, subsequent_indent=first if rest is None else rest)


def sentence(text):
    return text[0].upper() + text[1:] + "."


def in_rust():
    """Returns the text of error/codes.rs."""
    found = texts()
    others = {*OF_LINE, *OF_OFFSET, *CODES, *NEVER} - {"PROGRAM_TOO_LONG"}
    parts = {}
    for part, enum, names in [("plain", "Error", [it for it in found if it not in others]),
                              ("lines", "AssemblyFault", OF_LINE), ("offsets", "DisassemblyFault", OF_OFFSET)]:
        parts[part] = "\n".join("%s\n    %s," % (filled(sentence(found[it]), "    /// "), camel(it)) for it in names)
        parts[part + "_count"] = len(names)
        parts[part + "_texts"] = "\n".join('    (%s::%s, "%s"),' % (enum, camel(it), found[it]) for it in names)
    return RUST % parts


def exception(name, text):
    """Returns the class of an exception."""
    said = " ".join(filter(None, [sentence(text), SAID.get(name)]))
    lines = ["class %s(Error, %s):" % (camel(name), BASES.get(name, "ValueError")),
             filled('"""%s"""' % said, "    ")]
    members = MEMBERS.get(name, [])
    if members:
        lines.append("    about = %s" % str(tuple(it.split(":")[0] for it in members)).replace("'", '"'))
    return "\n".join(lines + ["    " + it for it in members])


def in_python():
    """Returns the text of errors.py."""
    found = texts()
    names = ["Error", *map(camel, found)]
    exported = filled("__all__ = [%s]" % ", ".join('"%s"' % it for it in names), "", " " * 11)
    return PYTHON % "\n\n\n".join([exported, *(exception(*it) for it in found.items())])
