"""Reads dma330.h, or the header that DMA330_H names, for what is written from it or compared with it.

A name has no `dma330_` or DMA330_ here, and those of an enum no first word that all have, as CAUSE_.
"""
import collections
import os
import re

HEADER = os.environ.get("DMA330_H", os.path.join(os.path.dirname(os.path.realpath(__file__)), "../include/dma330.h"))
KINDS = {"uint8_t": "u8", "uint32_t": "u32", "uint64_t": "u64", "int32_t": "i32", "size_t": "size"}
# A member or a parameter. Its kind is u8, u32, u64, i32, size, char, void or the name of a struct. If it is a pointer
# to that, `pointer` is * or const *, else it is empty.
Declared = collections.namedtuple("Declared", "name kind pointer")


def read(path):
    with open(path, encoding="utf-8") as file:
        return file.read()


def code():
    """Returns the header without comments, as one line."""
    return re.sub(r"\s+", " ", re.sub(r"/\*.*?\*/", " ", read(HEADER), flags=re.S))


def kind_of(word):
    return KINDS.get(word, re.sub("^dma330_", "", word))


def declared(text):
    """Returns a member or a parameter."""
    const, word, star, name = re.fullmatch(r"(const )?(\w+) (\*?)(\w+)", text.strip()).groups()
    return Declared(name, kind_of(word), (const or "") + star)


def structs():
    """Returns the members of each struct."""
    found = re.findall(r"typedef struct dma330_(\w+) \{(.*?)\}", code())
    return {name: list(map(declared, body.split(";")[:-1])) for name, body in found}


def sizes():
    """Returns the number of bytes of each struct that the checks at the header's end have."""
    return {name: int(size) for name, size in re.findall(r"sizeof\(dma330_(\w+)\) == (\d+)", code())}


def calls():
    """Returns what each call returns, and its parameters."""
    found = re.findall(r"(\w+) dma330_(\w+)\(([^()]*)\) DMA330_NO_NULLS;", code())
    return {name: (kind_of(result), list(map(declared, words.split(",")))) for result, name, words in found}


def enums():
    """Returns the numbers of each enum by their names."""
    found = {}
    for enum, body in re.findall(r"enum dma330_(\w+) \{(.*?)\}", code()):
        # (a name without a decimal number isn't read, and fails)
        named = [re.fullmatch(r" ?DMA330_(\w+) = (-?\d+) ?", it).groups() for it in body.split(",")]
        word = enum.split("_")[0].upper() + "_"
        drop = len(word) if all(name.startswith(word) for name, _ in named) else 0
        found[enum] = {name[drop:]: int(number) for name, number in named}
    return found


def comments(enum):
    """Returns what the comments beside the numbers of an enum say, each as one line, by their names."""
    body = re.search(r"\nenum dma330_%s \{(.*?)\n\};" % enum, read(HEADER), re.S)[1]
    found = re.findall(r"DMA330_(\w+) = -?\d+,? */\* (.*?) \*/", body, re.S)
    return {name: re.sub(r"\s*\n\s*\* ", " ", text) for name, text in found}


def defines():
    """Returns the macros that are one word each, by their names."""
    return dict(re.findall(r"^#define DMA330_(\w+) (\S+)$", read(HEADER), re.M))
