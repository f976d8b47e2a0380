"""Finds the functions in a crate's sources, and replaces their bodies by stubs."""
import contextlib
import os
import re

FUNCTION = re.compile(r'^( *)(?:pub(?:\([a-z]+\))? )?(const )?(?:unsafe )?(?:extern "C" )?fn (\w+)', re.M)
IMPL = re.compile(r"^(?:unsafe )?impl(?:<[^{}]*?>)? (?:([^{}]*?) for )?([^{}]*?)(?:\s+where[^{}]*)?\s*\{", re.M)
TYPE = re.compile(r"^ *(?:pub(?:\([a-z]+\))? )?(?:struct|enum|union) (\w+)", re.M)
# The impls whose name in the prover is known here. To those of other, generic traits and types it adds words.
PLAIN_TRAIT, PLAIN_TYPE = re.compile(r"[A-Z]\w*|From<[A-Z]\w*>"), re.compile(r"[A-Z]\w*(<('\w+(, )?)+>)?")
# A proof that is left open: with --allow-holes the prover takes a function that has it by its contract.
HOLE = """use Rattle.{crate}.proofs.{path}.Statement.{{statement}}

pub {name}_spec : {{M : Type 1}} → statement M
{name}_spec = ?
"""


def read(path):
    with open(path, encoding="utf-8", errors="replace") as file:
        return file.read()


def write(path, text):
    with open(path, "w", encoding="utf-8") as file:
        file.write(text)


def sources_in(folder):
    """Returns the texts of a crate's sources, by their paths from the crate."""
    names = [os.path.join(at, it) for at, _, names in os.walk(os.path.join(folder, "src")) for it in names]
    return {os.path.relpath(it, folder): read(it) for it in sorted(names) if it.endswith(".rt")}


def modules(file):
    """Returns the names of the modules that lead to a file of src/."""
    return [it for it in file[len("src/"):-len(".rt")].split("/") if it not in ("lib", "main", "mod")]


def is_end_of(end, path):
    """Returns whether a path of the prover ends in these names."""
    return ("::" + path).endswith("::" + end)


class Function:
    """A function, by the end of its path. The rest is known only if it was found in a source."""

    def __init__(self, path, file="", lines=range(0), body=(0, 0), is_const=False, impl=None):
        self.path, self.file, self.lines, self.body, self.is_const, self.impl = path, file, lines, body, is_const, impl

    def is_one_of(self, paths):
        return any(is_end_of(it, self.path) or is_end_of(self.path, it) for it in paths)

    def proof(self, types):
        """Returns the path of its proof from the crate, or None if it isn't known. `types` has each type's files."""
        if not self.impl:
            return self.path.replace("::", ".")
        trait, of = self.impl
        if not PLAIN_TYPE.match(of) or trait and not (PLAIN_TRAIT.fullmatch(trait) and PLAIN_TYPE.fullmatch(of)):
            return None
        homes = [] if trait else types.get(re.match(r"\w+", of)[0], [])
        home = self.file if self.file in homes or not homes else homes[0]
        return ".".join([*modules(home), *self.path.split("::")])


def body_of(text, head, limit):
    """Returns where the body of a function begins and ends, or None if it has none of several lines."""
    indent = head[1]
    end = re.compile(rf"^{indent}}}$", re.M).search(text, head.end(), limit)
    if not end or re.match(rf".*(}}|;)$|[^{{}}]*^{indent}\).*;$", text[head.end():end.start()], re.M):
        return None
    # (after clauses the body's brace has a line of its own)
    braces = [re.compile(it, re.M).search(text, head.end(), end.start()) for it in (rf"^{indent}{{$", r"{$")]
    begin = braces[0] or braces[1]
    return (begin.end(), end.start()) if begin else None


def impl_around(text, place):
    """Returns the trait and the type of the impl block around a place of a source's text, or None."""
    heads = [it for it in IMPL.finditer(text, 0, place) if not re.search(r"^}", text[it.end():place], re.M)]
    return (heads[-1][1] or "", heads[-1][2]) if heads else None


def functions_in(file, text):
    """Returns the functions in a source's text that have a body."""
    heads, found = [*FUNCTION.finditer(text)], []
    for head, limit in zip(heads, [it.start() for it in heads[1:]] + [len(text)]):
        body = body_of(text, head, limit)
        impl = impl_around(text, head.start()) if head[1] else None
        if not body or head[1] and not impl:
            continue
        path = "::".join([*modules(file), head[3]])
        if impl:
            # (the prover names the methods of `impl Trait for Type` by both names: TypeTrait::method)
            trait, of = re.sub(r"'\w+", "", impl[0]), re.sub(r"<.*|'\w+|\bmut\b", "", impl[1])
            path = "".join(re.findall(r"\w+", of) + re.findall(r"\w+", trait)) + "::" + head[3]
        lines = range(text.count("\n", 0, head.start()) + 1, text.count("\n", 0, body[1]) + 2)
        found.append(Function(path, file, lines, body, bool(head[2]), impl))
    return found


def function_at(file, text, old):
    """Returns the function in a source's text in whose body another text is, or None."""
    place = text.find(old)
    found = functions_in(file, text) if file.startswith("src/") else []
    return next((it for it in found if it.body[0] <= place < it.body[1]), None)


def without_bodies(text, functions):
    """Returns a source's text with an endless loop as the body of each of these functions. No line moves."""
    for it in reversed(functions):
        begin, end = it.body
        text = text[:begin] + "\n loop {}" + "\n" * (text.count("\n", begin, end) - 1) + text[end:]
    return text


def leave_bodies_out(folder, crate, kept):
    """Leaves out the bodies of a crate's functions, so that a check with --allow-holes takes them by their contracts.
    Leaves as they are: functions with a path in `kept`, constant ones, and those whose proof's path isn't known."""
    sources, types = sources_in(folder), {}
    for file, text in sources.items():
        for name in TYPE.findall(text):
            types.setdefault(name, []).append(file)
    for file, text in sources.items():
        others = [it for it in functions_in(file, text) if not it.is_const and not it.is_one_of(kept)]
        chosen = [(it, it.proof(types)) for it in others if it.proof(types)]
        write(os.path.join(folder, file), without_bodies(text, [it for it, _ in chosen]))
        for _, path in chosen:
            place = os.path.join(folder, "proofs", *path.split("."))
            os.makedirs(place, exist_ok=True)
            for name in ("Answers.antt", "Invariants.antt"):
                with contextlib.suppress(FileNotFoundError):
                    os.remove(os.path.join(place, name))
            write(os.path.join(place, "Proof.antt"), HOLE.format(crate=crate, path=path, name=path.split(".")[-1]))
