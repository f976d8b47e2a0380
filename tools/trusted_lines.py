#!/usr/bin/env python3
"""Lists the definitions that a reader of a contract must trust: those that its clauses cite, and those cited in turn.

Prints a line for each file, in the order in which the files are reached: the number of cited lines of its definitions,
the number of lines of the sentences above them, the number of lines of the file, and the names. Imports and blank lines
aren't counted. In src/ it counts the declarations of types and constants; for a trait that bounds a parameter, its
members and the clauses of its methods; for a type that contracts see as another value, that value, and not its fields.
An operator is followed as a name is, also if only the arrows of a `do` use it. Names of the standard library and of the
kit's crates aren't followed. Nor are PARAMETERS, which a law describes: only the list of its whole contract has them.
Those that are met are printed last, with their law and the numbers of lines to which it leads.

    tools/trusted_lines.py [FILE FUNCTION [CLAUSE..]]     without a name: the headline, crates/dma_engine/src/run.rt run
    tools/trusted_lines.py --write                        writes the reading lists into docs/PROOFS.md, between MARKERS:
                                                          those of the headline, of its clauses, of FUNCTIONS, and of
                                                          each crate
    tools/trusted_lines.py --check                        checks that docs/PROOFS.md has them as --write writes them;
                                                          that contracts lead to each file of specs/, apart from inner/;
                                                          that each law of PARAMETERS describes all its names; and that
                                                          each file in the list of rules of docs/ARCHITECTURE.md exists
"""

import re
import sys
import textwrap
from pathlib import Path

TOP = Path(__file__).resolve().parent.parent
CRATES = TOP / "crates"
HEADLINE = CRATES / "dma_engine/src/run.rt"
# For a law: its clauses in plain terms, and the names that it describes, by the file of specs/ that defines them.
PARAMETERS = {
    ("dma_chan/src/laws.rt", "pace"): (
        ("order", "stored"),
        {"Compiled": ("cost",), "Traffic": ("member", "burst", "stored_after")},
    ),
}
# What the table of the headline says of a file; of another it has the first sentence of the file.
SAYS = {
    "dma_mem/specs/Limits.antt": "the limits",
    "dma_mem/specs/Places.antt": "what a transfer reads and writes; when two are free of each other",
    "dma_mem/specs/Rules.antt": "what holds of every transfer",
    "dma_mem/specs/Image.antt": "an image, and copies laid over it; sizes of memories",
    "dma_mem/specs/Marking.antt": "marks, and what they meet",
    "dma_chan/specs/Traffic.antt": "what an instruction of a transfer reads and writes",
    "dma_engine/specs/Object.antt": "the object; entries, and what they change; bases",
    "dma_engine/specs/History.antt": "legal histories, and the object after one",
    "dma_engine/specs/View.antt": "how an engine is seen; its memory; sound views",
    "dma_engine/specs/Turn.antt": "what a step answers, and the view after it",
    "dma_engine/specs/Answer.antt": "what each call answers, and the view after it; lists of calls",
    "dma_engine/specs/Laws.antt": "answers with a sound view before and after each",
}
# Other functions whose numbers of lines are written: the file that has one, its name, and the command that it is.
FUNCTIONS = [
    ("dma_commands/src/run.rt", "run_script", "dmasim run"),
    ("dma_commands/src/asm.rt", "asm_main", "dmasim asm"),
    ("dma_commands/src/dis.rt", "dis_main", "dmasim dis"),
    ("dma330/src/replies.rt", "listing", "dma330 dis"),
    ("dma330/src/replies.rt", "assembly", "dma330 asm"),
    ("dma330/src/replies.rt", "explanation", "dma330 explain"),
    ("dma330/src/replies.rt", "tracing", "dma330 trace"),
    ("dma_seeds/src/race.rt", "race_by_seed", "dma330 race"),
    ("dma_seeds/src/seeds.rt", "race_by_seeds", "dma330 race --seeds"),
    ("dma330/src/replies.rt", "reasons", "dma330 why"),
    ("dma_ffi/src/controller_calls.rt", "dma330_step", ""),
    ("dma_ffi/src/device_calls.rt", "dma330_device_step", ""),
    ("dma_explain/src/explain.rt", "explain", ""),
    ("dma_explain/src/laws.rt", "copies_since_load", ""),
    ("dma_device/src/laws.rt", "a_dmago_copies", ""),
    ("dma_device/src/laws.rt", "a_dmago_finishes", ""),
    ("dma_device/src/laws.rt", "turns_stay_in", ""),
]
CLAUSES = ("begins", "kept", "remembers", "memory", "sound", "views", "answers")
# The document with the reading lists, and the lines between which they are.
LISTS = "docs/PROOFS.md"
MARKERS = ("<!-- written by tools/trusted_lines.py --write -->", "<!-- end of what it writes -->")
WORD = re.compile(r"[A-Za-z_][\w']*")
SPECS_IMPORT = re.compile(r"use Rattle\.((?:\w+\.)*\w+)\.\{([^}]*)\}")
CODE_IMPORT = re.compile(r"^(?:pub )?use ((?:\w+::)*)(?:(\w+)|\{([^}]*)\});", re.M)
DEFINITION = re.compile(r"(?:(?:abbrev|unfoldable|data|record|pub) )+([A-Za-z_][\w']*|◌\S+◌)")
WHOLE_IMPORT = re.compile(r"^use Rattle\.(\S+) as \w+$", re.M)
LABEL = re.compile(r"(?<=ensures |equires )\w+(?= \{)")
PUBLIC = re.compile(r"^ *pub (?:extern \"C\" |unsafe )*fn \w+(.*?\n *\{\}?)$", re.M | re.S)
DECLARATION = re.compile(r"pub(?:\(crate\))? (?:enum|struct|const|trait) (\w+)")


def place_of(path):
    """Returns the file that a path names, and the type of the code in it, if the path names one."""
    crate, *parts = path.split(".")
    if not (CRATES / crate).is_dir() or len(parts) < 2 or parts[:2] == ["specs", "contracts"]:
        return None, None
    if parts[:2] != ["specs", "declared"]:
        return CRATES.joinpath(crate, *parts).with_suffix(".antt"), None
    file = CRATES / crate / "src"
    rest = parts[2:] if len(parts) > 3 else ["lib", *parts[2:]]
    while len(rest) > 1 and not (file / rest[0]).with_suffix(".rt").exists():
        file = file / rest.pop(0)
    kind = rest[1] if len(rest) > 1 and rest[1] != "TheConstants" else None
    return (file / rest[0]).with_suffix(".rt"), kind


class Source:
    """A file: its imports, and for each name that it defines the numbers of code and comment lines, and the code."""

    def __init__(self, file):
        self.text = file.read_text()
        self.size = len(self.text.splitlines())
        self.imports = {}
        self.blocks = {}
        for path, names in SPECS_IMPORT.findall(self.text):
            for name in filter(None, (part.strip() for part in names.split(","))):
                declared, _, local = name.partition(" as ")
                below, _, declared = declared.rpartition(".")
                self.imports[local or declared] = (".".join(filter(None, (path, below))), declared)
        if file.suffix == ".antt":
            self.definitions()
        else:
            self.declarations(file.relative_to(CRATES).parts[0])

    def definitions(self):
        for block in re.split(r"\n\s*\n", self.text):
            rows = [row for row in block.splitlines() if row.strip() and not row.startswith("use ")]
            code = [row for row in rows if not row.startswith("--")]
            head = next(filter(None, map(DEFINITION.match, code)), None) if code else None
            if head is None:
                continue
            names = [head.group(1)]
            if "data " in head.group(0):
                names += [row.split()[0] for row in code[1:]]
            for name in names:
                self.blocks[name] = (names[0], len(code), len(rows) - len(code), "\n".join(code))

    def declarations(self, crate):
        for path, name, names in CODE_IMPORT.findall(self.text):
            parts = [crate if part == "crate" else part for part in path.split("::")[:-1]]
            if parts and (CRATES / crate / "src" / parts[0]).with_suffix(".rt").exists():
                parts.insert(0, crate)
            for one in (part.strip() for part in (names or name).split(",")):
                self.imports[one] = (".".join([parts[0], "specs", "declared", *parts[1:], one]), one)
        rows = self.text.splitlines()
        for start, row in enumerate(rows):
            head = DECLARATION.match(row)
            if head is None:
                continue
            of_one_line = "trait" not in head.group(0)
            end = next(k for k in range(start, len(rows)) if rows[k].startswith("}") or of_one_line and rows[k].endswith(";"))
            kept = [line for line in rows[start : end + 1] if line.strip() and not line.strip().startswith(("//", "#["))]
            value = re.search(rf"Model for {head.group(1)}\b.*?ghost Value = \{{(.*?)\}};", self.text, re.S)
            kept = [value.group(1)] if value else kept
            self.blocks[head.group(1)] = (head.group(1), len(kept), 0, "\n".join(kept))


def cited_in(source, text):
    """Returns the names and the operators in a text of a file."""
    operators = [name for name in (*source.imports, *source.blocks) if name.startswith("◌")]
    words = {*text.split(), ">>="} if "←" in text else {*text.split()}
    return WORD.findall(LABEL.sub("", text)) + [name for name in operators if name.strip("◌") in words]


def contract_of(text, function, wanted):
    """Returns the signature of a function with its clauses, or with only the wanted ones."""
    whole = re.search(rf"fn {function}\b.*?\n *\{{\}}?\n", text, re.S) or sys.exit(f"there is no function {function}")
    signature, *clauses = re.split(r"\n *(?=ensures|requires)", whole.group(0))
    return "\n".join([signature] + [c for c in clauses if not wanted or c.split()[1] in wanted])


def resolved(files, at, word):
    """Returns the file and the name of the block that a word of a file names; None if it names none of the repository."""
    target, name = at, word
    while name not in files[target].blocks:
        path, declared = files[target].imports.get(name, ("", ""))
        source, kind = place_of(path)
        if source is None or source == target:
            return None
        if not source.exists():
            sys.exit(f"{at.relative_to(CRATES)}: there is no {source.relative_to(CRATES)}, of which it has {word}")
        target, name = source, kind or declared
        if target not in files:
            files[target] = Source(target)
        if name not in files[target].blocks and target.suffix == ".antt":
            sys.exit(f"{at.relative_to(CRATES)}: there is no {name} in {target.relative_to(CRATES)}")
    return target, name


def parameters_of(law):
    """Returns the names that a law describes, each with the file that defines it."""
    specs = CRATES / Path(law[0]).parts[0] / "specs"
    return {(specs / f"{stem}.antt", name) for stem, names in PARAMETERS[law][1].items() for name in names}


def cited(file, function, wanted):
    """Returns the definitions that the contract of a function cites, directly or through others, by file."""
    return cited_up_to(file, function, wanted)[0]


def cited_up_to(file, function, wanted):
    """Returns these definitions, and the parameters that are cited."""
    files = {file: Source(file)}
    own = None if wanted else (str(file.relative_to(CRATES)), function)
    parameters = {it for law in PARAMETERS if law != own for it in parameters_of(law)}
    met = set()
    text = contract_of(files[file].text, function, wanted)
    return followed(files, [(file, word) for word in cited_in(files[file], text)], parameters, met), met


def followed(files, todo, parameters=(), met=None):
    """Returns the definitions that words of files name, directly or through others, by file. Adds to `met` the
    parameters that they name, and doesn't follow these."""
    found = {}
    for at, word in todo:
        target, name = resolved(files, at, word) or (None, None)
        if target is None:
            continue
        if (target, name) in parameters:
            met.add((target, name))
            continue
        first, size, said, text = files[target].blocks[name]
        if first not in found.setdefault(target, {}):
            found[target][first] = (size, said)
            todo += [(target, other) for other in cited_in(files[target], text)]
    return {at: (blocks, files[at].size) for at, blocks in found.items() if blocks}


def part(found, folder):
    """Returns the files of specs/ or of src/, each with its definitions and its number of lines."""
    return {at: it for at, it in found.items() if folder in at.relative_to(CRATES).parts}


def total(found, folder):
    """Returns the numbers of lines, of lines of the sentences above them, and of files."""
    rows = [row for blocks, _ in part(found, folder).values() for row in blocks.values()]
    return sum(code for code, _ in rows), sum(said for _, said in rows), len(part(found, folder))


def beyond(found, known):
    """Returns those of some definitions that aren't among these."""
    return {at: ({n: row for n, row in blocks.items() if n not in known.get(at, [()])[0]}, size) for at, (blocks, size) in found.items()}


def laws_of(found, met):
    """Yields each law that describes one of these parameters: the law, the parameters' names, how many lines its plain
    clauses add to these definitions, and how many lines in how many files its whole contract leads to."""
    for law, (plain, _) in PARAMETERS.items():
        names = sorted(name for _, name in met & parameters_of(law))
        more, _, _ = total(beyond(cited(CRATES / law[0], law[1], plain), found), "specs")
        lines, _, files = total(cited(CRATES / law[0], law[1], []), "specs")
        if names:
            yield law, names, more, lines, files


def laws_astray():
    """Yields what a law of PARAMETERS lacks: a name to which its contract doesn't lead, by all or by its plain clauses.
    These lead to no other definition in the names' files."""
    for law, (plain, _) in PARAMETERS.items():
        file, names = CRATES / law[0], parameters_of(law)
        found = cited(file, law[1], [])
        missing = {(at, name) for at, name in names if name not in found.get(at, [{}])[0]}
        yield from (f"{law[1]} doesn't lead to {name}" for _, name in sorted(missing))
        found, met = cited_up_to(file, law[1], plain)
        yield from (f"{law[1]} doesn't lead to {name} by {plain}" for _, name in sorted(names - met))
        yield from (f"{law[1]} leads to {at.stem} by {plain}" for at in sorted({at for at, _ in names} & {*found}))


def rules_astray():
    """Yields what the list of rules in docs/ARCHITECTURE.md names and the tree lacks, each with its crate."""
    rules = (TOP / "docs/ARCHITECTURE.md").read_text().split("## Where each rule is\n")[1].split("\n## ")[0]
    for rule in rules.split("\n- ")[1:]:
        crate, *named = re.findall(r"`([^`]+)`", rule)
        for name in named:
            is_code = name.endswith((".rt", "/"))
            if not (CRATES / crate / ("src" if is_code else "specs") / (name if is_code else f"{name}.antt")).exists():
                yield f"docs/ARCHITECTURE.md: {crate} has no {name}"


def said_of(file):
    """Returns what a file of specs/ says."""
    name = str(file.relative_to(CRATES))
    head = " ".join(row[3:] for row in file.read_text().split("\nuse ")[0].splitlines() if row.startswith("-- "))
    return SAYS.get(name, re.split(r"\.(?: |$)", head)[0])


def in_order(files):
    """Returns files of specs/ in an order to read them: each after those that it imports."""
    found = []

    def visit(file):
        if file not in found and file in files:
            for path, _ in dict.fromkeys(Source(file).imports.values()):
                if place_of(path)[0] not in (None, file):
                    visit(place_of(path)[0])
            found.append(file)

    for file in sorted(files):
        visit(file)
    return found


def table(rows):
    """Yields the lines of a table, indented: numbers to the right, words to the left, in columns."""
    widths = [max(len(str(cell)) for cell in column) for column in zip(*rows)]
    for row in rows:
        cells = (str(it).rjust(n) if isinstance(last, int) else it.ljust(n) for it, n, last in zip(row, widths, rows[-1]))
        yield "    " + "  ".join(cells).rstrip()


def wrapped(text, first="", rest=""):
    """Returns the lines of a text, of at most 120 columns."""
    return textwrap.wrap(text, 120, initial_indent=first, subsequent_indent=rest, break_on_hyphens=False)


def cited_by_all():
    """Returns the files of specs/ to which the contracts of all crates' public functions and traits lead."""
    files = {file: Source(file) for file in CRATES.glob("*/src/**/*.rt")}
    todo = []
    for file, source in files.items():
        heads = PUBLIC.findall(source.text)
        todo += [(file, word) for head in heads for word in cited_in(source, head)]
        todo += [(file, name) for name in re.findall(r"^pub trait (\w+)", source.text, re.M)]
    found = {file for file in followed(files, todo) if file.suffix == ".antt"}
    modules = (place_of(path)[0] for file in found for path in WHOLE_IMPORT.findall(file.read_text()))
    return found | {file for file in modules if file and file.suffix == ".antt"}


def rows_of_headline(specs):
    """Returns the rows of the table of the headline, of the files to which it leads."""
    rows = [("LINES", "OF", "FILE", "WHAT IT SAYS")]
    for at in in_order(specs):
        blocks, size = specs[at]
        rows.append((sum(code for code, _ in blocks.values()), size, str(at.relative_to(CRATES)), said_of(at)))
    return rows


def rows_of_functions():
    """Returns the rows of the table of the headline's clauses and of FUNCTIONS."""
    rows = [("LINES", "FILES", "CONTRACT", "OF")]
    for clause in CLAUSES:
        lines, _, files = total(cited(HEADLINE, "run", [clause]), "specs")
        rows.append((lines, files, "run." + clause, ""))
    for file, name, command in FUNCTIONS:
        lines, _, files = total(cited(CRATES / file, name, []), "specs")
        rows.append((tens(lines), files, name, command))
    return rows


def files_of_crates():
    """Returns for each crate with specs/ its files there, those of inner/, and those of both to which contracts lead."""
    led, found = cited_by_all(), {}
    for specs in sorted(CRATES.glob("*/specs")):
        files = {file for file in specs.rglob("*.antt") if file.stem not in ("Lib", "inner")}
        inner = {file for file in files if file.parent != specs}
        found[specs.parent.name] = (files - inner, inner, files & led)
    return found


def rows_of_crates():
    """Returns the rows of the table of crates. The files of inner/ that only connect the engine's fields with its view
    are left out."""
    rows, crates = [("FILES", "CRATE", "OF specs/inner/")], files_of_crates()
    for crate in filter(crates.get, crates_by_layer()):
        files, inner, led = crates[crate]
        inner = set() if crate == HEADLINE.relative_to(CRATES).parts[0] else inner & led
        rows.append((len(files | inner), crate, ", ".join(sorted(file.stem for file in inner))))
    return rows


def lists_of(found, met):
    """Yields the lines of the reading lists."""
    lines, _, files = total(found, "specs")
    declared, _, sources = total(found, "src")
    yield from wrapped(
        f"The headline's definitions are {lines} lines in {files} files, and {declared} lines of types in {sources} "
        "files of `src/`, without imports, blank lines and comments (OF: all lines):"
    )
    yield ""
    yield from table(rows_of_headline(part(found, "specs")))
    yield from ("", "Its clauses, and other contracts (rounded):", "")
    yield from table(rows_of_functions())
    yield ""
    for law, names, more, lines, files in laws_of(found, met):
        *first, last = (f"`{name}`" for name in names)
        crate, _, at = law[0].partition("/")
        plain = " and ".join(f"`{it}`" for it in PARAMETERS[law][0])
        yield from wrapped(
            f"These counts stop at {', '.join(first)} and {last} of `{crate}`: neither they nor what they use is "
            f"counted. The law `{law[1]}` in its `{at}` describes them: in plain terms by its clauses {plain}, "
            f"for which you read {more} more lines. To know them exactly takes {lines} lines in {files} files."
        )
        yield ""
    yield from ("The contracts of all crates together use these files of definitions:", "")
    yield from table(rows_of_crates())


def crates_by_layer():
    """Returns the crates, each after those that it uses."""
    text = (TOP / "crates.txt").read_text()
    uses = {row.split()[0].rstrip(":"): row.partition(":")[2].split() for row in text.splitlines() if row and row[0] != "#"}
    found = []

    def visit(crate):
        if crate in uses and crate not in found:
            for other in uses[crate]:
                visit(other)
            found.append(crate)

    for crate in uses:
        visit(crate)
    return found


def around_lists():
    """Returns the text of the document before the reading lists, the lists, and the text after them."""
    text = (TOP / LISTS).read_text()
    before, _, rest = text.partition(MARKERS[0] + "\n")
    written, found, after = rest.partition(MARKERS[1])
    return (before, written, after) if found else sys.exit(f"{LISTS} lacks the lines {MARKERS}")


def unused():
    """Yields the files of specs/ to which no contract leads."""
    for crate, (files, _, led) in files_of_crates().items():
        yield from (f"no contract leads to {file.relative_to(CRATES)}" for file in sorted(files - led))


def tens(lines):
    """Returns a number of lines, rounded to the nearest ten."""
    return (lines + 5) // 10 * 10


def differences(found, met):
    """Yields the differences between the documents and the tree."""
    yield from laws_astray()
    yield from rules_astray()
    yield from unused()
    there, wanted = around_lists()[1].strip("\n").splitlines(), list(lists_of(found, met))
    yield from (f"{LISTS} has: {row}" for row in there if row not in wanted)
    yield from (f"{LISTS} lacks: {row}" for row in wanted if row not in there)
    if sorted(there) == sorted(wanted) and there != wanted:
        yield f"{LISTS}: the order of lines"


def write(found, met):
    """Writes the reading lists into their document."""
    before, _, after = around_lists()
    lists = "\n".join(lists_of(found, met))
    (TOP / LISTS).write_text(f"{before}{MARKERS[0]}\n\n{lists}\n\n{MARKERS[1]}{after}")


def show(found, met):
    """Prints a line for each file, the totals, and for the parameters their laws with the totals of these."""
    for folder, what in (("specs", "definitions"), ("src", "declarations")):
        for at, (blocks, size) in part(found, folder).items():
            code, said = (sum(column) for column in zip(*blocks.values()))
            print(f"{code:4} +{said:3} of {size:4}  {at.relative_to(CRATES)}: {' '.join(blocks)}")
        lines, sentences, files = total(found, folder)
        print(f"{lines:4} +{sentences:3} lines of {what} in {files} files\n")
    for law, names, more, lines, files in laws_of(found, met):
        print(f"parameters that {law[1]} describes ({law[0]}): {' '.join(names)}")
        print(f"{more:4} more lines of definitions by {' '.join(PARAMETERS[law][0])}, {lines} lines in {files} files by all its clauses")


def main():
    if {"-h", "--help"} & {*sys.argv}:
        sys.exit(print(__doc__))
    if sys.argv[1:] == ["--write"]:
        return write(*cited_up_to(HEADLINE, "run", []))
    if sys.argv[1:] == ["--check"]:
        wrong = list(differences(*cited_up_to(HEADLINE, "run", [])))
        print("\n".join(wrong + [f"{int(not wrong)} passed, {len(wrong)} failed"]))
        sys.exit(1 if wrong else 0)
    file, function, *clauses = sys.argv[1:] or [HEADLINE, "run"]
    show(*cited_up_to(TOP / file, function, clauses))


main()
