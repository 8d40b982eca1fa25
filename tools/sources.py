"""The public items of the Rattle library in its sources: declarations, words, contracts and methods."""

import re
from dataclasses import dataclass, field
from functools import cache
from pathlib import Path

TOP = Path(__file__).resolve().parents[1]
CRATES = TOP / "crates"
LIBRARY = "balsaeuchre"

ITEM = re.compile(r"pub (struct|enum|trait|fn|const|type) (\w+)")
METHOD = re.compile(r"(?:pub )?(fn|const) (\w+)")
CLAUSE = re.compile(r"^ *(requires|ensures)\b")
GHOST_USE = re.compile(r"^ *ghost use Rattle\.([\w.]+?)(?:\.\{(.*)\})?(?: as \w+)?;", re.M)
PLAIN_USE = re.compile(r"^(?:pub )?use ([\w:]+?)(?:::\{(.*?)\}| as (\w+))?;", re.M | re.S)


@dataclass
class Item:
    """An item or a method: its source, its words, and for a type the contents of its impl blocks."""

    kind: str
    name: str
    origin: str  # the path of the module that declares it
    file: Path
    line: int
    words: list
    signature: str
    contract: str = ""
    methods: list = field(default_factory=list)
    traits: list = field(default_factory=list)
    within: str = ""  # for a method, the head of its impl block


def file_of(path):
    """The file of a module, by its path; none if there is no such module."""
    crate, *modules = path.split("::")
    file = CRATES.joinpath(crate, "src", *(modules or ["lib"])).with_suffix(".rt")
    return file if file.is_file() else None


def module_of(file):
    crate, _, *modules = file.relative_to(CRATES).with_suffix("").parts
    return "::".join([crate, *([] if modules == ["lib"] else modules)])


@cache
def lines_of(file):
    return file.read_text().splitlines()


def head_words(file):
    """The words at the head of a module."""
    return [line[4:] for line in lines_of(file) if line.startswith("//!")]


def words_above(lines, at):
    found = []
    while at > 0 and re.match(r" *(///|#\[)", lines[at - 1]):
        at -= 1
        if lines[at].lstrip().startswith("///"):
            found.insert(0, lines[at].strip()[4:])
    return found


def function(lines, at):
    """The signature of the function that begins here, and its contract."""
    indent = re.match(" *", lines[at])[0]
    signature, contract = [], []
    for line in lines[at:]:
        if line in (indent + "{", indent + "{}"):
            break
        inside = contract or CLAUSE.match(line)
        (contract if inside else signature).append(line)
        last = "};" if inside else (" {", ";")
        if line.endswith(last):
            break
    ends = re.compile(r"(?: \{(?: \})?|;)$")
    return tuple(ends.sub("", "\n".join(part)).rstrip() for part in (signature, contract))


def block(lines, at):
    """The lines of a declaration that isn't a function."""
    indent = re.match(" *", lines[at])[0]
    if lines[at].endswith((";", "}")):
        return lines[at : at + 1]
    end = next(end for end in range(at + 1, len(lines)) if re.match(indent + r"\S", lines[end]))
    return lines[at : end + 1]


def unindented(lines):
    text = lines if isinstance(lines, str) else "\n".join(lines)
    indent = re.match(" *", text)[0]
    return re.sub(rf"^{indent}", "", text, flags=re.M)


def clauses(contract):
    """A contract with its clauses at the left."""
    first = re.search(r"^ *(?=requires|ensures)", contract, re.M)
    return re.sub(rf"^{first[0]}", "", contract, flags=re.M) if first else ""


def made(found, file, at, lines):
    """The item whose declaration begins at a line."""
    kind, name = found[1], found[2]
    if kind == "fn":
        signature, contract = function(lines, at)
    else:
        text = block(lines, at)
        signature, contract = "\n".join(text), ""
    words = words_above(lines, at)
    item = Item(kind, name, module_of(file), file, at + 1, words, unindented(signature), clauses(contract))
    if kind == "trait":
        inside(item, text, at)
    return item


def after_function(text, at):
    """The line after a function of a trait. A function without a body ends with a semicolon, its contract's
    too; another ends with the brace of its body."""
    while not text[at].endswith(";") and text[at] not in ("    {", "    {}"):
        at += 1
    return (text.index("    }", at) if text[at] == "    {" else at) + 1


def inside(trait, text, start):
    """Moves the functions of a trait out of its declaration."""
    kept, lines, at = [], lines_of(trait.file), 0
    while at < len(text):
        found = re.match(r"    (fn) (\w+)", text[at])
        if not found:
            kept.append(text[at])
            at += 1
            continue
        trait.methods.append(made(found, trait.file, start + at, lines))
        while kept and re.match(r" *(///|$)", kept[-1]):
            kept.pop()
        at = after_function(text, at)
    trait.signature = "\n".join(kept)


@cache
def items_of(file):
    """The public items that a file declares, by name, without their methods."""
    lines = lines_of(file)
    found = {}
    for at, line in enumerate(lines):
        match = ITEM.match(line)
        if match:
            found[match[2]] = made(match, file, at, lines)
    return found


def without_brackets(text):
    """The text without the parts between angle brackets."""
    out, depth = "", 0
    for place, letter in enumerate(text):
        depth += letter == "<"
        out += letter if depth == 0 else ""
        depth -= letter == ">" and text[place - 1] != "-"
    return out


def impls(crate):
    """Each impl block of a crate: its file, the number of its line from 0, the type and the trait, or none."""
    for file in sorted((CRATES / crate / "src").rglob("*.rt")):
        for at, line in enumerate(lines_of(file)):
            found = re.match(r"impl (?:(\w+) for )?(\w+) \{", without_brackets(line).replace("impl  ", "impl "))
            if found:
                yield file, at, found[2], found[1]
            elif line.startswith("bitflag_items!"):
                yield file, at, re.search(r"impl (\w+)", lines_of(file)[at + 1])[1], line


@cache
def impls_of(crate):
    return list(impls(crate))


def add_methods(item):
    """Gives a type the methods and traits of its crate's impl blocks."""
    for file, at, name, trait in impls_of(item.origin.split("::")[0]):
        if name != item.name or not (item.file == file or knows(file, item)):
            continue
        lines = block(lines_of(file), at)
        if trait:
            text = "\n".join(lines)
            item.traits.append(text if trait == "Model" or "!" in trait else lines[0].removesuffix(" {"))
            continue
        for place in range(at, at + len(lines)):
            found = re.match(r"    pub (fn|const) (\w+)", lines_of(file)[place])
            if found:
                method = made(found, file, place, lines_of(file))
                method.within = lines[0].removesuffix(" {")
                item.methods.append(method)


@cache
def names_in(file, handed_on=False):
    """The full path of each name that a file declares or imports, or, with `handed_on`, that it exports."""
    module = module_of(file)
    names = {name: f"{module}::{name}" for name in items_of(file)}
    for found in PLAIN_USE.finditer(file.read_text()):
        if handed_on and not found[0].startswith("pub "):
            continue
        path = re.sub(r"^crate\b", module.split("::")[0], found[1])
        path = re.sub(r"^super\b", module.rpartition("::")[0], path)
        for part in found[2].split(",") if found[2] else []:
            name, _, here = part.strip().partition(" as ")
            names[here or name] = f"{path}::{name}"
        if not found[2]:
            names[found[3] or path.split("::")[-1]] = path
    return names


def knows(file, item):
    """Whether a file's name for an item means that item: the file imports the item, or is below the module that
    declares it."""
    path = f"{item.origin}::{item.name}"
    return names_in(file).get(item.name) == path or module_of(file).startswith(item.origin + "::")


def resolved(path):
    """The items of a path: one, or for a module all items that it declares."""
    module, _, name = path.rpartition("::")
    file = file_of(module)
    if file and name in items_of(file):
        return {name: items_of(file)[name]}
    return dict(items_of(file_of(path)))


def modules():
    """The modules of the library: path, head words, and items by their path there."""
    for file in sorted((CRATES / LIBRARY / "src").glob("*.rt"), key=lambda file: (file.stem != "lib", file.stem)):
        path = module_of(file)
        if file.stem != "lib" and f"pub mod {file.stem};" not in lines_of(CRATES / LIBRARY / "src/lib.rt"):
            continue
        items, below = {}, []
        for name, origin in names_in(file, handed_on=True).items():
            found = resolved(origin)
            if name in found:
                items[f"{path}::{name}"] = found[name]
            else:
                inner = f"{path}::{name}"
                below.append((inner, head_words(file_of(origin)), {f"{inner}::{n}": item for n, item in found.items()}))
        yield path, head_words(file), items
        yield from below


@cache
def cited_names(file):
    """The definitions that a file's contracts may name: each name with the module of its definition."""
    names = {}
    for found in GHOST_USE.finditer(file.read_text()):
        for part in (found[2] or "").split(","):
            name, _, here = part.strip().partition(" as ")
            names[here or name] = (f"Rattle.{found[1]}", name)
    return names
