"""The public functions of the crates, and the definitions that their contracts cite."""

import re
from dataclasses import dataclass
from pathlib import Path

import sources
from cited import USE, Scope

# A function that may be public: of a module, or of an impl block or a trait.
FUNCTION = re.compile(r"(pub (?:unsafe )?|    pub (?:unsafe )?|    )fn (\w+)")
# A generic parameter with the traits that it has.
BOUND = re.compile(r"\b([A-Z]\w*): ((?:\w|[ +:]|<[^<>]*>)+)")
IMPORT = re.compile(r"^ *ghost (use [^;]*);", re.M)


@dataclass(frozen=True)
class Function:
    """A public function or method: its path, its place, the head of its impl block or trait, and its text."""

    path: str
    file: Path
    line: int
    head: str
    signature: str
    contract: str


def head_above(lines, at):
    """The head of the block that this line is in."""
    start = max(row for row in range(at) if re.match(r"\S", lines[row]))
    end = next(row for row in range(start, at) if lines[row].endswith("{"))
    return " ".join(line.strip() for line in lines[start : end + 1]).removesuffix(" {")


def owner(head):
    """The type of an impl block, or a trait, with its arguments."""
    if head.startswith("pub trait "):
        return re.match(r"pub trait (\w+)", head)[1]
    depth, text = 0, head.removeprefix("impl")
    for place, letter in enumerate(text):
        depth += (letter == "<") - (letter == ">" and text[place - 1] != "-")
        if depth == 0 and letter in "> ":
            return text[place + 1 :].strip().rpartition(" for ")[2]
    return text.strip()


def functions(name):
    """The public functions and methods of this name, in all crates."""
    for file in sorted(sources.CRATES.glob("*/src/**/*.rt")):
        lines = sources.lines_of(file)
        for at, line in enumerate(lines):
            found = FUNCTION.match(line)
            if not found or found[2] != name:
                continue
            head = head_above(lines, at) if line.startswith(" ") else ""
            if "pub" not in found[1] and not head.startswith("pub trait "):
                continue
            path = "::".join(part for part in (sources.module_of(file), owner(head) if head else "", name) if part)
            yield Function(path, file, at + 1, head, *sources.function(lines, at))


def has_path(function, wanted):
    """Whether a function's path ends with these parts. A type may have one of its arguments, as in
    `Shared<RecordedHistory>`, or none."""
    parts = re.sub(r"<.*>", lambda found: found[0].replace("::", "."), function.path).split("::")
    if len(wanted) > len(parts):
        return False
    for part, said in zip(reversed(parts), reversed(wanted)):
        name, _, arguments = part.partition("<")
        said_name, _, argument = said.partition("<")
        if said_name != name or argument and argument.rstrip(">") not in re.findall(r"\w+", arguments):
            return False
    return True


def function(path):
    """The public function with this path, of which the first parts may be missing."""
    wanted = path.split("::")
    found = [function for function in functions(wanted[-1]) if has_path(function, wanted)]
    if len(found) == 1:
        return found[0]
    if not found:
        raise KeyError(f"there is no definition and no public function {path}")
    places = [f"\n    {one.path} ({one.file.relative_to(sources.TOP)}:{one.line})" for one in found]
    raise KeyError(f"{len(found)} public functions have the name {path}; write more of its path:{''.join(places)}")


def scope_of(file):
    """What a file of code imports for its contracts."""
    scope = Scope()
    for found in IMPORT.finditer(file.read_text()):
        use = USE.match(re.sub(r"\s+", " ", found[1]))
        if use:
            scope.bring(use)
    return scope


def members(file, trait):
    """The ghost members of a trait, each with the file that declares it and its type, also those of the traits that
    it extends. `file` declares or imports the trait."""
    origin = sources.names_in(file).get(trait, "").rpartition("::")[0]
    declared = sources.file_of(origin) if origin else None
    text = declared.read_text() if declared else ""
    found = re.search(rf"^pub trait {trait}\b([^{{]*)\{{\n(.*?)^\}}", text, re.M | re.S)
    if not found:
        return {}
    types = {}
    for extended in re.findall(r"\b[A-Z]\w*", found[1]):
        types |= members(declared, extended)
    for name, said in re.findall(r"^    ghost (\w+): \{(.*?)\};", found[2], re.M | re.S):
        types[name] = declared, said
    return types


def ghosts(function):
    """The types of the ghost members that a contract uses: of a trait's own, and of the traits that its generic
    parameters have. Each comes with the file that declares it."""
    if function.head.startswith("pub trait "):
        for name, (file, said) in members(function.file, owner(function.head)).items():
            if re.search(rf"(?<![\w.]){name}\b", function.contract):
                yield file, said
    for parameter, traits in BOUND.findall(f"{function.head}\n{function.signature}"):
        for trait in re.findall(r"\b[A-Z]\w*", traits):
            for name, (file, said) in members(function.file, trait).items():
                if re.search(rf"\b{parameter}\.{name}\b", function.contract):
                    yield file, said


def cited_by(function, library):
    """The definitions that a function's contract cites, also those in the types of its ghost members."""
    found = set(library.cited_in(scope_of(function.file), function.contract))
    for file, said in ghosts(function):
        found.update(library.cited_in(scope_of(file), said))
    return found
