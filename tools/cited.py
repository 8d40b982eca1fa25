"""The definitions of the `specs` folders that a definition or a contract cites, and the definitions that these cite: a
reader of it must believe them."""

import re
from pathlib import Path

TOP = Path(__file__).resolve().parents[1]

USE = re.compile(r"^(pub )?use ([\w.]+?)(?:\.\{(.*)\})?(?: as (\w+))?$")
BEGINS = re.compile(r"^( *)(?:abbrev |unfoldable )?pub (?:(?:record|data) )?([^\s:{(]+)")
NAMES = re.compile(r"(?<![\w.'◌])([A-Za-z_][\w']*)((?:\.[A-Za-z_][\w']*)*)")


class Scope:
    """The names that a file imports, and its short names for modules. `texts` has the definitions of its own."""

    def __init__(self):
        self.texts, self.names, self.modules = {}, {}, {}

    def bring(self, use, beneath=""):
        """Adds the names of an import. A relative path begins at the module `beneath`."""
        path = use[2] if use[2].startswith("Rattle.") else f"{beneath}.{use[2]}"
        if use[3] is None:
            self.modules[use[4] or path.split(".")[-1]] = path
            return
        for part in use[3].split(","):
            name, _, here = part.strip().partition(" as ")
            if re.match(r"\w", name):
                self.names[here or name] = (path, name)


class File(Scope):
    """One file of definitions, with the text of each."""

    def __init__(self, crate, path, specs):
        super().__init__()
        self.crate, self.path = crate, path
        self.module = ".".join(path.relative_to(specs).with_suffix("").parts)
        self.sections = {}
        text = path.read_text()
        self.length = len(text.splitlines())
        last, section = None, ""
        for line in text.splitlines():
            code = re.sub(r"(^|\s+)--( .*)?$", "", line)
            use, begun = USE.match(line), BEGINS.match(line)
            if use:
                self.bring(use, f"Rattle.{crate}.specs.{self.module}")
            elif line.startswith("module _"):
                section, last = code, None
            elif begun and begun[2] not in ("mod", "use") and not (begun[1] and self.is_field(last, begun)):
                last = begun[2]
                section = section if begun[1] else ""
                self.texts[last], self.sections[last] = [code], section
            elif last and code.strip():
                self.texts[last].append(code)

    def is_field(self, last, begun):
        """Whether an indented `pub NAME` is a field of the record before it, and no definition of a section."""
        if last is None:
            return False
        head = self.texts[last][0]
        return "record " in head.split(":")[0] and len(begun[1]) > len(head) - len(head.lstrip())


class Library:
    """All files of definitions of this repository's crates."""

    def __init__(self):
        self.files = {}
        for specs in sorted((TOP / "crates").glob("*/specs")):
            for path in sorted(specs.rglob("*.antt")):
                file = File(specs.parent.name, path, specs)
                self.files[f"Rattle.{file.crate}.specs.{file.module}"] = file

    def found(self, module, name):
        """The file and the name under which a module's name is defined. For a type of the code it is its module
        and None."""
        if ".declared." in module:
            return re.sub(r"\.TheVariants$", "", module), None
        file = self.files.get(module)
        if file is None:
            outer, _, short = module.rpartition(".")
            outer = self.files.get(outer)
            return self.found(outer.modules[short], name) if outer and short in outer.modules else None
        if name in file.texts:
            return file, name
        if name in file.names:
            return self.found(*file.names[name])
        if name in file.modules:
            return self.found(file.modules[name], name)
        return None

    def named(self, scope, head, rest):
        """The meaning of a word in the text of a file."""
        if head in scope.texts:
            return scope, head
        if head in scope.names:
            path, name = scope.names[head]
            inner = self.files.get(path)
            if inner and name in inner.modules and rest:
                return self.found(inner.modules[name], rest[0])
            return self.found(path, name)
        if head in scope.modules and rest:
            return self.found(scope.modules[head], rest[0])
        return None

    def cited_in(self, scope, text):
        """The definitions that a text in a file cites. A name that it binds counts as the definition of that name,
        if there is one."""
        for head, tail in NAMES.findall(text):
            what = self.named(scope, head, tail.split(".")[1:])
            if what:
                yield what

    def cited_by(self, file, name):
        """The definitions that a definition cites, without itself."""
        text = "\n".join([file.sections[name], *file.texts[name]])
        return [what for what in self.cited_in(file, text) if what != (file, name)]

    def definition(self, path):
        """The definition with this path."""
        module, _, name = path.rpartition(".")
        found = self.found(module, name)
        if found is None:
            raise KeyError(f"there is no definition {path}")
        return found

    def below(self, starts):
        """All definitions that these rest on, with these, and the types of the code among them."""
        seen, types, left = set(), set(), list(starts)
        while left:
            what = left.pop()
            if what[1] is None:
                types.add(what[0])
            elif what not in seen:
                seen.add(what)
                left.extend(self.cited_by(*what))
        return seen, types
