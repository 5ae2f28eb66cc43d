"""Bundles, paths and files, read a second time by docs/rules.md and docs/definitions.md: which files a root reaches,
what is broken of the rules of files, and the modules that the files make.

It is part of the second reading (benches/reading.py) and was written from the documents.
"""
from dataclasses import dataclass, field

import reading_grammar as grammar


class BundleFault(Exception):
    """Why an input is no bundle."""


@dataclass(frozen=True)
class Fault:
    """A broken rule: the name of its error and the message that is told, or none where only the name is known."""
    name: str
    message: str = None


def at_place(place, text):
    """A message with its place, counted from 1."""
    file, line, column = place
    return f"{file}:{line + 1}:{column + 1}: {text}"


def is_clean(path):
    parts = path.split("/")
    return path.startswith("/") and all(part not in ("", ".", "..") for part in parts[1:])


def files_of(text):
    """The files of a bundle."""
    files, path = {}, None
    lines = text.split("\n")
    for number, line in enumerate(lines):
        ended = number + 1 < len(lines)
        if line.startswith("--- "):
            path = line[4:]
            if not is_clean(path):
                raise BundleFault(f"Line {number + 1} of the input begins a file at `{path}`, which is not a "
                                  "clean path: "
                                  "that begins with `/`, and no part of it is empty, `.` or `..`")
            files[path] = ""
        elif path is None:
            if line or ended:
                raise BundleFault("The input does not begin with a line `--- PATH`")
        else:
            files[path] += line + ("\n" if ended else "")
    return files


def folder_of(path):
    return path[:path.rindex("/")] or "/"


def components(path):
    return [part for part in path.split("/") if part]


def clean_join(folder, text):
    """The path to which a text leads from a folder."""
    found = []
    for part in (components(text) if text.startswith("/") else components(folder) + components(text)):
        if part == "..":
            found = found[:-1]
        elif part != ".":
            found.append(part)
    return "/" + "/".join(found)


def lower(text):
    return "".join(chr(ord(letter) + 32) if "A" <= letter <= "Z" else letter for letter in text)


def candidates(files, folder, name, path):
    """The files that a module can have, in the order of their components."""
    found = []
    if path is not None:
        at = clean_join(folder, path)
        if at in files:
            return [at]
    else:
        at = clean_join(folder, name)
        found = [at + ".just"] if at + ".just" in files else []
    inside = components(at)
    for file in files:
        parts = components(file)
        if parts[:-1] == inside and (parts[-1] == "mod.just" or lower(parts[-1]) in ("justfile", ".justfile")):
            found.append(file)
    return sorted(found, key=components)


def shown_from(folder, path):
    """A path, from a folder where it lies below that."""
    inside, parts = components(folder), components(path)
    return "/".join(parts[len(inside):]) if len(parts) > len(inside) and parts[:len(inside)] == inside else path


class Link:
    """Where an item leads: a path, a fault, or neither."""

    def __init__(self, path=None, fault=None):
        self.path, self.fault = path, fault


def link(files, folder, item):
    """Where an import or a module leads, from the folder of its file."""
    if item.path is not None and item.path.startswith("~/"):
        return Link(fault=Fault("Homedir",
                                "The path of an import or of a module begins with `~/`, and no home folder is known"))
    if isinstance(item, grammar.Import):
        path = clean_join(folder, item.path)
        if path in files:
            return Link(path)
        return Link() if item.optional else Link(fault=Fault("MissingImportFile", at_place(
            item.place, f"Could not find source file for import '{item.path}', which `import?` would let be absent")))
    found = candidates(files, folder, item.name, item.path)
    if len(found) > 1:
        shown = ", ".join(f"`{shown_from(folder, path)}`" for path in found)
        return Link(fault=Fault("AmbiguousModuleFile", at_place(
            item.place, f"Found multiple source files for module `{item.name}`, which may have one: {shown}")))
    if found:
        return Link(found[0])
    return Link() if item.optional else Link(fault=Fault("MissingModuleFile", at_place(
        item.place,
        f"Could not find source file for module `{item.name}`, looked for as the file at its path, or without a "
        f"path as `{item.name}.just`, and as `mod.just`, `justfile` or `.justfile` in the folder of its path or name")))


class Files:
    """The files that a root reaches: the items of each, where those lead, and what is broken of the rules of files."""

    def __init__(self, files, root):
        self.files, self.root = files, root
        self.items, self.links, self.faults = {}, {}, []
        left = [root]
        while left:
            path = left.pop()
            if path in self.items:
                continue
            self.items[path], self.links[path] = self.read(path)
            left += [found for found in self.links[path] if found is not None]
        self.faults += self.circles()

    def relative(self, path):
        """The path of a file, from the folder of the root's."""
        return shown_from(folder_of(self.root), path)

    def read(self, path):
        try:
            items = grammar.items_of(self.relative(path), self.files[path])
        except grammar.SyntaxFault as fault:
            told = "The line does not follow the grammar" + (f", at `{fault.told}`" if fault.told else "")
            self.faults.append(Fault("Syntax", at_place((self.relative(path), fault.line, fault.column), told)))
            return [], []
        links = []
        for item in items:
            found = Link()
            if isinstance(item, (grammar.Import, grammar.Module)):
                found = link(self.files, folder_of(path), item)
            if found.fault is not None:
                self.faults.append(found.fault)
            links.append(found.path)
        return items, links

    def reached_from(self, path):
        """The files to which one or more edges lead."""
        found, left = set(), [path]
        while left:
            for to in self.links[left.pop()]:
                if to is not None and to not in found:
                    found.add(to)
                    left.append(to)
        return found

    def circles(self):
        """Each edge that is part of a circle of files."""
        reached = {path: self.reached_from(path) for path in self.items}
        return [Fault("CircularImport",
                      f"File `{path}` leads back to itself: it imports `{to}`, or has it as the file of a module")
                for path in self.items for to in self.links[path]
                if to is not None and (to == path or path in reached[to])]


@dataclass
class ModuleOf:
    """A module: its path, its own file, its files in join order with their depths, and what they say."""
    path: tuple
    own: str
    own_name: str
    declared: grammar.Module = None
    files: list = field(default_factory=list)
    recipes: list = field(default_factory=list)
    functions: list = field(default_factory=list)
    variables: list = field(default_factory=list)
    settings: list = field(default_factory=list)
    unexports: list = field(default_factory=list)
    named: list = field(default_factory=list)
    absent: list = field(default_factory=list)
    inner: list = field(default_factory=list)
    list_places: list = field(default_factory=list)


def join_order(files, own):
    """The files of a module by levels, each with its level: an imported file at its last import of the level before."""
    order, level, rows = {own: 0}, 0, [own]
    while rows:
        level += 1
        found = [to for path in rows for item, to in zip(files.items[path], files.links[path])
                 if isinstance(item, grammar.Import) and to is not None and to not in order]
        rows = [to for n, to in enumerate(found) if to not in found[n + 1:]]
        order.update((to, level) for to in rows)
    return list(order.items())


def all_expressions(item):
    """Whatever expressions an item has, but the bracket of a program that is set."""
    if isinstance(item, grammar.Variable):
        return [item.value]
    if isinstance(item, grammar.Function):
        return [item.body]
    if isinstance(item, grammar.Setting):
        return item.program or []
    if not isinstance(item, (grammar.Recipe, grammar.Module)):
        return []
    found = [attribute.said[key] for attribute in item.attributes for key in ("doc", "pattern") if key in
             attribute.said]
    if isinstance(item, grammar.Recipe):
        found += [parameter.default for parameter in item.parameters if parameter.default is not None]
        found += [argument for one in item.dependencies for argument, _ in one.arguments]
        found += [expression for line in item.body for expression in line.expressions()]
    return found


def module_of(files, path, own, declared=None):
    """The module of an own file, with those in it."""
    module = ModuleOf(path, own, files.relative(own), declared, join_order(files, own))
    for file, level in module.files:
        for item, to in zip(files.items[file], files.links[file]):
            module.list_places += [found[2] for expression in all_expressions(item) for found in
                                   grammar.all_in(expression)
                                   if found[0] == "list"]
            if isinstance(item, grammar.Recipe):
                module.recipes.append((item, level))
            elif isinstance(item, grammar.Variable):
                module.variables.append((item, level))
            elif isinstance(item, grammar.Function):
                module.functions.append(item)
            elif isinstance(item, grammar.Setting):
                module.settings.append(item)
            elif isinstance(item, grammar.Unexport):
                module.unexports.append(item)
            elif isinstance(item, grammar.Alias):
                module.named.append(item)
            elif isinstance(item, grammar.Module) and to is None:
                module.absent.append(item)
            elif isinstance(item, grammar.Module):
                module.named.append(item)
                module.inner.append(module_of(files, path + (item.name,), to, item))
    return module
