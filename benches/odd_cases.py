"""Makes odd bundles with words, each from its seed: tame ones, which are mostly right, wild ones, and single lines.

benches/odd.py compares the program with a second reading on them. A tame case has up to three modules and a few files,
with few names, so that these meet: recipes that share what they depend on, in diamonds and as subsequents; names that
modules, recipes, aliases and variables have in common; duplicates; absent modules; options; and words that fit, or
nearly.
"""
import random
from dataclasses import dataclass, field

import odd_small

RECIPES = ["a", "b", "c", "d", "e", "_p", "k-1"]
MODULES = ["m", "n", "o"]
VARIABLES = ["x", "y", "z", "v"]
FUNCTIONS = ["f", "g", "h"]
PARAMETERS = ["p", "q", "x", "a"]
TEXTS = ["", "a", "b", "1", "a b", " ", "-v", "--", "é", "x=1", "@", "\\", "y"]
PATTERNS = ["a", "a|b", "[0-9]+", ".*", "[a-z]*", "(a|1)?", "", "a b", "-.*", "1|", "(", "[", "*a", "a)|(?:b"]
ODD = ["\0", "\r", "\u2028", "\ufeff", "\u0085", "\u00a0", "“", "’", "\"", "`", "'", "{{", "}}", "{", "::", ":", ":=",
       "=", "&&",
       "&", "@", "+", "*", "(", ")", "[", "]", ",", "?", "#", "#!", "\\", "\t", " ", "  ", "é", "$", "-", "/", "~/",
       "..", "1",
       "\n", "\n ", "\n\n", "import", "mod", "set", "alias", "true", "flag", "--- ", "--- /x\n", "x", "a", "\x7f",
       "\U0001f600"]
PIECES = ["a", "b", "x", "m", "import", "mod", "set", "quiet", "lists", "shell", "unexport", "export", "eager", "alias",
          "true",
          "false", "default", "private", "confirm", "doc", "arg", "group", "long", "short", "pattern", "flag", "'a'",
          "'x'", "''",
          "'é'", ":", ":", "::", ":=", ":=", "=", "&&", "@", "+", "*", "(", ")", "[", "]", ",", "?", "'", "&", "#", "$",
          "1", "\r",
          "\"", "é", "::b", "(b", "*(b", "m::b", "x='1'", "+y", "*z", "f(", "f()", "[arg('x'", "[doc(", "{{", "}}"]


@dataclass
class Case:
    kind: str
    root: str
    words: list
    given: bytes


@dataclass
class Callee:
    """A recipe as words and dependencies see it: its path, and what its parameters are."""
    path: list
    parameters: list
    disabled: bool = False


@dataclass
class Given:
    name: str
    kind: str
    default: bool
    long: str = None
    short: str = None
    flag: bool = False
    pattern: str = None


@dataclass
class Scope:
    """The names that a module has."""
    variables: list = field(default_factory=list)
    functions: dict = field(default_factory=dict)
    lists: bool = False
    on: set = field(default_factory=set)
    callees: list = field(default_factory=list)
    aliases: list = field(default_factory=list)
    inner: list = field(default_factory=list)
    absent: list = field(default_factory=list)


class Maker:
    def __init__(self, seed):
        self.random = random.Random(seed)
        self.files, self.scopes, self.running = {}, {}, False
        self.oddness = self.random.choice([0, 0, 0, 0.005, 0.02])

    def scope(self):
        return Scope()

    def chance(self, likely):
        return self.random.random() < likely

    def odd(self):
        return self.chance(self.oddness)

    def pick(self, some):
        return self.random.choice(some)

    def some(self, some, most):
        return self.random.sample(some, min(self.random.randint(0, most), len(some)))

    def quoted(self):
        return "'" + self.pick(TEXTS) + "'"

    # Expressions.

    def operand(self, scope, names, depth):
        kind = self.random.random()
        if kind < 0.4 or depth == 0:
            if names and self.chance(0.6):
                return self.pick(names)
            return self.quoted()
        if kind < 0.55 and scope.functions:
            name = self.pick(list(scope.functions))
            count = scope.functions[name] if not self.odd() else self.random.randint(0, 2)
            return f"{name}({', '.join(self.expression(scope, names, depth - 1) for _ in range(count))})"
        if kind < 0.6:
            return "is_dependency()" if self.running and self.chance(0.6) or self.odd() else self.quoted()
        if kind < 0.65 and self.odd():
            return self.pick(["nosuch", "nosuch()", "m", "f", "is_dependency('a')", "f('a', 'b')"])
        if kind < 0.8 and (scope.lists or self.odd()):
            return "[" + ", ".join(self.expression(scope, names, depth - 1) for _ in
                                   range(self.random.randint(0, 3))) + "]"
        if kind < 0.9:
            return "(" + self.expression(scope, names, depth - 1) + ")"
        return self.quoted()

    def expression(self, scope, names, depth=2):
        found = self.operand(scope, names, depth)
        while self.chance(0.2):
            found += self.pick([" + ", "+"]) + self.operand(scope, names, depth)
        return found

    # Modules.

    def settings(self, scope, lines):
        for name, likely in (("allow-duplicate-recipes", 0.25), ("allow-duplicate-variables", 0.2), ("export", 0.08),
                             ("ignore-comments", 0.2), ("lazy", 0.25), ("lists", 0.3), ("positional-arguments", 0.03),
                             ("quiet", 0.1)):
            if self.chance(likely):
                on = self.chance(0.85)
                scope.on |= {name} if on else set()
                scope.lists |= name == "lists" and on
                lines.append(f"set {name}" + self.pick(["", " := true"]) * on + " := false" * (not on))
                if self.odd():
                    lines.append(f"set {name}")

    def variables(self, scope, lines):
        names = self.some(VARIABLES, 3)
        known = list(names) if self.odd() else []
        reading = self.chance(0.4)
        for name in self.some(FUNCTIONS, 2):
            parameters = self.some(PARAMETERS, 2)
            if self.chance(0.1):
                scope.functions[name] = len(parameters)
            if self.odd() and parameters:
                parameters.append(parameters[0])
            body = self.expression(scope, parameters + names * reading, 1)
            lines.append(f"{name}({', '.join(parameters)}) := {body}")
            scope.functions[name] = len(parameters)
            if self.odd():
                lines.append(f"{name}() := 'a'")
        functions = scope.functions
        for name in names:
            scope.functions = {} if reading and not self.odd() else functions
            value = self.expression(scope, known)
            scope.functions = functions
            lines.append(self.pick(["", "", "", "export ", "eager "]) + f"{name} := {value}")
            known.append(name)
            if self.chance(0.3 if "allow-duplicate-variables" in scope.on else self.oddness):
                lines.append(f"{name} := {self.expression(scope, known)}")
        scope.variables = list(known)
        if self.chance(0.05):
            lines.append("unexport " + self.pick(VARIABLES if self.odd() else ["u", "w"]))
        if self.chance(0.05):
            setting = self.pick(["shell", "script-interpreter"])
            lines.append(f"set {setting} := ['sh', {self.expression(scope, known, 1)}]")

    def parameters(self, scope):
        found, default = [], False
        for name in self.some(PARAMETERS, 3):
            kind = self.pick(["", "", "", "", "+", "*"])
            default = self.chance(0.3) or default and self.chance(0.8)
            given = Given(name, kind, default)
            if self.chance(0.25):
                if self.chance(0.7):
                    given.long = self.pick([name, "out", "é", "x-y"])
                if self.chance(0.5):
                    given.short = self.pick([name[0], "o", "v", "é", "-"])
                given.flag = self.chance(0.3)
            if self.chance(0.12):
                given.pattern = self.pick(PATTERNS[:10]) if not self.odd() else self.pick(PATTERNS)
            found.append(given)
        if self.odd() and found:
            found.append(found[0])
        return found

    def attributes(self, scope, parameters):
        lines = []
        for name, likely in (("private", 0.04), ("default", 0.06), ("confirm", 0.1), ("no-quiet", 0.05),
                             ("parallel", 0.02),
                             ("group('g')", 0.02)):
            if self.chance(likely):
                lines.append(f"[{name}]")
        for _ in range(self.pick([0] * 14 + [1, 1, 2])):
            lines.append(f"[doc({self.expression(scope, scope.variables, 1)})]")
        for given in parameters:
            said = []
            if given.long is not None:
                said.append(f"long='{given.long}'")
            if given.short is not None:
                said.append(f"short='{given.short}'")
            if given.flag:
                said.append("flag")
            if given.pattern is not None:
                said.append(f"pattern='{given.pattern}'")
            if said:
                self.random.shuffle(said)
                lines.append(f"[arg({', '.join([repr(given.name), *said])})]")
        self.random.shuffle(lines)
        return lines

    def dependency(self, scope, callees, names):
        if self.odd() or not callees:
            return self.pick(["nosuch", "m::nosuch", "a", "b", "m", "m::a", "o::a",
                              "(d 'a' 'b')"]) if self.odd() else None
        callee = self.pick(callees)
        path = "::".join(callee.path)
        least = sum(1 for given in callee.parameters if not given.default and given.kind != "*" and not given.flag)
        variadic = any(given.kind for given in callee.parameters) and not scope.lists
        count = self.random.randint(least, max(least, len(callee.parameters) + variadic))
        if self.odd():
            count += self.pick([-1, 1])
        arguments = [self.operand(scope, names, 1) for _ in range(count)]
        for n in range(1, len(arguments)):
            if arguments[n].startswith("(") and arguments[n - 1][-1] not in "')]" and not self.odd():
                arguments[n] = self.quoted()
        star = arguments and (scope.lists and self.chance(0.3) or self.odd())
        if star:
            for n in {self.random.randrange(count), self.random.randrange(count)}:
                arguments[n] = "*" + (self.pick(names) if names and self.chance(0.4) else "['1', 'a']")
        if not arguments and self.chance(0.9):
            return path
        return "*" * bool(star) + f"({' '.join([path, *arguments])})"

    def body(self, scope, names):
        lines = []
        indent = self.pick(["  ", "\t", " "])
        script = self.chance(0.1)
        if script:
            lines.append(indent + self.pick(["#!/bin/sh", "#!sh -e", "#! x", "#!", "#!{{ 'x' }}", "#!/x {{ 'y' }}",
                                             "#!  "]))
        for _ in range(self.random.randint(0, 3)):
            value = "{{ " + self.expression(scope, names, 1) + " }}"
            line = self.pick(["echo " + value, "@" + value, "x", value, "@-", "-x", "?x", "# c", "# " + value + " \\",
                              "x \\",
                              value + "\\", "@?y", "@@x", "- x", "", value + value, "#", "\\", "''' {{ 'a}}' }}"])
            if self.odd():
                line = self.pick(["?-x", "  x", " {{ 'a' }}", "-@?x", "{{", "{{ }}", "#!x"])
            lines.append(indent + line)
            if self.chance(0.05):
                lines.append(self.pick(["", "# note", indent * 2, " "]))
        return lines

    def recipe(self, scope, name, callees):
        parameters = self.parameters(scope)
        if not self.odd():
            required = [given for given in parameters if not given.default]
            parameters = required + [given for given in parameters if given.default] if self.chance(0.9) else parameters
        names = scope.variables + [given.name for given in parameters]
        heading, known = self.pick(["", "", "", "", "@"]) + name, list(scope.variables)
        for given in parameters:
            heading += f" {given.kind}{given.name}" + (f"={self.operand(scope, known, 1)}" if given.default else "")
            known.append(given.name)
        self.running = True
        priors = [one for one in (self.dependency(scope, callees, names) for _ in range(self.pick([0, 1, 1, 2, 3]))) if
                  one]
        later = [one for one in (self.dependency(scope, callees, names) for _ in range(self.pick([0, 0, 0, 1, 2]))) if
                 one]
        heading += self.pick([":", " :"]) + "".join(" " + one for one in priors)
        heading += "".join(" " + one for one in ["&&"] * bool(later) + later)
        body = self.body(scope, names) if self.chance(0.7) else []
        self.running = False
        return self.attributes(scope, parameters) + [heading] + body, Callee([name], parameters)

    def module(self, folder, file, depth):
        """Makes the files of a module, and answers its scope."""
        scope, lines = Scope(), []
        names = self.some(MODULES, 2 if depth == 0 else 1) if depth < 2 and self.chance(0.6) else []
        for name in names:
            lines.append(self.declared(scope, folder, name, depth))
        self.settings(scope, lines)
        self.variables(scope, lines)
        callees = [Callee([name] + one.path, one.parameters, one.disabled) for name, inner in scope.inner for one in
                   inner.callees]
        blocks = [[line] for line in lines]
        for name in self.random.sample(RECIPES, self.pick([1, 2, 3, 4, 5] if depth == 0 else [0, 1, 1, 2, 3])):
            if scope.absent and self.chance(0.15):
                away = Callee([self.pick(scope.absent), "a"], [], True)
            else:
                away = None
            block, callee = self.recipe(scope, name, callees + [away] * bool(away))
            blocks.append(block)
            callees.append(callee)
            scope.callees.append(callee)
            if self.chance(0.3 if "allow-duplicate-recipes" in scope.on else self.oddness):
                blocks.append(self.recipe(scope, name, callees[:-1])[0] if self.chance(0.5) else
                              [f"{name}:", "  @again"])
        for name in self.some(["s", "t", "a", "m"] if self.odd() else ["s", "t"], 2):
            targets = callees + [Callee([inner], None) for inner, _ in scope.inner] + [Callee([one], []) for one in
                                                                                       scope.absent]
            if targets:
                target = self.pick(targets)
                path = "::".join(target.path) if not self.odd() else self.pick(["nosuch", "t", "a"])
                blocks.append([f"alias {name} := {path}"])
                scope.aliases.append(Callee([name], target.parameters or []))
                if target.parameters is None:
                    inner = dict(scope.inner)[target.path[0]]
                    scope.aliases += [Callee([name] + one.path, one.parameters) for one in inner.callees +
                                      inner.aliases]
        self.random.shuffle(blocks)
        self.spread(folder, file, blocks)
        return scope

    def declared(self, scope, folder, name, depth):
        """A line that declares a module, whose files are made."""
        mark = self.pick(["", "", "?"])
        if mark and self.chance(0.5) or self.odd():
            scope.absent.append(name)
            return f"mod{mark} {name}"
        path, shown = self.pick([(f"{name}.just", None), (f"{name}/mod.just", None), (f"{name}/JustFile", None),
                                 (f"w/{name}", f"w/{name}"), ("shared", "./shared"),
                                 (f"w/{name}/.justfile", f"w/{name}")])
        path = (folder + "/" + path).replace("//", "/")
        if path not in self.files:
            self.files[path] = None
            self.scopes[path] = self.module(path[:path.rindex("/")] or "/", path, depth + 1)
        elif path not in self.scopes or not shown:
            return f"mod? {name} 'none'"
        scope.inner.append((name, self.scopes[path]))
        line = f"mod{mark} {name}" + (f" '{shown}'" if shown else "")
        docs = [f"[doc({self.expression(scope, [], 1)})]" for _ in range(self.pick([0] * 12 + [1, 2]))]
        return "\n".join(docs + ["[private]"] * self.chance(0.05) + [line])

    def spread(self, folder, file, blocks):
        """Puts blocks of lines into the module's own file, and some into files that it imports."""
        for n in range(self.pick([0, 0, 0, 1, 2])):
            path = (folder + f"/i{n}").replace("//", "/")
            if path in self.files and not self.odd() or path == file:
                continue
            mine = [block for block in blocks if self.chance(0.3) and not any("mod" in line for line in block)]
            blocks = [block for block in blocks if block not in
                      mine] + [[self.pick(["import", "import?"]) + f" 'i{n}'"]]
            self.files[path] = self.text(mine)
            if self.odd():
                blocks.append(["import " + self.pick(["'i0'", "'./i1'", "'nosuch'", "'~/x'", "'../justfile'", "''"])])
        self.random.shuffle(blocks)
        self.files[file] = self.text(blocks)

    def text(self, blocks):
        gap = self.pick(["", "", "\n", "# note\n"])
        return gap.join("".join(line + "\n" for line in block) for block in blocks)

    # Words.

    def argument(self, given):
        if given.pattern is not None and self.chance(0.8):
            return {"a": "a", "a|b": "b", "[0-9]+": "12", ".*": "é", "[a-z]*": "ab", "(a|1)?": "1", "": "", "a b":
                    "a b",
                    "-.*": "-x", "1|": "1"}.get(given.pattern, "a")
        return self.pick(TEXTS + ["a", "b", "m", "a::b", "-o", "x\ny"])

    def invocation(self, callee):
        words = ["::".join(callee.path)] if self.chance(0.5) else list(callee.path)
        options, positional = [], []
        for given in callee.parameters:
            if (given.default and self.chance(0.4) or given.kind == "*" and self.chance(0.4)
                    or given.flag and self.chance(0.5)):
                continue
            times = self.random.randint(1, 3) if given.kind else 1
            if given.long is None and given.short is None:
                positional += [self.argument(given) for _ in range(times)]
                continue
            for _ in range(times):
                switch = "--" + given.long if given.long is not None else "-" + given.short
                if given.short is not None and self.chance(0.4):
                    switch = "-" + given.short
                text = self.argument(given)
                options.append([switch] if given.flag else self.pick([[switch, text], [switch + "=" + text]]))
        for option in options:
            at = self.random.randint(0, len(positional))
            positional[at:at] = option
        if options and self.chance(0.15):
            positional.insert(self.random.randint(0, len(positional)), self.pick(["--", "-o", "-vo", "--out", "-"]))
        return words + positional

    def words(self, scope):
        callees = scope.callees + scope.aliases
        for name, inner in scope.inner:
            callees = callees + [Callee([name] + one.path, one.parameters) for one in inner.callees + inner.aliases]
            callees += [Callee([name], []), Callee([name] + [deeper for deeper, _ in inner.inner[:1]],
                                                   [])] * self.chance(0.1)
            for deeper, innermost in inner.inner:
                callees += [Callee([name, deeper] + one.path, one.parameters) for one in innermost.callees +
                            innermost.aliases]
        found = []
        for _ in range(self.pick([self.chance(0.5), 1, 1, 1, 2, 2, 3])):
            if callees:
                found += self.invocation(self.pick(callees))
        if self.chance(0.12):
            found = self.odd_words(found)
        return found

    def odd_words(self, words):
        words = list(words)
        at = self.random.randint(0, len(words))
        kind = self.random.randrange(4)
        if kind == 0 and words:
            del words[at % len(words)]
        elif kind == 1 and words:
            words[at % len(words)] += self.pick(["::", ":", "::a", "=", "\n", " ", "é", "\r"])
        else:
            words.insert(at, self.pick(["a", "m", "m::a", "nosuch", "::", "m::", "--", "-", "", "o", "o::a", "s",
                                        "a::b", "n a",
                                        "--x=1", "-x", "é", "k-1", "x\u2028"]))
        return words


def bundle_of(files):
    return "".join(f"--- {path}\n{text}" for path, text in files.items())


def tame(seed):
    maker = Maker(seed)
    root = maker.pick(["/justfile", "/justfile", "/d/justfile"])
    maker.files[root] = None
    scope = maker.module(root[:root.rindex("/")] or "/", root, 0)
    return Case("tame", root, maker.words(scope), bundle_of(maker.files).encode())


def mutated(maker, given):
    """A bundle with one change: of lines, of characters or of bytes."""
    kind = maker.random.randrange(8)
    if kind < 4:
        lines = given.split(b"\n")
        at, other = maker.random.randrange(len(lines)), maker.random.randrange(len(lines))
        if kind == 0:
            del lines[at]
        elif kind == 1:
            lines.insert(other, lines[at])
        elif kind == 2:
            lines[at], lines[other] = lines[other], lines[at]
        else:
            lines[at] = maker.pick([b" ", b"\t", b"#", b"@", b""]) + lines[at]
        return b"\n".join(lines)
    at = maker.random.randint(0, len(given))
    if kind == 4:
        return given[:at] + given[at + maker.random.randint(1, 3):]
    if kind == 5 and maker.chance(0.1):
        return given[:at] + maker.pick([b"\xff", b"\xc3", b"\xe2\x80", b"\xed\xa0\x80", b"\xc0\x80"]) + given[at:]
    return given[:at] + maker.pick(ODD).encode() + given[at + (kind == 6):]


def wild(seed):
    case = tame(seed)
    maker = Maker(f"wild {seed}")
    for _ in range(maker.pick([1, 1, 1, 2, 3])):
        case.given = mutated(maker, case.given)
    if maker.chance(0.2):
        case.words = maker.odd_words(case.words)
    case.kind = "wild"
    return case


def odd_lines(seed):
    """Random lines of pieces, and lines of a tame case with a piece changed, under a recipe or without one."""
    maker = Maker(f"lines {seed}")
    lines = []
    if maker.chance(0.5):
        first = maker.pick(bytes.decode(tame(seed).given).split("\n")[1:])
        pieces = first.split(" ")
        if maker.chance(0.7):
            at = maker.random.randrange(len(pieces))
            change = maker.pick([[], [maker.pick(PIECES)], [pieces[at], maker.pick(PIECES)],
                                 [maker.pick(PIECES), pieces[at]]])
            pieces[at:at + 1] = change
        lines.append(" ".join(pieces))
    else:
        for _ in range(maker.pick([1, 1, 2])):
            join = maker.pick(["", " ", " ", "\t"])
            lines.append(join.join(maker.pick(PIECES) for _ in range(maker.random.randint(1, 8))))
    if maker.chance(0.2):
        lines = ["b x:", *("  " + line for line in lines)]
    elif maker.chance(0.2):
        lines.insert(0, "b x:")
    return Case("lines", "/justfile", maker.pick([["a"], [], ["b", "1"]]),
                ("--- /justfile\n" + "\n".join(lines) + maker.pick(["\n", "\na:\n", ""])).encode())


def small(kind, seed):
    """A small case; some are changed as wild ones are."""
    maker = Maker(f"{kind} {seed}")
    maker.root = "/justfile"
    words = odd_small.KINDS[kind](maker)
    given = bundle_of(maker.files).encode()
    if maker.chance(0.05):
        given = mutated(maker, given)
    return Case(kind, maker.root, words, given)


ROUND = ["tame", "tame", "tame", "wild", "wild", "lines", *odd_small.KINDS]


def case_of(seed):
    kind = ROUND[seed % len(ROUND)]
    made = {"tame": tame, "wild": wild, "lines": odd_lines}
    return made[kind](seed) if kind in made else small(kind, seed)
