"""Small odd cases, each kind about one thing: joined files, names that meet, runs, options, values, and searches for
files.

They belong to benches/odd_cases.py. Each is made by a maker, which has a source of chance of the case's own.
"""


def file_of(maker, lines):
    maker.random.shuffle(lines)
    return "".join(line + "\n" for line in lines)


def joined(maker):
    """Files that import each other, with the same few definitions in each: which is kept shows in the output."""
    names = ["/justfile", "/i", "/j", "/k", "/d/l"][:maker.random.randint(2, 5)]
    files = {}
    for n, path in enumerate(names):
        lines = []
        for to in names[n + 1:] if not maker.chance(0.03) else names:
            for _ in range(maker.pick([0, 1, 1, 1, 2])):
                up = ".." if path.startswith("/d/") else "."
                lines.append(f"import{maker.pick(['', '?'])} '{maker.pick([to, up + to, to])}'")
        for recipe in maker.some(["a", "b", "c"], 3):
            for _ in range(maker.pick([1, 1, 2])):
                mark = maker.pick(["", "", "", "[default]\n", "[confirm]\n", f"[doc('{n}')]\n"])
                depends = maker.pick(["", "", "", "", " b", " && c", " (b)"]) if recipe == "a" else ""
                lines.append(f"{mark}{recipe}:{depends}\n  @echo {recipe}{n} {{{{ x }}}} {maker.random.randrange(9)}")
        for _ in range(maker.pick([0, 1, 1, 2])):
            lines.append(f"{maker.pick(['', 'export ', 'eager '])}x := '{n}{maker.random.randrange(9)}'")
        if maker.chance(0.05):
            lines.append(maker.pick(["f() := 'a'", "unexport x", "set quiet", "alias a := b", "x := ['a']",
                                     "mod m 'k'"]))
        files[path] = lines
    for setting in ("allow-duplicate-recipes", "allow-duplicate-variables"):
        if maker.chance(0.9):
            files[maker.pick(names)].append(f"set {setting}")
    if maker.chance(0.3):
        files = {path if path != "/justfile" else "/m.just": lines for path, lines in files.items()}
        files["/justfile"] = ["mod m", "a: m::a"]
    maker.files = {path: file_of(maker, lines) for path, lines in files.items()}
    return maker.pick([[], ["a"], ["b", "c"], ["a", "b", "c"], ["m", "a"], ["m::b"], ["m"]])


def names(maker):
    """Modules, absent modules, aliases and recipes of the same few names, and words of these."""
    some = ["m", "n", "a", "b", "c"]

    def lines(inner):
        """The lines of a file over the paths that its modules have, and the paths that it has."""
        found, paths, recipes = [], [], []
        for name in maker.random.sample(some, maker.random.randint(2, 5)):
            if maker.chance(0.04):
                name = maker.pick(some)
            near = maker.pick(paths or ["none"]) if maker.chance(0.97) else maker.pick(some) + "::a"
            deps = [one for one in paths if one not in aliases] or ["none"]
            kind = maker.random.randrange(9)
            if kind < 3 and inner:
                file = maker.pick(sorted(inner))
                found.append(f"mod{maker.pick(['', '?'])} {name} '{file}'")
                paths += [name + "::" + one for one in inner[file]]
                modules.append(name)
            elif kind < 4:
                found.append(f"mod? {name}")
                absent.append(name)
                paths.append(name + "::" + maker.pick(some))
                if maker.chance(0.2):
                    found.append(f"{name}:")
            elif kind < 6 and (paths or modules):
                found.append(f"alias {name} := {maker.pick([near, near] + modules[-1:] + absent[-1:])}")
                aliases.append(name)
            else:
                mine = [f"{name}:", f"{name}: {maker.pick(deps)}", f"{name}: && {maker.pick(deps)} {maker.pick(deps)}",
                        f"{name}: {maker.pick(deps)} && {maker.pick(deps)}", f"[default]\n{name} p='1':"]
                found.append(maker.pick(mine if paths else mine[:1]))
                recipes.append(name)
                paths.append(name)
        return found, paths + aliases

    files, inner = {}, {}
    for path in ["z", "y", "x", "justfile"]:
        modules, absent, aliases = [], [], []
        found, paths = lines(dict(inner))
        files["/" + path], inner[path] = found, paths
    maker.files = {path: file_of(maker, found) for path, found in files.items()}
    words = []
    for _ in range(maker.pick([0, 1, 1, 2, 3])):
        path = maker.pick(inner["justfile"] + modules +
                          absent) if maker.chance(0.8) else maker.pick(some) + "::" + maker.pick(some)
        path += maker.pick(["", "", "", "", "::", "::" + maker.pick(some)])
        words += [path] if maker.chance(0.5) else [name for name in path.split("::") if name]
    return words


def runs(maker):
    """A few recipes that share what they depend on, before and after, with arguments."""
    count = maker.random.randint(3, 6)
    every = "abcdef"[:count]
    takes = {name: maker.pick(["", "", "x", "x='1'", "*x", "+x='2'"]) for name in every}
    lists = maker.chance(0.3)
    lines = ["set lists"] if lists else []
    lines += maker.pick([[], [], [], ["f() := is_dependency()"], ["f() := 'f'"]])
    for n, name in enumerate(every):
        def dependency():
            to = maker.pick(every[n + 1:])
            if not takes[to]:
                return maker.pick([to, to, f"({to})"])
            mine = ["x"] if takes[name] else []
            values = ["'1'", "'2'", "'1'", "is_dependency()"] + mine + (["['1', '2']", "[]", "['3']"] if lists else [])
            if lists and maker.chance(0.3):
                return f"*({to} *{maker.pick(values)})"
            if takes[to] != "x" and maker.chance(0.3):
                return to
            many = takes[to][0] in "*+" and not lists
            return f"({to} {' '.join(maker.pick(values) for _ in range(maker.random.randint(1, 2 if many else 1)))})"
        priors = [dependency() for _ in range(maker.pick([0, 1, 2, 2, 3]))] if n + 1 < count else []
        later = [dependency() for _ in range(maker.pick([0, 0, 1, 1, 2]))] if n + 1 < count else []
        heading = f"{name} {takes[name]}: {' '.join(priors)}" + (" && " + " ".join(later) if later else "")
        block = maker.pick([[], [], [], ["[confirm]"]]) + [heading]
        if maker.chance(0.4):
            block.append("  " + maker.pick(["@", ""]) + f"{name} {{{{ is_dependency() }}}}" + " {{ x }}" *
                         bool(takes[name]))
        lines.append("\n".join(block))
    maker.files = {"/justfile": file_of(maker, lines)}
    words = []
    for _ in range(maker.random.randint(1, 3)):
        name = maker.pick(every)
        words += [name] + ([maker.pick(["1", "2", "true"])] if takes[name] and (takes[name] == "x" or maker.chance(0.5))
                           else [])
    return words


def options(maker):
    """A recipe with options, and words that are nearly right for it."""
    lines, heading, default = [], "r", False
    for name in maker.some(["p", "q", "s", "t"], 4):
        said = []
        if maker.chance(0.6):
            said = maker.pick([["long='x'"], ["short='x'"], ["short='y'"], ["long='x'", "short='y'"], ["long='y'"],
                               ["short='-'"],
                               ["long='x=y'"], ["long=''"], ["short='='"], ["long='-'"], ["short='é'"],
                               ["long='x y'", "short='x'"]])
            said = said + ["flag"] * maker.chance(0.3)
        elif maker.chance(0.1):
            said = ["flag"]
        if maker.chance(0.15):
            said = said + [f"pattern='{maker.pick(['1', '[0-9]*', 'x|1', '', '-.*'])}'"]
        if said:
            lines.append(f"[arg('{name}', {', '.join(said)})]")
        default = maker.chance(0.4) or default and "long" not in str(said) and "short" not in str(said)
        heading += " " + maker.pick(["", "", "", "*", "+"]) + name + "='d'" * default
    lines += [heading + ":", "  @{{ is_dependency() }}" + "".join(f" {{{{ {name} }}}}" for name in "pqst" if f"{name}"
                                                                  in heading[1:])]
    lines = ["\n".join(lines), "a:", "alias b := r"]
    maker.files = {"/justfile": file_of(maker, lines)}
    some = ["1", "2", "x", "-x", "-y", "--x", "--y", "-x=1", "--x=1", "--y=", "-xy", "-yx=2", "-xx", "--", "-", "---",
            "-=", "--=1",
            "-x=", "-é", "--x y=1", "", "a", "r", "--z", "-z", "=", "-y=1=2", "--x==", "-1"]
    text = "".join(lines)
    right = ["1", "2"] + [front + name + back for front, key in (("--", "long"), ("-", "short")) for name in
                          ("x", "y", "-", "é")
                          if f"{key}='{name}'" in text for back in ("", "=1", "=", "=-")]
    words = ["r"]
    for _ in range(maker.random.randint(0, 5)):
        words.append(maker.pick(right) if maker.chance(0.85) else maker.pick(some))
    return words + maker.pick([[], [], ["a"], ["r", "1"]])


def values(maker):
    """Lines with expressions over variables, functions and parameters, and dependencies that hand lists on."""
    scope = maker.scope()
    scope.lists = maker.chance(0.6)
    lines = ["set lists"] * scope.lists + ["set lazy"] * maker.chance(0.3) + ["set export"] * maker.chance(0.1)
    lines += ["set ignore-comments"] * maker.chance(0.3)
    maker.variables(scope, lines)
    maker.running = True
    block = []
    for _ in range(maker.random.randint(1, 4)):
        block.append("  " + maker.pick(["@", "", "-", "# ", "@?", ""]) + "".join(
            maker.pick(["{{ %s }}" % maker.expression(scope, scope.variables + ["p", "q"], 3), "x", " ", "\\", "}}"])
            for _ in range(maker.random.randint(1, 4))) + maker.pick(["", "", "\\"]))
    if maker.chance(0.2):
        block.insert(0, "  #!" + maker.pick(["sh", " sh  -c", "{{ 'sh' }}", "\t", "\u00a0", "\\", "{{ p }}"]))
    first = maker.operand(scope, scope.variables + ["p"], 2)
    heading = f"r p q={first} *o={maker.operand(scope, scope.variables + ['q'], 2)}:"
    lines.append("\n".join([maker.pick(["", "@"]) + heading] + block))
    arguments = " ".join("'" + maker.pick(["a", "1", ""]) + "'" for _ in range(maker.random.randint(1, 3)))
    star = "*(r *['1', 'b'] " + maker.operand(scope, scope.variables, 1).replace("(", "['").replace(")", "']") + ")"
    lines.append(f"s: (r {arguments})" + " " + star * (scope.lists and maker.chance(0.3)))
    maker.files = {"/justfile": file_of(maker, lines)}
    return maker.pick([["s"], ["r", "1"], ["r", "a", "b"], ["r", "", "x", "y", "z"], ["r", "1", "r", "2"],
                       ["s", "r", "1"]])


def search(maker):
    """Imports and modules with odd paths, and the files that these may mean."""
    paths = ["m.just", "m/mod.just", "m/justfile", "m/JUSTFILE", "m/.justfile", "m/Mod.just", "m", "M.just", "mod.just",
             "x", "y",
             "x/mod.just", "d/x", "d/m.just", "d/justfile", "d/x/.Justfile", "mod.just/justfile"]
    asked = ["x", "./x", "../x", "d/x", "d/../x", "/x", "//x", "x/", "d", "d/", "", ".", "..", "/", "m", "M", "~/x",
             "~", "d//x",
             "../../x", "x ", "/d/x", "mod.just", "./d/./x", "y", "none"]
    maker.files = {}
    for path in ["justfile"] + maker.some(paths, 6):
        lines = [f"{maker.pick(['a', 'b', 'c'])}:\n  @{path}"] * maker.chance(0.8)
        for _ in range(maker.pick([1, 2]) if path == "justfile" else maker.pick([0, 0, 1])):
            optional = maker.pick(["", "?", "?"])
            lines.append(maker.pick([f"import{optional} '{maker.pick(asked)}'", f"mod{optional} m", f"mod{optional} d",
                                     f"mod{optional} {maker.pick(['m', 'x'])} '{maker.pick(asked)}'",
                                     f"mod{optional} x"]))
        maker.files["/" + path] = file_of(maker, lines)
    maker.root = "/justfile" if maker.chance(0.9) else maker.pick(["/d/x", "/m/mod.just", "/d/../justfile", "justfile",
                                                                   "/"])
    return maker.pick([[], ["a"], ["m", "a"], ["m::b"], ["m"], ["x", "a"], ["b", "c"]])


KINDS = {"joined": joined, "names": names, "runs": runs, "options": options, "values": values, "search": search}
