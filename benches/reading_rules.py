"""The rules of compilation, read a second time by docs/rules.md: all that is broken of each group in each module.

It is part of the second reading (benches/reading.py) and was written from the documents.
"""
import reading_grammar as grammar
from reading_files import Fault, at_place
from reading_values import Evaluation, Names, NoValue, joined, values_of, whole_pattern

ENDLESS = "endless"


def counted(count, word="argument"):
    return f"{count} {word}" + ("" if count == 1 else "s")


def taken(least, most):
    """How many arguments are taken, as messages say it."""
    if most == ENDLESS:
        return f"at least {counted(least)}"
    return f"exactly {counted(least)}" if least == most else f"{least} to {counted(most)}"


def is_required(parameter):
    return parameter.default is None and parameter.kind != "*" and not parameter.flag


def is_option(parameter):
    return parameter.long is not None or parameter.short is not None


def is_variadic(parameter):
    return parameter.kind != ""


def kept_of(definitions):
    """Of definitions with their depths in join order, those of each name of least depth, and of these the last."""
    kept = {}
    for item, depth in definitions:
        if item.name not in kept or depth <= kept[item.name][1]:
            kept[item.name] = (item, depth)
    return {name: item for name, (item, _) in kept.items()}


def redefinitions(listed, allowed=lambda first, second: False, by_line=True):
    """Any two definitions that follow each other under one name: each (kind, item), as they are met."""
    faults, last = [], {}
    for kind, item in listed:
        if item.name in last:
            first, second = last[item.name], (kind, item)
            if by_line and second[1].place[1] < first[1].place[1]:
                first, second = second, first
            if not allowed(first[0], second[0]):
                faults.append(Fault("Redefinition", at_place(
                    second[1].place,
                    f"`{item.name}` is redefined as {second[0]}; it is first defined as {first[0]} on line "
                    f"{first[1].place[1] + 1} of this file or of another one of its module")))
        last[item.name] = (kind, item)
    return faults


def kind_of(item):
    return {grammar.Alias: "alias", grammar.Module: "module", grammar.Recipe: "recipe", grammar.Function:
            "function"}[type(item)]


def circles_of(steps):
    """All circles of a relation between names: each from each of its members on, which stands at both ends."""
    found = []

    def walk(path):
        for to in sorted(steps[path[-1]]):
            if to == path[0]:
                found.append(path + [to])
            elif to not in path and to in steps:
                walk(path + [to])
    for name in steps:
        walk([name])
    return found


class Judged:
    """A module that is judged: what is kept of it, what is broken group by group, and the modules in it."""

    def __init__(self, module):
        self.module = module
        self.path = module.path
        self.inner = [Judged(inner) for inner in module.inner]
        self.recipes = kept_of(module.recipes)
        self.variables = kept_of(module.variables)
        self.functions = {}
        for function in module.functions:
            self.functions.setdefault(function.name, function)
        self.names = Names(self.functions, {name: one.value for name, one in self.variables.items()})
        self.on = {setting.name: setting.on for setting in module.settings if setting.program is None}
        self.absent = {item.name for item in module.absent}
        self.aliases = {item.name: item for item in module.named if isinstance(item, grammar.Alias)}

    def find(self, name):
        return next((inner for inner in self.inner if inner.path[-1] == name), None)

    def is_on(self, setting):
        return bool(self.on.get(setting))

    def order(self):
        """The module, and those in it in the order of their names, each with those in it."""
        return [self] + [found for inner in sorted(self.inner, key=lambda inner: inner.path[-1]) for found in
                         inner.order()]

    # Where paths lead.

    def follow(self, names):
        """Where names lead through modules: ('in', module), ('absent', path) or none."""
        module = self
        for place, name in enumerate(names):
            inner = module.find(name)
            if inner is None:
                return ("absent", tuple(names[:place + 1])) if name in module.absent else None
            module = inner
        return ("in", module)

    def leads(self, path):
        """Where a path leads: ('recipe', module, name), ('absent', path) or none."""
        found = self.follow(path[:-1])
        if found is None or found[0] == "absent":
            return found
        return ("recipe", found[1], path[-1]) if path[-1] in found[1].recipes else None

    def disabling(self, name):
        """The paths of the modules that disable a kept recipe, each from where a dependency leads through it."""
        found, seen, left = set(), set(), [(self, name)]
        while left:
            module, one = left.pop()
            if (module.path, one) in seen:
                continue
            seen.add((module.path, one))
            for dependency in module.recipes[one].dependencies:
                to = module.leads([part for part, _ in dependency.path])
                if to is not None and to[0] == "absent":
                    found.add(to[1])
                elif to is not None:
                    left.append(to[1:])
        return found

    def stands(self, name):
        return not self.disabling(name)

    def standing(self):
        return [recipe for name, recipe in self.recipes.items() if self.stands(name)]

    def skipped(self, recipe):
        """The lines of a recipe that a shell skips, and those that begin a group."""
        skips, begins = [], []
        goes_on = False
        for line in recipe.body:
            if not goes_on:
                begins.append(line)
            comment = not goes_on and line.is_comment() and self.is_on("ignore-comments") and not recipe.is_script()
            if comment:
                skips.append(line)
            goes_on = line.goes_on() and not comment
        return skips, begins

    def scopes_of(self, recipe):
        """The expressions that a recipe reads, each with the names that are hidden there."""
        found = []
        for attribute in recipe.attributes:
            found += [(attribute.said[key], ()) for key in ("doc", "pattern") if key in attribute.said]
        names = []
        for parameter in recipe.parameters:
            if parameter.default is not None:
                found.append((parameter.default, tuple(names)))
            names.append(parameter.name)
        skips = self.skipped(recipe)[0]
        found += [(expression, tuple(names)) for line in recipe.body if line not in skips for expression in
                  line.expressions()]
        found += [(argument, tuple(names)) for one in recipe.dependencies for argument, _ in one.arguments]
        return found

    # The rules, group by group.

    def misnames(self, expression, hidden):
        """What is at fault with the names in an expression."""
        faults = []
        for part in grammar.all_in(expression):
            if part[0] == "name" and part[1] not in hidden and part[1] not in self.variables:
                faults.append(Fault("UndefinedVariable", at_place(part[2], f"Variable `{part[1]}` not defined")))
            elif part[0] == "call":
                takes = self.names.range_of(part[1])
                if takes is None:
                    faults.append(Fault("UndefinedFunction",
                                        at_place(part[3], f"Call to undefined function `{part[1]}`")))
                elif takes != len(part[2]):
                    faults.append(Fault("FunctionArgumentCountMismatch", at_place(
                        part[3], f"Function `{part[1]}` got {counted(len(part[2]))} but takes {taken(takes, takes)}")))
        return faults

    def headers(self):
        faults = []
        for recipe, _ in self.module.recipes:
            seen, default = set(), False
            for parameter in recipe.parameters:
                if parameter.name in seen:
                    faults.append(Fault("DuplicateParameter", at_place(
                        parameter.place, f"Recipe `{recipe.name}` has duplicate parameter `{parameter.name}`")))
                seen.add(parameter.name)
                if not is_option(parameter):
                    if default and is_required(parameter):
                        faults.append(Fault("RequiredParameterFollowsDefaultParameter", at_place(
                            parameter.place, f"Non-default parameter `{parameter.name}` follows default parameter")))
                    default |= parameter.default is not None
        last = {}
        for setting in self.module.settings:
            if setting.name in last:
                faults.append(Fault("DuplicateSet", at_place(
                    setting.place, f"Setting `{setting.name}` is set again; it is first set on line "
                    f"{last[setting.name].place[1] + 1} of this file or of another one of its module")))
            last[setting.name] = setting
        seen = set()
        for item in self.module.unexports:
            if item.name in seen:
                faults.append(Fault("DuplicateUnexport", at_place(
                    item.place, f"Variable `{item.name}` is unexported multiple times")))
            seen.add(item.name)
        return faults + redefinitions([(kind_of(item), item) for item in self.module.named])

    def names_group(self):
        faults, seen = [], set()
        unexported = {item.name for item in self.module.unexports}
        for variable, _ in self.module.variables:
            if variable.name in seen and not self.is_on("allow-duplicate-variables"):
                faults.append(Fault("DuplicateVariable", at_place(
                    variable.place, f"Variable `{variable.name}` has multiple definitions")))
            seen.add(variable.name)
            if variable.name in unexported:
                faults.append(Fault("ExportUnexported", at_place(
                    variable.place, f"Variable `{variable.name}` is both assigned and unexported")))
        for function in self.module.functions:
            seen = set()
            for name, place in function.parameters:
                if name in seen:
                    faults.append(Fault("DuplicateFunctionParameter", at_place(
                        place, f"Function `{function.name}` has duplicate parameter `{name}`")))
                seen.add(name)
        return faults + redefinitions([("function", function) for function in self.module.functions], by_line=False)

    def expressions(self):
        faults = [fault for one in self.variables.values() for fault in self.misnames(one.value, ())]
        for function in self.functions.values():
            faults += self.misnames(function.body, {name for name, _ in function.parameters})
        steps = {name: self.names.reads(one.value, ()) for name, one in self.variables.items()}
        for circle in circles_of(steps):
            told = (f"Variable `{circle[0]}` is defined in terms of itself" if len(circle) == 2 else
                    f"Variable `{circle[0]}` depends on its own value: `{' -> '.join(circle)}`")
            faults.append(Fault("CircularVariableDependency", at_place(self.variables[circle[0]].place, told)))
        return faults

    def module_docs(self):
        """The docs of the modules that this one declares: of several the first counts."""
        found = []
        for inner in self.module.inner:
            docs = [attribute.said["doc"] for attribute in inner.declared.attributes if attribute.kind == "doc"]
            found += docs[:1]
        return found

    def sayings(self, recipe):
        """The docs and patterns of a recipe."""
        return [attribute.said[key] for attribute in recipe.attributes for key in ("doc", "pattern") if key in
                attribute.said]

    def value(self, expression):
        """What an expression comes to among the constants, or none where it has no value."""
        try:
            return Evaluation(self.names, self.values).value(expression, {})
        except NoValue:
            return None

    def constants(self):
        programs = [expression for setting in self.module.settings for expression in setting.program or []]
        faults = [fault for expression in programs for fault in self.misnames(expression, ())]
        asked = programs + self.module_docs() + [one for recipe, _ in self.module.recipes for one in
                                                 self.sayings(recipe)]
        needed = self.names.needs(set().union(*(self.names.reads(expression, ()) for expression in asked)))
        try:
            self.values = values_of(self.names, needed)
        except NoValue:
            return faults + [Fault("Evaluate")]
        return faults + [Fault("Evaluate") for expression in programs if self.value(expression) is None]

    def bodies(self):
        faults = []
        if not self.is_on("lists"):
            faults += [Fault("ListFeature", at_place(place, "A list needs the setting `lists`, which is off"))
                       for place in self.module.list_places]
        for doc in self.module_docs():
            faults += self.misnames(doc, ())
            faults += [Fault("Evaluate")] if self.value(doc) is None else []
        listed = [(kind_of(item), item) for item in self.module.named] + [("recipe", recipe) for recipe, _ in
                                                                          self.module.recipes]
        twice = self.is_on("allow-duplicate-recipes")
        faults += redefinitions(listed, lambda first, second: twice and first == second == "recipe")
        for recipe, _ in self.module.recipes:
            for line in [] if recipe.is_script() else self.skipped(recipe)[1]:
                if not line.front():
                    continue
                place = line.fragments[0][2]
                if {"?", "-"} <= set(line.sigils()):
                    faults.append(Fault("GuardAndInfallibleSigil", at_place(
                        place, "The sigils `?` and `-` may not stand before one line")))
                if line.front()[0] in grammar.BLANKS:
                    faults.append(Fault("ExtraLeadingWhitespace",
                                        at_place(place, "The line has extra leading whitespace")))
        return faults

    def takes(self, recipe):
        """How many arguments a recipe takes from a dependency of this module."""
        least = sum(map(is_required, recipe.parameters))
        if any(map(is_variadic, recipe.parameters)) and not self.is_on("lists"):
            return least, ENDLESS
        return least, len(recipe.parameters)

    def dependencies(self):
        faults, steps = [], {}
        for name, recipe in self.recipes.items():
            steps[name] = set()
            for dependency in recipe.dependencies:
                path = [part for part, _ in dependency.path]
                place, shown = dependency.path[-1][1], "::".join(path)
                to = self.leads(path)
                if to is None:
                    faults.append(Fault("UnknownDependency",
                                        at_place(place, f"Recipe `{name}` has unknown dependency `{shown}`")))
                elif to[0] == "recipe" and to[1] is self:
                    steps[name].add(to[2])
                if not self.stands(name) or to is None:
                    continue
                if any(starred for _, starred in dependency.arguments) and not self.is_on("lists"):
                    faults.append(Fault("MappedDependencyWithoutListsSetting", at_place(
                        place, "A dependency with a starred argument needs the setting `lists`, which is off")))
                least, most = self.takes(to[1].recipes[to[2]])
                count = len(dependency.arguments)
                if count < least or most != ENDLESS and count > most:
                    faults.append(Fault("DependencyArgumentCountMismatch", at_place(
                        place, f"Dependency `{shown}` got {counted(count)} but takes {taken(least, most)}")))
        for circle in circles_of(steps):
            last = self.recipes[circle[-2]]
            told = (f"Recipe `{circle[0]}` depends on itself" if len(circle) == 2 else
                    f"Recipe `{last.name}` has circular dependency `{' -> '.join(circle)}`")
            faults += [Fault("CircularRecipeDependency", at_place(dependency.path[-1][1], told))
                       for dependency in last.dependencies if [part for part, _ in dependency.path] == [circle[0]]]
        return faults

    def recipes_group(self):
        faults = []
        for recipe in self.standing():
            faults += [fault for expression, hidden in self.scopes_of(recipe) for fault in
                       self.misnames(expression, hidden)]
            faults += [Fault("Evaluate") for one in self.sayings(recipe) if self.value(one) is None]
            for attribute in recipe.attributes:
                value = self.value(attribute.said["pattern"]) if "pattern" in attribute.said else None
                if value and whole_pattern(joined(value)) is None:
                    faults.append(Fault("ArgumentPatternRegex", at_place(
                        attribute.said["pattern place"], "Failed to parse argument pattern")))
        return faults

    def aliases_group(self):
        faults = []
        for alias in self.aliases.values():
            path = [part for part, _ in alias.target]
            if self.follow(path) is None and self.leads(path) is None:
                faults.append(Fault("UnknownAliasTarget", at_place(
                    alias.place, f"Alias `{alias.name}` has unknown target `{'::'.join(path)}`")))
        marked = sorted((recipe for recipe in self.standing() if recipe.has("default")),
                        key=lambda recipe: (recipe.place[1], recipe.name))
        return faults + [Fault("DuplicateDefault", at_place(
            recipe.place, f"Recipe `{recipe.name}` has attribute `default`, as another recipe of its module has"))
            for recipe in marked[1:]]

    def judge(self):
        """All that an error may name of this module and those in it: what is broken where the groups before hold."""
        told = [fault for inner in self.inner for fault in inner.judge()]
        inside = bool(told)
        groups = [self.headers, self.names_group, self.expressions, self.constants, self.bodies, self.dependencies,
                  self.recipes_group, self.aliases_group]
        for rank, group in enumerate(groups):
            if rank and inside:
                break
            broken = group()
            if broken:
                return told + broken
        return told

    # What stands.

    def calls_built_in(self):
        """Whether something calls the built-in function."""
        expressions = [function.body for function in self.functions.values()]
        expressions += [one for recipe in self.recipes.values() for one, _ in self.scopes_of(recipe)]
        return any(part[0] == "call" and part[1] == "is_dependency" for one in expressions for part in
                   grammar.all_in(one))

    def default(self):
        """The default recipe, or none."""
        standing = self.standing()
        marked = [recipe for recipe in standing if recipe.has("default")]
        own = self.module.own_name
        lines = sorted(((recipe.place[1], recipe.name) for recipe in standing if recipe.place[0] == own),
                       key=lambda line: line[0])
        if marked:
            return marked[0].name
        return lines[0][1] if lines else None

    def pattern_of(self, recipe, parameter):
        """The pattern of a parameter, or none."""
        for attribute in recipe.attributes:
            if attribute.kind == "arg" and attribute.said["name"] == parameter.name and "pattern" in attribute.said:
                value = self.value(attribute.said["pattern"])
                return joined(value) if value else None
        return None
