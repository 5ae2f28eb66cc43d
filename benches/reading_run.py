"""The run, read a second time by docs/rules.md and docs/definitions.md: the modules are opened, and then come the first
occurrences of the unshared expansion, up to the first step that fails.

It is part of the second reading (benches/reading.py) and was written from the documents.
"""
from dataclasses import dataclass

from reading_files import Fault
from reading_rules import is_variadic
from reading_values import Evaluation, NoValue, Unsure, joined, values_of

MOST_PARTS = 20_000

# What is trimmed of a shebang: the white space of ASCII.
WHITE = " \t\n\f\r"


class RunFault(Exception):
    """The step that fails."""

    def __init__(self, name, message):
        super().__init__(name)
        self.fault = Fault(name, message)


def no_value():
    return RunFault("Evaluate", "The expression has no value")


@dataclass(frozen=True)
class Task:
    path: tuple
    recipe: str
    groups: tuple
    dependency: bool

    def pair(self):
        return self.path, self.recipe, self.groups


@dataclass
class Part:
    """A part of an expansion: the asking of a task, or its block. What it prints, and the fault that it ends with."""
    kind: str
    task: Task
    lines: list
    fault: Fault = None


class Run:
    """A run over a root that is judged: the values of its modules, and what is printed."""

    def __init__(self, root, invocations):
        self.modules = {module.path: module for module in root.order()}
        self.tops = [Task(one.module.path, one.recipe, one.groups, False) for one in invocations]
        self.lines, self.fault, self.parts = [], None, 0

    def go(self):
        try:
            self.values = {}
            for module, lazy in self.with_laziness():
                self.values[module.path] = self.opened(module, lazy)
            self.run(self.tops)
        except RunFault as fault:
            self.fault = fault.fault

    # Opening.

    def with_laziness(self):
        """The modules in order, each with whether it or one above it is lazy."""
        return [(module, any(self.modules[path[:n]].is_on("lazy") for n in range(len(path) + 1)))
                for path, module in self.modules.items()]

    def led_to(self):
        """The recipes to which the invocations lead, through dependencies too."""
        found, left = set(), [(task.path, task.recipe) for task in self.tops]
        while left:
            path, name = left.pop()
            if (path, name) not in found:
                found.add((path, name))
                module = self.modules[path]
                for dependency in module.recipes[name].dependencies:
                    _, to, inner = module.leads([part for part, _ in dependency.path])
                    left.append((to.path, inner))
        return found

    def opened(self, module, lazy):
        """The values of a module's variables, or of those that are needed."""
        wanted = set(module.variables)
        if lazy and not module.is_on("export"):
            wanted = {name for name, one in module.variables.items() if one.eager or one.export}
            for path, name in self.led_to():
                if path == module.path:
                    for expression, hidden in module.scopes_of(module.recipes[name]):
                        wanted |= module.names.reads(expression, hidden)
        try:
            return values_of(module.names, module.names.needs(wanted))
        except NoValue:
            raise no_value() from None

    # Tasks.

    def evaluation(self, task):
        return Evaluation(self.modules[task.path].names, self.values[task.path], task.dependency)

    def recipe(self, task):
        return self.modules[task.path].recipes[task.recipe]

    def value(self, task, expression, bound):
        try:
            return self.evaluation(task).value(expression, bound)
        except NoValue:
            raise no_value() from None

    def bound(self, task):
        """The values of a task's parameters."""
        bound = {}
        for parameter, group in zip(self.recipe(task).parameters, task.groups):
            if group:
                bound[parameter.name] = ["true"] if parameter.flag else list(group)
            elif parameter.default is not None:
                bound[parameter.name] = self.value(task, parameter.default, bound)
            else:
                bound[parameter.name] = []
        return bound

    def tasks_of(self, task, dependency, bound):
        """The tasks that a dependency gives: one, or with a star one for each text of its first group with a star."""
        module = self.modules[task.path]
        _, to, name = module.leads([part for part, _ in dependency.path])
        lists = module.is_on("lists")
        left = [(self.value(task, expression, bound), starred) for expression, starred in dependency.arguments]
        groups, star = [], None
        for n, parameter in enumerate(to.recipes[name].parameters):
            count = len(left) if is_variadic(parameter) and not lists else 1
            share, left = left[:count], left[count:]
            if star is None and any(starred for _, starred in share):
                star = n
            groups.append([text for value, _ in share for text in (value if lists else [joined(value)])])
        if star is None:
            return [Task(to.path, name, tuple(map(tuple, groups)), True)]
        return [Task(to.path, name, tuple(tuple([text] if n == star else group) for n, group in enumerate(groups)),
                     True)
                for text in groups[star]]

    def all_tasks_of(self, task, dependencies, bound):
        return [found for dependency in dependencies for found in self.tasks_of(task, dependency, bound)]

    def asked(self, task):
        """The asking of a task, what its parameters are bound to, and its priors."""
        part = Part("ask", task, [])
        recipe = self.recipe(task)
        try:
            bound = self.bound(task)
            if recipe.has("confirm"):
                part.lines.append(f"    confirm Run recipe `{recipe.name}`? ")
            return part, bound, self.all_tasks_of(task, recipe.dependencies[:recipe.priors], bound)
        except RunFault as fault:
            part.fault = fault.fault
            return part, None, []

    def expansion(self, task, above=()):
        """The unshared expansion of a task: what it asks, the expansions of its priors, and its block."""
        self.parts += 1
        if self.parts > MOST_PARTS:
            raise Unsure
        part, bound, priors = self.asked(task)
        yield part
        for prior in priors:
            yield from self.expansion(prior)
        yield Part("block", task, bound)

    def run(self, tasks):
        """Runs tasks under a table: of each pair the first asking and the first block, each in turn."""
        seen, uneven = set(), self.is_uneven()
        for part in self.called(tasks) if uneven else (one for task in tasks for one in self.expansion(task)):
            if (part.kind, part.task.pair()) in seen:
                continue
            seen.add((part.kind, part.task.pair()))
            if part.kind == "ask":
                self.lines += part.lines
                if part.fault is not None:
                    failed = RunFault("", "")
                    failed.fault = part.fault
                    raise failed
            else:
                self.block(part.task, part.lines)

    def is_uneven(self):
        """Whether priors may hang on whether a task is a dependency: where the built-in function is called at all."""
        return any("is_dependency" not in module.functions and module.calls_built_in() for module in
                   self.modules.values())

    def called(self, tasks):
        """The same parts where priors hang on that: what was asked for under this table is not asked again."""
        asked = set()

        def call(task):
            if task.pair() in asked:
                return
            asked.add(task.pair())
            self.parts += 1
            if self.parts > MOST_PARTS:
                raise Unsure
            part, bound, priors = self.asked(task)
            yield part
            for prior in priors:
                yield from call(prior)
            yield Part("block", task, bound)
        for task in tasks:
            yield from call(task)

    # Blocks.

    def block(self, task, bound):
        """Begins a recipe, runs its body, and then its subsequents under a fresh table."""
        recipe = self.recipe(task)
        self.lines.append("::".join(task.path + (recipe.name,)) +
                          "".join(f" [{', '.join(group)}]" for group in task.groups))
        if recipe.is_script():
            self.script(task, recipe, bound)
        else:
            self.shell(task, recipe, bound)
        later = self.all_tasks_of(task, recipe.dependencies[recipe.priors:], bound)
        if later:
            self.run(later)

    def text(self, task, line, bound):
        return "".join(fragment[1] if fragment[0] == "text" else joined(self.value(task, fragment[1], bound))
                       for fragment in line.fragments)

    def shell(self, task, recipe, bound):
        module = self.modules[task.path]
        skips = module.skipped(recipe)[0]
        groups, group = [], []
        for line in recipe.body:
            group.append(line)
            if line in skips or not line.goes_on():
                groups.append(group)
                group = []
        if group:
            groups.append(group)
        for group in groups:
            if group[0] in skips:
                continue
            texts = [self.text(task, line, bound) for line in group]
            sigils = group[0].sigils()
            command = "".join(text[:-1] if line.goes_on() else text for line, text in zip(group, texts))[len(sigils):]
            if not command:
                continue
            muted = ("@" in sigils) != recipe.quiet or module.is_on("quiet") and not recipe.has("no-quiet")
            if not muted:
                self.lines.append("    show " + command)
            self.lines.append("    shell " + command)

    def script(self, task, recipe, bound):
        texts = [self.text(task, line, bound) for line in recipe.body]
        if recipe.quiet:
            self.lines += ["    show " + text for text in texts]
        if not texts[0][2:].strip(WHITE):
            raise RunFault("InvalidShebang", f"Recipe `{recipe.name}` has an invalid shebang `{texts[0]}`")
        self.lines += ["    script " + text for text in texts]
