"""Command words, read a second time by docs/rules.md: how they split into invocations, and which fault is the first.

It is part of the second reading (benches/reading.py) and was written from the documents.
"""
from dataclasses import dataclass

from reading_files import Fault
from reading_grammar import is_identifier
from reading_rules import ENDLESS, counted, is_option, is_required, is_variadic, taken
from reading_values import matches


class WordsFault(Exception):
    """The first fault of the words."""

    def __init__(self, name, message):
        super().__init__(name)
        self.fault = Fault(name, message)


@dataclass
class Invocation:
    module: object
    recipe: str
    groups: tuple


def path_of(word):
    """The names of a word that is one path, or none."""
    names = word.split("::")
    return names if all(map(is_identifier, names)) else None


def listed(paths):
    return ", ".join(f"`{'::'.join(path)}`" for path in sorted(paths))


def meaning(root, module, name):
    """What a name means in a module: a kind, and the module, the module with a recipe, or the paths that disable it."""
    inner = module.find(name)
    if inner is not None:
        return "module", inner
    alias = module.aliases.get(name)
    target = [part for part, _ in alias.target] if alias else []
    walked = module.follow(target) if alias else None
    if walked is not None and walked[0] == "in":
        return "module", root.follow(walked[1].path)[1]
    if name in module.recipes and module.stands(name):
        return "recipe", (module, name)
    leads = module.leads(target) if alias and walked is None else None
    if leads is not None and leads[0] == "recipe" and leads[1].stands(leads[2]):
        return "recipe", leads[1:]
    if name in module.recipes:
        return "disabled recipe", module.disabling(name)
    if walked is not None:
        return "disabled alias", {walked[1]}
    if leads is not None:
        return "disabled alias", {leads[1]} if leads[0] == "absent" else leads[1].disabling(leads[2])
    if name in module.absent:
        return "absent", module.path + (name,)
    return "nothing", None


def default_of(module):
    name = module.default()
    if name is None:
        if module.standing():
            raise WordsFault("NoDefaultRecipe", "There is no default recipe; name the recipe that is to run")
        raise WordsFault("NoRecipes", "There is no recipe to run by default")
    least = sum(map(is_required, module.recipes[name].parameters))
    if least:
        raise WordsFault("DefaultRecipeRequiresArguments", f"Recipe `{name}` cannot be used as default recipe since it "
                         f"requires at least {counted(least)}")
    return module, name


def walk(root, names, joint, ends):
    """Follows names one after another from the root, up to a recipe: this and how many names it took."""
    module = root
    for place, name in enumerate(names):
        kind, found = meaning(root, module, name)
        so_far = joint.join(names[:place + 1])
        goes_on = joint == "::" and place + 1 < len(names)
        if kind == "module":
            module = found
        elif kind == "recipe" and not goes_on:
            return found, place + 1
        elif kind == "recipe":
            raise WordsFault("ExpectedSubmoduleButFoundRecipe", f"Expected submodule at `{so_far}` but found recipe")
        elif kind == "disabled recipe":
            raise WordsFault("RecipeDisabled",
                             f"Recipe `{so_far}` is disabled, since it needs modules that have no file: "
                             f"{listed(found)}")
        elif kind == "disabled alias":
            raise WordsFault("AliasDisabled",
                             f"Alias `{so_far}` is disabled, since its target needs modules that have no file: "
                             f"{listed(found)}")
        elif kind == "absent":
            raise WordsFault("ModuleAbsent", f"Module `{'::'.join(found)}` is optional, and has no file")
        elif goes_on:
            raise WordsFault("UnknownSubmodule", f"Justfile does not contain submodule `{so_far}`")
        else:
            raise unknown(so_far)
    return default_of(module), len(names)


def unknown(text):
    return WordsFault("UnknownRecipe", f"Justfile does not contain recipe `{text}`")


def head(root, words):
    """The recipe to which the front of some words leads, and how many words that is."""
    if not words:
        return default_of(root), 0
    word = words[0]
    if ":" not in word:
        return walk(root, words, " ", True)
    path = word[:-2] if len(words) == 1 and word.endswith("::") else word
    names = path_of(path)
    if names is None:
        raise unknown(word)
    return walk(root, names, "::", False)[0], 1


class Tail:
    """The words behind a head, as the parameters of its recipe take them."""

    def __init__(self, recipe, words):
        self.recipe, self.words, self.taken = recipe, words, 0
        self.groups = [[] for _ in recipe.parameters]
        self.positionals = [n for n, parameter in enumerate(recipe.parameters) if not is_option(parameter)]
        self.switches = {}
        for n, parameter in enumerate(recipe.parameters):
            if parameter.long is not None:
                self.switches["--" + parameter.long] = n
            if parameter.short is not None:
                self.switches["-", parameter.short] = n
        self.found = 0
        self.read()

    def place(self):
        """The parameter of the next positional word, or none."""
        for k, n in enumerate(self.positionals):
            if is_variadic(self.recipe.parameters[n]) or k == self.found:
                return n
        return None

    def read(self):
        options = len(self.positionals) < len(self.recipe.parameters)
        while self.taken < len(self.words):
            word = self.words[self.taken]
            if options and word == "--":
                options = False
            elif options and word.startswith("-") and word != "-":
                self.option(word)
            else:
                place = self.place()
                if place is None:
                    return
                self.groups[place].append(word)
                self.found += 1
            self.taken += 1

    def option(self, word):
        name, equals, text = word.partition("=")
        if name in ("-", "--"):
            raise WordsFault("InvalidOption",
                             f"`{word}` has no option's name; after `--` each word is a positional argument")
        if name.startswith("--"):
            switches = [(name, name)]
        else:
            switches = [(("-", letter), "-" + letter) for letter in name[1:]]
        for place, (switch, shown) in enumerate(switches):
            last = place + 1 == len(switches)
            self.use(switch, shown, text if equals and last else None, last)

    def use(self, switch, shown, text, last):
        recipe = self.recipe.name
        if switch not in self.switches:
            raise WordsFault("UnknownOption",
                             f"Recipe `{recipe}` does not have option `{shown}`; after `--` each word is a "
                             "positional argument")
        n = self.switches[switch]
        parameter = self.recipe.parameters[n]
        if self.groups[n] and not is_variadic(parameter):
            raise WordsFault("DuplicateOption", f"Recipe `{recipe}` option `{shown}` cannot be passed more than once")
        if parameter.flag:
            if text is not None:
                raise WordsFault("FlagWithValue",
                                 f"Recipe `{recipe}` flag `{shown}` does not take a value; give `{shown}` alone")
            text = ""
        elif text is None:
            if not last or self.taken + 1 == len(self.words):
                raise WordsFault("OptionMissingValue",
                                 f"Recipe `{recipe}` option `{shown}` is missing its value; give it as "
                                 f"`{shown}=VALUE`")
            self.taken += 1
            text = self.words[self.taken]
        self.groups[n].append(text)

    def check(self, module):
        """What the groups lack, and then what does not fit."""
        parameters = self.recipe.parameters
        missing = [n for n, parameter in enumerate(parameters) if not self.groups[n] and is_required(parameter)]
        for n in missing:
            if is_option(parameters[n]):
                shown = "--" + parameters[n].long if parameters[n].long is not None else "-" + parameters[n].short
                raise WordsFault("MissingOption", f"Recipe `{self.recipe.name}` requires option `{shown}`")
        if missing:
            places = [parameters[n] for n in self.positionals]
            least = sum(map(is_required, places))
            most = ENDLESS if any(map(is_variadic, places)) else len(places)
            raise WordsFault("PositionalArgumentCountMismatch", f"Recipe `{self.recipe.name}` got "
                             f"{counted(self.found, 'positional argument')} but takes {taken(least, most)}")
        for n, parameter in enumerate(parameters):
            pattern = module.pattern_of(self.recipe, parameter)
            for text in self.groups[n]:
                if pattern is not None and not matches(pattern, text):
                    raise WordsFault("ArgumentPatternMismatch",
                                     f"Argument `{text}` passed to recipe `{self.recipe.name}` "
                                     f"parameter `{parameter.name}` does not match the parameter's pattern")


def split(root, words):
    """The invocations that the words are."""
    found, left = [], list(words)
    while True:
        (module, name), count = head(root, left)
        tail = Tail(module.recipes[name], left[count:])
        tail.check(module)
        found.append(Invocation(module, name, tuple(map(tuple, tail.groups))))
        left = left[count + tail.taken:]
        if not left:
            return found
