"""What expressions read, need and come to, read a second time by docs/definitions.md and docs/plain.md.

It is part of the second reading (benches/reading.py) and was written from the documents. A value is a list of
texts.
"""
import re

import reading_grammar as grammar

MOST_CALLS = 64
MOST_LETTERS = 1_000_000


class NoValue(Exception):
    """An expression that has no value."""


class Unsure(Exception):
    """What this reading leaves out: the case is not compared."""


class Names:
    """The functions of a module by their names, and the expressions of its variables."""

    def __init__(self, functions, variables):
        self.functions, self.variables = functions, variables

    def reads(self, expression, hidden):
        """The variables that an expression reads where some names are hidden, through functions too."""
        found, called, left = set(), set(), [(expression, frozenset(hidden))]
        while left:
            one, names = left.pop()
            for part in grammar.all_in(one):
                if part[0] == "name" and part[1] not in names and part[1] in self.variables:
                    found.add(part[1])
                if part[0] == "call" and part[1] in self.functions and part[1] not in called:
                    called.add(part[1])
                    function = self.functions[part[1]]
                    left.append((function.body, frozenset(name for name, _ in function.parameters)))
        return found

    def needs(self, start):
        """A set of variables, and what these read in one or more steps."""
        found, left = set(), list(start)
        while left:
            name = left.pop()
            if name not in found:
                found.add(name)
                left += self.reads(self.variables[name], ())
        return found

    def range_of(self, name):
        """How many arguments a function takes."""
        if name in self.functions:
            return len(self.functions[name].parameters)
        return 0 if name == "is_dependency" else None


def joined(value):
    return " ".join(value)


class Evaluation:
    """What expressions come to, among the values of variables; in a run also whether the recipe is a dependency."""

    def __init__(self, names, values, dependency=None):
        self.names, self.values, self.dependency = names, values, dependency

    def value(self, expression, bound, depth=0):
        kind = expression[0]
        if kind == "text":
            found = [expression[1]]
        elif kind == "name":
            if expression[1] in bound:
                found = bound[expression[1]]
            elif expression[1] in self.values:
                found = self.values[expression[1]]
            else:
                raise NoValue
        elif kind == "group":
            found = self.value(expression[1], bound, depth)
        elif kind == "list":
            found = [text for part in expression[1] for text in self.value(part, bound, depth)]
        elif kind == "sum":
            found = [joined(self.value(expression[1], bound, depth)) + joined(self.value(expression[2], bound, depth))]
        else:
            found = self.called(expression, bound, depth)
        if sum(len(text) + 1 for text in found) > MOST_LETTERS:
            raise Unsure
        return found

    def called(self, expression, bound, depth):
        _, name, arguments, _ = expression
        values = [self.value(argument, bound, depth) for argument in arguments]
        function = self.names.functions.get(name)
        if depth == MOST_CALLS:
            raise NoValue
        if function is None and name == "is_dependency" and self.dependency is not None and not values:
            return ["true" if self.dependency else "false"]
        if function is None or len(values) != len(function.parameters):
            raise NoValue
        inner = dict(zip((name for name, _ in function.parameters), values))
        return self.value(function.body, inner, depth + 1)


def values_of(names, wanted):
    """The values of variables. Those that are wanted are all that these need, and in no circle; one may have none."""
    values = {}

    def evaluate(name):
        if name not in values:
            for other in names.reads(names.variables[name], ()):
                evaluate(other)
            values[name] = Evaluation(names, dict(values)).value(names.variables[name], {})
    for name in wanted:
        evaluate(name)
    return values


SIMPLE_CLASS = re.compile(r"\[\^?(?:[A-Za-z0-9é]|[a-z]-[a-z]|[0-9]-[0-9])+\]")
PLAIN = set("abcdefghijklmnopqrstuvwxyzABCDEFGHIJKLMNOPQRSTUVWXYZ0123456789 _,;:=@%<>!~/\"`é.|()")


def whole_pattern(pattern):
    """The regular expression that a pattern stands for, or none where it is no regular expression."""
    rest = SIMPLE_CLASS.sub("a", pattern)
    if "[" in rest and "]" not in rest and "\\" not in rest:
        return None
    plain = rest.replace("(?:", "(")
    if any(letter not in PLAIN and letter not in "*+?-" for letter in plain):
        raise Unsure
    if re.search(r"[*+?][*+?]|\([*+?]", plain) and not re.search(r"^[*+?]", plain):
        if re.search(r"[*+?][*+?]", plain) or "(?" in plain:
            raise Unsure
    try:
        return re.compile(r"\A(?:" + pattern + r")\Z")
    except re.error:
        return None


def matches(pattern, text):
    return whole_pattern(pattern).search(text) is not None
