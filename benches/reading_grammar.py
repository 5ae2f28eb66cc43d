"""The plain grammar of docs/plain.md, read a second time: what the lines of a text say, and where reading stops.

It is part of the second reading (benches/reading.py) and was written from the documents. Texts are Python's,
lines and columns count from 0, columns in characters.

An expression is a tuple: ('text', t), ('name', n, place), ('call', f, arguments, place), ('group', e), ('list', es,
place) or ('sum', a, b). A place is (file, line, column), where the file is its relative path.
"""
from dataclasses import dataclass, field

LETTERS = set("abcdefghijklmnopqrstuvwxyzABCDEFGHIJKLMNOPQRSTUVWXYZ_")
OTHERS = LETTERS | set("0123456789-")
MARKS = [":=", "&&", ":", "@", "+", "*", "=", "(", ")", "[", "]", ",", "?"]
BLANKS = " \t"
SWITCHES = {"allow-duplicate-recipes", "allow-duplicate-variables", "export", "ignore-comments", "lazy", "lists",
            "positional-arguments", "quiet"}
PROGRAMS = {"shell", "script-interpreter"}
BARE_ATTRIBUTES = {"default", "private", "parallel", "confirm", "no-quiet"}


class SyntaxFault(Exception):
    """A line that does not follow the grammar, with its line, its column, and the text that is told."""

    def __init__(self, line, column, told):
        super().__init__(line, column, told)
        self.line, self.column, self.told = line, column, told


@dataclass
class Lexeme:
    kind: str
    text: str
    column: int


def is_identifier(text):
    return bool(text) and text[0] in LETTERS and all(letter in OTHERS for letter in text)


def lexemes_of(text, start, end):
    """The lexemes of a part of a line, and the column up to which they go."""
    found, at = [], start
    while True:
        while at < end and text[at] in BLANKS:
            at += 1
        if at >= end:
            return found, end
        if text[at] in LETTERS:
            after = at + 1
            while after < end and text[after] in OTHERS:
                after += 1
            found.append(Lexeme("name", text[at:after], at))
        elif text[at] == "'":
            close = text.find("'", at + 1, end)
            if close < 0:
                return found, at
            after = close + 1
            found.append(Lexeme("quoted", text[at:after], at))
        else:
            mark = next((mark for mark in MARKS if text.startswith(mark, at) and at + len(mark) <= end), None)
            if mark is None:
                return found, at
            after = at + len(mark)
            found.append(Lexeme("mark", mark, at))
        at = after


class Parts:
    """The lexemes of a part of a line, read from left to right. What can't be read is none; where that was is kept."""

    def __init__(self, file, number, text, start, end):
        self.file, self.number, self.text = file, number, text
        self.lexemes, self.lexed_to = lexemes_of(text, start, end)
        self.whole = self.lexed_to == end
        self.count = len(self.lexemes)
        self.furthest = 0

    def stops(self, at):
        self.furthest = max(self.furthest, at)
        return None

    def place(self, at):
        return (self.file, self.number, self.lexemes[at].column)

    def is_mark(self, at, mark):
        return at < self.count and self.lexemes[at].kind == "mark" and self.lexemes[at].text == mark

    def mark(self, at, mark):
        return at + 1 if self.is_mark(at, mark) else self.stops(at)

    def is_name(self, at):
        return at < self.count and self.lexemes[at].kind == "name"

    def name(self, at):
        """A name with its place, and where it ends."""
        return ((self.lexemes[at].text, self.place(at)), at + 1) if self.is_name(at) else self.stops(at)

    def word(self, at, word):
        return at + 1 if self.is_name(at) and self.lexemes[at].text == word else self.stops(at)

    def quoted(self, at):
        """What stands between quotes, with the place of the first quote, and where it ends."""
        if at < self.count and self.lexemes[at].kind == "quoted":
            return (self.lexemes[at].text[1:-1], self.place(at)), at + 1
        return self.stops(at)

    def right_beside(self, at):
        """Whether a lexeme stands right behind the one before it."""
        before = self.lexemes[at - 1]
        return before.column + len(before.text) == self.lexemes[at].column

    def ended(self, at):
        """Whether everything was read."""
        if at == self.count and self.whole:
            return True
        self.stops(at)
        return False

    def told(self):
        """The column where reading stops, and what stands there."""
        if self.furthest < self.count:
            lexeme = self.lexemes[self.furthest]
            return lexeme.column, lexeme.text
        return self.lexed_to, self.text[self.lexed_to:]

    def listed(self, at, close, part):
        """Parts with commas between them, up to a mark; none too."""
        found = []
        if self.is_mark(at, close):
            return found, at + 1
        while True:
            read = part(at)
            if read is None:
                return None
            found.append(read[0])
            at = read[1]
            if self.is_mark(at, close):
                return found, at + 1
            if not self.is_mark(at, ","):
                return self.stops(at)
            at += 1

    def operand(self, at):
        if at >= self.count:
            return self.stops(at)
        lexeme = self.lexemes[at]
        if lexeme.kind == "quoted":
            return ("text", lexeme.text[1:-1]), at + 1
        if lexeme.kind == "name":
            if self.is_mark(at + 1, "("):
                read = self.listed(at + 2, ")", self.expression)
                return read and (("call", lexeme.text, read[0], self.place(at)), read[1])
            return ("name", lexeme.text, self.place(at)), at + 1
        if lexeme.text == "(":
            read = self.expression(at + 1)
            if read is None:
                return None
            end = self.mark(read[1], ")")
            return end and (("group", read[0]), end)
        if lexeme.text == "[":
            read = self.listed(at + 1, "]", self.expression)
            return read and (("list", read[0], self.place(at)), read[1])
        return self.stops(at)

    def expression(self, at):
        read = self.operand(at)
        while read is not None and self.is_mark(read[1], "+"):
            more = self.operand(read[1] + 1)
            if more is None:
                return None
            read = ("sum", read[0], more[0]), more[1]
        return read

    def path(self, at):
        """Names with their places, joined by two colons that stand right beside each other."""
        read = self.name(at)
        if read is None:
            return None
        names, at = [read[0]], read[1]
        while self.is_mark(at, ":"):
            if not (self.is_mark(at + 1, ":") and self.right_beside(at + 1)):
                break
            read = self.name(at + 2)
            if read is None:
                break
            names.append(read[0])
            at = read[1]
        return names, at

    def argument(self, at):
        starred = self.is_mark(at, "*")
        read = self.operand(at + 1 if starred else at)
        return read and ((read[0], starred), read[1])

    def dependency(self, at):
        """A path, or a path with arguments between parentheses."""
        star = self.is_mark(at, "*")
        if not star and not self.is_mark(at, "("):
            read = self.path(at)
            return read and (Dependency(read[0], []), read[1])
        at = self.mark(at + 1 if star else at, "(")
        if at is None:
            return None
        read = self.path(at)
        if read is None:
            return None
        path, at = read
        arguments = []
        while not self.is_mark(at, ")"):
            if self.is_mark(at, "*") and not star:
                return self.stops(at)
            read = self.argument(at)
            if read is None:
                return None
            arguments.append(read[0])
            at = read[1]
        if star and not any(starred for _, starred in arguments):
            return self.stops(at)
        return Dependency(path, arguments), at + 1


@dataclass
class Dependency:
    path: list
    arguments: list


@dataclass
class Parameter:
    name: str
    place: tuple
    kind: str
    default: tuple = None
    long: str = None
    short: str = None
    flag: bool = False


@dataclass
class Attribute:
    kind: str
    place: tuple
    text: str
    said: dict = field(default_factory=dict)


@dataclass
class Import:
    path: str
    place: tuple
    optional: bool


@dataclass
class Module:
    name: str
    place: tuple
    path: str
    optional: bool
    attributes: list = field(default_factory=list)


@dataclass
class Setting:
    name: str
    place: tuple
    on: bool = None
    program: list = None


@dataclass
class Unexport:
    name: str
    place: tuple


@dataclass
class Variable:
    name: str
    place: tuple
    value: tuple
    export: bool = False
    eager: bool = False


@dataclass
class Function:
    name: str
    place: tuple
    parameters: list
    body: tuple


@dataclass
class Alias:
    name: str
    place: tuple
    target: list


@dataclass
class Line:
    """A line of a body: its number, and its fragments, each ('text', t, place) or ('value', expression)."""
    number: int
    fragments: list

    def front(self):
        """The text that the line begins with."""
        return self.fragments[0][1] if self.fragments and self.fragments[0][0] == "text" else ""

    def is_shebang(self):
        return self.front().startswith("#!")

    def is_comment(self):
        return self.front().startswith("#") and not self.is_shebang()

    def goes_on(self):
        return bool(self.fragments) and self.fragments[-1][0] == "text" and self.fragments[-1][1].endswith("\\")

    def sigils(self):
        """The sigils at the front, each at most once."""
        found = ""
        for letter in self.front():
            if letter not in "@-?" or letter in found:
                break
            found += letter
        return found

    def expressions(self):
        return [fragment[1] for fragment in self.fragments if fragment[0] == "value"]


@dataclass
class Recipe:
    name: str
    place: tuple
    quiet: bool
    parameters: list
    dependencies: list
    priors: int
    attributes: list = field(default_factory=list)
    body: list = field(default_factory=list)

    def is_script(self):
        return bool(self.body) and self.body[0].is_shebang()

    def has(self, kind):
        return any(attribute.kind == kind for attribute in self.attributes)


def import_line(parts):
    at = parts.word(0, "import")
    if at is None:
        return None
    optional = parts.is_mark(at, "?") and parts.right_beside(at)
    read = parts.quoted(at + 1 if optional else at)
    return read and parts.ended(read[1]) and Import(read[0][0], read[0][1], optional)


def module_line(parts):
    at = parts.word(0, "mod")
    if at is None:
        return None
    optional = parts.is_mark(at, "?") and parts.right_beside(at)
    read = parts.name(at + 1 if optional else at)
    if read is None:
        return None
    (name, place), at = read
    path = parts.quoted(at)
    if path is not None:
        at = path[1]
    return Module(name, place, path and path[0][0], optional) if parts.ended(at) else None


def setting_line(parts):
    at = parts.word(0, "set")
    read = at and parts.name(at)
    if not read:
        return None
    (name, place), at = read
    if name in PROGRAMS:
        at = parts.mark(at, ":=")
        at = at and parts.mark(at, "[")
        if at is None:
            return None
        if parts.is_mark(at, "]"):
            return parts.stops(at)
        read = parts.listed(at, "]", parts.expression)
        return read and parts.ended(read[1]) and Setting(name, place, program=read[0])
    if name not in SWITCHES:
        return parts.stops(at - 1)
    if not parts.is_mark(at, ":="):
        return Setting(name, place, on=True) if parts.ended(at) else None
    read = parts.name(at + 1)
    if read is None:
        return None
    if read[0][0] not in ("true", "false"):
        return parts.stops(at + 1)
    return Setting(name, place, on=read[0][0] == "true") if parts.ended(read[1]) else None


def unexport_line(parts):
    at = parts.word(0, "unexport")
    read = at and parts.name(at)
    return read and parts.ended(read[1]) and Unexport(*read[0])


def variable_line(parts, word=None):
    at = 0 if word is None else parts.word(0, word)
    read = None if at is None else parts.name(at)
    if not read:
        return None
    (name, place), at = read
    at = parts.mark(at, ":=")
    read = at and parts.expression(at)
    return read and parts.ended(read[1]) and Variable(name, place, read[0], word == "export", word == "eager")


def function_line(parts):
    read = parts.name(0)
    if read is None:
        return None
    (name, place), at = read
    at = parts.mark(at, "(")
    read = at and parts.listed(at, ")", parts.name)
    if not read:
        return None
    parameters, at = read
    at = parts.mark(at, ":=")
    read = at and parts.expression(at)
    return read and parts.ended(read[1]) and Function(name, place, parameters, read[0])


def alias_line(parts):
    at = parts.word(0, "alias")
    read = at and parts.name(at)
    if not read:
        return None
    (name, place), at = read
    at = parts.mark(at, ":=")
    read = at and parts.path(at)
    return read and parts.ended(read[1]) and Alias(name, place, read[0])


def heading_line(parts):
    quiet = parts.is_mark(0, "@")
    read = parts.name(1 if quiet else 0)
    if read is None:
        return None
    (name, place), at = read
    parameters = []
    while not parts.is_mark(at, ":"):
        kind = next((mark for mark in "+*" if parts.is_mark(at, mark)), "")
        read = parts.name(at + 1 if kind else at)
        if read is None:
            return None
        parameter = Parameter(read[0][0], read[0][1], kind)
        at = read[1]
        if parts.is_mark(at, "="):
            read = parts.operand(at + 1)
            if read is None:
                return None
            parameter.default, at = read
        parameters.append(parameter)
    at += 1
    dependencies, priors = [], None
    while at < parts.count or not parts.whole:
        if priors is None and parts.is_mark(at, "&&"):
            priors = len(dependencies)
            read = parts.dependency(at + 1)
        else:
            read = parts.dependency(at)
        if read is None:
            return None
        dependencies.append(read[0])
        at = read[1]
    if priors is None:
        priors = len(dependencies)
    return Recipe(name, place, quiet, parameters, dependencies, priors)


def said_of_parameter(parts, at):
    """One of the parts of an attribute `arg` behind the name."""
    read = parts.name(at)
    if read is None:
        return None
    (key, place), after = read
    if key == "flag":
        return (key, True, place), after
    if key not in ("long", "short", "pattern"):
        return parts.stops(at)
    equals = parts.mark(after, "=")
    if equals is None:
        return None
    if key == "pattern":
        read = parts.expression(equals)
        return read and ((key, read[0], place), read[1])
    read = parts.quoted(equals)
    if read is None:
        return None
    if key == "short" and len(read[0][0]) != 1:
        return parts.stops(equals)
    return (key, read[0][0], place), read[1]


def attribute_line(parts):
    at = parts.mark(0, "[")
    read = at and parts.name(at)
    if not read:
        return None
    (kind, place), at = read
    said = {}
    if kind in ("group", "doc", "arg"):
        at = parts.mark(at, "(")
        if at is None:
            return None
        read = parts.expression(at) if kind == "doc" else parts.quoted(at)
        if read is None:
            return None
        said["doc" if kind == "doc" else "name"] = read[0] if kind == "doc" else read[0][0]
        at = read[1]
        while kind == "arg" and parts.is_mark(at, ","):
            read = said_of_parameter(parts, at + 1)
            if read is None:
                return None
            (key, value, key_place), after = read
            if key in said:
                return parts.stops(at + 1)
            said[key], said[key + " place"] = value, key_place
            at = after
        at = parts.mark(at, ")")
        if at is None:
            return None
    elif kind not in BARE_ATTRIBUTES:
        return parts.stops(at - 1)
    at = parts.mark(at, "]")
    return at and parts.ended(at) and Attribute(kind, (parts.file, parts.number, 0), parts.text, said)


FORMS = [import_line, module_line, setting_line, unexport_line, variable_line,
         lambda parts: variable_line(parts, "export"), lambda parts: variable_line(parts, "eager"),
         function_line, alias_line, attribute_line, heading_line]


def whole_line(file, number, text):
    """What a line says that is not indented."""
    parts = Parts(file, number, text, 0, len(text))
    said = [found for found in (form(parts) for form in FORMS) if found]
    assert len(said) <= 1, f"a line of two kinds: {text}"
    if not said:
        raise SyntaxFault(number, *parts.told())
    return said[0]


def body_line(file, number, text, start):
    """The fragments of a line of a body, from a column on."""
    fragments, at = [], start
    while at < len(text):
        opening = text.find("{{", at)
        if opening < 0:
            fragments.append(("text", text[at:], (file, number, at)))
            break
        if opening > at:
            fragments.append(("text", text[at:opening], (file, number, at)))
        end, in_quotes = opening + 2, False
        while end < len(text) and (in_quotes or not text.startswith("}}", end)):
            in_quotes ^= text[end] == "'"
            end += 1
        parts = Parts(file, number, text, opening + 2, end)
        read = parts.expression(0)
        if read is None or not parts.ended(read[1]) or end >= len(text):
            if read is not None:
                parts.stops(read[1])
            raise SyntaxFault(number, *parts.told())
        fragments.append(("value", read[0]))
        at = end + 2
    return Line(number, fragments)


def first_misfit(item, attributes):
    """The first attribute that does not fit the item that it stands before."""
    if not isinstance(item, (Recipe, Module)):
        return attributes[0] if attributes else None
    named = set()
    names = {parameter.name for parameter in item.parameters} if isinstance(item, Recipe) else set()
    for attribute in attributes:
        if attribute.kind == "arg":
            if attribute.said["name"] not in names or attribute.said["name"] in named:
                return attribute
            named.add(attribute.said["name"])
    return None


def told_as_a_whole(attribute):
    return SyntaxFault(attribute.place[1], 0, attribute.text)


def say_of_parameters(recipe):
    for attribute in recipe.attributes:
        if attribute.kind == "arg":
            for parameter in recipe.parameters:
                if parameter.name == attribute.said["name"]:
                    parameter.long = attribute.said.get("long")
                    parameter.short = attribute.said.get("short")
                    parameter.flag = attribute.said.get("flag", False)


def items_of(file, text):
    """The items of a text in order, under a relative path, or the fault of its first line that is none."""
    items, attributes, recipe, indent = [], [], None, None
    for number, line in enumerate(text.split("\n")):
        more = line.lstrip(BLANKS)
        if more == "" or line.startswith("#"):
            continue
        if line[0] in BLANKS:
            if recipe is None or attributes:
                raise SyntaxFault(number, 0, line)
            if indent is None:
                indent = line[:len(line) - len(more)]
            if not line.startswith(indent):
                raise SyntaxFault(number, 0, line)
            recipe.body.append(body_line(file, number, line, len(indent)))
            continue
        item = whole_line(file, number, line)
        if isinstance(item, Attribute):
            attributes.append(item)
            continue
        misfit = first_misfit(item, attributes)
        if misfit is not None:
            raise told_as_a_whole(misfit)
        if attributes:
            item.attributes = attributes
        attributes, recipe, indent = [], None, None
        if isinstance(item, Recipe):
            say_of_parameters(item)
            recipe = item
        items.append(item)
    if attributes:
        raise told_as_a_whole(attributes[0])
    return items


def parts_of(expression):
    """The parts of an expression, from left to right."""
    kind = expression[0]
    if kind == "call":
        return expression[2]
    if kind == "list":
        return expression[1]
    if kind == "sum":
        return expression[1:3]
    return [expression[1]] if kind == "group" else []


def all_in(expression):
    """An expression and whatever stands in it."""
    found, left = [], [expression]
    while left:
        one = left.pop()
        found.append(one)
        left += reversed(parts_of(one))
    return found
