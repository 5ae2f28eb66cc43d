#!/usr/bin/env python3
"""Makes large bundles, and reports the time and the peak memory that justrun takes for each.

    cd crates/justrun && rt run -- /justfile a < stdin && cd ../..     builds the program
    python3 benches/justrun.py [PROGRAM] [WORD ..]

The words choose the inputs whose names have one of them. Nothing is asserted. A line has the input's name, its size in
bytes, the status, the lines printed, the seconds of wall time, the peak resident memory in MiB and the first line of the
error output, of the fastest of three runs.
"""
import os
import resource
import sys
import tempfile
import time

PROGRAM = "crates/justrun/out/justrun"

# Bytes of the call stack.
STACK = 8 << 20


def bundle(*lines):
    return "--- /justfile\n" + "".join(f"{line}\n" for line in lines)


def chain(count):
    """Each recipe depends on the next."""
    return bundle(*(f"r{n}: r{n + 1}" for n in range(count - 1)), f"r{count - 1}:"), ["r0"]


def followed(count):
    """Each recipe is followed by the next."""
    return bundle(*(f"r{n}: && r{n + 1}" for n in range(count - 1)), f"r{count - 1}:"), ["r0"]


def in_turn(count):
    """Each recipe depends on the next, or is followed by it, in turn."""
    return bundle(*(f"r{n}: {'' if n % 2 else '&& '}r{n + 1}" for n in range(count - 1)), f"r{count - 1}:"), ["r0"]


def two_each(count, width=1_000):
    """Levels of recipes: each depends on two of the next level. The words name the first level."""
    def row(n):
        level, place = divmod(n, width)
        below = (level + 1) * width
        return f"r{below + place} r{below + (place + 1) % width}" if below < count else ""
    return bundle(*(f"r{n}: {row(n)}" for n in range(count))), [f"r{n}" for n in range(width)]


def diamonds(count):
    """Each level has a top that depends on two recipes, both of which depend on the next level's top."""
    rows = []
    for n in range(count):
        rows += [f"t{n}: a{n} b{n}", f"a{n}: t{n + 1}", f"b{n}: t{n + 1}"]
    return bundle(*rows, f"t{count}:"), ["t0"]


def lines(count):
    """One recipe after many comments."""
    return bundle(*("# a comment" for _ in range(count - 1)), "a:"), ["a"]


def files(count):
    """Many files beside the root, none of which it reads."""
    return bundle("a:") + "".join(f"--- /f{n}\nx\n" for n in range(count)), ["a"]


def listed(root, rest):
    """A bundle of the root's lines and the files of a table."""
    return bundle(*root) + "".join(f"--- {path}\n{text}\n" for path, text in rest)


def import_chain(count):
    """Each file imports the next, and the last has a recipe."""
    rest = [(f"/f{n}", f"import 'f{n + 1}'") for n in range(count - 1)] + [(f"/f{count - 1}", "a:")]
    return listed(["import 'f0'"], rest), ["a"]


def imported_by_many(count):
    """Many files import one."""
    rest = [(f"/f{n}", "import 'x'") for n in range(count)] + [("/x", "a:")]
    return listed([f"import 'f{n}'" for n in range(count)], rest), ["a"]


def modules(count):
    """Many modules, each with a file of its own."""
    return listed([f"mod m{n}" for n in range(count)] + ["a:"], [(f"/m{n}.just", "a: b\nb:") for n in range(count)]), ["a"]


def module_names(count):
    """Many modules of one file."""
    return listed([f"mod m{n} 'x'" for n in range(count)] + ["a:"], [("/x", "a: b\nb:")]), ["a"]


def module_chain(count):
    """Modules inside each other."""
    rest = [(f"/f{n}", f"mod m 'f{n + 1}'") for n in range(count - 1)] + [(f"/f{count - 1}", "a:")]
    return listed(["mod m 'f0'", "a:"], rest), ["a"]


def words(count):
    """One recipe with a parameter, named many times with different arguments."""
    return bundle("p x:"), [part for n in range(count) for part in ("p", str(n))]


def words_of_one_parameter(count):
    """One recipe with a variadic parameter, which takes all words."""
    return bundle("p *x:"), ["p", *(str(n) for n in range(count))]


def defaults_in_a_chain(count):
    """Each recipe has a parameter with a default, and depends on the next."""
    return bundle(*(f"r{n} x='{n}': r{n + 1}" for n in range(count - 1)), f"r{count - 1} x='a':"), ["r0"]


def arguments_in_a_chain(count):
    """Each recipe hands its argument to the next."""
    return bundle(*(f"r{n} x: (r{n + 1} x)" for n in range(count - 1)), f"r{count - 1} x:"), ["r0", "a"]


def different_arguments(count):
    """One recipe that depends many times on another, each time with a different argument."""
    return bundle("d x:", "a: " + " ".join(f"(d '{n}')" for n in range(count))), ["a"]


def star(count):
    """A dependency with a star over a list of many texts."""
    return bundle("set lists", "d x:", "a: *(d *[" + ", ".join(f"'{n}'" for n in range(count)) + "])"), ["a"]


def options(count):
    """One recipe with many options, each of them given."""
    names = [f"o{n}" for n in range(count)]
    given = [part for name in names for part in (f"--{name}", "v")]
    return bundle(*(f"[arg('{name}', long='{name}')]" for name in names), f"p {' '.join(names)}:"), ["p", *given]


def cluster(count):
    """One word of as many letters, which are flags of a variadic parameter."""
    return bundle("[arg('x', short='x', flag)]", "p *x:"), ["p", "-" + "x" * count]


def names_in_turn(count):
    """Modules inside each other, whose names are given as words, and again as the path of one word."""
    names = ["m"] * count + ["a"]
    text, _ = module_chain(count)
    return text, [*names, "::".join(names)]


def invocations(count):
    """One recipe, named many times."""
    return bundle("a:"), ["a"] * count


def functions(count):
    """Many functions of two parameters."""
    return bundle(*(f"f{n}(x, y) := x + y" for n in range(count)), "a:"), ["a"]


def function_parameters(count):
    """A function of many parameters."""
    return bundle("f(" + ", ".join(f"x{n}" for n in range(count)) + ") := x0", "a:"), ["a"]


def settings(count):
    """Many modules, each of which sets seven settings."""
    names = ("allow-duplicate-recipes", "allow-duplicate-variables", "export", "ignore-comments", "lazy", "positional-arguments", "quiet")
    text = "".join(f"set {name}\n" for name in names) + "b:"
    return listed([f"mod m{n}" for n in range(count)] + ["a:"], [(f"/m{n}.just", text) for n in range(count)]), ["a"]


def settings_twice(count):
    """A setting that is set many times, which is refused."""
    return bundle(*("set quiet" for _ in range(count)), "a:"), ["a"]


def variables(count):
    """Many variables."""
    return bundle(*(f"v{n} := '{n}'" for n in range(count)), "a:"), ["a"]


def variable_chain(count):
    """Many variables, each of which reads the next."""
    return bundle(*(f"v{n} := v{n + 1}" for n in range(count - 1)), f"v{count - 1} := 'a'", "a:"), ["a"]


def function_chain(count):
    """Functions that call each other in a chain, and as many variables that call the first."""
    functions = [f"f{n}() := f{n + 1}()" for n in range(count - 1)] + [f"f{count - 1}() := 'a'"]
    return bundle(*functions, *(f"v{n} := f0()" for n in range(count)), "a:"), ["a"]


def function_circle(count):
    """Functions that call each other in a circle, and a variable that one of them reads and that calls none."""
    functions = [f"f{n}() := f{(n + 1) % count}()" for n in range(count)]
    return bundle(*functions, "g() := f0() + v", "v := 'a'", "w := g()", "a:"), ["a"]


def function_circle_with_a_variable(count):
    """Functions that call each other in a circle, the last of which reads a variable, and a variable that calls the first."""
    functions = [f"f{n}() := f{n + 1}()" for n in range(count - 1)] + [f"f{count - 1}() := f0() + v"]
    return bundle(*functions, "v := 'a'", "w := f0()", "a:"), ["a"]


def circle_of_variables(count):
    """Many variables, each of which reads the next, and the last the first, which is refused."""
    return bundle(*(f"v{n} := v{(n + 1) % count}" for n in range(count)), "a:"), ["a"]


def many_reads(count):
    """A variable that reads so many others in one list."""
    names = ", ".join(f"v{n}" for n in range(count))
    return bundle("set lists", *(f"v{n} := 'a'" for n in range(count)), f"all := [{names}]", "a:"), ["a"]


def many_arguments(count):
    """A variable that hands so many others to one function."""
    parameters = ", ".join(f"x{n}" for n in range(count))
    arguments = ", ".join(f"v{n}" for n in range(count))
    return bundle(f"f({parameters}) := x0", *(f"v{n} := 'a'" for n in range(count)), f"all := f({arguments})", "a:"), ["a"]


def constants(count, width=10):
    """Many modules, each with some variables that read one another and that a recipe's doc needs."""
    text = "\n".join(["v0 := 'a'", *(f"v{n} := v{n - 1}" for n in range(1, width)), f"[doc(v{width - 1})]", "r:"])
    return listed([f"mod m{n}" for n in range(count)] + ["a:"], [(f"/m{n}.just", text) for n in range(count)]), ["a"]


def constant_chain(count):
    """Many variables, each of which reads the next, and a doc that reads the first."""
    return bundle(*(f"v{n} := v{n + 1}" for n in range(count - 1)), f"v{count - 1} := 'a'", "a:", "[doc(v0)]", "r:"), ["a"]


def docs(count):
    """Many modules whose docs read one variable each, of as many."""
    lines = [line for n in range(count) for line in (f"v{n} := 'a'", f"[doc(v{n})]", f"mod m{n}")]
    return listed(lines + ["a:"], [(f"/m{n}.just", "b:") for n in range(count)]), ["a"]


def docs_through_functions(count, depth):
    """Functions that call each other in a chain, and recipes whose docs call the first."""
    functions = [f"f{n}() := f{n + 1}()" for n in range(depth - 1)] + [f"f{depth - 1}() := 'a'"]
    return bundle(*functions, *(line for n in range(count) for line in ("[doc(f0())]", f"r{n}:")), "a:"), ["a"]


def patterns(count):
    """A recipe with many parameters, each of which has a pattern of its own."""
    attributes = (f"[arg('x{n}', pattern='[0-9]+|{n}')]" for n in range(count))
    return bundle("a:", *attributes, "r " + " ".join(f"x{n}" for n in range(count)) + ":"), ["a"]


def recipes_with_patterns(count):
    """Many recipes, each with a doc and a pattern."""
    return bundle("a:", *(line for n in range(count) for line in ("[doc('d')]", "[arg('x', pattern='[0-9]+')]", f"r{n} x:"))), ["a"]


def variable_twice(count):
    """One variable, assigned many times in one file, as its setting allows."""
    return bundle("set allow-duplicate-variables", *(f"v := '{n}'" for n in range(count)), "a:"), ["a"]


def duplicates(count, width=100):
    """Recipes of which each stands in every one of some files, as their setting allows."""
    text = "\n".join(f"r{n}:" for n in range(count // width))
    root = ["set allow-duplicate-recipes", *(f"import 'f{n}'" for n in range(width)), "a: r0"]
    return listed(root, [(f"/f{n}", text) for n in range(width)]), ["a"]


def one_name(count, width=100):
    """One recipe, many times in every one of some files, as their setting allows."""
    root = ["set allow-duplicate-recipes", *(f"import 'f{n}'" for n in range(width))]
    return listed(root, [(f"/f{n}", "\n".join(["a:"] * (count // width))) for n in range(width)]), ["a"]


def parentheses(count):
    """A variable whose value stands in so many parentheses, beside the recipe that is run."""
    return bundle("x := " + "(" * count + "'a'" + ")" * count, "a:"), ["a"]


def elements(count):
    """A variable that is a list of so many elements."""
    return bundle("x := [" + ", ".join(["'a'"] * count) + "]"), ["a"]


def parts(count):
    """A variable that is a sum of so many parts, beside the recipe that is run."""
    return bundle("x := " + " + ".join(["'a'"] * count), "a:"), ["a"]


def labels(count):
    """Many modules whose declarations have a few attributes each."""
    lines = [line for n in range(count) for line in ("[private]", "[group('g')]", "[group('h')]", f"mod m{n}")]
    return listed(lines + ["a:"], [(f"/m{n}.just", "b:") for n in range(count)]), ["a"]


def absent(count):
    """Many optional modules without a file."""
    return bundle(*(f"mod? m{n}" for n in range(count)), "a:"), ["a"]


def parameters(count):
    """A recipe of many parameters, beside the one that is run."""
    return bundle("a:", "r " + " ".join(f"x{n}" for n in range(count)) + ":"), ["a"]


def body(count):
    """A recipe with a body of so many lines, beside the one that is run."""
    return bundle("a:", "b:", *("    echo {{ 'a' }}" for _ in range(count))), ["a"]


def bodies(count, width=10):
    """Many recipes with some lines each, beside the one that is run."""
    return bundle("a:", *(line for n in range(count) for line in (f"r{n}:", *["    echo"] * width))), ["a"]


def lines_that_run(count):
    """A recipe whose body runs."""
    return bundle("a:", *("    echo {{ 'a' }}" for _ in range(count))), ["a"]


def recipes_that_run(count, width=3):
    """A chain of recipes with some lines each."""
    rows = [line for n in range(count - 1) for line in (f"r{n}: r{n + 1}", *["    echo"] * width)]
    return bundle(*rows, f"r{count - 1}:"), ["r0"]


def line_of_interpolations(count):
    """A line of many interpolations."""
    return bundle("a:", "    echo " + "{{ 'a' }}" * count), ["a"]


def line_that_goes_on(count):
    """A line that goes on in many others."""
    return bundle("a:", *["    echo \\"] * count, "    b"), ["a"]


def script(count):
    """A script of many lines."""
    return bundle("a:", "    #!/bin/sh", *["    echo"] * count), ["a"]


def attributes(count):
    """A recipe with so many attributes, beside the one that is run."""
    return bundle("a:", *["[group('g')]"] * count, "b:"), ["a"]


def chain_through_modules(count):
    """A chain of recipes, a third of it in the root, the next in a module, the last in a module of that."""
    third = count // 3
    def part(after):
        return "\n".join([*(f"r{n}: r{n + 1}" for n in range(third - 1)), f"r{third - 1}:{after}"])
    return listed(["mod m", part(" m::r0")], [("/m.just", "mod k 'k.just'\n" + part(" k::r0")), ("/k.just", part(""))]), ["r0"]


def depends_on_modules(count):
    """A recipe that depends on one of each of many modules."""
    root = [f"mod m{n}" for n in range(count)] + ["a: " + " ".join(f"m{n}::b" for n in range(count))]
    return listed(root, [(f"/m{n}.just", "b:") for n in range(count)]), ["a"]


def disabled_chain(count):
    """Recipes that each depend on the next, of which the last leads into an optional module without a file."""
    return bundle("a:", "mod? m", *(f"r{n}: r{n + 1}" for n in range(count - 1)), f"r{count - 1}: m::x"), ["a"]


def disabled_by_many(count):
    """The same, where each leads into an optional module of its own, none of which has a file."""
    rows = [f"r{n}: r{n + 1} m{n}::x" for n in range(count - 1)] + [f"r{count - 1}: m{count - 1}::x"]
    return bundle("a:", *(f"mod? m{n}" for n in range(count)), *rows), ["a"]


def lines_that_read(count, variables):
    """A recipe of many lines, each of which reads one of the variables."""
    return bundle(*(f"v{n} := '{n}'" for n in range(variables)), "a:", *(f"  {{{{v{n % variables}}}}}" for n in range(count))), ["a"]


def recipes_that_read(count, variables):
    """Many recipes, each of which reads the first of variables in a chain."""
    chain = (f"v{n} := v{n + 1}" for n in range(variables - 1))
    return bundle(*chain, f"v{variables - 1} := ''", *(line for n in range(count) for line in (f"r{n}:", "  {{v0}}"))), ["r0"]


def laziness(lazy):
    return ["set lazy"] if lazy else []


def modules_that_are_read(count, width, lazy):
    """Many modules with some variables each, of which the recipe reads the first, and each the next."""
    names = range(count)
    root = [*laziness(lazy), *(f"mod m{n}" for n in names), "a: " + " ".join(f"m{n}::r" for n in names)]
    own = "\n".join([*(f"v{n} := v{n + 1}" for n in range(width - 1)), f"v{width - 1} := 'a'", "r:", "  {{v0}}"])
    return listed(root, [(f"/m{n}.just", own) for n in names]), ["a"]


def chain_that_is_read(count, lazy):
    """A recipe that reads the first of many variables, each of which reads the next."""
    chain = (f"v{n} := v{n + 1}" for n in range(count - 1))
    return bundle(*laziness(lazy), *chain, f"v{count - 1} := 'a'", "a:", "  {{v0}}"), ["a"]


def read_by_many(count, lazy):
    """A chain of recipes that read one variable."""
    rows = [line for n in range(count - 1) for line in (f"r{n}: r{n + 1}", "  {{v}}")]
    return bundle(*laziness(lazy), "v := 'a'", *rows, f"r{count - 1}:", "  {{v}}"), ["r0"]


def aliases(count):
    """Many aliases: of half as many modules, and of a recipe in each."""
    modules = range(count // 2)
    root = [line for n in modules for line in (f"mod m{n}", f"alias x{n} := m{n}", f"alias y{n} := m{n}::b")]
    return listed(root + ["a:"], [(f"/m{n}.just", "b:") for n in modules]), ["a"]


def dependency_arguments(count):
    """A dependency with many arguments."""
    return bundle("d *x:", "a: (d " + " ".join(f"'{n}'" for n in range(count)) + ")"), ["a"]


INPUTS = {
    "chain of 1,000 recipes": chain(1_000),
    "chain of 10,000 recipes": chain(10_000),
    "chain of 1,000,000 recipes": chain(1_000_000),
    "100,000 recipes, each followed by the next": followed(100_000),
    "100,000 recipes, prior and subsequent in turn": in_turn(100_000),
    "100,000 recipes with two dependencies each": two_each(100_000),
    "40 diamonds on top of each other": diamonds(40),
    "100,000 lines": lines(100_000),
    "2,000 files": files(2_000),
    "2,000 files that import each other in a chain": import_chain(2_000),
    "20,000 files that import each other in a chain": import_chain(20_000),
    "100,000 files that import each other in a chain": import_chain(100_000),
    "one file that 2,000 import": imported_by_many(2_000),
    "2,000 modules": modules(2_000),
    "2,000 modules of one file": module_names(2_000),
    "200 modules inside each other": module_chain(200),
    "2,000 modules inside each other": module_chain(2_000),
    "10,000 invocations": words(10_000),
    "100,000 invocations of one recipe": invocations(100_000),
    "10,000 words for one variadic parameter": words_of_one_parameter(10_000),
    "100,000 recipes in a chain with a default each": defaults_in_a_chain(100_000),
    "100,000 recipes in a chain that hand an argument on": arguments_in_a_chain(100_000),
    "10,000 dependencies on one recipe with different arguments": different_arguments(10_000),
    "star over 100,000 texts": star(100_000),
    "recipe with 1,000 options, each given": options(1_000),
    "cluster of 10,000 letters": cluster(10_000),
    "2,000 names of modules inside each other, as words and as a path": names_in_turn(2_000),
    "100,000 functions of two parameters": functions(100_000),
    "function of 100,000 parameters": function_parameters(100_000),
    "2,000 modules that set seven settings each": settings(2_000),
    "a setting that is set 100,000 times": settings_twice(100_000),
    "20,000 variables": variables(20_000),
    "2,000 variables that each read the next": variable_chain(2_000),
    "20,000 variables that each read the next": variable_chain(20_000),
    "2,000 functions in a chain, and 2,000 variables that call the first": function_chain(2_000),
    "10,000 functions in a circle": function_circle(10_000),
    "10,000 functions in a circle, the last of which reads a variable": function_circle_with_a_variable(10_000),
    "circle of 20,000 variables": circle_of_variables(20_000),
    "list of 100,000 variables": many_reads(100_000),
    "call with 100,000 variables": many_arguments(100_000),
    "2,000 modules with 10 constants each": constants(2_000),
    "chain of 20,000 constants that a doc reads": constant_chain(20_000),
    "2,000 modules, each with a doc that reads one of 2,000 variables": docs(2_000),
    "2,000 docs of recipes that call the first of 60 functions in a chain": docs_through_functions(2_000, 60),
    "a recipe of 10,000 parameters with a pattern each": patterns(10_000),
    "10,000 recipes with a doc and a pattern each": recipes_with_patterns(10_000),
    "a variable that is assigned 100,000 times": variable_twice(100_000),
    "1,000 recipes, each in every one of 100 files": duplicates(100_000),
    "a recipe that is defined 100,000 times over 100 files": one_name(100_000),
    "parentheses 10,000 deep": parentheses(10_000),
    "parentheses 1,000,000 deep": parentheses(1_000_000),
    "list of 100,000 elements": elements(100_000),
    "sum of 10,000 parts": parts(10_000),
    "sum of 100,000 parts": parts(100_000),
    "sum of 1,000,000 parts": parts(1_000_000),
    "body of 100,000 lines": body(100_000),
    "10,000 recipes with ten lines each": bodies(10_000),
    "body of 100,000 lines that run": lines_that_run(100_000),
    "chain of 10,000 recipes of three lines that run": recipes_that_run(10_000),
    "line of 1,000 interpolations": line_of_interpolations(1_000),
    "line of 100,000 interpolations": line_of_interpolations(100_000),
    "line that goes on 10,000 times": line_that_goes_on(10_000),
    "line that goes on 100,000 times": line_that_goes_on(100_000),
    "script of 100,000 lines": script(100_000),
    "recipe with 10,000 attributes": attributes(10_000),
    "2,000 modules with three attributes each": labels(2_000),
    "20,000 optional modules without a file": absent(20_000),
    "recipe with 10,000 parameters": parameters(10_000),
    "chain of 10,000 recipes through two modules": chain_through_modules(10_000),
    "chain of 100,000 recipes through two modules": chain_through_modules(100_000),
    "a recipe that depends on one of each of 2,000 modules": depends_on_modules(2_000),
    "a recipe that depends on one of each of 20,000 modules": depends_on_modules(20_000),
    "2,000 disabled recipes in a chain, by one module": disabled_chain(2_000),
    "20,000 disabled recipes in a chain, by one module": disabled_chain(20_000),
    "2,000 disabled recipes in a chain, by 2,000 modules": disabled_by_many(2_000),
    "2,000 aliases, of 1,000 modules and of a recipe in each": aliases(2_000),
    "a recipe with 10,000 lines that each read one of 2,000 variables": lines_that_read(10_000, 2_000),
    "10,000 recipes that read the first of a chain of 2,000 variables": recipes_that_read(10_000, 2_000),
    "dependency with 10,000 arguments": dependency_arguments(10_000),
    "2,000 modules with 10 variables that are read": modules_that_are_read(2_000, 10, False),
    "2,000 lazy modules with 10 variables that are read": modules_that_are_read(2_000, 10, True),
    "20,000 variables in a chain that a recipe reads": chain_that_is_read(20_000, False),
    "20,000 lazy variables in a chain that a recipe reads": chain_that_is_read(20_000, True),
    "chain of 10,000 recipes that read one variable": read_by_many(10_000, False),
    "chain of 10,000 recipes that read one lazy variable": read_by_many(10_000, True),
}


def measure(program, text, arguments):
    """The status, the lines printed, the seconds, the peak memory in MiB and the first line of errors."""
    with tempfile.TemporaryFile() as given, tempfile.TemporaryFile() as output, tempfile.TemporaryFile() as errors:
        given.write(text.encode())
        given.seek(0)
        began = time.monotonic()
        child = os.fork()
        if child == 0:
            resource.setrlimit(resource.RLIMIT_STACK, (STACK, resource.getrlimit(resource.RLIMIT_STACK)[1]))
            for stream, number in ((given, 0), (output, 1), (errors, 2)):
                os.dup2(stream.fileno(), number)
            os.execv(program, [program, *arguments])
        _, status, used = os.wait4(child, 0)
        seconds = time.monotonic() - began
        output.seek(0)
        errors.seek(0)
        printed = output.read().count(b"\n")
        told = errors.readline().decode(errors="replace").strip()
        return os.waitstatus_to_exitcode(status), printed, seconds, used.ru_maxrss / 1024, told


def main():
    program = sys.argv[1] if len(sys.argv) > 1 else PROGRAM
    if not os.path.exists(program):
        sys.exit(f"{program} is not there: build it first (see the head of this file)")
    words = sys.argv[2:]
    for name, (text, arguments) in INPUTS.items():
        if words and not any(word in name for word in words):
            continue
        runs = [measure(program, text, ["/justfile", *arguments]) for _ in range(3)]
        status, printed, seconds, peak, told = min(runs, key=lambda run: run[2])
        print(f"{name}: {len(text)} bytes, status {status}, {printed} lines, {seconds:.2f} s, {peak:.0f} MiB {told[:100]}", flush=True)


if __name__ == "__main__":
    main()
