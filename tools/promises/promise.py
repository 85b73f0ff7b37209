"""Whether a function that others can call asks nothing and promises one named proposition of all that it takes and gives."""
from dataclasses import dataclass

from .antt_tokens import Unreadable, groups, spelled
from .tree import crate_of, place_of

# What makes more of a proposition than a name with its arguments.
JOINS = set("→ ↔ × ¬ ∧ ∨ ∗ ≡ λ ∀ do let".split())


@dataclass
class Promise:
    """A function's proposition, and which of its arguments may differ between two calls: the result, then each exit."""

    place: tuple
    count: int
    answers: list  # places among the arguments


def read_promise(tree, function):
    """Gives a function its promise, or none where that is not as it must be; each fault is a breach."""
    faults = [f"has {what}, which the checks cannot read" for what in function.odd]
    if function.requires:
        faults.append("has a `requires`")
    if len(function.ensures) != 1:
        faults.append(f"has {len(function.ensures)} `{function.clause}`, and not one")
    if function.labelled:
        faults.append("has a label on its `ensures`")
    if not faults:
        function.promise, faults = read_ensures(function)
    for fault in faults:
        tree.breach(function.file, function.line, f"`{function.title}` can be called by others and {fault}")


def read_ensures(function):
    clause = function.ensures[0]
    try:
        parts = groups(clause)
    except Unreadable as odd:
        return None, [f"its `{function.clause}` has {odd.text}"]
    joined = [part[0].text for part in parts if part[0].text in JOINS]
    if joined or not parts or not is_name(parts[0]):
        text = f"its `{function.clause}` is not one named proposition"
        return None, [text + "".join(f": it has `{word}`" for word in joined[:1])]
    arguments = [spelled(part) for part in parts[1:]]
    place, faults = resolve(function, parts[0][0].text)
    taken, given = expected(function)
    if function.source:  # the trait applies `from_gives` to what is converted and to the result
        arguments += [form for form, _ in taken + given]
    faults += name_faults(function) + argument_faults(taken + given, arguments)
    if not given:
        faults.append("gives nothing that a promise could speak of")
    if faults:
        return None, faults
    return Promise(place, len(arguments), [arguments.index(form) for form, _ in given]), []


def is_name(part):
    return len(part) == 1 and part[0].kind == "name" and part[0].text[0].isupper() and part[0].text.isalnum()


def expected(function):
    """How the promise must write each thing that is taken, and each that is given, and what that is."""
    taken = []
    for parameter in function.parameters:
        held = ".old" if parameter.changed else ".now" if parameter.lent else ""
        taken.append((parameter.name + held, f"the parameter `{parameter.name}`"))
    given = []
    if function.result != "nothing":
        given.append(("result.now" if function.result == "lent" else "result", "the result"))
    for parameter in function.parameters:
        if parameter.changed:
            given.append((f"{parameter.name}.new", f"what `{parameter.name}` holds afterwards"))
    return taken, given


def name_faults(function):
    names = [parameter.name for parameter in function.parameters] + ["result"]
    return ["binds one name twice"] if len(set(names)) < len(names) else []


def argument_faults(wanted, arguments):
    faults = []
    for form, what in wanted:
        if form not in arguments:
            faults.append(f"its promise does not name {what}")
        elif arguments.count(form) > 1:
            faults.append(f"its promise names {what} more than once")
    forms = [form for form, _ in wanted]
    for argument in arguments:
        if argument not in forms:
            faults.append(f"its promise has the argument `{argument}`, which is no parameter, result or exit")
    return faults


def resolve(function, name):
    """The place of the proposition, by the file's `ghost use` lines."""
    if function.scope.meanings("result"):
        return (), ["its file brings in another `result`"]
    if name in [parameter.name for parameter in function.parameters]:
        return (), [f"its promise `{name}` is a parameter"]
    paths = function.scope.meanings(name)
    if len(paths) != 1:
        return (), [f"its promise `{name}` is brought in by {len(paths)} `ghost use` lines, and not one"]
    if not crate_of(paths[0]) or paths[0][1:2] != ("specs",) or len(paths[0]) < 3:
        return (), [f"its promise `{name}` stands in no crate's specs"]
    return place_of(paths[0]), []
