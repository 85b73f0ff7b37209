"""Whether each promise has its theorem `only_..`: that two answers which both keep the promise are the same."""
import re
from collections import Counter, defaultdict

from .antt_tokens import Unreadable, groups, spelled, split
from .proposition import RELATIONS
from .tree import place_of

EXCEPTIONS = "docs/EXCEPTIONS.md"


def name_theorems(functions):
    """By a function's name alone, where only one has it; else with its crate; else with its type or module too."""
    plain = Counter(function.short for function in functions)
    in_crate = Counter((function.crate, function.short) for function in functions)
    for function in functions:
        parts = [function.short]
        if plain[function.short] > 1:
            parts.insert(0, function.crate)
        if in_crate[function.crate, function.short] > 1:
            module = function.file.rsplit("/", 1)[1][: -len(".rt")]
            parts.insert(1, (function.owner or module).lower())
        function.theorem = "_".join(["only", *parts])


class Theorems:
    def __init__(self, tree, functions):
        self.tree, self.functions = tree, functions
        name_theorems(functions)
        self.borders = {function.crate for function in functions if function.exported}
        self.found = defaultdict(list)  # by the crate whose proofs it stands in, and its name
        for crate in sorted(self.borders | {"promise"}):
            for file in tree.sources(f"crates/{crate}/proofs/**/*.antt"):
                read = tree.antt(file)
                for made in read.declarations if read else []:
                    if made.name.startswith("only_"):
                        self.found[crate, made.name].append((read, made))

    def check(self):
        excepted = self.exceptions()
        wanted = set()
        for function in self.functions:
            home = function.crate if function.crate in self.borders else "promise"
            key = home, function.theorem
            if key in wanted:
                self.breach(function, f"has the same theorem as another, {key[1]}: rename one of them")
            wanted.add(key)
            if key not in self.found and function.title not in excepted:
                self.breach(function, f"has no theorem {key[1]} in crates/{home}/proofs, and no line in {EXCEPTIONS}")
            elif function.promise:
                self.check_each(self.found[key], function.promise)
        self.check_strays(wanted)

    def breach(self, function, text):
        self.tree.breach(function.file, function.line, f"`{function.title}` {text}")

    def check_each(self, found, promise):
        for read, made in found:
            fault = "stands twice" if made is not found[0][1] else theorem_fault(read, made, promise)
            if fault:
                self.tree.breach(read.file, made.line, f"{made.name} {fault}")

    def check_strays(self, wanted):
        if self.tree.unread:
            return
        for key, found in self.found.items():
            if key not in wanted:
                for read, made in found:
                    self.tree.breach(read.file, made.line, f"{made.name} speaks of no function")

    def exceptions(self):
        if not (self.tree.root / EXCEPTIONS).is_file():
            return set()
        titles = {function.title for function in self.functions}
        listed = set()
        for number, line in enumerate(self.tree.text(EXCEPTIONS).splitlines(), 1):
            named = re.match(r"- `([^`]*)`: \S", line)
            if named:
                listed.add(named[1])
                if named[1] not in titles:
                    self.tree.breach(EXCEPTIONS, number, f"`{named[1]}` speaks of no function")
        return listed


def theorem_fault(read, made, promise):
    """What is wrong with a theorem's type, if anything."""
    if made.kind != "value" or made.marks != {"pub"}:
        return "is not `pub` and proved"
    if read.opens or redefines(read):
        return "stands in a file where `≡`, `×` or `→` may mean something else"
    try:
        bound = variables(groups(made.sections))
        steps = split(made.type, "→")
        if all(is_binder(part) for part in groups(steps[0])):
            bound += variables(groups(steps.pop(0)))
    except Unreadable as odd:
        return f"has {odd.text}"
    if len(steps) != 3:
        return f"does not take two premises, but {len(steps) - 1}"
    return premises_fault(read, steps, bound, promise)


def redefines(read):
    """Whether the file has an `≡` that is not the kit's, or a `×` or `→` of its own."""
    names = list(read.scope.names) + [made.name for made in read.declarations]
    for name in names:
        if {"×", "→", "≡"} & set(name.split("◌")) and name != "◌≡◌":
            return True
    meant = read.scope.meanings("◌≡◌")
    return not meant or not RELATIONS["≡"].issuperset(meant) or bool(read.declaration("◌≡◌"))


def is_binder(part):
    """Whether it is `(x y : A)` or `{x y : A}`."""
    return len(part) > 2 and part[0].text in ("(", "{") and len(split(part[1:-1], ":")) == 2


def variables(parts):
    """The names that `(x y : A) {z : B}` binds."""
    names = []
    for part in parts:
        if not is_binder(part):
            raise Unreadable(part[0].line, f"`{spelled(part)}` where only variables are bound")
        names += [token.text for token in split(part[1:-1], ":")[0]]
    return names


def premises_fault(read, steps, bound, promise):
    one, other = ([token.text for token in step] for step in steps[:2])
    for premise in (one, other):
        meant = [place_of(path) for path in read.scope.meanings(premise[0])] if premise else []
        if meant != [promise.place] or premise[0] in bound or read.declaration(premise[0]):
            return f"takes `{' '.join(premise)}`, and not what the function promises, {'.'.join(promise.place)}"
        if len(premise) - 1 != promise.count or not set(premise[1:]) <= set(bound):
            return f"takes `{' '.join(premise)}`, whose arguments are not {promise.count} variables"
    named = one[1:] + [other[1 + place] for place in promise.answers]
    rest = [place for place in range(promise.count) if place not in promise.answers]
    if len(set(named)) < len(named) or any(one[1 + place] != other[1 + place] for place in rest):
        return "must take the promise twice, of the same variables but for the result and the exits"
    if sorted(bound) != sorted(named):
        return f"binds `{' '.join(sorted(set(bound) ^ set(named)) or bound)}` beside what its premises name"
    pairs = [f"{one[1 + place]} ≡ {other[1 + place]}" for place in promise.answers]
    right = pairs[0] if len(pairs) == 1 else " × ".join(f"( {pair} )" for pair in pairs)
    said = spelled(steps[2])
    return None if said in (right, f"( {right} )") else f"concludes `{said}`, and not `{right}`"
