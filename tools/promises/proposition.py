"""Whether a promised proposition is defined where its `ghost use` says, and holds no implication: it must say what is so, not what
follows from what. What it is made of is followed to the end.
"""
from .antt_tokens import Unreadable, depths, groups, spelled, split
from .tree import crate_of, place_of

# The kit's relations: where each is defined, and where the kit passes it on.
PRELUDE = ("Rattle", "std", "specs", "Prelude")
RELATIONS = {
    "≡": {("mathlib", "Core", "Path", "◌≡◌"), PRELUDE + ("◌≡◌",)},
    "≤": {("Prim", "Native", "Nat", "◌≤◌"), PRELUDE + ("◌≤◌",)},
    "<": {("Prim", "Native", "Nat", "◌<◌"), PRELUDE + ("◌<◌",)},
}
# Operators on values, which may stand on either side of a relation.
TERMS = set("+ - * / % ^ ++ ∷ []".split())
IMPLIES = {"→", "↔", "¬", "∀"}
BINDS = set(": λ let in do elim unfold where Type ∨ ∧ coe hcom com".split())


class Propositions:
    def __init__(self, tree):
        self.tree = tree
        self.seen = set()

    def check(self, function):
        place = function.promise.place
        found = self.tree.definition(place)
        if not found:
            text = f"`{function.title}` promises `{place[-1]}`, which {'.'.join(place[:-1])} does not define"
            self.tree.breach(function.file, function.line, text)
        else:
            self.follow(place, *found)

    def follow(self, place, read, made):
        """Checks one definition, once, and then what it is made of."""
        if place in self.seen:
            return
        self.seen.add(place)
        if made.kind != "record" and not made.marks & {"abbrev", "unfoldable"}:
            return self.breach(read, made, "is no record, `abbrev` or `unfoldable` definition")
        if "pub" not in made.marks:
            self.breach(read, made, "is not `pub`")
        if read.opens:
            self.breach(read, made, "stands in a file with `open`, which the checks do not read")
        if not (made.fields if made.kind == "record" else made.clauses):
            self.breach(read, made, "says nothing")
        for part in made.fields:
            self.field(read, made, part)
        for left, right in made.clauses:
            self.say(read, made, right, {token.text for token in made.sections + left[1:]})

    def field(self, read, made, part):
        sides = split(part, ":")
        if len(sides) != 2:
            return self.breach(read, made, f"has a field that the checks cannot read: `{spelled(part)}`")
        bound = {token.text for token in made.sections + made.type}
        bound.update(token.text for one in made.fields for token in split(one, ":")[0])
        self.say(read, made, sides[1], bound)

    def breach(self, read, made, text):
        self.tree.breach(read.file, made.line, f"the promise `{made.name}` {text}")

    def say(self, read, made, body, bound):
        """Checks one statement: an equation or an order, a named proposition, or several of these joined by `×`."""
        try:
            body = unwrapped(body)
            outer = [token for token, depth in depths(body) if depth == 0]
        except Unreadable as odd:
            return self.tree.breach(read.file, odd.line, odd.text)
        words = {token.text for token in outer}
        shown = spelled(body)
        if words & IMPLIES:
            return self.breach(read, made, f"holds an implication: `{shown}`")
        if words & BINDS:
            return self.breach(read, made, f"binds, or takes apart, in a way that the checks do not follow: `{shown}`")
        parts = split(body, "×")
        if len(parts) > 1:
            for part in parts:
                self.say(read, made, part, bound)
        else:
            self.say_one(read, made, body, outer, bound)

    def say_one(self, read, made, body, outer, bound):
        shown = spelled(body)
        for token in outer:
            fault = operator_fault(read, token)
            if fault:
                return self.breach(read, made, f"{fault}: `{shown}`")
        if {token.text for token in outer} & set(RELATIONS):
            return None
        if not body or body[0].kind != "name" or body[0].text.split(".")[0] in bound:
            return self.breach(read, made, f"rests on what the checks cannot follow: `{shown}`")
        place = place_in(read, body[0].text)
        found = self.tree.definition(place) if place else None
        if not found:
            return self.breach(read, made, f"rests on `{body[0].text}`, which is no definition of this repository's specs: `{shown}`")
        return self.follow(place, *found)


def unwrapped(body):
    """Without the brackets that stand around all of it."""
    while body and body[0].text == "(" and len(groups(body)) == 1:
        body = body[1:-1]
    return body


def place_in(read, name):
    """Where a proposition that a file names is defined; nothing for the kit's own."""
    if read.declaration(name):
        return read.place + (name,)
    paths = [path for path in read.scope.meanings(name) if crate_of(path)]
    return place_of(paths[0]) if len(paths) == 1 and len(paths[0]) > 2 else None


def operator_fault(read, token):
    """What is wrong with a word that may be an operator."""
    text = token.text
    if token.kind != "name" or text.isdigit():
        return None
    own = [made.name for made in read.declarations if "◌" in made.name and text in made.name.split("◌")]
    brought = [name for name in read.scope.names if "◌" in name and text in name.split("◌")]
    if text in RELATIONS:
        right = brought == [f"◌{text}◌"] and RELATIONS[text].issuperset(read.scope.meanings(brought[0]))
        return None if right and not own else f"has a `{text}` that is not the kit's"
    homes = [path for name in brought for path in read.scope.meanings(name)]
    if own or any(crate_of(path) for path in homes):
        return f"has an operator of this repository, `{text}`, which the checks do not follow"
    if text in TERMS or (any(letter.isalnum() for letter in text) and not brought):
        return None
    return f"has `{text}`, which the checks do not know"
