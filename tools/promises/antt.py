"""Reads antt, the language of specs/ and proofs/: a file's `use` lines and declarations."""
from dataclasses import dataclass, field

from .antt_tokens import OPENERS, Unreadable, depths, spelled, split, tokens

MARKS = {"unfoldable", "abbrev", "pub", "axiom"}


@dataclass
class Use:
    """A `use` line: `path.{items}`, or the module `path` itself, under its own name or another."""

    path: tuple
    line: int
    items: list = field(default_factory=list)  # pairs: path below, name here
    module: str = ""


def read_use(some):
    """The `use` line whose tokens, behind the word `use`, are these."""
    if not some or some[0].kind != "name":
        raise Unreadable(some[0].line if some else 1, "a `use` line without a path")
    path, line = tuple(some[0].text.split(".")), some[0].line
    if path[-1] == "*":
        raise Unreadable(line, "`use` of every name of a module: list them")
    rest = some[1:]
    if not rest:
        return Use(path, line, module=path[-1])
    if rest[0].is_word("as") and len(rest) == 2:
        return Use(path, line, module=rest[1].text)
    if len(rest) > 2 and [t.text for t in (rest[0], rest[1], rest[-1])] == [".", "{", "}"]:
        listed = [item for item in split(rest[2:-1], ",") if item]
        return Use(path, line, items=[read_item(item) for item in listed])
    raise Unreadable(line, "a `use` line of another form")


def read_item(item):
    if len(item) == 1:
        return tuple(item[0].text.split(".")), item[0].text.split(".")[-1]
    if len(item) == 3 and item[1].is_word("as"):
        return tuple(item[0].text.split(".")), item[2].text
    raise Unreadable(item[0].line, "a `use` line of another form")


@dataclass
class Declaration:
    name: str
    kind: str  # value, record, data or ruleset
    marks: set
    line: int
    sections: list  # the parameters of the `module _` blocks around it, as tokens
    type: list = field(default_factory=list)
    clauses: list = field(default_factory=list)  # the left and the right side of each
    fields: list = field(default_factory=list)  # the entries of a record


def entries(some):
    """A block's entries: each begins a line at the block's column, outside brackets."""
    found = []
    for token, depth in depths(some):
        begins = token.first and depth == (1 if token.text in OPENERS else 0)
        if begins and token.column < some[0].column:
            raise Unreadable(token.line, "a line that stands left of its block")
        if not found or (begins and token.column == some[0].column):
            found.append([])
        found[-1].append(token)
    return found


class File:
    """A file's `use` lines and declarations, by name."""

    def __init__(self, source):
        self.tokens = tokens(source)
        self.uses, self.children, self.declarations, self.opens = [], set(), [], []
        if self.tokens:
            self.read_block(self.tokens, [])

    def declaration(self, name):
        return next((d for d in self.declarations if d.name == name), None)

    def read_block(self, some, sections):
        for entry in entries(some):
            marks = set()
            while entry and entry[0].kind == "name" and entry[0].text in MARKS:
                marks.add(entry[0].text)
                entry = entry[1:]
            if entry:
                self.read_entry(entry, marks, sections)

    def read_entry(self, entry, marks, sections):
        word = entry[0].text if entry[0].kind == "name" else ""
        if word == "use":
            if "pub" in marks:
                raise Unreadable(entry[0].line, "`pub use` hides where a name comes from: name its own module")
            self.uses.append(read_use(entry[1:]))
        elif word == "mod":
            self.children.update(token.text for token in entry[1:2])
        elif word == "open":
            self.opens.append(entry[0].line)
        elif word in ("module", "mutual"):
            head, block = at_where(entry) if word == "module" else (entry[:1], entry[1:])
            if word == "module" and not (len(head) > 1 and head[1].text == "_"):
                raise Unreadable(entry[0].line, "a `module` block with a name")
            if block:
                self.read_block(block, sections + head[2:])
        elif word in ("record", "data", "ruleset"):
            self.read_named(entry, word, marks, sections)
        elif word not in ("unfolding", "infix", "infixl", "infixr"):
            self.read_value(entry, marks, sections)

    def read_named(self, entry, kind, marks, sections):
        head, block = at_where(entry)
        made = Declaration(head[1].text, kind, marks, head[1].line, sections, type=head[2:])
        made.fields = entries(block) if block else []
        self.declarations.append(made)

    def read_value(self, entry, marks, sections):
        sides = split(entry, "=")
        if len(sides) > 1:
            made = self.declaration(entry[0].text)
            if made:
                made.clauses.append((sides[0], entry[len(sides[0]) + 1 :]))
        elif len(entry) > 1 and entry[1].is_word(":"):
            made = Declaration(entry[0].text, "value", marks, entry[0].line, sections, type=entry[2:])
            self.declarations.append(made)
        elif entry[0].text.startswith("only_") or len(split(entry, ":")) == 1:
            raise Unreadable(entry[0].line, f"cannot read the declaration `{spelled(entry)}`")


def at_where(entry):
    """What stands before and behind the first `where` outside brackets."""
    for place, (token, depth) in enumerate(depths(entry)):
        if depth == 0 and token.is_word("where"):
            return entry[:place], entry[place + 1 :]
    return entry, []
