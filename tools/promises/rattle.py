"""Reads Rattle source: its `ghost use` lines, and each function that other crates, or C, can call, with its contract."""
from dataclasses import dataclass, field

from . import antt
from .antt_tokens import Unreadable
from .rattle_tokens import CLOSERS, OPENERS, Reader

QUALIFIERS = {"extern", "const", "unsafe", "async", "default", "safe"}


@dataclass
class Parameter:
    name: str
    lent: bool = False
    changed: bool = False


@dataclass
class Function:
    name: str
    line: int
    owner: str  # the type whose method it is, or nothing
    exported: bool  # to C
    parameters: list = field(default_factory=list)
    result: str = "value"  # value, lent or nothing
    requires: int = 0
    ensures: list = field(default_factory=list)  # the tokens of each
    labelled: bool = False
    odd: list = field(default_factory=list)  # what its signature has that is not read
    types: set = field(default_factory=set)  # the words of its types
    source: str = ""  # of a conversion, the type that is converted
    # What the checks find out about it.
    crate: str = ""
    file: str = ""
    scope: object = None
    promise: object = None
    theorem: str = ""

    @property
    def title(self):
        name = f"{self.name}({self.source})" if self.source else self.name
        return "::".join(part for part in (self.crate, self.owner, name) if part)

    @property
    def short(self):
        """What its theorem calls it."""
        return f"{self.source}_as_{self.owner}".lower() if self.source else self.name

    @property
    def clause(self):
        """Where its promise stands."""
        return "from_gives" if self.source else "ensures"


@dataclass
class Impl:
    """An `impl` block: its type, and of a conversion the type that is converted and each `from_gives`."""

    owner: str
    source: str = ""
    gives: list = field(default_factory=list)


class File:
    """A file's `ghost use` lines, its functions that others can call, its types that hold a reference, and what its tactics open."""

    def __init__(self, source):
        self.reader = Reader(source)
        self.uses, self.functions, self.holders, self.refused = [], [], [], []
        self.opened = []  # the line of an attribute, and a path that stands behind its `unfolding`
        self.blocks = []  # for each open brace, the `impl` that it opened, or nothing
        self.forget()
        while self.reader.text:
            self.step()

    def forget(self):
        """Drops what stood before an item and belonged to it."""
        self.public = self.exported = False

    def step(self):
        reader, word = self.reader, self.reader.text
        if word == "#":
            reader.advance()
            if reader.text == "!":
                reader.advance()
            self.exported |= bool({"no_mangle", "export_name"} & set(self.read_attribute()))
        elif word == "pub":
            reader.advance()
            self.public = reader.text != "("
            if not self.public:
                reader.group()
        elif word in QUALIFIERS or reader.kind == "text":
            reader.advance()
        elif word == "fn":
            self.read_function()
        else:
            public = self.public
            self.forget()
            self.read_other(word, public)

    def read_attribute(self):
        """The words of an attribute, from its bracket on."""
        line, words = self.reader.token_line, self.reader.group()
        for place, word in enumerate(words):
            if word == "unfolding" and words[place + 1 : place + 2] == ["("]:
                listed = words[place + 2 : words.index(")", place)]
                self.opened += [(line, "".join(part)) for part in parts_of(listed)]
        return words

    def read_other(self, word, public):
        reader, line = self.reader, self.reader.token_line
        reader.advance()
        if word == "ghost" and reader.text == "use":
            self.uses.append(antt.read_use(reader.antt(";")))
        elif word == "ghost" and self.conversion():
            self.read_member(self.conversion())
        elif word == "impl":
            self.blocks.append(self.read_impl(line))
        elif word == "mod" and self.opens_block():
            self.refused.append((line, "a module within a file: the checks read one module to a file"))
        elif word in ("struct", "enum", "type"):
            name = reader.text
            if any(part[0] in "&'" for part in self.read_type_item()):
                self.holders.append(name)
                fault = f"a `{word}` that holds a reference and is not its crate's own: the checks cannot see what of it is lent"
                self.refused += [(line, fault)] if public else []
        elif word == "{":
            self.blocks.append(None)
        elif word == "}" and self.blocks:
            self.blocks.pop()

    def opens_block(self):
        self.reader.advance()
        return self.reader.text == "{"

    def read_impl(self, line):
        """The block that an `impl` opens; ends behind its brace."""
        reader, trait, owner, listed = self.reader, "", "", []
        while reader.text not in ("{", ""):
            if reader.text in OPENERS:
                listed = reader.group()[1:-1]
            elif reader.text == "for":
                trait, source, owner = owner, listed, ""
                reader.advance()
            else:
                owner = reader.take()
        reader.advance()
        if trait == "From" and owner and "".join(source[:1]).isidentifier() and source[1:2] in ([], ["<"]):
            return Impl(owner, source[0])
        if trait:
            fault = f"an impl of `{trait}` for `{owner}`: of traits the checks read `From` alone, with types by their names"
            self.refused.append((line, fault))
        return Impl(owner)

    def conversion(self):
        """The block of the conversion whose members stand here, or nothing."""
        block = self.blocks[-1] if self.blocks else None
        return block if block and block.source else None

    def read_member(self, block):
        """A ghost member of a conversion."""
        member, line = self.reader.take(), self.reader.token_line
        if self.reader.take() != "=" or self.reader.text != "{":
            raise Unreadable(line, f"`ghost {member}` without braces")
        some = self.reader.antt("}")
        if member == "from_gives":
            block.gives.append(some)
        else:
            self.refused.append((line, f"the ghost member `{member}`, which the checks do not read"))

    def read_type_item(self):
        """The words of a type's declaration, to its `;` or its closing brace."""
        words = []
        while self.reader.text not in (";", "{", ""):
            words += self.reader.group() if self.reader.text in OPENERS else [self.reader.take()]
        return words + (self.reader.group() if self.reader.text == "{" else [])

    def read_function(self):
        reader = self.reader
        reader.advance()
        if reader.kind != "word":
            return
        owner = next((block.owner for block in reversed(self.blocks) if block), "")
        made = Function(reader.text, reader.token_line, owner, self.exported, types={owner})
        conversion = self.conversion()
        if conversion:
            made.source, made.ensures = conversion.source, conversion.gives
        kept = self.public or self.exported or conversion
        self.forget()
        reader.advance()
        if reader.text == "<":
            made.odd += [word for word in reader.group()[1:-1] if word != "," and not word.startswith("'")]
        listed = reader.group()
        made.types.update(listed)
        made.requires += listed.count("requires")
        made.parameters = [read_parameter(part, made) for part in parts_of(listed[1:-1])]
        self.read_result(made)
        self.read_clauses(made)
        if kept:
            self.functions.append(made)

    def read_result(self, made):
        """What stands behind `->`, to the first clause, attribute or brace."""
        words = []
        if self.reader.text == "->":
            self.reader.advance()
            while self.reader.text not in ("requires", "ensures", "ghost", "where", "#", "{", ";", ""):
                words += self.reader.group() if self.reader.text in OPENERS else [self.reader.take()]
        made.types.update(words)
        lent, changed, odd = type_of(words)
        made.result = "nothing" if words in ([], ["(", ")"]) else "lent" if lent else "value"
        if changed or odd:
            made.odd.append(f"the result `{' '.join(words)}`")

    def read_clauses(self, made):
        """A function's clauses, to the brace or the `;` behind them, which stays to be read."""
        reader = self.reader
        while reader.text not in ("{", ";", ""):
            word, line = reader.take(), reader.token_line
            if word == "#":
                self.read_attribute()
            elif word in ("requires", "ensures", "ghost"):
                label = reader.take() if reader.kind == "word" else ""
                if reader.text != "{":
                    raise Unreadable(line, f"`{word}` without braces")
                self.note_clause(made, word, label, reader.antt("}"))
            else:
                made.odd.append(f"`{word}` before its body")

    def note_clause(self, made, word, label, some):
        if word == "requires":
            made.requires += 1
        elif word == "ensures":
            made.ensures.append(some)
            made.labelled |= bool(label)
        else:
            made.odd.append("a `ghost` clause")


def parts_of(words):
    """The parts between commas, outside brackets."""
    parts, depth = [[]], 0
    for word in words:
        depth += (word in OPENERS) - (word in CLOSERS)
        if word == "," and not depth:
            parts.append([])
        else:
            parts[-1].append(word)
    return [part for part in parts if part]


def type_of(words):
    """Whether a type is lent, whether what is lent may be changed, and whether it is of a form that is not read."""
    lent = words[:1] == ["&"]
    rest = words[1:] if lent else words
    if lent and rest and rest[0].startswith("'"):
        rest = rest[1:]
    changed = lent and rest[:1] == ["mut"]
    held = any(word in ("&", "fn", "dyn", "impl", "*") or word.startswith("'") for word in rest)
    return lent, changed, held


def read_parameter(words, made):
    if words[0] == "mut":
        words = words[1:]
    if words[-1] == "self":
        name, kind = "self", words[:-1] + ["Self"]
    elif len(words) > 2 and words[1] == ":":
        name, kind = words[0], words[2:]
    else:
        name, kind = " ".join(words), ["*"]
    lent, changed, odd = type_of(kind)
    if odd:
        made.odd.append(f"the parameter `{' '.join(words)}`")
    return Parameter(name, lent, changed)
