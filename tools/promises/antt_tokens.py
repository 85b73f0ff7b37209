"""The tokens of antt, the language of specs/ and proofs/, and how brackets part them.

What could be read in two ways is refused, so that nothing hides from the checks.
"""
import re
from dataclasses import dataclass

OPENERS, CLOSERS = {"(", "{", "["}, {")", "}", "]"}

PIECES = re.compile(
    r"""(?P<space>[ \n]+)
      | (?P<comment>--(?=[ \-\n]|\Z)[^\n]*)
      | (?P<text>"(?:\\.|[^"\\])*")
      | «(?P<quoted>[^«»]*)»
      | (?P<name>[^\s(){}.;,@"«»]+)
      | (?P<mark>[(){}.;,@])""",
    re.VERBOSE,
)


class Unreadable(Exception):
    """Text that these readers do not take."""

    def __init__(self, line, text):
        super().__init__(text)
        self.line = line
        self.text = text


@dataclass(frozen=True)
class Token:
    kind: str  # name (a path or a projection too), quoted, field (as in `(f r).count`), text or mark
    text: str
    line: int
    column: int
    first: bool  # on its line

    def is_word(self, word):
        return self.kind in ("name", "mark") and self.text == word


def tokens(source, line=1):
    """The tokens of antt text. A path `A.B.c` or a projection `r.count`, written without spaces, is one name."""
    found, at, start_of_line, first, ended = [], 0, 0, True, -1
    while at < len(source):
        piece = PIECES.match(source, at)
        refuse_odd(source, at, piece, line)
        kind, text = piece.lastgroup, piece.group(piece.lastgroup)
        kind = "mark" if text in ("[", "]") else kind  # around the cases of an `elim`; `[]` is a name
        if kind == "space":
            if "\n" in text:
                line += text.count("\n")
                start_of_line = at + text.rindex("\n") + 1
                first = True
        elif kind != "comment":
            joined = joins(source, piece, found, ended)
            add(found, joined, Token(kind, text, line, at - start_of_line, first))
            first, ended = False, piece.end()
        at = piece.end()
    return found


def refuse_odd(source, at, piece, line):
    if piece is None:
        raise Unreadable(line, f"cannot read {source[at]!r}")
    if source.startswith("{-", at):
        raise Unreadable(line, "a comment in braces; write it after `--`")
    if piece.lastgroup == "name" and piece.group().startswith("--"):
        raise Unreadable(line, "`--` without a space after it may be a comment or a name")


def joins(source, piece, found, ended):
    """How this piece goes on from the one before: as part of its path, as a dot that takes a field, or not at all."""
    before = source[ended:piece.start()]
    if not found or before:
        return "field" if piece.group() == "." and begins_name(source, piece.end()) else ""
    last = found[-1]
    if piece.group() == ".":
        if not begins_name(source, piece.end()):
            return ""
        return "path" if last.kind in ("name", "quoted") else "field"
    return "path" if last.text.endswith(".") and last.kind in ("name", "field") else ""


def begins_name(source, at):
    return at < len(source) and (source[at] == "«" or source[at] not in ' \n(){}.;,@"')


def add(found, joined, token):
    if joined == "path":
        last = found.pop()
        kind = "field" if last.kind == "field" else "name"
        found.append(Token(kind, last.text + token.text, last.line, last.column, last.first))
    elif joined == "field":
        found.append(Token("field", ".", token.line, token.column, token.first))
    else:
        found.append(token)


def spelled(some):
    return " ".join(token.text for token in some)


def depths(some):
    """Each token with the number of brackets around it; a bracket counts as inside itself."""
    depth = 0
    for token in some:
        if token.kind == "mark" and token.text in OPENERS:
            depth += 1
        yield token, depth
        if token.kind == "mark" and token.text in CLOSERS:
            depth -= 1
    if depth:
        raise Unreadable(some[0].line, "a bracket that is not closed")


def split(some, *words):
    """The parts between these words, outside brackets."""
    parts = [[]]
    for token, depth in depths(some):
        if depth == 0 and any(token.is_word(word) for word in words):
            parts.append([])
        else:
            parts[-1].append(token)
    return parts


def groups(some):
    """The bracketed groups and the single tokens that these are, one after the other."""
    found = []
    for token, depth in depths(some):
        if depth == 0 or (depth == 1 and token.text in OPENERS):
            found.append([token])
        else:
            found[-1].append(token)
    return found
