"""Walks over Rattle source, token by token, and over the antt that stands in it."""
import re

from . import antt_tokens
from .antt_tokens import Unreadable

PIECES = re.compile(
    r"""(?P<space>\s+)
      | (?P<comment>//[^\n]*)
      | (?P<block>/\*(?:[^*]|\*(?!/))*\*/)
      | (?P<raw>b?r(?P<hashes>\#*)".*?"(?P=hashes))
      | (?P<text>b?"(?:\\.|[^"\\])*")
      | (?P<character>b?'(?:\\[^']+|\\'|[^'\\])')
      | (?P<lifetime>'\w+)
      | (?P<word>(?:r\#)?[^\W\d]\w*)
      | (?P<number>\d\w*)
      | (?P<mark>->|.)""",
    re.VERBOSE | re.DOTALL,
)
# A clause's text and a `ghost use` are antt in the midst of Rattle: a comment or a text there could end for one of them and not the other.
ODD_IN_ANTT = re.compile(r'//|/\*|--|\{-|"')
OPENERS, CLOSERS = {"(", "[", "{", "<"}, {")", "]", "}", ">"}


class Reader:
    """Stands at one token: its kind and text, and the line that it begins on."""

    def __init__(self, source):
        self.source, self.at, self.line = source, 0, 1
        self.advance()

    def advance(self):
        """To the next token that is no space and no comment; its text is empty at the end."""
        self.kind, self.text = "end", ""
        while self.at < len(self.source):
            piece = PIECES.match(self.source, self.at)
            self.kind, self.text, self.start = piece.lastgroup, piece.group(), self.at
            self.token_line = self.line
            self.refuse_odd()
            self.line += self.text.count("\n")
            self.at = piece.end()
            if self.kind not in ("space", "comment", "block"):
                return
            self.kind, self.text = "end", ""

    def refuse_odd(self):
        if self.source.startswith("/*", self.start) and (self.kind != "block" or "/*" in self.text[2:]):
            raise Unreadable(self.line, "a comment that is not closed, or has another in it")
        if self.text in ('"', "'"):
            raise Unreadable(self.line, "a quote that is not closed")

    def take(self):
        taken = self.text
        self.advance()
        return taken

    def antt(self, closer):
        """The antt tokens behind this one, to the `closer` that stands in no braces; ends behind it."""
        depth, end, line = 0, self.at, self.line
        while end < len(self.source) and (depth or self.source[end] != closer):
            depth += {"{": 1, "}": -1}.get(self.source[end], 0)
            end += 1
        text = self.source[self.at:end]
        if ODD_IN_ANTT.search(text) or end == len(self.source):
            raise Unreadable(line, "a comment or a text within a clause or a `ghost use`")
        self.at, self.line = end + 1, line + text.count("\n")
        self.advance()
        return antt_tokens.tokens(text, line)

    def group(self):
        """The words from here, an opening bracket, to the bracket that closes it."""
        taken, depth, line = [], 0, self.token_line
        while True:
            depth += (self.text in OPENERS) - (self.text in CLOSERS)
            if not self.text:
                raise Unreadable(line, "a bracket that is not closed")
            taken.append(self.take())
            if not depth:
                return taken
