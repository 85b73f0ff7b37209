"""Whether a crate opens only its own definitions: another's are used by what is promised and proved of them."""
from . import rattle
from .antt_tokens import Unreadable
from .tree import crate_of

# The sample table computes document 01's samples, all definitions opened.
EXEMPT = "crates/promise/proofs/Samples.antt"


def check(tree):
    for file in tree.sources("crates/*/specs/**/*.antt") + tree.sources("crates/*/proofs/**/*.antt"):
        read = tree.antt(file)
        if read and file != EXEMPT:
            for token in opened(tree, read):
                check_name(tree, read, token)
    for file in tree.sources("crates/*/src/**/*.rt"):
        check_tactics(tree, file)


def check_tactics(tree, file):
    """What an attribute `#[tactic(.., unfolding(crate::specs::M::f))]` opens."""
    try:
        read = rattle.File(tree.text(file))
    except Unreadable as odd:
        return tree.breach(file, odd.line, odd.text)
    for line, path in read.opened:
        crate = path.partition("::")[0]
        if crate in tree.crates and crate != file.split("/")[1]:
            tree.breach(file, line, f"unfolds `{path}` of the crate {crate}")


def check_name(tree, read, token):
    for path in read.scope.meanings(token.text):
        crate = crate_of(path)
        if crate and crate != read.crate:
            tree.breach(read.file, token.line, f"unfolds `{token.text}` of the crate {crate}")
            return


def opened(tree, read):
    """The names that stand behind each `unfolding`, and between each `unfold` and its `in`."""
    names = []
    for place, token in enumerate(read.tokens):
        try:
            if token.is_word("unfolding"):
                names += named(token, behind(read.tokens, place))
            elif token.is_word("unfold"):
                names += named(token, between(read.tokens, place))
        except Unreadable as odd:
            tree.breach(read.file, odd.line, odd.text)
    return names


def behind(tokens, place):
    """What belongs to an `unfolding`: the rest of its line, and lines that stand further right."""
    word = tokens[place]
    if not word.first:
        raise Unreadable(word.line, "`unfolding` must begin its line")
    end = place + 1
    while end < len(tokens) and not (tokens[end].first and tokens[end].column <= word.column):
        end += 1
    return tokens[place + 1 : end]


def between(tokens, place):
    end = place + 1
    while end < len(tokens) and not tokens[end].is_word("in"):
        end += 1
    return tokens[place + 1 : end]


def named(word, some):
    some = [token for token in some if token.text != ","]
    if not some or any(token.kind not in ("name", "quoted") or token.text in (":", "=") for token in some):
        raise Unreadable(word.line, f"cannot read what `{word.text}` opens")
    return some
