"""Reads the wrong programs of crates/NAME/must-fail/*.edit, and which functions the prover's log of such a file refuses.

A file holds the wrong programs that one check of the crate tries: under `wrong: ` a program's name, under `breaks: ` the functions that keep
their promise no more, then what `rt` replaces: `file: `, `old: `, `new: `. The prover proves each function from its own code and from what
those that it calls promise, so each of several wrong programs is refused at its own function.
"""
import re
from collections import defaultdict
from dataclasses import dataclass, field
from pathlib import Path

FUNCTION = re.compile(r'^( *)(?:pub(?:\(crate\))? )?(?:extern "C" )?fn (\w+)', re.M)
# The head of an `impl`: a trait and what it is of, if it is a trait's, and the type.
OWNER = re.compile(r"^impl(?:<[^>]*>)? (?:(\w+)(?:<(.+)>)? for )?(\w+)", re.M)
# What a check says of a fact of a function that a proof file answers; of one that no file answers, by the place in the code where it is owed;
# and of each function that is not proved.
ERROR = re.compile(r"(?:\./)?proofs/(\S+)/(?:Proof|Invariants|Answers)\.antt:\d+:\d+: error: (?:`([^`]+)`: )?(.*)")
NOTE = re.compile(r"note: (src/\S+):(\d+):\d+: it is not proved that .* \(`([^`]+)`\)")
UNPROVED = re.compile(r"\w+ \w+::([\w:]+): (?:not proved|no proof)(.*)")
OPEN = re.compile(r"`search` did not prove ((?:`[^`]+`(?:, | and )?)+)")
# An error that only says that a name is gone, or that what it rests on failed.
GONE = re.compile(r"(?:`[^`]*`: )?(?:module|record) `[^`]*`.* has no |.{0,200}is not in scope")
RESTS = " was not admitted"

@dataclass
class Wrong:
    name: str
    line: int
    breaks: list = field(default_factory=list)
    altered: list = field(default_factory=list)  # a file below the crate, and the text that is replaced there


def read_wrong(file):
    """The wrong programs of a file; what stands before the first is one without a name."""
    found = [Wrong("", 1)]
    for number, line in enumerate(file.read_text(encoding="utf-8").splitlines(), 1):
        word, _, rest = line.partition(": ")
        if word == "wrong":
            found.append(Wrong(rest, number))
        elif word == "breaks":
            found[-1].breaks += rest.split()
        elif word == "file":
            source = rest
        elif word == "old":
            found[-1].altered.append((source, rest))
    return found if found[0].breaks or found[0].altered else found[1:]


def replacements(file):
    """What `rt` replaces, in order: a file below the crate, the text, and what stands in its place."""
    for line in file.read_text(encoding="utf-8").splitlines():
        word, _, rest = line.partition(":")
        if word == "file":
            source = rest.strip()
        elif word == "old":
            old = rest[1:]
        elif word == "new":
            yield source, old, rest[1:]


def files(root):
    return sorted(Path(root).glob("crates/*/must-fail/*.edit"))


def names(root):
    return [wrong.name for file in files(root) for wrong in read_wrong(file)]


def function_at(crate, source, text):
    """The function in which a text stands; nothing where it stands in none."""
    whole = (crate / source).read_text(encoding="utf-8")
    return function_from(source, whole, whole.find(text))


def function_from(source, whole, at):
    """The function at a place of a file, as `module::function`, or a method as `Type::function`, a trait's as `TypeTrait::function`."""
    heads = [head for head in FUNCTION.finditer(whole) if head.start() <= at]
    if not heads or at > whole.find(f"\n{heads[-1][1]}}}", heads[-1].start()) + 1 + len(heads[-1][1]):
        return ""
    if heads[-1][1]:  # the prover names a method by the module of its type, which may be another one
        trait, of, owner = [owner.groups("") for owner in OWNER.finditer(whole) if owner.start() < heads[-1].start()][-1]
        of = "".join(capital(name) for name in re.findall(r"\w+", of))
        return f"{capital(owner)}{trait}{of}::{heads[-1][2]}"
    module = source.removeprefix("src/").removesuffix(".rt").removesuffix("lib").split("/")
    return "::".join(part for part in [*module, heads[-1][2]] if part)


def capital(name):
    return name[:1].upper() + name[1:]


CONSTANT = re.compile(r"^(?:pub(?:\(crate\))? )?const (\w+): [^;]*?= ([^;]*);", re.M)


def users(crate, source, text):
    """The functions that a constant stands in, also by way of other constants, where the text that is altered is a constant's."""
    sources = {str(path.relative_to(crate)): path.read_text(encoding="utf-8") for path in sorted(crate.glob("src/**/*.rt"))}
    at = sources[source].find(text)
    names = {const[1] for const in CONSTANT.finditer(sources[source]) if const.start() <= at < const.end()}
    values = {const[1]: const[2] for whole in sources.values() for const in CONSTANT.finditer(whole)}
    while more := {name for name, value in values.items() if names & set(re.findall(r"\w+", value))} - names:
        names |= more
    return {
        function_from(file, whole, name.start())
        for file, whole in sources.items()
        for name in re.finditer(r"\w+", whole)
        if name[0] in names
    } - {""}


@dataclass
class Told:
    """What a log says of the functions that are not proved, each set with the line where it says so."""

    failed: dict = field(default_factory=dict)  # a fact of their own fails
    unfit: dict = field(default_factory=dict)  # only cite in their proof what is gone, so nothing is known of their facts
    odd: dict = field(default_factory=dict)  # not proved for another reason than that one is that they call, or that calls them back


def read_log(log, crate):
    """What the log of a check of this crate tells. A goal's name has the code's conditions in it: where a proof answers one that is gone, the
    one that came for it is not judged, since it may be as true as the other was."""
    errors, notes, unproved = said(log)
    told, gone, circles = Told(), defaultdict(set), set()
    for line, path, fact, text in errors:
        function = function_of(path.split("/"), fact, unproved)
        circles.update([tuple(path.split("/"))] if "+" in path else [])
        if RESTS in text:
            continue
        if fact and not GONE.match(text):
            told.failed.setdefault(function, line)
        else:
            told.unfit.setdefault(function, line)
            gone[function].add(site(fact))
    for line, file, number, fact in notes:
        function = in_full(function_on(crate, file, number), unproved)
        if site(fact) not in gone[function]:
            told.failed.setdefault(function, line)
    for function, (line, text) in unproved.items():
        for fact in re.findall("`([^`]+)`", (OPEN.search(text) or [""])[0].removeprefix("`search`")):
            if site(fact) not in gone[function]:
                told.failed.setdefault(function, line)
        if "it calls `" not in text and "it waits for " not in text and not any(is_in(function, circle) for circle in circles):
            told.odd[function] = line
    told.unfit = {function: line for function, line in told.unfit.items() if function not in told.failed}
    told.odd = {function: line for function, line in told.odd.items() if function not in {**told.failed, **told.unfit}}
    return told


def said(log):
    """The errors in proofs, the facts that no file answers, and the functions that are not proved, of a log, with their lines."""
    errors, notes, unproved = [], [], {}
    lines = log.splitlines()
    for number, line in enumerate(lines, 1):
        if (error := ERROR.match(line)) is not None:
            more = ""
            for next_line in lines[number:]:
                if not next_line.startswith("  "):
                    break
                more += " " + next_line.strip()
            errors.append((number, error[1], error[2] or "", error[3] + more))
        elif (note := NOTE.match(line)) is not None:
            notes.append((number, note[1], int(note[2]), note[3]))
        elif (one := UNPROVED.match(line)) is not None:
            unproved[one[1]] = number, one[2]
    return errors, notes, unproved


def site(goal):
    """A goal's name without the branches that lead to it: `returns` of `returns-then-n-lt128`."""
    return re.split(r"-(?:then|else|in|after)-", goal)[0]


def function_on(crate, source, number):
    """The function on a line of a file."""
    whole = (crate / source).read_text(encoding="utf-8")
    lines = whole.split("\n")
    while lines[number - 1].lstrip().startswith("#["):  # the prover begins a function at its attributes
        number += 1
    return function_from(source, whole, sum(len(line) + 1 for line in lines[: number - 1]))


def in_full(function, names):
    """The name that the prover has for a function, of these."""
    return next((name for name in names if f"::{name}".endswith(f"::{function}")), function)


def function_of(path, fact, unproved):
    """The function whose fact it is. Functions that call one another have one proof, where each fact begins with its function's name; no fact
    does where one function calls itself alone."""
    *module, last = path
    if not last.startswith("+"):
        return "::".join(path)
    circle = tuple(path)
    named = "::".join([*module, fact.partition("-")[0]])
    if fact and is_in(named, circle):
        return named
    return next((function for function in unproved if is_in(function, circle)), "::".join(path))


def is_in(function, circle):
    """Whether a function is one of those that call one another, whose proof stands in this folder."""
    *module, last = function.split("::")
    return tuple(module) == circle[:-1] and last in circle[-1]
