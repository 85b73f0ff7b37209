"""A repository's files, and what a name that is written in one of them stands for."""
from pathlib import Path

from . import antt, rattle
from .antt_tokens import Unreadable


class Scope:
    """What the `use` lines of a file bring: each name with its whole path. A path into a crate of the repository begins with the two first
    parts as one, `Rattle.c`; those of the kit's libraries stay as they are."""

    def __init__(self, crates, uses, own=(), children=()):
        self.crates, self.own, self.children = crates, own, children
        self.modules = {}
        for use in uses:
            if use.module:
                self.modules.setdefault(use.module, []).append(use.path)
        self.names = {}
        for use in uses:
            for below, name in use.items:
                paths = self.names.setdefault(name, set())
                paths.update(whole + below for whole in self.whole(use.path))

    def whole(self, path, seen=()):
        """The paths that one may stand for, after what its first part is short for."""
        if path[0] == "package":
            return [path[1:]]
        if path[0] in self.children:
            return [self.own + path]
        if path[0] in seen or path[0] not in self.modules:
            return [(".".join(path[:2]),) + path[2:] if path[0] == "Rattle" and path[1:2] and path[1] in self.crates else path]
        found = []
        for module in self.modules[path[0]]:
            found += self.whole(module + path[1:], seen + path[:1])
        return found

    def meanings(self, name):
        """The whole paths that a name or path may stand for; none for what the file declares itself."""
        path = tuple(name.split("."))
        if len(path) == 1:
            return sorted(self.names.get(name, ()))
        found = set(self.whole(path))
        for brought in self.names.get(path[0], ()):
            found.add(brought + path[1:])
        return sorted(found)


def crate_of(path):
    """The crate that a whole path leads into, or nothing for the kit's own libraries."""
    return path[0].partition(".")[2]


def place_of(path):
    """A whole path without the word before its crate: `c.specs.M.x` for `Rattle.c.specs.M.x`."""
    return (crate_of(path),) + path[1:]


class Tree:
    def __init__(self, root):
        self.root = Path(root)
        self.breaches = []
        self.unread = False  # whether there may be functions that nobody has seen
        self.files = {}
        self.crates = {crate.name for crate in self.root.glob("crates/*")}
        self.libraries = sorted(lib.parents[1].name for lib in self.root.glob("crates/*/src/lib.rt"))

    def breach(self, file, line, text):
        self.breaches.append((str(file), line, text))

    def sources(self, pattern):
        """The files of a pattern, by their paths below the root."""
        return sorted(str(path.relative_to(self.root)) for path in self.root.glob(pattern))

    def text(self, file):
        return (self.root / file).read_text(encoding="utf-8")

    def antt(self, file):
        """A file of specs/ or proofs/ with its scope, or nothing where it is not there or cannot be read."""
        if file not in self.files:
            self.files[file] = None
            if (self.root / file).is_file():
                try:
                    self.files[file] = self.scoped(file, antt.File(self.text(file)))
                except Unreadable as odd:
                    self.breach(file, odd.line, odd.text)
        return self.files[file]

    def scoped(self, file, read):
        parts = Path(file).with_suffix("").parts
        below = () if parts[3:] == ("Lib",) else parts[3:]
        read.file, read.crate = file, parts[1]
        read.place = (parts[1], parts[2]) + below
        read.scope = Scope(self.crates, read.uses, (f"Rattle.{parts[1]}", parts[2]) + below, read.children)
        return read

    def definition(self, place):
        """The file and the declaration at a place such as `c.specs.M.x`, or nothing."""
        crate, kind, *below, name = place
        read = self.antt("/".join(["crates", crate, kind, *(below or ["Lib"])]) + ".antt")
        found = read.declaration(name) if read else None
        return (read, found) if found else None

    def functions(self):
        """Every function of the libraries that others can call."""
        found = []
        for crate in self.libraries:
            functions, holders = [], set()
            for file in self.sources(f"crates/{crate}/src/**/*.rt"):
                try:
                    read = rattle.File(self.text(file))
                except Unreadable as odd:
                    self.breach(file, odd.line, odd.text)
                    self.unread = True
                    continue
                scope = Scope(self.crates, read.uses)
                for function in read.functions:
                    function.crate, function.file, function.scope = crate, file, scope
                    functions.append(function)
                holders.update(read.holders)
                for line, text in read.refused:
                    self.breach(file, line, text)
            for function in functions:
                function.odd += [f"the type `{name}`, in which a reference is held" for name in sorted(holders & function.types)]
            found += functions
        return found
