"""The repository's own sources, read: crates, functions with their clauses, definitions of specs/ and the fields of records.
For the tools that speak of the code and not of a report, as index and check-tables."""

import functools
import os
import re

TOP = os.path.dirname(os.path.dirname(os.path.realpath(__file__)))


@functools.cache
def text(path):
    with open(os.path.join(TOP, path), encoding="utf-8") as file:
        return file.read()


@functools.cache
def stands_on():
    """The crates of crates.txt, the lowest first, each with what it stands on."""
    lines = (line.partition(":") for line in text("crates.txt").splitlines() if line.strip() and not line.startswith("#"))
    return {name: stands.split() for name, _, stands in lines}


def crates():
    return list(stands_on())


def files_of(crate, part, end):
    """The paths of a part of a crate, those in its folders too."""
    found, start = [], os.path.join(TOP, "crates", crate, part)
    for folder, _, names in os.walk(start):
        found += [os.path.relpath(os.path.join(folder, name), TOP) for name in names if name.endswith(end)]
    return sorted(found)


def section(page, title):
    """A page's part under a heading, up to the next one of its level; nothing where it has none."""
    found = re.search(rf"^{re.escape(title)}\n(.*?)(?=^#{{1,{title.count('#')}}} |\Z)", text(page), re.S | re.M)
    return found[1] if found else ""


def rows(page):
    """The rows of a page's tables, each with the last heading before it and the cells under their columns' names."""
    heading, columns = "", None
    for line in text(page).splitlines():
        if line.startswith("#"):
            heading, columns = line, None
        elif not line.startswith("|"):
            columns = None
        elif columns is None:
            columns = [it.strip() for it in line.strip("|").split("|")]
        elif not re.match(r"^\|[-|]+\|$", line):
            cells = [it.strip() for it in re.split(r"(?<!\\)\|", line.strip("|"))]
            yield heading, dict(zip(columns, cells))


def first_sentence(words):
    """Up to the first full stop that a capital letter or a name follows."""
    return re.split(r"(?<=[.?!])\s+(?=[A-Z`])", words, maxsplit=1)[0]


# ---- what a file imports

IMPORT = re.compile(r"^ *(?:pub )?(?:ghost )?use Rattle\.([\w.]+?)(?:\.\{([^}]*)\}| as (\S+?));?$", re.M)


@functools.cache
def imports(path):
    """The names that a file of code or of definitions imports, each with where it is from, as (crate, file, name); a name
    that stands for a module has no name of its own there."""
    found = {}
    for module, names, alias in IMPORT.findall(text(path)):
        crate, _, rest = module.partition(".specs")
        rest = rest.lstrip(".")
        if alias:
            found[alias] = (crate, rest, None)
        for name in names.split(","):
            name, _, other = name.strip().partition(" as ")
            if name:
                found[other or name] = (crate, rest, name)
    return found


# ---- definitions

class Definition:
    """A definition of specs/: its name, where it stands, the comment above it, and its text."""

    def __init__(self, crate, path, line, name, comment, words):
        self.crate, self.path, self.line, self.name, self.comment, self.words = crate, path, line, name, comment, words
        self.file = os.path.basename(path).removesuffix(".antt")

    def is_closed(self):
        """It is a name for a statement, and speaks of nothing that is given to it."""
        return bool(re.match(rf"(?:\w+ )*{re.escape(self.name)} : Type 0\n", self.words))


HEAD = re.compile(r"^(?:(?:pub|abbrev|unfoldable|record|data|module) )+([^\s:({]+)")


@functools.cache
def definitions(crate):
    """The definitions of a crate, in the order of its files. One that no other file may name counts too."""
    found = []
    for path in files_of(crate, "specs", ".antt"):
        comment, lines = [], text(path).splitlines() + [""]
        at = 0
        while at < len(lines):
            line = lines[at]
            head = HEAD.match(line)
            if line.startswith("--"):
                comment.append(line.lstrip("- ").rstrip())
                at += 1
                continue
            if head and not line.startswith(("pub use", "unfoldable pub use", "pub mod")):
                end = at + 1
                while end < len(lines) and not HEAD.match(lines[end]) and not lines[end].startswith("--"):
                    end += 1
                words = "\n".join(lines[at:end]).rstrip() + "\n"
                found.append(Definition(crate, path, at + 1, head[1], " ".join(comment), words))
                at, comment = end, []
                continue
            comment = []
            at += 1
    return found


@functools.cache
def defined():
    """All definitions by (crate, file, name)."""
    return {(it.crate, it.file, it.name): it for crate in crates() for it in definitions(crate)}


def resolved(place):
    """The definition that is imported from a place, also where the file there only hands it on; or None."""
    crate, file, name = place
    if place in defined() or name is None:
        return defined().get(place)
    page = f"crates/{crate}/specs/{file or 'Lib'}.antt"
    if "declared" in file or not os.path.exists(os.path.join(TOP, page)):
        return None
    for words in re.findall(r"^pub use Rattle\.(\w+)\.specs\.(\w+)\.\{([^}]*)\}", text(page), re.M):
        if name in re.findall(r"\w+", words[2]):
            return defined().get((words[0], words[1], name))
    return None


def names_in(words, path, own=None):
    """The definitions that some text of a file names, in order and each once; `own` are those of the file itself."""
    found, known = {}, imports(path)
    for token in re.findall(r"[^\s(){}\[\];,λ]+", words):
        name, _, rest = token.partition(".")
        it = None
        if own and name in own:
            it = own[name]
        elif name in known:
            crate, file, base = known[name]
            it = resolved((crate, file, base if base else rest.split(".")[0]))
        if it:
            found[id(it)] = it
    return list(found.values())


@functools.cache
def named_by(definition):
    """The definitions that a definition names."""
    own = {it.name: it for it in definitions(definition.crate) if it.path == definition.path}
    return [it for it in names_in(definition.words, definition.path, own) if it is not definition]


def record(crate, name):
    """The fields of a record of specs/, each with its type."""
    found = next((it for it in definitions(crate) if it.name == name and " record " in " " + it.words.splitlines()[0]), None)
    return dict(re.findall(r"^  pub (\w+) : (.*)$", found.words, re.M)) if found else {}


# ---- functions

class Clause:
    """A clause of a contract: `ensures` or `requires`, its name or "(one)", and its words."""

    def __init__(self, kind, name, words):
        self.kind, self.name, self.words = kind, name or "(one)", words


class Function:
    """A function of the code, with the type before it where it is one of a type or of a trait."""

    def __init__(self, crate, path, line, name, public, comment, clauses, is_empty):
        self.crate, self.path, self.line, self.name = crate, path, line, name
        self.public, self.comment, self.clauses = public, comment, clauses
        self.is_law = public and is_empty and any(it.kind == "ensures" for it in clauses)

    def clauses_of(self, kind):
        return {it.name for it in self.clauses if it.kind == kind}

    def definitions(self):
        """What its clauses name, in order and each once."""
        return names_in("\n".join(it.words for it in self.clauses), self.path)


FN = re.compile(r"^( *)(pub(?:\(\w+\))? )?(?:const )?fn (\w+)")
OWNER = re.compile(r"^(?:pub )?(?:(trait) |impl(?:<[^>]*>)? (?:([\w:<>, ]+) for )?)(\w+)")
CLAUSE = re.compile(r"^\s*(ensures|requires)\*? ?(\w*) ?\{ ?(.*)$")


def clauses_in(lines):
    found = []
    for line in lines:
        begun = CLAUSE.match(line)
        if begun:
            found.append([begun[1], begun[2], [begun[3]]])
        elif found and line.strip() and not line.strip().startswith("//"):
            found[-1][2].append(line.strip())
    return [Clause(kind, name, re.sub(r" ?\}$", "", "\n".join(words).rstrip())) for kind, name, words in found]


@functools.cache
def functions(crate):
    """The functions of a crate in source order, those of its tests left out; a crate of tests has none."""
    found = []
    if crate.startswith("lard_tests_"):
        return found
    for path in files_of(crate, "src", ".rt"):
        if "/tests" in path:
            continue
        lines, owner, in_trait, comment = text(path).splitlines(), "", False, []
        for at, line in enumerate(lines):
            owned, begun = OWNER.match(line), FN.match(line)
            if owned:
                owner, in_trait = owned[3], bool(owned[1])
            elif line.strip().startswith("///"):
                comment.append(line.strip().removeprefix("///").strip())
                continue
            elif begun:
                head, ends = [], ("" if not begun[1] else begun[1]) + "{"
                end = at
                if not line.endswith(" {") and not line.endswith(";"):
                    end += 1
                    while end < len(lines) and not lines[end].startswith(ends) and lines[end - 1][-1:] != ";":
                        head.append(lines[end])
                        end += 1
                is_empty = end < len(lines) and lines[end] == ends + "}"
                name = (owner + "::" if begun[1] else "") + begun[3]
                public = begun[2] == "pub " or bool(begun[1] and in_trait)
                found.append(Function(crate, path, at + 1, name, public, " ".join(comment), clauses_in(head), is_empty))
            if line.strip() and not line.strip().startswith("#["):
                comment = []
    return found


@functools.cache
def by_name(crate):
    """The functions of a crate by their names; some have one name, as those of several modules."""
    found = {}
    for it in functions(crate):
        found.setdefault(it.name, []).append(it)
    return found


def heading(crate):
    """What a crate's root file says of it, by paragraphs."""
    for name in ("lib.rt", "main.rt"):
        path = f"crates/{crate}/src/{name}"
        if os.path.exists(os.path.join(TOP, path)):
            lines = [line.removeprefix("//!").strip() for line in text(path).splitlines() if line.startswith("//!")]
            return " ".join(it or "\n" for it in lines).split(" \n ")
    return []
