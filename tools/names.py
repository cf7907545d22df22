#!/usr/bin/env python3
"""Looks whether what README.md and docs/*.md name in backticks is there, so that no document speaks of what is gone.

What stands between backticks is taken apart into names, and each name must be one of these:

- a file or folder of the repository, by its path (* for any) or by its last part
- behind `make`, a target or a variable of Makefile
- the label of a must-fail edit
- a whole word of what crates/, include/, examples/, compare/, tools/ and Makefile have, their comments left out;
  of crate::name, words of that crate; of Record.field, words of one file
- one of KNOWN

It prints FILE:LINE and the name for each that is none of them, and fails if there is one.
"""

import re
import sys
from fnmatch import fnmatchcase
from pathlib import Path

TOP = Path(__file__).resolve().parent.parent

# what the repository does not have and documents may name
KNOWN = {
    *("word.c", "./word"),  # README.md's program, saved and built by whoever reads it
    *("F_spec", "F_agrees", "agrees"),  # the theorems of a function, where F stands for its name
    *("axioms", "trusted", "logic-built"),  # what rt prints
    *("libc::read", "libc::write", "os::c::__xpg_strerror_r", "os::c::rattle_errno"),  # of the toolchain's libraries
}

# where words are looked for, and what a comment is in a file of each kind
SOURCES = ("crates", "include", "examples", "compare", "tools", "Makefile")
COMMENTS = {
    ".antt": r"--.*",
    ".rt": r"//.*",
    ".rs": r"//.*",
    ".c": r"(?s:/\*.*?\*/)",
    ".h": r"(?s:/\*.*?\*/)",
    ".sh": r"(?m:^|\s)#.*",
    "": r"(?m:^|\s)#.*",
}


def files():
    """The files of the repository, by their paths in it, without what is built."""
    built = ("target/", "compare/target/", ".git/")
    paths = (path.relative_to(TOP) for path in TOP.rglob("*") if path.is_file())
    return [path for path in paths if not path.as_posix().startswith(built) and "out" not in path.parts[:-1]]


def words(path):
    """The words of a file. In .antt a hyphen is part of a word, elsewhere it may be."""
    text = re.sub(COMMENTS[path.suffix], " ", (TOP / path).read_text(encoding="utf-8"))
    found = {word.strip("'-") for word in re.findall(r"[\w'-]+", text)}
    return found if path.suffix == ".antt" else found.union(re.findall(r"\w+", text))


class Repository:
    def __init__(self):
        paths = files()
        sources = [path for path in paths if path.parts[0] in SOURCES and path.suffix in COMMENTS]
        self.texts = {path: words(path) for path in sources}
        self.words = set().union(*self.texts.values())
        self.crates = {path.parts[1] for path in paths if path.parts[0] == "crates"}
        self.paths = {folder.as_posix() for path in paths for folder in (path, *path.parents)}
        self.names = {Path(path).name for path in self.paths}
        self.names |= {path.stem for path in paths if path.suffix == ".edit"}
        self.suffixes = {path.suffix for path in paths if path.suffix}
        self.made = set(re.findall(r"^([\w-]+) *:?[:=]", (TOP / "Makefile").read_text(encoding="utf-8"), re.M))

    def has(self, name):
        if name in KNOWN or name in self.words or name in self.names:
            return True
        if "/" in name:
            return any(fnmatchcase(path, name.rstrip("/")) for path in self.paths)
        crate, *inside = name.split("::")
        if inside and crate in self.crates:
            return self.words_of_crate(crate).issuperset(inside)
        parts = re.split(r"::|\.", name)
        if len(parts) == 1 or Path(name).suffix in self.suffixes:
            return False
        return any(found.issuperset(parts) for found in self.texts.values())

    def words_of_crate(self, crate):
        return set().union(*(found for path, found in self.texts.items() if path.parts[:2] == ("crates", crate)))

    def missing(self, span):
        """The names of a span that are not there."""
        command, *rest = span.split()
        if command == "make":
            return [name for name in (word.split("=")[0] for word in rest) if name not in self.made]
        found = [name.lstrip("':-").rstrip("'.:-") for name in re.findall(r"[\w*./:'-]+", span)]
        found = [name for name in found if re.search(r"[^\W\d]", name) and not name[0].isdigit()]
        return [name for name in found if not self.has(name)]


def spans(text):
    """What stands between backticks, each with its line; blocks of code are passed over."""
    text = re.sub(r"^```.*?^```$", lambda block: "\n" * block[0].count("\n"), text, flags=re.M | re.S)
    for match in re.finditer(r"`([^`]+?)(`|\n\n|\Z)", text):
        yield text.count("\n", 0, match.start()) + 1, match[1], match[2] == "`"


def faults(repository, document):
    name = document.relative_to(TOP)
    for line, span, closed in spans(document.read_text(encoding="utf-8")):
        if not closed:
            yield f"{name}:{line}: a backtick without another"
            return
        for missing in repository.missing(span):
            yield f"{name}:{line}: there is no {missing}"


def main():
    repository = Repository()
    # docs/PORT.md and docs/DESIGN-PASS.md say what was called otherwise, so they name what is gone
    documents = [TOP / "README.md", *(path for path in sorted(TOP.glob("docs/*.md")) if path.name not in ("PORT.md", "DESIGN-PASS.md"))]
    found = [fault for document in documents for fault in faults(repository, document)]
    for fault in found:
        print(f"names: {fault}", file=sys.stderr)
    return 1 if found else 0


if __name__ == "__main__":
    sys.exit(main())
