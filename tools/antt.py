"""The definitions of `crates/*/specs`, and the types and calls of `crates/*/src`, as the checks in this folder read them."""
import glob
import os
import re

# an item is at the margin, or within a `module _`
ITEM = re.compile(r"(?:  )?(?:(?:abbrev|unfoldable) pub|pub (?:record|data)) (\S+)|pub (?!use\b|mod\b)(\S+) :")
USE = re.compile(r"^\s*(?:pub )?(?:ghost )?use (Rattle\.[\w.]+?)(?:\.\{([^}]*)\}| as (\w+));?$", re.M)
DECLARED = re.compile(r"(.+)\.specs\.declared\.(.+)")


def text_of(path):
    with open(path, encoding="utf-8") as it:
        return it.read()


def crates():
    return sorted(os.listdir("crates"))


class Definition:
    """A word of specs/: where it is defined, its comment, its text, and what its fields or constructors are called."""

    def __init__(self, name, crate, module, path, line, comment, text):
        self.name, self.crate, self.module, self.path, self.line = name, crate, module, path, line
        self.comment, self.text = comment, text
        self.is_data, self.is_record = text.lstrip().startswith("pub data "), text.lstrip().startswith("pub record ")
        margin = len(text) - len(text.lstrip())
        members = re.findall(r"^ {%d}(?:pub )?(\S+) :" % (margin + 2), text, re.M)
        self.constructors = members if self.is_data else []
        self.fields = members if self.is_record else []


class Module:
    """A file of specs/: its path as it is imported, what it says of itself, what it uses and what it defines."""

    def __init__(self, path):
        self.path, self.crate = path, path.split("/")[1]
        self.name = f"Rattle.{self.crate}.specs." + path.split("/specs/")[1][:-5].replace("/", ".")
        lines = text_of(path).split("\n")
        self.comment = []
        for line in lines:
            if not line.startswith("-- "):
                break
            self.comment.append(line[3:])
        self.uses = USE.findall("\n".join(lines))
        starts = [at for at, line in enumerate(lines) if ITEM.match(line)]
        self.definitions = []
        for at, after in zip(starts, starts[1:] + [len(lines)]):
            first, end = at, after
            while first and lines[first - 1].lstrip().startswith("--"):
                first -= 1
            while end < len(lines) and end > at + 1 and (lines[end - 1].lstrip().startswith("-- ") or not lines[end - 1].strip()):
                end -= 1
            name = next(filter(None, ITEM.match(lines[at]).groups()))
            comment = [line.strip()[2:].strip() for line in lines[first:at]]
            text = "\n".join(lines[at:end]).rstrip()
            self.definitions.append(Definition(name, self.crate, self.name, path, at + 1, comment, text))


def modules():
    return [Module(path) for path in sorted(glob.glob("crates/*/specs/**/*.antt", recursive=True))]


def rust_files():
    return sorted(glob.glob("crates/*/src/**/*.rt", recursive=True))


def is_test(path):
    return bool(re.search(r"/src/(.*/)?\w*tests(/|\.rt$)", path))


def rust_module(path):
    """The path of a file's module within its crate, as `plain.rows`."""
    return path.split("/src/")[1][:-3].replace("/", ".")


RUST_ITEM = re.compile(
    r"^(?:pub(?:\([^)]*\))? )?(?:(?:const|unsafe) )*(struct|enum|trait|fn|const|static|type|mod) (\w+)", re.M
)


def rust_items(path):
    """The kind, name and line of each item of a file that stands outside any block."""
    text = text_of(path)
    for found in RUST_ITEM.finditer(text):
        yield found[1], found[2], text.count("\n", 0, found.start()) + 1
