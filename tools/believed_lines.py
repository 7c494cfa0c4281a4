#!/usr/bin/env python3
"""Counts the definitions that a reader of a clause must believe: all that it names, and what those name in turn.

Usage: tools/believed_lines.py [--crates | --lines] FILE FUNCTION [CLAUSE]      such as crates/xn_app/src/top_call.rt top bounds
Prints the files with their lines, or with --crates the crates with their lines and files, or with --lines the lines
themselves, then the sum, and how many words of the standard library are among the names. Blank lines, comments and
attributes don't count. Of a type in Rust its declaration counts, and not the types of its fields.
Names are followed through the `use` lines, so a name that two words share may count one too many.
"""
import os
import re
import sys

NAME = re.compile(r"[A-Za-z_◌][\w◌'-]*")
OWN = re.compile(r"^use crate::([\w:]+)::(\w+);", re.M)
USE = re.compile(r"(?:ghost )?use Rattle\.(\w+)\.specs\.([\w.]+?)(?:\.\{([^}]*)\}| as (\w+));?", re.S)
WORDS = {"abbrev", "pub", "unfoldable", "record", "data", "where", "unfolding", "if", "then", "else", "let", "in", "elim"}


def imports(text):
    """The names that a file takes from others, each with its crate and module; a module under a name of its own is None."""
    taken, modules = {}, {}
    for crate, module, names, alias in USE.findall(text):
        for name in re.split(r"[,\s]+", names):
            if name:
                taken[name] = (crate, module)
        if alias:
            modules[alias] = (crate, module)
    return taken, modules


class Spec:
    """A file of definitions: the lines of each word."""

    def __init__(self, path):
        self.path, self.blocks, self.data = path, {}, {}
        with open(path, encoding="utf-8") as file:
            text = file.read()
        self.taken, self.modules = imports(text)
        last = None
        for line in text.split("\n"):
            if not line.strip() or line.lstrip().startswith("--"):
                continue
            if not line[0].isspace():
                names = [it for it in NAME.findall(line) if it not in WORDS]
                if line.startswith("use ") or not names:
                    last = None
                    continue
                last = names[0]
            if last:
                self.blocks.setdefault(last, []).append(line)
        for name, lines in list(self.blocks.items()):
            # (the constructors of a data stand in its block)
            for line in lines[1:]:
                found = re.match(r"\s*(?:pub )?\|?\s*([A-Za-z]\w*)\s*:", line)
                if found and lines[0].startswith(("data", "pub data")):
                    self.data[found.group(1)] = name

    def word(self, name):
        """The word by which a name stands here: of a constructor its data."""
        return name if name in self.blocks else self.data.get(name)


class Reader:
    """Follows names from a clause."""

    def __init__(self):
        self.specs, self.seen, self.std, self.lines = {}, set(), set(), {}

    def spec(self, crate, module):
        path = f"crates/{crate}/specs/{module.replace('.', '/')}.antt"
        if path not in self.specs:
            self.specs[path] = Spec(path) if os.path.exists(path) else None
        return self.specs[path]

    def follow(self, text, taken, modules, spec):
        for alias, name in re.findall(r"(?<![\w.])(\w+)\.(\w+)", text):
            if alias in modules:
                self.word(*modules[alias], name)
        for name in NAME.findall(text):
            if name in taken:
                self.word(*taken[name], name)
            elif spec is not None and spec.word(name):
                self.block(spec, spec.word(name))

    def word(self, crate, module, name):
        if crate == "std":
            self.std.add(name)
        elif module.startswith("declared."):
            self.declared(crate, module.split(".")[1:], name)
        else:
            spec = self.spec(crate, module)
            if spec is not None and spec.word(name):
                self.block(spec, spec.word(name))

    def block(self, spec, name):
        if (spec.path, name) in self.seen:
            return
        self.seen.add((spec.path, name))
        lines = spec.blocks[name]
        self.lines.setdefault(spec.path, []).extend(lines)
        self.follow("\n".join(lines), spec.taken, spec.modules, spec)

    def declared(self, crate, parts, name):
        kind = next((it for it in parts if it[0].isupper()), name)
        for end in range(len(parts), 0, -1):
            path = f"crates/{crate}/src/{'/'.join(parts[:end])}.rt"
            if os.path.exists(path) and (path, kind) not in self.seen:
                self.seen.add((path, kind))
                with open(path, encoding="utf-8") as file:
                    found = re.search(rf"^pub (?:struct|enum) {kind}\b.*?(?:^}}|;$)", file.read(), re.S | re.M)
                if found:
                    lines = [it for it in found.group(0).split("\n") if it.strip() and not it.lstrip().startswith(("//", "#["))]
                    self.lines.setdefault(path, []).extend(lines)


def clause_text(source, function, label):
    """The text of the clauses of a function, or of one of them."""
    start = re.search(rf"fn {function}\b", source)
    if not start:
        sys.exit(f"no function {function}")
    head = source[start.start() : source.index("\n{", start.start())]
    clauses = re.split(r"\n\s*(?=ensures|requires)", head)[1:]
    if label:
        clauses = [it for it in clauses if re.match(rf"ensures {label}\b", it)]
    return re.sub(r"//.*", "", "\n".join(clauses))


def by_crate(lines):
    """Prints for each crate how many lines stand in which of its files."""
    crates = {}
    for path in sorted(lines):
        crates.setdefault(path.split("/")[1], []).append(path)
    for crate, paths in sorted(crates.items(), key=lambda it: -sum(len(lines[path]) for path in it[1])):
        names = ", ".join(path.split("/", 2)[2] for path in paths)
        print(f"{sum(len(lines[path]) for path in paths):5} {crate}: {names}")


def main():
    words = sys.argv[1:]
    form = words.pop(0) if words[0].startswith("--") else None
    path, function, label = (words + [None])[:3]
    with open(path, encoding="utf-8") as file:
        source = file.read()
    reader = Reader()
    taken, modules = imports(source)
    for module, name in OWN.findall(source):
        taken.setdefault(name, (path.split("/")[1], f"declared.{module.replace('::', '.')}"))
    reader.follow(clause_text(source, function, label), taken, modules, None)
    if form == "--crates":
        by_crate(reader.lines)
    else:
        for name, lines in sorted(reader.lines.items(), key=lambda it: -len(it[1])):
            print(f"{len(lines):5} {name}")
            if form == "--lines":
                print("\n".join(lines) + "\n")
    total = sum(len(it) for it in reader.lines.values())
    print(f"{total:5} lines of {len(reader.seen)} definitions in {len(reader.lines)} files, and {len(reader.std)} words of std")


if __name__ == "__main__":
    main()
