#!/usr/bin/env python3
"""Prints which definitions a contract cites, directly or through others, file by file with their lines.

    docs/believe.py                       of `pef_top::run`
    docs/believe.py --command Queries     of `run`, and of its commands the one with this record alone
    docs/believe.py CRATE/FILE FUNCTION   of another function

A definition is a block of a file of specs/ with the comment above
it; types that are declared in src/ and definitions of the kit are named at the end and not counted.
"""
import collections
import pathlib
import re
import sys

TOP = pathlib.Path(__file__).resolve().parent.parent / "crates"
WORD = re.compile(r"[^\s(){}\[\],;.λ→×⟦⟧]+")
USE = re.compile(r"^(?:pub |ghost )?use ([\w.]+)\.\{([^}]*)\}(?: as .*)?;?$")
HEAD = re.compile(r"^(?:(?:abbrev|unfoldable|pub|record|data|instance) )*([^\s:(){}]+)")


def blocks_of(text):
    """The blocks of a file that are separated by empty lines, without its imports."""
    for block in re.split(r"\n\s*\n", text):
        lines = [line for line in block.split("\n") if not USE.match(line) and not line.startswith("pub mod ")]
        code = [line for line in lines if line and not line.lstrip().startswith("--")]
        if code:
            yield lines, code


def names_of(code):
    """What a block defines: its head, the fields and variants of a record or of data, and further heads."""
    for line in code:
        if not line.startswith(" "):
            head = HEAD.match(line)
            if head:
                yield head.group(1)
        else:
            field = re.match(r"^  (?:pub )?([^\s:(){}]+) :", line)
            if field:
                yield field.group(1)


class File:
    def __init__(self, path):
        text = path.read_text()
        self.imports = {}
        for line in text.split("\n"):
            use = USE.match(line)
            if use:
                for name in use.group(2).split(","):
                    self.imports[name.strip().split(" as ")[-1]] = (use.group(1), name.strip().split(" as ")[0])
        self.blocks = list(blocks_of(text))
        self.defined = {}
        for at, (_, code) in enumerate(self.blocks):
            for name in names_of(code):
                self.defined.setdefault(name, at)


FILES = {}


def file_of(module):
    """The file of a module such as Rattle.CRATE.specs.A.B, if it is one of ours."""
    parts = module.split(".")
    if len(parts) < 4 or parts[2] != "specs":
        return None
    specs = TOP / parts[1] / "specs"
    path = specs / ("/".join(parts[3:]) + ".antt")
    if path in FILES:
        return path
    if path.exists():
        FILES[path] = File(path)
        return path
    # a module that the crate passes on from another
    if (specs / "Lib.antt").exists():
        passed = re.search(r"^pub use (Rattle\.[\w.]+\.%s)$" % parts[3], (specs / "Lib.antt").read_text(), re.M)
        if passed:
            return file_of(passed.group(1))
    return None


def closure(module_names, without=()):
    """The blocks cited, by file, and the names that lead out of specs/."""
    found, outside = collections.defaultdict(set), set()
    todo = list(module_names)
    seen = set()
    while todo:
        module, name = todo.pop()
        if (module, name) in seen:
            continue
        seen.add((module, name))
        if name in without:
            continue
        path = file_of(module)
        if path is None:
            outside.add(f"{module}.{name}")
            continue
        file = FILES[path]
        if name in file.defined:
            at = file.defined[name]
            if at in found[path]:
                continue
            found[path].add(at)
            for word in set(WORD.findall("\n".join(file.blocks[at][1]))):
                if word in file.defined:
                    todo.append((module, word))
                elif word in file.imports:
                    todo.append(file.imports[word])
        elif name in file.imports:
            todo.append(file.imports[name])
        else:
            outside.add(f"{module}.{name}")
    return found, outside


def contract_of(source, function):
    """The definitions that the clauses of a function name, by the ghost imports of its file."""
    text = source.read_text()
    imports = {}
    for line in text.split("\n"):
        use = USE.match(line.strip())
        if use:
            for name in use.group(2).split(","):
                imports[name.strip()] = (use.group(1), name.strip())
    body = re.search(r"pub fn %s\b.*?\n\{" % re.escape(function), text, re.S)
    if not body:
        sys.exit(f"no function {function} in {source}")
    return [imports[word] for word in set(WORD.findall(body.group(0))) if word in imports]


def records():
    """The records of the commands, each on the right of a line of `Performs`."""
    text = (TOP / "pef_top/specs/Commands.antt").read_text()
    return set(re.findall(r"^Performs \(Some .*\) = (\w+)", text, re.M))


def main():
    where, function, without = "pef_top/src/top.rt", "run", set()
    words = sys.argv[1:]
    if len(words) == 2 and words[0] == "--command" and words[1] in records():
        without = records() - {words[1]}
    elif len(words) == 2 and words[0] != "--command":
        where, function = words
    elif words:
        sys.exit(f"usage: docs/believe.py [--command {'|'.join(sorted(records()))} | CRATE/FILE FUNCTION]")
    found, outside = closure(contract_of(TOP / where, function), without)
    total = 0
    for path in sorted(found):
        lines = sum(len(FILES[path].blocks[at][0]) for at in found[path])
        total += lines
        print(f"{lines:5} {path.relative_to(TOP)}")
    print(f"{total:5} lines in {len(found)} files")
    declared = sorted({name for name in outside if ".declared." in name})
    kit = sorted({name.rsplit(".", 1)[0] for name in outside if ".declared." not in name})
    print(f"and {len(declared)} types of src/; of the kit: {', '.join(kit)}")


if __name__ == "__main__":
    main()
