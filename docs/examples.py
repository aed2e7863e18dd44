#!/usr/bin/env python3
"""Runs the commands that the documents show, and compares what they print with what is shown.

    docs/examples.py PROGRAM [--library LIBPEFIDX_C.A --heap LIBLIBC_C.A] [PAGE..]

PROGRAM is the built `pefidx`, the two archives are those of bindings/README.md; without pages all documents are read. Each page has a folder of
its own with copies of scale/, bindings/, docs/ and the small collection, in which its blocks run in their order:

- lines behind `$ ` are commands, and all lines up to the next one are what it prints, on both outputs; each runs in a shell of its own;
- a block `sh` is a script that has to end with 0, and what it prints is not compared;
- lines behind `>>> ` are Python, by doctest, where the library is given;
- a comment `<!-- before: .. -->` is a script too, which makes what a page speaks of;
- a block `text`, `rust` or `c` has no commands. A block must say what it is.

Behind `sh` or `console` may stand `not-run: WHY`, or `needs: X..`, each a program in the path, `library` or `python:MODULE`; what is not run is
told and counted.
The last line is `N commands run, M not run, D differ`; the status is 1 where one differs.
"""

import argparse
import collections
import importlib.util
import itertools
import os
import pathlib
import re
import shutil
import subprocess
import sys
import tempfile

TOP = pathlib.Path(__file__).resolve().parent.parent
PAGES = ["README.md", "CHANGELOG.md", "bindings/README.md", "scale/README.md"]
SILENT = {"text", "rust", "c"}
Block = collections.namedtuple("Block", "line kind rest lines")


def blocks(page):
    """The fenced blocks and the scripts of a page, each with the number of its first line."""
    lines = (TOP / page).read_text().split("\n")
    at = 0
    while at < len(lines):
        begun = at
        if lines[at].startswith("<!-- before:"):
            while "-->" not in lines[at]:
                at += 1
            script = "\n".join(lines[begun : at + 1])[len("<!-- before:") :].rsplit("-->", 1)[0]
            yield Block(begun + 1, "before", "", script.split("\n"))
        elif lines[at].startswith("```"):
            kind, _, rest = lines[at][3:].strip().partition(" ")
            at += 1
            while lines[at] != "```":
                at += 1
            yield Block(begun + 2, kind, rest, lines[begun + 1 : at])
        at += 1


def commands(block):
    """The commands of a block of them: the line, the command, and what it is to print."""
    found = []
    for at, line in enumerate(block.lines, block.line):
        if line.startswith("$ "):
            found.append((at, line[2:], []))
        elif found:
            found[-1][2].append(line)
    return found


def first_difference(wanted, came):
    """At which of the lines that are shown other lines come first, and what is shown and comes there."""
    for at, (shown, printed) in enumerate(itertools.zip_longest(wanted, came)):
        if shown != printed:
            return at, shown, printed


class Runs:
    """The runs of all pages: how many were made, were not, and differ."""

    def __init__(self, asked, folder):
        self.folder, self.library, self.run, self.left, self.differ = folder, None, 0, 0, 0
        tools = folder / "bin"
        tools.mkdir()
        (tools / "pefidx").symlink_to(pathlib.Path(asked.program).resolve())
        self.environment = {**os.environ, "PATH": f"{tools}:{os.environ['PATH']}", "LC_ALL": "C.UTF-8", "PYTHONDONTWRITEBYTECODE": "1"}
        for name in "PEFIDX", "PEFIDX_LIBRARY", "PYTHONPATH":
            self.environment.pop(name, None)
        (tools / "python3").symlink_to(sys.executable)
        self.environment["PYTHONPATH"] = str(TOP / "bindings/python/src")
        if asked.library:
            self.link(asked, folder / "made", folder / "installed")

    def link(self, asked, made, installed):
        """Makes the shared library, and has what is installed go to a folder of its own."""
        words = {"ARCHIVE": pathlib.Path(asked.library).resolve(), "HEAP": pathlib.Path(asked.heap).resolve(), "OUT": made}
        subprocess.run(["make", "-s", "-C", TOP / "bindings/c", *(f"{name}={word}" for name, word in words.items())], check=True)
        self.library = made / "libpefidx.so"
        set_words = " ".join(f"{name}={word}" for name, word in {**words, "DESTDIR": installed}.items())
        self.environment.update(
            PEFIDX_LIBRARY=str(self.library), MAKEFLAGS=f"-s -- {set_words}", ARCHIVE=str(words["ARCHIVE"]), HEAP=str(words["HEAP"]),
            PIP_TARGET=str(self.folder / "target"), PIP_NO_INDEX="1", PIP_DISABLE_PIP_VERSION_CHECK="1",
            PKG_CONFIG_PATH=f"{installed}/usr/local/lib/pkgconfig", PKG_CONFIG_SYSROOT_DIR=str(installed),
            LD_LIBRARY_PATH=f"{installed}/usr/local/lib", PATH=f"{made}:{self.environment['PATH']}",
        )

    def page_folder(self, page):
        folder = self.folder / page.replace("/", "-")
        for name in "scale", "bindings", "docs", "crates/pefidx/data":
            shutil.copytree(TOP / name, folder / name, ignore=shutil.ignore_patterns("__pycache__", "out", "dist"))
        for crate in (TOP / "crates").iterdir():
            if crate.name != "pefidx":
                (folder / "crates" / crate.name).symlink_to(crate)
        return folder

    def tell(self, page, line, what, came=""):
        self.differ += 1
        print(f"{page}:{line}: {what}")
        for text in came.splitlines():
            print(f"    {text}")

    def shell(self, script, folder):
        ran = subprocess.run(["bash", "-c", script], cwd=folder, env=self.environment, stdin=subprocess.DEVNULL, stdout=subprocess.PIPE, stderr=subprocess.STDOUT)
        return ran.returncode, ran.stdout.decode(errors="replace")

    def console(self, page, block, folder):
        """Commands with what they print. Names and variables that one sets are gone with it."""
        for line, command, wanted in commands(block):
            self.run += 1
            status, came = self.shell(command, folder)
            if found := first_difference(wanted, came.splitlines()):
                at, shown, printed = found
                self.tell(page, line + 1 + at, f"`{command}` ends with {status}", f"shown: {shown}\ncame:  {printed}")
            elif status and not wanted:
                self.tell(page, line, f"`{command}` ends with {status}")

    def script(self, page, block, folder):
        status, came = self.shell("set -e\n" + "\n".join(block.lines), folder)
        if status:
            self.tell(page, block.line, f"the script ends with {status}:", came)

    def python(self, page, block, folder):
        code = "import doctest, sys; sys.exit(doctest.testfile(sys.argv[1], module_relative=False).failed > 0)"
        path = folder / pathlib.Path(page).name.replace(".md", ".doctest")
        path.write_text("\n" * (block.line - 1) + "\n".join(block.lines) + "\n")
        ran = subprocess.run([sys.executable, "-c", code, path.name], cwd=folder, env=self.environment, capture_output=True, text=True)
        for line, text in re.findall(r"^File .*, line (\d+), in .*\n((?:.*\n)*?)(?=\*{20}|\Z)", ran.stdout, re.M):
            self.tell(page, int(line), "Python gives something else:", text)
        if ran.returncode and "line" not in ran.stdout:
            self.tell(page, block.line, "doctest fails:", ran.stderr)

    def is_left(self, block):
        """Whether a block is not run."""
        how, _, words = block.rest.partition(": ")
        return how == "not-run" or how == "needs" and not all(map(self.has, words.split()))

    def has(self, word):
        """Whether what a block needs is there."""
        if word == "library":
            return self.library
        module = re.fullmatch("python:(.*)", word)
        return importlib.util.find_spec(module[1]) if module else shutil.which(word)

    def page(self, page):
        folder = None
        for block in blocks(page):
            python = any(line.startswith(">>> ") for line in block.lines)
            kind = "python" if python else "console" if any(line.startswith("$ ") for line in block.lines) else block.kind
            if kind in SILENT:
                continue
            folder = folder or self.page_folder(page)
            if kind == "before":
                self.script(page, block, folder)
            elif kind not in ("sh", "console", "python"):
                self.tell(page, block.line - 1, "a block that does not say what it is")
            else:
                count = sum(1 for line in block.lines if line.startswith(">>> ") or kind == "sh" and line.strip() and not line.startswith((" ", "#")))
                count = len(commands(block)) or count
                if self.is_left(block) or python and not self.library:
                    self.left += count
                    print(f"{page}:{block.line}: {count} not run: {block.rest.partition(': ')[2] or 'library'}")
                elif kind == "console":
                    self.console(page, block, folder)
                else:
                    self.run += count
                    (self.python if python else self.script)(page, block, folder)


def main():
    parser = argparse.ArgumentParser(description="Runs the commands that the documents show.")
    parser.add_argument("program")
    parser.add_argument("pages", nargs="*", metavar="PAGE")
    parser.add_argument("--library")
    parser.add_argument("--heap")
    asked = parser.parse_intermixed_args()
    if bool(asked.library) != bool(asked.heap):
        parser.error("--library and --heap go together")
    pages = asked.pages or PAGES + sorted(str(path.relative_to(TOP)) for path in TOP.glob("docs/*.md"))
    with tempfile.TemporaryDirectory() as folder:
        runs = Runs(asked, pathlib.Path(folder))
        for page in pages:
            runs.page(page)
    print(f"{runs.run} commands run, {runs.left} not run, {runs.differ} differ")
    return 1 if runs.differ else 0


if __name__ == "__main__":
    sys.exit(main())
