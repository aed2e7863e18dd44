"""What answers `top`: the library over a map of the index, or the program `pefidx`, where the library is not there."""

from __future__ import annotations

import json
import os
import subprocess
import tempfile
from typing import Mapping, Protocol

from ._errors import Error
from ._index import PLANS, Index
from ._library import is_there

__all__ = ["PLANS", "Asked", "Program", "opened", "query_line"]


class Asked(Protocol):
    """An index that can be asked, and is closed at the end."""

    documents: int
    terms: int

    def top(self, k: int, weights: Mapping[int, int], plan: str) -> list[tuple[int, int]]:
        """The best k documents, each with its score."""

    def close(self) -> None:
        """Ends the asking."""


def query_line(k: int, weights: Mapping[int, int]) -> str:
    """The query line that asks for the best k of these terms."""
    return " ".join(["top", str(k), *(f"{term}*{weight}" for term, weight in weights.items())])


class Program:
    """The index in a file, asked by runs of the program: one that says its counts, and one for each plan, which answers line by line."""

    def __init__(self, path: str, program: str) -> None:
        self._path, self._program = path, program
        self._runs: dict[str, subprocess.Popen[str]] = {}
        try:
            told = subprocess.run([program, "inspect", path], capture_output=True, text=True)
        except OSError as error:
            raise Error(f"{program}: {error.strerror}; PEFIDX names the program, and PEFIDX_LIBRARY the shared library") from None
        if told.returncode:
            raise Error(f"{path}: {told.stderr.strip()}")
        counts = json.loads(told.stdout)
        self.documents, self.terms = int(counts["documents"]), int(counts["terms"])

    def _run(self, plan: str) -> "subprocess.Popen[str]":
        if plan not in self._runs:
            # What is said on standard error must not fill a pipe that nobody reads.
            by_plan = ["query", self._path, "--plan", plan]
            words = [self._program, *(by_plan if plan != "intervals" else ["iquery", self._path])]
            with tempfile.TemporaryFile() as said:
                self._runs[plan] = subprocess.Popen(words, stdin=subprocess.PIPE, stdout=subprocess.PIPE, stderr=said, text=True)
        return self._runs[plan]

    def top(self, k: int, weights: Mapping[int, int], plan: str) -> list[tuple[int, int]]:
        """The best k documents, each with its score. A line that breaks a rule is a ValueError with the program's reply."""
        run = self._run(plan)
        assert run.stdin is not None and run.stdout is not None
        try:
            run.stdin.write(query_line(k, weights) + "\n")
            run.stdin.flush()
        except BrokenPipeError:
            raise Error(f"{self._program} has ended with {run.wait()}") from None
        reply = run.stdout.readline()
        if reply.startswith("bad "):
            raise ValueError(reply.strip())
        if not reply.endswith("\n"):
            raise Error(f"{self._program} has ended with {run.wait()}")
        found = [item.split(":") for item in reply.split()[1:]]
        return [(int(doc), int(score)) for doc, score in found]

    def close(self) -> None:
        """Ends the runs."""
        for run in self._runs.values():
            run.communicate()
        self._runs.clear()


def opened(path: str, program: str | None) -> Asked:
    """The index in a file: asked by the program where one is named or the library is not there, else by the library."""
    if program is None and is_there():
        return Index(path)
    return Program(path, program or os.environ.get("PEFIDX") or "pefidx")
