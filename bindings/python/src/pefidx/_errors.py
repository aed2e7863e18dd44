"""What is refused with more than a cause. Each can be pickled, as what ends a task of a process pool."""

from __future__ import annotations


class Error(ValueError):
    """A file or a list that is refused."""


class BrokenIndex(Error):
    """A file that is no index: `path`, and the first check that breaks, as `K9`, with its term and part (docs/FORMAT.md)."""

    def __init__(self, path: str, check: int, term: int, part: int) -> None:
        super().__init__(path, check, term, part)
        self.path, self.check, self.term, self.part = path, f"K{check}", term, part

    def __str__(self) -> str:
        return f"{self.path}: index {self.check} term {self.term} part {self.part}"


class BadSegment(Error):
    """An index that cannot be joined to those before it: its `path`, the `rule` that breaks, as
    `G1` (docs/COMMANDS.md, "Several indexes as one"), and its place among them, counted from 0."""

    def __init__(self, path: str, rule: int, segment: int) -> None:
        super().__init__(path, rule, segment)
        self.path, self.rule, self.segment = path, f"G{rule}", segment

    def __str__(self) -> str:
        return f"{self.path}: segments {self.rule} segment {self.segment}"


class BadPosting(Error):
    """A list that is no posting list: its term, and the place of its first posting that cannot stand there. Both count from 0."""

    def __init__(self, term: int, place: int) -> None:
        super().__init__(term, place)
        self.term, self.place = term, place

    def __str__(self) -> str:
        return f"list {self.term}: posting {self.place} does not rise, is not below the number of documents, or has a frequency that cannot be stored"


class BrokenCollection(Error):
    """Three files that are no collection: `path` is the file in which a rule breaks first, `file` its ending, as `docs`, `rule` as `C5`, with
    its term and place, all as the program tells them (docs/COLLECTION.md)."""

    def __init__(self, path: str, file: str, rule: int, term: int, place: int) -> None:
        super().__init__(path, file, rule, term, place)
        self.path, self.file, self.rule, self.term, self.place = path, file, f"C{rule}", term, place

    def __str__(self) -> str:
        return f"{self.path}: collection {self.rule} {self.file} term {self.term} place {self.place}"
