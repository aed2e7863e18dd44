"""PISA collections as files: read list by list, and written list by list as files that appear whole or not at all."""

from __future__ import annotations

import array
import contextlib
import os
import sys
from typing import IO, Iterable, Iterator, Sequence

from ._errors import Error
from ._files import written

#: the greatest number of a file
MOST = 2**32 - 1


class BadFile(Error, ValueError):
    """A file that is not of its format: which, where in it, and why."""

    def __init__(self, path: str, where: str, why: str) -> None:
        super().__init__(path, where, why)
        self.path, self.where, self.why = path, where, why

    def __str__(self) -> str:
        return f"{self.path}: {self.where}: {self.why}"


def _numbers(data: bytes) -> "array.array[int]":
    numbers = array.array("I", data)
    if sys.byteorder == "big":
        numbers.byteswap()
    return numbers


def _bytes(numbers: Iterable[int]) -> bytes:
    data = array.array("I", numbers)
    if sys.byteorder == "big":
        data.byteswap()
    return data.tobytes()


def sequences(path: str) -> Iterator["array.array[int]"]:
    """The sequences of a file of numbers of 32 bits, each behind its length."""
    with open(path, "rb") as file:
        left = os.fstat(file.fileno()).st_size
        count = 0
        while head := file.read(4):
            length = int.from_bytes(head, "little")
            left -= 4 + 4 * length
            if len(head) < 4 or left < 0:
                raise BadFile(path, f"sequence {count}", "the file ends before it does")
            yield _numbers(file.read(4 * length))
            count += 1


class Collection:
    """The three files BASE.docs, BASE.freqs and BASE.sizes."""

    def __init__(self, base: str) -> None:
        self.base = base
        first = next(sequences(base + ".docs"), None)
        if first is None or len(first) != 1:
            raise BadFile(base + ".docs", "sequence 0", "it is not the one number of documents")
        self.documents: int = first[0]

    def lists(self) -> Iterator[tuple["array.array[int]", "array.array[int]"]]:
        """The documents and the frequencies of each term."""
        docs = sequences(self.base + ".docs")
        next(docs)
        freqs = sequences(self.base + ".freqs")
        for term, (of_docs, of_freqs) in enumerate(_side_by_side(docs, freqs, self.base)):
            if len(of_docs) != len(of_freqs):
                raise BadFile(self.base + ".freqs", f"term {term}", f"{len(of_freqs)} numbers for {len(of_docs)} documents")
            yield of_docs, of_freqs

    def sizes(self) -> "array.array[int]":
        """The size of each document."""
        sizes = next(sequences(self.base + ".sizes"), array.array("I"))
        if len(sizes) != self.documents:
            raise BadFile(self.base + ".sizes", "sequence 0", f"{len(sizes)} sizes for {self.documents} documents")
        return sizes


def _side_by_side(
    docs: Iterator["array.array[int]"], freqs: Iterator["array.array[int]"], base: str
) -> Iterator[tuple["array.array[int]", "array.array[int]"]]:
    for term, of_docs in enumerate(docs):
        of_freqs = next(freqs, None)
        if of_freqs is None:
            raise BadFile(base + ".freqs", f"term {term}", "it is not there")
        yield of_docs, of_freqs
    if next(freqs, None) is not None:
        raise BadFile(base + ".freqs", "its end", "it has more sequences than the file of documents")


class Writer:
    """Writes a collection of so many documents, list by list; `named` makes one whose files appear when all is well."""

    def __init__(self, docs: IO[bytes], freqs: IO[bytes], sizes: IO[bytes], documents: int) -> None:
        self._docs, self._freqs, self._sizes = docs, freqs, sizes
        self.terms = self.postings = 0
        self._docs.write(_bytes([1, documents]))

    def add(self, docs: Sequence[int], freqs: Sequence[int]) -> None:
        """Appends the list of the next term."""
        for file, numbers in ((self._docs, docs), (self._freqs, freqs)):
            file.write(_bytes([len(numbers)]))
            file.write(_bytes(numbers))
        self.terms += 1
        self.postings += len(docs)

    def end(self, sizes: Sequence[int]) -> None:
        """Writes the sizes of all documents."""
        self._sizes.write(_bytes([len(sizes)]))
        self._sizes.write(_bytes(sizes))


@contextlib.contextmanager
def named(base: str, documents: int) -> Iterator[Writer]:
    """A writer of BASE.docs, BASE.freqs and BASE.sizes, which take the place of files of these names when the block ends well, and not before."""
    with contextlib.ExitStack() as files:
        opened = [files.enter_context(written(base + end)) for end in (".sizes", ".freqs", ".docs")]
        yield Writer(opened[2], opened[1], opened[0], documents)


def names(path: str) -> Iterator[str]:
    """The names of a file of one name a line, as PISA's lexicons of terms and of documents."""
    with open(path, encoding="utf-8", newline="\n") as file:
        for line in file:
            yield line.rstrip("\n")


@contextlib.contextmanager
def new_names(path: str | None) -> Iterator[IO[bytes] | None]:
    """A file of names to be written, or none where there is no path."""
    if path is None:
        yield None
    else:
        with written(path) as file:
            yield file


def put_name(file: IO[bytes] | None, name: str, path: str, where: str) -> None:
    """Writes a name as a line."""
    if file is not None:
        if "\n" in name:
            raise BadFile(path, where, f"the name {name!r} has a newline")
        file.write(name.encode() + b"\n")
