"""Files that are mapped by the C library: `mmap` of Python lends no address of a map that is read-only."""

from __future__ import annotations

import bisect
import ctypes
import itertools
import mmap
import os
import threading
import weakref
from typing import Any, NamedTuple, Sequence

from . import _kept
from ._library import Segment, library

_PROT_NONE, _PROT_READ = 0, 1
_MAP_SHARED, _MAP_PRIVATE, _MAP_FIXED, _MAP_ANONYMOUS, _MAP_NORESERVE = 1, 2, 16, 32, 16384
_FAILED = ctypes.c_void_p(-1).value


def _of_libc() -> Any:
    libc: Any = ctypes.CDLL(None, use_errno=True)
    at, size, number = ctypes.c_void_p, ctypes.c_size_t, ctypes.c_int
    libc.mmap.argtypes, libc.mmap.restype = [at, size, number, number, number, ctypes.c_long], at
    libc.munmap.argtypes, libc.munmap.restype = [at, size], number
    return libc


_libc = _of_libc()


class File(NamedTuple):
    """An open file that has a byte: its number, its bytes, and its path."""

    number: int
    size: int
    path: str


class Bytes:
    """A map of a file, which goes once nothing holds it. A call holds it while it runs."""

    def __init__(self, file: File) -> None:
        self.address, self.size = _mapped(None, _MAP_SHARED, file), file.size
        # At the end of the process another thread may still read it.
        weakref.finalize(self, _libc.munmap, self.address, self.size).atexit = False


class Part(NamedTuple):
    """The words of one file in a map."""

    address: int
    length: int


class Words:
    """A map of the words of files, each from the border of a page on; behind its end its last page
    reads as zeros. It goes once nothing holds it; a call holds it while it runs. What is kept
    beside the words is made when it is first wanted, once.
    """

    def __init__(self, files: Sequence[File]) -> None:
        begins, size = [], 0
        for file in files:
            begins.append(size)
            size += -(-file.size // mmap.PAGESIZE) * mmap.PAGESIZE
        reserved = _MAP_PRIVATE | _MAP_ANONYMOUS | _MAP_NORESERVE
        address = _mapped(None, reserved, File(-1, size, files[0].path), _PROT_NONE)
        # At the end of the process another thread may still read it.
        weakref.finalize(self, _libc.munmap, address, size).atexit = False
        for at, file in zip(begins, files):
            _mapped(address + at, _MAP_SHARED | _MAP_FIXED, file)
        of = [(at // 8, file.size // 8) for at, file in zip(begins, files)]
        self.parts = [Part(address + 8 * first, length) for first, length in of]
        self._of = (Segment * len(of))(*(Segment(*each) for each in of))
        #: what a call takes of all files: the words, and where those of each file are
        self.segments = (address, size // 8, ctypes.addressof(self._of), len(of))
        #: how many documents stand before each file, and in all
        self.firsts = [0]
        self._making = threading.Lock()
        self._starts: Any = None
        self._maxima: Any = None
        self._asked: list[tuple[int, ...]] | None = None
        self._asked_as_one: tuple[int, ...] = ()
        self._lent: tuple[int, int] | None = None

    @property
    def asked(self) -> list[tuple[int, ...]]:
        """What a call takes that asks a file, of each: its words, and where its lists begin."""
        return self._asked or self._with_starts()

    @property
    def maxima(self) -> tuple[int, int]:
        """The interval maxima of all files as of one: where they are, and how many bytes."""
        return self._lent or self._with_maxima(self.asked)

    def _with_starts(self) -> list[tuple[int, ...]]:
        with self._making:
            if self._asked is None:
                self._starts, counts = _kept.starts(self.parts)
                at = first = ctypes.addressof(self._starts)
                asked: list[tuple[int, ...]] = []
                for part, count in zip(self.parts, counts):
                    asked.append((*part, at, count))
                    at += 8 * count
                self._asked_as_one = (*self.segments, first, sum(counts))
                self._asked = asked
            return self._asked

    def _with_maxima(self, asked: list[tuple[int, ...]]) -> tuple[int, int]:
        with self._making:
            if self._lent is None:
                self._maxima, count = _kept.maxima(*self._call("maxima", asked))
                self._lent = (ctypes.addressof(self._maxima), count)
            return self._lent

    def _call(self, name: str, asked: list[tuple[int, ...]]) -> tuple[Any, ...]:
        """The call of this name that asks all files, and what it takes of them."""
        if len(asked) > 1:
            return (getattr(library, f"pefidx_{name}_segments"), *self._asked_as_one)
        return (getattr(library, f"pefidx_{name}"), *asked[0])

    def ask(self, name: str, with_maxima: bool, *rest: Any) -> int:
        """Calls what asks all files by a plan, and gives its status."""
        call, *of = self._call(name, self.asked)
        lent = self.maxima if with_maxima else (of[0], 0)
        return int(call(*of, *lent, *rest))

    def count_documents(self, documents: Sequence[int]) -> None:
        """Counts the documents of each file on from those of the files before it."""
        self.firsts = [0, *itertools.accumulate(documents)]

    def from_document(self, doc: int) -> range:
        """The files that have documents from this one on, or the last."""
        return range(bisect.bisect_right(self.firsts, doc, 0, len(self.parts)) - 1, len(self.parts))


def _mapped(at: int | None, kind: int, file: File, access: int = _PROT_READ) -> int:
    made = _libc.mmap(at, file.size, access, kind, file.number, 0)
    if made == _FAILED:
        number = ctypes.get_errno()
        raise OSError(number, os.strerror(number), file.path)
    return int(made)
