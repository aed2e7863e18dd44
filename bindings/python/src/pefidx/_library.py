"""The calls of the shared library, declared as c/pefidx.h has them."""

from __future__ import annotations

import array
import ctypes
import os
import sys
from typing import Any, NoReturn

DONE, END, ROOM, NO_INDEX, NO_TERM, NO_DOCUMENT, TOO_MANY_TERMS, BAD_WEIGHTS = range(8)
NO_PLAN, NO_MEMORY, TOO_LARGE, TOO_MANY, NOT_WHOLE, BAD_POSTING, NO_FORMAT, NO_FLAG = range(8, 16)
NO_JOIN, NO_COLLECTION = range(16, 18)

#: the greatest number of 32 bits
MOST = 2**32 - 1
#: what `keep` keeps: where the lists of a packed file begin, and their heads
STARTS = 1
#: the most files that are asked as one
MOST_SEGMENTS = 64

_CAUSES: dict[int, tuple[type[Exception], str]] = {
    NO_TERM: (IndexError, "the index has no such term"),
    NO_DOCUMENT: (IndexError, "the index has no such document"),
    TOO_MANY_TERMS: (ValueError, "more than 1,024 terms"),
    BAD_WEIGHTS: (ValueError, "a weight below 1, or weights that sum to 2^26 or more"),
    NO_MEMORY: (MemoryError, "memory was refused"),
    TOO_LARGE: (OverflowError, "the index would be too large"),
    TOO_MANY: (OverflowError, "more lists or documents than the format takes"),
}


class Fault(ctypes.Structure):
    _fields_ = [("check", ctypes.c_uint32), ("term", ctypes.c_uint32), ("part", ctypes.c_uint64)]


class Segment(ctypes.Structure):
    _fields_ = [("first", ctypes.c_uint64), ("count", ctypes.c_uint64)]


class SegmentFault(ctypes.Structure):
    _fields_ = [
        *((name, ctypes.c_uint32) for name in ("segment", "rule", "check", "term")),
        ("part", ctypes.c_uint64),
    ]


class Posting(ctypes.Structure):
    _fields_ = [("doc", ctypes.c_uint32), ("freq", ctypes.c_uint32)]


class Scored(ctypes.Structure):
    _fields_ = [("doc", ctypes.c_uint32), ("score", ctypes.c_uint64)]


class BadPlace(ctypes.Structure):
    _fields_ = [("term", ctypes.c_uint32), ("place", ctypes.c_uint64)]


class CollectionFault(ctypes.Structure):
    _fields_ = [(name, ctypes.c_uint32) for name in ("rule", "file", "term", "place")]


def refuse(status: int) -> NoReturn:
    """Raises what a status stands for."""
    kind, cause = _CAUSES[status]
    raise kind(cause)


#: the shared library of `make install`, which the loader of the system finds
_INSTALLED = "libpefidx.so.3"


def _path() -> str:
    """The shared library: the one that PEFIDX_LIBRARY names, else the one beside the package, else the installed one."""
    beside = os.path.join(os.path.dirname(os.path.abspath(__file__)), "libpefidx.so")
    return os.environ.get("PEFIDX_LIBRARY") or (beside if os.path.exists(beside) else _INSTALLED)


def is_there() -> bool:
    """Whether there is a shared library."""
    try:
        return library.pefidx_check is not None
    except OSError:
        return "PEFIDX_LIBRARY" in os.environ


def _loaded() -> ctypes.CDLL:
    if sys.byteorder != "little" or array.array("I").itemsize != 4:
        raise ImportError("pefidx wants a little-endian machine with numbers of 32 bits")
    loaded = ctypes.CDLL(_path())
    at, size, number = ctypes.c_void_p, ctypes.c_size_t, ctypes.c_uint32
    words: list[type] = [at, size]
    items = kept = maxima = words
    calls: dict[str, list[Any]] = {
        "check": [ctypes.POINTER(Fault)],
        "keep": [number, *items, ctypes.POINTER(size)],
        "documents": [],
        "terms": [],
        "size_of": [number, ctypes.POINTER(number)],
    }
    asking: dict[str, list[Any]] = {
        "next": [number, number, ctypes.POINTER(Posting)],
        "count": [number, ctypes.POINTER(number)],
        "postings": [number, number, *items, ctypes.POINTER(size)],
        "and": [*items, *items, ctypes.POINTER(size)],
        "or": [*items, *items, ctypes.POINTER(size)],
        "maxima": [*items, ctypes.POINTER(size)],
        "room": [*items, ctypes.POINTER(size)],
    }
    by_plan: dict[str, list[Any]] = {
        "top": [number, *items, *items, number, *items, ctypes.POINTER(size)],
        "reply": [number, *items, *items, ctypes.POINTER(size)],
    }
    calls.update((name, [*kept, *rest]) for name, rest in asking.items())
    for name, rest in by_plan.items():
        calls[name] = [*kept, *maxima, *rest]
        calls[f"{name}_segments"] = [*items, *kept, *maxima, *rest]
    calls["maxima_segments"] = [*items, *kept, *items, ctypes.POINTER(size)]
    calls["check_segments"] = [*items, ctypes.POINTER(SegmentFault)]
    calls["merge"] = [*items, *items, ctypes.POINTER(size), ctypes.POINTER(SegmentFault)]
    for name, rest in calls.items():
        call = getattr(loaded, f"pefidx_{name}")
        call.argtypes, call.restype = [*words, *rest], number
    loaded.pefidx_build.argtypes = [number, *items, *items, *items, *items, *items, ctypes.POINTER(size), ctypes.POINTER(BadPlace)]
    loaded.pefidx_build.restype = number
    loaded.pefidx_pack.argtypes = [*items, *items, *items, *items, ctypes.POINTER(size), ctypes.POINTER(CollectionFault)]
    loaded.pefidx_pack.restype = number
    loaded.pefidx_join_top.argtypes = [*items, *items, *items, number, *items, ctypes.POINTER(size)]
    loaded.pefidx_join_top.restype = number
    return loaded


_NAMES = tuple(
    f"pefidx_{name}"
    for name in (
        *("check", "keep", "maxima", "documents", "terms", "size_of"),
        *("next", "count", "postings", "and", "or", "top", "reply", "room", "join_top", "build"),
        *("check_segments", "maxima_segments", "top_segments", "reply_segments"),
        *("merge", "pack"),
    )
)


class _AtFirstUse:
    """The library, which is loaded when a call of it is first asked for: what only reads and writes files of other formats does without it."""

    def __getattr__(self, name: str) -> Any:
        loaded = _loaded()
        for call in _NAMES:
            setattr(self, call, getattr(loaded, call))
        return getattr(loaded, name)


library = _AtFirstUse()
