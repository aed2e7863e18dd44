"""Several indexes as one file."""

from __future__ import annotations

import os
from typing import Iterable

from . import _files, _opening
from ._building import words_into
from ._library import DONE, SegmentFault, library
from ._opening import Path


def merge(paths: Iterable[Path], path: Path) -> None:
    """Writes the collection of 1 to 64 indexes as one packed file, that of `pefidx merge`.

    The documents of each index are counted on from those before it, and every term has its lists in
    all, one after the other; an index may have fewer terms than another. The file is replaced
    whole, as by `build`, and may be one of those that are merged.

    BrokenIndex: a file is no index. BadSegment: an index cannot be joined to those before it.
    ValueError: there are more than 64, or none. OverflowError: the index would be longer than 2^40
    bytes. MemoryError: memory was refused. OSError: a file cannot be read or written.
    """
    named = _opening.paths_of(paths)
    words, fault = _opening.mapped(named), SegmentFault()
    for part, of in zip(words.parts, named):
        _opening.check(part, of)
    # Lists that are joined take about what they took; memory that is not written to is not taken.
    room = 4096 + 2 * sum(part.length for part in words.parts)
    with _files.written(os.fsdecode(path)) as file:
        status = words_into(
            file, room, lambda *made: library.pefidx_merge(*words.segments, *made, fault)
        )
        if status != DONE:
            _opening.refuse_segment(status, fault, named)
