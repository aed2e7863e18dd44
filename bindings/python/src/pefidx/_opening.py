"""Files of indexes, mapped and checked."""

from __future__ import annotations

import contextlib
import os
from typing import Iterable, NoReturn, Sequence, Union

from ._errors import BadSegment, BrokenIndex
from ._library import DONE, MOST_SEGMENTS, NO_INDEX, NO_JOIN, Fault, SegmentFault, library, refuse
from ._words import File, Part, Words

#: what names a file
Path = Union[str, "os.PathLike[str]"]


def paths_of(named: Path | Iterable[Path]) -> tuple[str, ...]:
    """The paths of one file or of several."""
    if isinstance(named, (str, bytes, os.PathLike)):
        return (os.fspath(named),)
    paths = tuple(os.fspath(path) for path in named)
    if not 1 <= len(paths) <= MOST_SEGMENTS:
        raise ValueError(f"{len(paths)} files are named, and from 1 to {MOST_SEGMENTS} may be")
    return paths


def mapped(paths: Sequence[str]) -> Words:
    """A map of files, none of whose words is checked."""
    with contextlib.ExitStack() as opened:
        files = []
        for path in paths:
            file = opened.enter_context(open(path, "rb"))
            size = os.fstat(file.fileno()).st_size
            if size % 8 or size < 48:
                raise BrokenIndex(path, 1, 0, 0)
            files.append(File(file.fileno(), size, path))
        words = Words(files)
    return words


def opened(paths: Sequence[str]) -> Words:
    """A map of files that are an index, or can be joined to one, with how many documents each
    has."""
    words = mapped(paths)
    if len(paths) == 1:
        check(words.parts[0], paths[0])
    else:
        fault = SegmentFault()
        status = library.pefidx_check_segments(*words.segments, fault)
        if status != DONE:
            refuse_segment(status, fault, paths)
    words.count_documents([int(library.pefidx_documents(*part)) for part in words.parts])
    return words


def check(part: Part, path: str) -> None:
    """Checks the words of a file."""
    fault = Fault()
    status = library.pefidx_check(*part, fault)
    if status == NO_INDEX:
        raise BrokenIndex(path, fault.check, fault.term, fault.part)
    if status != DONE:
        refuse(status)


def refuse_segment(status: int, fault: SegmentFault, paths: Sequence[str]) -> NoReturn:
    """Raises what a call over several files refused."""
    path = paths[fault.segment]
    if status == NO_INDEX:
        raise BrokenIndex(path, fault.check, fault.term, fault.part)
    if status == NO_JOIN:
        raise BadSegment(path, fault.rule, fault.segment)
    refuse(status)
