"""The index of some lists, written as a file."""

from __future__ import annotations

import array
import ctypes
import mmap
import operator
import os
from typing import IO, Any, Callable, Iterable, NamedTuple, Sized, SupportsIndex

from . import _files
from ._errors import BadPosting
from ._library import BAD_POSTING, DONE, MOST, ROOM, TOO_MANY, BadPlace, library, refuse
from ._numbers import Lent, NotOfRange, Numbers, held, numbers

#: the formats of files by name: the packed file, and the plain ones as `pefidx build --format` names them
FORMATS = {"packed": 3, "1": 1, "2": 2}
PACKED = "packed"


class _Limits(NamedTuple):
    """The most documents that a format takes, and the most that the frequencies of a list add up to."""

    documents: int
    sum: int


def _limits_of(format: str) -> _Limits:
    if format not in FORMATS:
        raise ValueError(f"there is no format {format!r}: {', '.join(map(repr, FORMATS))}")
    return _Limits(2**28 - 1, 2**36) if format == "1" else _Limits(MOST, 2**48)


def build(lists: Iterable[tuple[Lent, Lent]], path: str | os.PathLike[str], sizes: Lent | None = None, format: str = PACKED) -> None:
    """Writes the index of some lists as the file `path`: as a packed file, the smallest, or in the plain format "1" or "2".

    Lists are taken one by one. Each is (documents, frequencies): documents rise, and there are as many frequencies, each at least 1, that add up to at most 2^48, in
    format 1 to at most 2^36. Term t is list t. There is a document for each of `sizes`; where no sizes are given, the greatest document of the
    lists is the last, and the size of a document is the sum of its frequencies. An Index may stand for the lists.

    The file is replaced whole, as by `pefidx build` (docs/COMMANDS.md): it holds what it held before, or all of the new. A device or a pipe
    is written in place.

    BadPosting: a posting cannot stand in its list. ValueError: a list has not one frequency for each document, or there is no such format.
    TypeError: what is to be a whole number is none. OverflowError: a size is none of 32 bits, there are 2^32 documents or more, in format 1
    2^28 or more, or the index would be longer than 2^40 bytes. MemoryError: memory was refused. OSError: the file cannot be written.
    """
    limits = _limits_of(format)
    lengths, docs, freqs = array.array("I"), array.array("I"), array.array("I")
    for term, (each, counts) in enumerate(lists):
        each, counts = _list(limits, term, each, counts)
        lengths.append(len(each))
        docs.frombytes(each.tobytes())
        freqs.frombytes(counts.tobytes())
    try:
        all_sizes = _sizes_of(limits, lengths, docs, freqs) if sizes is None else numbers(sizes)
    except NotOfRange as wrong:
        raise OverflowError(f"size {wrong.value} of document {wrong.place} is no number of 32 bits") from None
    with _files.written(os.fsdecode(path)) as file:
        _build_into(file, FORMATS[format], lengths, docs, freqs, all_sizes)


def _list(limits: _Limits, term: int, docs: Lent, freqs: Lent) -> tuple[Numbers, Numbers]:
    """One list as arrays."""
    both: list[Any] = [each if isinstance(each, Sized) else list(each) for each in (docs, freqs)]
    if len(both[0]) != len(both[1]):
        raise ValueError(f"list {term} has {len(both[0])} documents and {len(both[1])} frequencies")
    try:
        return numbers(both[0]), numbers(both[1])
    except TypeError as error:
        raise TypeError(f"list {term}: {error}") from None
    except NotOfRange:
        place = _first_bad(limits, *both)
        assert place is not None
        raise BadPosting(term, place) from None


def _first_bad(limits: _Limits, docs: Iterable[SupportsIndex], freqs: Iterable[SupportsIndex]) -> int | None:
    """The place of the first posting that cannot stand in its list, however many documents there are, or None."""
    least, total = 0, 0
    for place, (doc, freq) in enumerate(zip(map(operator.index, docs), map(operator.index, freqs))):
        total += freq
        if not least <= doc <= MOST or not 1 <= freq <= MOST or total > limits.sum:
            return place
        least = doc + 1
    return None


def _sizes_of(limits: _Limits, lengths: array.array[int], docs: array.array[int], freqs: array.array[int]) -> array.array[int]:
    """As a size the sum of the frequencies of each document. What cannot be built is refused before there is an array of so many sizes."""
    documents = max(docs, default=-1) + 1
    if documents > limits.documents:
        refuse(TOO_MANY)
    begin = 0
    for term, length in enumerate(lengths):
        place = _first_bad(limits, docs[begin : begin + length], freqs[begin : begin + length])
        if place is not None:
            raise BadPosting(term, place)
        begin += length
    sizes = array.array("I", [0]) * documents
    for doc, freq in zip(docs, freqs):
        if sizes[doc] + freq > MOST:
            raise NotOfRange(doc, sizes[doc] + freq)
        sizes[doc] += freq
    return sizes


def _build_into(file: IO[bytes], format: int, lengths: Numbers, docs: Numbers, freqs: Numbers, sizes: Numbers) -> None:
    given = [held(each) for each in (lengths, docs, freqs, sizes)]
    lent = [word for each in given for word in each[:2]]
    bad = BadPlace()
    status = words_into(file, 6 + len(docs) + 16 * len(lengths) + len(sizes), lambda *words: library.pefidx_build(format, *lent, *words, bad))
    if status == BAD_POSTING:
        raise BadPosting(bad.term, bad.place)
    if status != DONE:
        refuse(status)


def words_into(file: IO[bytes], room: int, made: Callable[[int, int, ctypes.c_size_t], int]) -> int:
    """Writes the words that a call gives, in this room or again in as much as it tells, and gives how it ended. They are made in memory, and then
    written: what is written into a map of a file on a full disk ends the process."""
    while True:
        with _memory(8 * room) as whole:
            words, count = ctypes.c_char.from_buffer(whole), ctypes.c_size_t()
            status = made(ctypes.addressof(words), room, count)
            del words
            if status == DONE:
                with memoryview(whole) as view, view[: 8 * count.value] as part:
                    file.write(part)
            if status != ROOM:
                return status
        room = count.value


def _memory(size: int) -> mmap.mmap:
    try:
        return mmap.mmap(-1, size, flags=mmap.MAP_PRIVATE | mmap.MAP_ANONYMOUS)
    except OSError:
        raise MemoryError("memory was refused") from None
