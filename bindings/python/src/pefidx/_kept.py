"""What is kept beside the words of an open index, by which calls are faster."""

from __future__ import annotations

import ctypes
import mmap
from typing import Any, Sequence

from ._library import DONE, ROOM, STARTS, library, refuse


def starts(parts: Sequence[tuple[int, int]]) -> tuple[Any, list[int]]:
    """Where the lists of the words of files begin, and their heads: memory with the numbers of each
    file, one after the other, and how many those of each are."""
    one = (ctypes.c_uint64 * 1)()
    counts = [_starts_of(part, ctypes.addressof(one), 1) for part in parts]
    numbers = (ctypes.c_uint64 * max(1, sum(counts)))()
    at = ctypes.addressof(numbers)
    for part, count in zip(parts, counts):
        _starts_of(part, at, count)
        at += 8 * count
    return numbers, counts


def _starts_of(part: tuple[int, int], address: int, room: int) -> int:
    """Writes the numbers of a file, as far as there is room, and gives how many they are."""
    given = ctypes.c_size_t()
    status = library.pefidx_keep(*part, STARTS, address, room, given)
    return given.value if status in (DONE, ROOM) else refuse(status)


def maxima(call: Any, *asked: int) -> tuple[Any, int]:
    """The interval maxima that a call gives of what calls that ask take: memory, and how many bytes
    stand there."""
    given, room = ctypes.c_size_t(), 8 + 4 * asked[1]
    while True:
        # Pages of a map that nothing is written to take no memory.
        made = ctypes.c_char.from_buffer(_memory(room))
        status = call(*asked, ctypes.addressof(made), room, given)
        if status == DONE:
            return made, given.value
        if status != ROOM:
            refuse(status)
        room = given.value


def _memory(size: int) -> mmap.mmap:
    try:
        return mmap.mmap(-1, size, flags=mmap.MAP_PRIVATE | mmap.MAP_ANONYMOUS)
    except OSError as error:
        raise MemoryError("memory was refused") from error
