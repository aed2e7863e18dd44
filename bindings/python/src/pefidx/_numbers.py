"""Numbers of 32 bits: single ones, those that a caller lends, and those that a call gives."""

from __future__ import annotations

import array
import operator
from typing import TYPE_CHECKING, Any, Iterable, NamedTuple, SupportsIndex, Union

from ._library import MOST

try:
    import numpy
except ImportError:
    numpy = None  # type: ignore[assignment]

if TYPE_CHECKING:
    import numpy.typing

#: what a call gives: a numpy array where numpy is there, else an array of the standard library
Numbers = Union["numpy.typing.NDArray[numpy.uint32]", "array.array[int]"]
#: what a caller may lend: an array of either kind, or whole numbers one by one
Lent = Union["numpy.typing.NDArray[Any]", "array.array[int]", Iterable[SupportsIndex]]

_NOTHING = array.array("Q", [0])


class NotOfRange(Exception):
    """A number that is none of 32 bits, by its place."""

    def __init__(self, place: int, value: int) -> None:
        super().__init__(place, value)
        self.place, self.value = place, value


def one_of(value: SupportsIndex, least: int, most: int, what: str) -> int:
    """A whole number in a range."""
    number = operator.index(value)
    if not least <= number <= most:
        raise IndexError(f"{what} {number} is not in the range from {least} to {most}")
    return number


def numbers(values: Lent) -> Numbers:
    """Numbers as an array of 32 bits: the caller's own array where it is one, else a new one."""
    if numpy is not None and isinstance(values, numpy.ndarray):
        return _of_numpy(values)
    if isinstance(values, array.array) and values.typecode == "I":
        return values
    made = array.array("I")
    for place, value in enumerate(values):
        number = operator.index(value)
        if not 0 <= number <= MOST:
            raise NotOfRange(place, number)
        made.append(number)
    return made


def _of_numpy(values: numpy.typing.NDArray[Any]) -> Numbers:
    if values.ndim != 1 or values.dtype.kind not in "iu" and values.size:
        raise TypeError(f"an array of whole numbers in one row is wanted, not {values.dtype} of shape {values.shape}")
    if values.size and not numpy.can_cast(values.dtype, numpy.uint32) and (int(values.min()) < 0 or int(values.max()) > MOST):
        place = next(place for place, value in enumerate(values.tolist()) if not 0 <= value <= MOST)
        raise NotOfRange(place, int(values[place]))
    return numpy.require(values, numpy.uint32, ["C_CONTIGUOUS", "ALIGNED"])


def empty(count: int) -> Numbers:
    """Room for as many numbers."""
    return numpy.empty(count, numpy.uint32) if numpy is not None else array.array("I", bytes(4 * count))


def first(made: Numbers, count: int) -> Numbers:
    """The first numbers of an array; without a copy where they are most of one of numpy."""
    if isinstance(made, array.array):
        del made[count:]
        return made
    return made[:count] if 2 * count >= len(made) else made[:count].copy()


class Held(NamedTuple):
    """Memory that a call may use as long as this is there. No address is null."""

    address: int
    length: int
    owner: object


def held(made: Numbers) -> Held:
    """The memory of an array of 32 bits."""
    if isinstance(made, array.array):
        # An array that is viewed cannot be made longer, also not by another thread.
        memory = Held(*made.buffer_info(), memoryview(made))
    else:
        memory = Held(made.ctypes.data, made.size, made)
    return memory if memory.length else Held(_NOTHING.buffer_info()[0], 0, made)


def counted_on(made: Numbers, by: int) -> Numbers:
    """Documents that stand behind so many others; of numpy the same array."""
    if not by:
        return made
    if isinstance(made, array.array):
        return array.array("I", [doc + by for doc in made])
    made += numpy.uint32(by)
    return made


def count_on(memory: Any, first: int, count: int, by: int) -> None:
    """Counts on the documents of postings, whose numbers stand in memory from the first on."""
    if not by:
        return
    if numpy is not None:
        numpy.frombuffer(memory, numpy.uint32)[first : first + count : 2] += numpy.uint32(by)
    else:
        for place in range(first, first + count, 2):
            memory[place] += by


def joined(parts: list[Numbers]) -> Numbers:
    """Arrays one after the other."""
    if numpy is not None:
        return numpy.concatenate([numpy.empty(0, numpy.uint32), *parts])
    made = array.array("I")
    for part in parts:
        made.extend(part)
    return made
