"""The best of a whole, from those of its ranges."""

from __future__ import annotations

import array
import ctypes
from typing import Iterable, SupportsIndex, Tuple

from ._library import DONE, MOST, Scored, library, refuse
from ._numbers import held, one_of

_MOST_SCORE = 2**64 - 1

#: a document with its score
_Scored = Tuple[SupportsIndex, SupportsIndex]


def _of_range(documents: int, best: Iterable[_Scored], number: int) -> list[tuple[int, int]]:
    """What a range of so many documents gave."""
    pairs = [
        (one_of(doc, 0, documents - 1, "document"), one_of(score, 0, _MOST_SCORE, "score"))
        for doc, score in best
    ]
    if len({doc for doc, _ in pairs}) < len(pairs):
        raise ValueError(f"range {number} gave a document twice")
    return pairs


def join_top(
    k: SupportsIndex, ranges: Iterable[tuple[SupportsIndex, Iterable[_Scored]]]
) -> list[tuple[int, int]]:
    """The best k of the whole, as (document, score), from what `top` gave for ranges of its
    documents, by the same weights and by k or more.

    `ranges` has each range in turn, as the number of its documents and its list. Documents of the
    whole are counted on from range to range.

    IndexError: a range gave a document that it has not, or a number is not of its range.
    ValueError: a range gave a document twice. OverflowError: the ranges have more than 2^32 - 1
    documents together.
    """
    k, documents, counts = one_of(k, 0, MOST, "k"), array.array("I"), array.array("I")
    pairs: list[tuple[int, int]] = []
    for of, best in ranges:
        documents.append(one_of(of, 0, MOST, "number of documents"))
        given = _of_range(documents[-1], best, len(counts))
        counts.append(len(given))
        pairs += given
    if sum(documents) > MOST:
        raise OverflowError(f"the ranges have {sum(documents)} documents together, more than {MOST}")
    room, found = min(k, len(pairs)), ctypes.c_size_t()
    all_given = (Scored * max(1, len(pairs)))(*(Scored(*pair) for pair in pairs))
    joined = (Scored * max(1, room))()
    whole, each = held(documents), held(counts)
    status = library.pefidx_join_top(
        *(whole.address, whole.length, each.address, each.length),
        *(ctypes.addressof(all_given), len(pairs), k, ctypes.addressof(joined), room, found),
    )
    if status != DONE:
        refuse(status)
    return [(joined[at].doc, joined[at].score) for at in range(found.value)]
