"""An index over a map of its files."""

from __future__ import annotations

import ctypes
import operator
from collections import abc
from typing import Any, Iterable, Iterator, Mapping, NamedTuple, NoReturn, SupportsIndex

from . import _lines, _numbers, _opening
from ._library import BAD_WEIGHTS, DONE, END, MOST, NO_TERM, ROOM, TOO_MANY_TERMS
from ._library import Posting, Scored, library, refuse
from ._numbers import Held, Lent, Numbers, held, one_of
from ._opening import Path
from ._words import Words

#: the plans of `top`, by name; no answer depends on the plan
PLANS = {"exhaustive": 0, "wand": 1, "maxscore": 2, "intervals": 3}
_BEST_PLAN = "intervals"
_MOST_TERMS, _MOST_WEIGHT = 1024, 2**26 - 1


class Postings(NamedTuple):
    """Postings of a term: two arrays of one length, `docs` rising and `freqs` with as many frequencies of at least 1."""

    docs: Numbers
    freqs: Numbers


class Index:
    """The index in a file of `pefidx` or of `build`, plain or packed, or in 1 to 64 such files, as
    `pefidx segments` takes them: the documents of each are counted on from those before it.

    Opening maps a file and checks it, in one pass over all its words and without a copy; processes
    that open one file share its memory. A file must stay as it is while it is open. `pefidx` and
    `build` replace files whole, so an index that is open stays as it was. Any number of threads may
    ask at once.

    It is also a sequence: `len(index)` is the number of terms, `index[term]` the postings of a term, and iterating gives the postings of all
    terms, in order. It is closed by `close`, by `with`, or once nothing holds it.

    Raises OSError where a file cannot be read, BrokenIndex where one is no index, and BadSegment
    where one cannot be joined to those before it.
    """

    #: the path, as it was given, of several files that of the first
    path: str
    #: the paths of all files
    paths: tuple[str, ...]
    #: how many documents there are; they are numbered from 0
    documents: int
    #: how many terms there are; they are numbered from 0
    terms: int

    def __init__(self, path: Path | Iterable[Path]) -> None:
        self._words: Words | None = None
        self.paths = _opening.paths_of(path)
        self.path = self.paths[0]
        words = _opening.opened(self.paths)
        self.documents = words.firsts[-1]
        self.terms = library.pefidx_terms(*words.parts[0])
        self._words = words

    def __reduce__(self) -> NoReturn:
        raise TypeError("an Index is a map in one process, and cannot be pickled: open its file in the other one, by Index(path)")

    def close(self) -> None:
        """Lets the map go, once no call that runs holds it. Every later call raises ValueError."""
        self._words = None

    @property
    def closed(self) -> bool:
        """Whether the index is closed."""
        return self._words is None

    def __enter__(self) -> Index:
        return self

    def __exit__(self, *_how: object) -> None:
        self.close()

    def __repr__(self) -> str:
        state = "closed" if self.closed else f"{self.documents} documents, {self.terms} terms"
        more = f" and {len(self.paths) - 1} more" if len(self.paths) > 1 else ""
        return f"<pefidx.Index {self.path!r}{more}: {state}>"

    def __len__(self) -> int:
        """How many terms there are."""
        return self.terms

    def __getitem__(self, term: SupportsIndex) -> Postings:
        """The postings of a term, as of `postings`; terms do not count from the end."""
        return self.postings(term)

    def __iter__(self) -> Iterator[Postings]:
        """The postings of each term, in the order of terms."""
        return map(self.postings, range(self.terms))

    def _open(self) -> Words:
        words = self._words
        if words is None:
            raise ValueError("the index is closed")
        return words

    def _term(self, term: SupportsIndex) -> int:
        number = operator.index(term)
        return number if 0 <= number < self.terms else self._no_term(number)

    def _no_term(self, term: int) -> NoReturn:
        raise IndexError(f"there is no term {term}: the index has {self.terms}, counted from 0")

    def size_of(self, doc: SupportsIndex) -> int:
        """The size of a document, as the collection states it. IndexError: there is no such document."""
        words, size = self._open(), ctypes.c_uint32()
        number = one_of(doc, 0, self.documents - 1, "document")
        at = words.from_document(number)[0]
        status = library.pefidx_size_of(*words.parts[at], number - words.firsts[at], size)
        return size.value if status == DONE else refuse(status)

    def next(self, term: SupportsIndex, doc: SupportsIndex) -> tuple[int, int] | None:
        """The first posting of a term whose document is at least `doc`, as (document, frequency), or None.

        IndexError: there is no such term, or `doc` is below 0 or above 2^32 - 1. It may be above the last document.
        """
        words, found = self._open(), Posting()
        term, least = self._term(term), one_of(doc, 0, MOST, "document")
        for at in words.from_document(least):
            first = words.firsts[at]
            status = library.pefidx_next(*words.asked[at], term, max(first, least) - first, found)
            if status == DONE:
                return first + found.doc, found.freq
            if status != END:
                refuse(status)
        return None

    def count(self, term: SupportsIndex) -> int:
        """How many postings a term has, without its list. IndexError: there is no such term."""
        words, term = self._open(), self._term(term)
        return sum(_count(asked, term) for asked in words.asked)

    def postings_into(self, into: Any, term: SupportsIndex, place: SupportsIndex = 0) -> int:
        """Writes the postings of a term into memory of the caller, without a copy, and gives how many it wrote.

        `into` is a contiguous array of numbers of 32 bits that may be written, with an even number of them: a numpy array of uint32 of shape
        (n, 2), or array.array("I"). Row i gets the document and the frequency of posting `place` + i, counted from 0, until the list ends or
        the rows do.

        IndexError: there is no such term, or the place is below 0 or above 2^32 - 1. TypeError: `into` is no such memory.
        """
        words, term, place = self._open(), self._term(term), one_of(place, 0, MOST, "place")
        view = memoryview(into)
        if view.readonly or not view.c_contiguous or view.format not in ("I", "L", "<I", "=I") or view.itemsize != 4 or view.nbytes % 8:
            raise TypeError("contiguous numbers of 32 bits that may be written are wanted, in pairs")
        if not view.nbytes:
            return 0
        room, written, given = view.nbytes // 8, 0, ctypes.c_size_t()
        memory = (ctypes.c_uint32 * (2 * room)).from_buffer(view)
        for first, asked in zip(words.firsts, words.asked):
            left = (ctypes.addressof(memory) + 8 * written, room - written)
            status = library.pefidx_postings(*asked, term, place, *left, given)
            if status != DONE:
                refuse(status)
            _numbers.count_on(memory, 2 * written, 2 * given.value, first)
            written += given.value
            if written == room or asked is words.asked[-1]:
                break
            place = max(0, place - _count(asked, term))
        return written

    def blocks(self, term: SupportsIndex, place: SupportsIndex = 0, room: SupportsIndex = 4096) -> Iterator[Postings]:
        """The postings of a term from a place of its list on, block by block, with at most `room` in each. Places count from 0; from the end
        of the list on there is no block. Arrays of numpy are views of one array of shape (room, 2).

        IndexError: there is no such term, the place is below 0 or above 2^32 - 1, or the room is below 1 or above 2^32 - 1.
        """
        self._open()
        return self._blocks(self._term(term), one_of(place, 0, MOST, "place"), one_of(room, 1, MOST, "room"))

    def _blocks(self, term: int, place: int, room: int) -> Iterator[Postings]:
        while True:
            made = _numbers.empty(2 * room)
            given = self.postings_into(made, term, place)
            pairs = _numbers.first(made, 2 * given)
            if given:
                yield Postings(pairs[0::2], pairs[1::2])
            if given < room or place + given > MOST:
                return
            place += given

    def postings(self, term: SupportsIndex) -> Postings:
        """All postings of a term, as two arrays of their own. IndexError: there is no such term."""
        term, docs, freqs, place, room = self._term(term), [], [], 0, 256
        while place <= MOST:
            made = _numbers.empty(2 * room)
            given = self.postings_into(made, term, place)
            pairs = _numbers.first(made, 2 * given)
            docs.append(pairs[0::2])
            freqs.append(pairs[1::2])
            if given < room:
                break
            place, room = place + given, min(4 * room, 65536)
        return Postings(_numbers.joined(docs), _numbers.joined(freqs))

    def _terms(self, terms: Lent) -> Numbers:
        try:
            return _numbers.numbers(terms)
        except _numbers.NotOfRange as wrong:
            self._no_term(wrong.value)

    def _refuse(self, status: int, terms: Numbers) -> NoReturn:
        """Raises what a call refused, by these terms."""
        if status == NO_TERM:
            self._no_term(next(int(term) for term in terms if term >= self.terms))
        if status == TOO_MANY_TERMS:
            raise ValueError(f"{len(terms)} terms are asked together, and at most {_MOST_TERMS:,} may be")
        refuse(status)

    def _matches(self, call: Any, terms: Lent, most: Any) -> Numbers:
        """What a call finds in all files, with room for `most` of the lengths of the lists."""
        words, numbers = self._open(), self._terms(terms)
        memory, found = held(numbers), []
        for first, end, asked in zip(words.firsts, words.firsts[1:], words.asked):
            room = min(most(_counts(asked, numbers[:_MOST_TERMS]) or [0]), end - first)
            docs = self._matches_in(asked, call, numbers, memory, room)
            found.append(_numbers.counted_on(docs, first))
        return found[0] if len(found) == 1 else _numbers.joined(found)

    def _matches_in(
        self, asked: tuple[int, ...], call: Any, terms: Numbers, memory: Held, room: int
    ) -> Numbers:
        """What a call finds in one file."""
        found, of = ctypes.c_size_t(), (*asked, memory.address, memory.length)
        while True:
            docs = _numbers.empty(room)
            status = call(*of, held(docs).address, room, found)
            if status == DONE:
                return _numbers.first(docs, found.value)
            if status != ROOM:
                self._refuse(status, terms)
            room = found.value

    def and_(self, terms: Lent) -> Numbers:
        """The documents that have all the terms, rising; none where there is no term. A term may stand more than once.

        IndexError: there is no such term. ValueError: there are more than 1,024 terms.
        """
        return self._matches(library.pefidx_and, terms, min)

    def or_(self, terms: Lent) -> Numbers:
        """The documents that have at least one of the terms, rising, each once.

        IndexError: there is no such term. ValueError: there are more than 1,024 terms.
        """
        return self._matches(library.pefidx_or, terms, sum)

    def top(self, k: SupportsIndex, weights: Mapping[int, int], plan: str = _BEST_PLAN) -> list[tuple[int, int]]:
        """The best k of the documents that have at least one of the terms, as (document, score), by score falling and then by document rising.

        `weights` has the terms, each with a weight of at least 1; the score of a document is the sum of weight times frequency over its terms.

        IndexError: there is no such term, or k is below 0 or above 2^32 - 1. ValueError: there is no such plan, there are more than 1,024
        terms, a weight is below 1, or the weights sum to 2^26 or more.
        """
        if not isinstance(weights, abc.Mapping):
            raise TypeError(f"each term has its weight in a mapping, as {{0: 1}}, not in a {type(weights).__name__}")
        number = _plan(plan)
        words, k, found = self._open(), one_of(k, 0, MOST, "k"), ctypes.c_size_t()
        numbers = self._terms(list(weights))
        terms, values = held(numbers), held(_weights(weights))
        postings = sum(sum(_counts(asked, numbers[:_MOST_TERMS])) for asked in words.asked)
        room = min(k, self.documents, postings)
        best = (Scored * max(1, room))()
        weighted = (terms.address, terms.length, values.address, values.length)
        lent = (*weighted, k, ctypes.addressof(best), room, found)
        status = words.ask("top", number == PLANS["intervals"], number, *lent)
        if status == BAD_WEIGHTS:
            _refuse_weights(weights)
        if status != DONE:
            self._refuse(status, numbers)
        return [(best[at].doc, best[at].score) for at in range(found.value)]

    def search(self, lines: str | bytes | Iterable[str | bytes], plan: str = _BEST_PLAN) -> Iterator[str]:
        """The replies to query lines, as `pefidx query` writes them (docs/QUERIES.md): one for each line, in order, as it is asked for.

        `lines` is a text, which is cut at its newlines, or lines one by one, as of an open file, each with its newline or without. A line that
        breaks a rule gets its reply, `bad ..`, and raises nothing. A file of lines is best opened as bytes: a carriage return is no newline.

        ValueError: there is no such plan, or a newline stands within a line.
        """
        number = _plan(plan)
        self._open()
        return (self._reply(line, number) for line in _lines.cut(lines))

    def reply(self, line: str | bytes, plan: str = _BEST_PLAN) -> str:
        """The reply to one query line, with its newline or without, as `pefidx query` writes it, without its newline.

        A line that breaks a rule gets its reply, `bad ..`, and raises nothing.

        ValueError: there is no such plan, or a newline stands within the line.
        """
        return self._reply(_lines.one(line), _plan(plan))

    def _reply(self, line: bytes, plan: int) -> str:
        words, written = self._open(), ctypes.c_size_t()
        # That of several files has no more bytes than those of each together, or than K takes.
        room = min(_lines.most_of_top(line), sum(_room(asked, line) for asked in words.asked))
        text = ctypes.create_string_buffer(room)
        wants_maxima = plan == PLANS["intervals"] and line.lstrip(b" ").startswith(b"top ")
        status = words.ask("reply", wants_maxima, plan, line, len(line), text, room, written)
        if status != DONE:
            refuse(status)
        return ctypes.string_at(text, written.value - 1).decode()


def _room(asked: tuple[int, ...], line: bytes) -> int:
    """How many bytes the reply to a line takes at most in one file."""
    most = ctypes.c_size_t()
    status = library.pefidx_room(*asked, line, len(line), most)
    return most.value if status == DONE else refuse(status)


def _count(asked: tuple[int, ...], term: int) -> int:
    """How many postings a term has in one file."""
    postings = ctypes.c_uint32()
    status = library.pefidx_count(*asked, term, postings)
    return postings.value if status == DONE else refuse(status)


def _counts(asked: tuple[int, ...], terms: Iterable[SupportsIndex]) -> list[int]:
    """How many postings each of these terms has in one file, as far as they are there."""
    count = ctypes.c_uint32()
    told = (library.pefidx_count(*asked, int(term), count) == DONE for term in terms)
    return [count.value for is_there in told if is_there]


def _plan(name: str) -> int:
    if name in PLANS:
        return PLANS[name]
    raise ValueError(f"there is no plan {name!r}: {', '.join(map(repr, PLANS))}")


def _weights(weights: Mapping[int, int]) -> Numbers:
    try:
        return _numbers.numbers(weights.values())
    except _numbers.NotOfRange:
        _refuse_weights(weights)


def _refuse_weights(weights: Mapping[int, int]) -> NoReturn:
    """Raises what is wrong with weights."""
    for term, weight in weights.items():
        if not 1 <= weight <= _MOST_WEIGHT:
            raise ValueError(f"weight {weight} of term {term} is not in the range from 1 to {_MOST_WEIGHT}")
    raise ValueError(f"the weights sum to {sum(weights.values())}, and may to {_MOST_WEIGHT}")
