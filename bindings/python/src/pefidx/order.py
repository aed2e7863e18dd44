"""An order of documents as text, to the map file of `pefidx remap`.

    python -m pefidx order TEXT MAP [--documents BASE.documents]

TEXT has, a line each, either two columns, a document and its new number, as PISA's `reorder-docids --from-mapping` takes them, or one column:
the documents in their new order. Documents are numbers from 0, or with `--documents` names of that file, where a document's place is its
number. MAP is the number of documents and behind it the new number of each, numbers of 32 bits.
"""

from __future__ import annotations

import argparse
import array
import sys
from typing import Callable

from ._collection import BadFile, _bytes, names
from ._files import written

_NONE = 2**32 - 1


def _numbered(path: str | None) -> tuple[Callable[[str], int], int | None]:
    """What gives the number of a document as it is written, and how many there are, if that is known."""
    if path is None:
        return int, None
    places: dict[str, int] = {}
    for place, name in enumerate(names(path)):
        if places.setdefault(name, place) != place:
            raise BadFile(path, f"line {place + 1}", f"{name!r} stands twice")
    return places.__getitem__, len(places)


def new_numbers(path: str, documents: str | None = None) -> "array.array[int]":
    """The new number of each document, of a text in either form."""
    number_of, count = _numbered(documents)
    lines = [line.split() for line in names(path)]
    count = len(lines) if count is None else count
    if len(lines) != count:
        raise BadFile(path, "its end", f"{len(lines)} lines for {count} documents")
    columns = len(lines[0]) if lines else 1
    new = array.array("I", [_NONE]) * count
    taken = bytearray(count)
    for place, line in enumerate(lines):
        where = f"line {place + 1}"
        if len(line) != columns or columns not in (1, 2):
            raise BadFile(path, where, "one column is wanted, or two, and in each line as many")
        try:
            doc, to = number_of(line[0]), int(line[1]) if columns == 2 else place
        except (KeyError, ValueError):
            raise BadFile(path, where, f"{' '.join(line)!r} is no document, or no number") from None
        if not (0 <= doc < count and 0 <= to < count):
            raise BadFile(path, where, f"a number is not below {count}")
        if new[doc] != _NONE or taken[to]:
            raise BadFile(path, where, "the document, or its new number, stands twice")
        new[doc], taken[to] = to, 1
    return new


def write_map(new: "array.array[int]", path: str) -> None:
    """Writes the map file of `pefidx remap`."""
    with written(path) as file:
        file.write(_bytes([len(new)]))
        file.write(_bytes(new))


def main(arguments: list[str]) -> int:
    parser = argparse.ArgumentParser(prog="python -m pefidx order", description="An order of documents as text, to the map file of `pefidx remap`.")
    parser.add_argument("text")
    parser.add_argument("map")
    parser.add_argument("--documents", metavar="FILE", help="the names of the documents, a line each, where TEXT has names")
    asked = parser.parse_args(arguments)
    new = new_numbers(asked.text, asked.documents)
    write_map(new, asked.map)
    print(f"documents {len(new)}", file=sys.stderr)
    return 0
