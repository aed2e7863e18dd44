"""Vectors of a sparse model, a JSON object a line, to a PISA collection with its lexicon.

    python -m pefidx jsonl FILE.. BASE [--scale S]

The form is that which SPLADE and Anserini tools write: `{"id": "d7", "vector": {"term": 1.73, ..}}`; other keys are passed over, and a file that
ends with .gz is unpacked. An impact is S times its weight (100 where nothing is said), rounded to the nearest whole number, a half to the even
one; a term whose impact is 0 is left out. A document's size is the sum of its impacts. Terms are numbered in the order of their bytes, documents
as they come. It writes BASE.docs, BASE.freqs and BASE.sizes, and beside them BASE.terms and BASE.documents, a name a line. Postings are held in
memory, 12 bytes each.
"""

from __future__ import annotations

import argparse
import array
import gzip
import json
import math
import sys
from typing import IO, Iterable, Iterator

from ._collection import MOST, BadFile, named, new_names, put_name


def _opened(path: str) -> IO[bytes]:
    return gzip.open(path, "rb") if path.endswith(".gz") else open(path, "rb")  # type: ignore[return-value]


def vectors(paths: Iterable[str]) -> Iterator[tuple[str, str, str, dict[str, float]]]:
    """Each document of the files: the file, the line, its name and its vector."""
    for path in paths:
        with _opened(path) as file:
            for number, line in enumerate(file, 1):
                if line.isspace():
                    continue
                where = f"line {number}"
                try:
                    told = json.loads(line)
                    name, vector = str(told["id"]), told["vector"]
                    vector.items()
                except (ValueError, KeyError, TypeError, AttributeError):
                    raise BadFile(path, where, 'no object with "id" and a "vector" of terms and weights') from None
                yield path, where, name, vector


def impact(weight: float, scale: float) -> int:
    """A weight as a whole number, 0 for one that is too small to count."""
    scaled = float(weight) * scale
    if not math.isfinite(scaled) or scaled < 0:
        raise ValueError
    return round(scaled)


class _Lists:
    """The lists of all terms, as they grow."""

    def __init__(self) -> None:
        self.docs: dict[str, array.array[int]] = {}
        self.freqs: dict[str, array.array[int]] = {}

    def add(self, term: str, doc: int, freq: int) -> None:
        docs = self.docs.get(term)
        if docs is None:
            docs = self.docs[term] = array.array("I")
            self.freqs[term] = array.array("I")
        docs.append(doc)
        self.freqs[term].append(freq)


def to_pisa(paths: list[str], base: str, scale: float = 100.0) -> tuple[int, int, int]:
    """Writes the collection of these vectors; gives how many documents, terms and postings it has."""
    lists, sizes = _Lists(), array.array("I")
    with new_names(base + ".documents") as documents:
        for path, where, name, vector in vectors(paths):
            size = 0
            for term, weight in vector.items():
                try:
                    freq = impact(weight, scale)
                except (ValueError, TypeError, OverflowError):
                    raise BadFile(path, where, f"the weight of {term!r} is no number from 0 on") from None
                if freq > MOST:
                    raise BadFile(path, where, f"the impact of {term!r} is more than {MOST}")
                if freq:
                    lists.add(term, len(sizes), freq)
                    size += freq
            if size > MOST:
                raise BadFile(path, where, f"its impacts sum to more than {MOST}")
            put_name(documents, name, path, where)
            sizes.append(size)
        with named(base, len(sizes)) as writer, new_names(base + ".terms") as terms:
            for term in sorted(lists.docs, key=str.encode):
                put_name(terms, term, base + ".terms", f"term {writer.terms}")
                writer.add(lists.docs[term], lists.freqs[term])
            writer.end(sizes)
            return len(sizes), writer.terms, writer.postings


def main(arguments: list[str]) -> int:
    parser = argparse.ArgumentParser(prog="python -m pefidx jsonl", description="Vectors of a sparse model, to a PISA collection with its lexicon.")
    parser.add_argument("files", nargs="+", metavar="FILE")
    parser.add_argument("base")
    parser.add_argument("--scale", type=float, default=100.0, help="what weights are multiplied by before they are rounded, 100 where nothing is said")
    asked = parser.parse_args(arguments)
    if not (math.isfinite(asked.scale) and asked.scale > 0):
        parser.error("the scale is a number above 0")
    print("documents {} terms {} postings {}".format(*to_pisa(asked.files, asked.base, asked.scale)), file=sys.stderr)
    return 0
