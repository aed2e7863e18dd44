"""Queries with their names to a run file as `trec_eval` reads it.

    python -m pefidx run INDEX QUERIES [-k 1000] [--terms BASE.terms | --numbers] [--documents BASE.documents] [--scale S] [--plan PLAN] [--tag TAG] [--lines] [--program PEFIDX]

QUERIES has a line for each query: its name, then a colon or a tab, then its terms with spaces between them, as PISA takes them; a term may carry
a weight, `term*1.5` or, as sparse models write it, `term:1.5`. A query may also be a JSON object, `{"id": .., "vector": {term: weight, ..}}`.
Terms are looked up in the lexicon, a name a line; with `--numbers` they are line numbers from 0. A term that is not there is left out. Weights
are S times what is written (1 where nothing is said, 100 is usual for those of sparse models), rounded, and a term that is named twice has the
sum; one whose weight is 0 is left out. A line of the run is `QUERY Q0 DOCUMENT RANK SCORE TAG`, ranks from 1; documents are named by their file,
or else by their numbers. Equal scores stand by the document's number, and `trec_eval`, which breaks ties by name, may order them otherwise.

It asks the shared library, or, where that is not there or `--program` names one, the program `pefidx`. With `--lines` it asks nothing and prints
the query line of each query, for `pefidx query`.
"""

from __future__ import annotations

import argparse
import json
import re
import sys
from contextlib import closing
from typing import Callable, Iterator

from ._asking import PLANS, Asked, opened, query_line
from ._collection import BadFile, names
from ._errors import Error

_NAMED = re.compile(r"^\s*([^\s:]+)(?:\s*:\s?|\t)(.*)$", re.S)
_WEIGHTED = re.compile(r"^(.+?)(?:[*:]([0-9]+(?:\.[0-9]*)?(?:[eE][-+]?[0-9]+)?|\.[0-9]+))?$", re.S)


def queries(path: str) -> Iterator[tuple[str, list[tuple[str, float]]]]:
    """Each query of a file: its name, and its terms with their weights."""
    for place, line in enumerate(names(path), 1):
        if not line.strip():
            continue
        if line.lstrip().startswith("{"):
            yield _object(path, place, line)
            continue
        found = _NAMED.match(line)
        if found is None:
            raise BadFile(path, f"line {place}", "no name before a colon or a tab")
        terms = []
        for word in found.group(2).split():
            parts = _WEIGHTED.match(word)
            assert parts is not None
            terms.append((parts.group(1), float(parts.group(2) or 1)))
        yield found.group(1), terms


def _object(path: str, place: int, line: str) -> tuple[str, list[tuple[str, float]]]:
    try:
        told = json.loads(line)
        return str(told["id"]), [(term, float(weight)) for term, weight in told["vector"].items()]
    except (ValueError, KeyError, TypeError, AttributeError):
        raise BadFile(path, f"line {place}", 'no object with "id" and a "vector" of terms and weights') from None


def lexicon(path: str) -> Callable[[str], "int | None"]:
    """What gives the number of a term."""
    return {name: place for place, name in enumerate(names(path))}.get


def _number(word: str) -> "int | None":
    return int(word) if word.isascii() and word.isdigit() else None


def weights_of(terms: list[tuple[str, float]], number_of: Callable[[str], "int | None"], scale: float, count: int) -> dict[int, int]:
    """The weights of a query, by the number of each term that is there."""
    sums: dict[int, float] = {}
    for word, weight in terms:
        number = number_of(word)
        if number is not None and number < count:
            sums[number] = sums.get(number, 0.0) + weight
    rounded = {number: round(scale * weight) for number, weight in sums.items()}
    return {number: weight for number, weight in rounded.items() if weight > 0}


def lines(index: Asked, asked: "argparse.Namespace") -> Iterator[str]:
    """The lines of the run, or the query lines."""
    number_of = _number if asked.numbers else lexicon(asked.terms)
    found = list(names(asked.documents)) if asked.documents else None
    if found is not None and len(found) != index.documents:
        raise BadFile(asked.documents, "its end", f"{len(found)} names for {index.documents} documents")
    for name, terms in queries(asked.queries):
        weights = weights_of(terms, number_of, asked.scale, index.terms)
        if asked.lines:
            yield query_line(asked.k, weights)
            continue
        try:
            best = index.top(asked.k, weights, asked.plan) if weights else []
        except (ValueError, IndexError) as error:
            raise error if isinstance(error, Error) else BadFile(asked.queries, f"query {name}", str(error)) from None
        for rank, (doc, score) in enumerate(best, 1):
            yield f"{name} Q0 {found[doc] if found else doc} {rank} {score} {asked.tag}"


def main(arguments: list[str]) -> int:
    parser = argparse.ArgumentParser(prog="python -m pefidx run", description="Queries with their names to a run file as trec_eval reads it.")
    parser.add_argument("index")
    parser.add_argument("queries")
    parser.add_argument("-k", type=int, default=1000, help="how many documents of each query, 1000 where nothing is said")
    which = parser.add_mutually_exclusive_group(required=True)
    which.add_argument("--terms", metavar="FILE", help="the lexicon: a term a line, in the order of their numbers")
    which.add_argument("--numbers", action="store_true", help="the terms of the queries are numbers")
    parser.add_argument("--documents", metavar="FILE", help="the names of the documents, a line each")
    parser.add_argument("--scale", type=float, default=1.0, help="what weights are multiplied by before they are rounded")
    parser.add_argument("--plan", choices=list(PLANS), default="intervals")
    parser.add_argument("--tag", default="pefidx")
    parser.add_argument("--lines", action="store_true", help="print query lines for `pefidx query`, and ask nothing")
    parser.add_argument("--program", metavar="PEFIDX", help="ask this program, and not the shared library")
    asked = parser.parse_args(arguments)
    with closing(opened(asked.index, asked.program)) as index:
        for line in lines(index, asked):
            print(line)
    return 0
