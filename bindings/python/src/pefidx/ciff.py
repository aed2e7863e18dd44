"""The Common Index File Format (CIFF), which Anserini, Terrier, PISA and others write and read, to a PISA collection and back.

    python -m pefidx ciff to-pisa FILE BASE
    python -m pefidx ciff from-pisa BASE FILE [--description TEXT]

`to-pisa` writes BASE.docs, BASE.freqs and BASE.sizes, and beside them BASE.terms and BASE.documents, a name a line; `from-pisa` takes the
names of these two, or the numbers where a file is not there. Lists are read and written one by one. A CIFF file is protobuf messages, each
behind its length: a header, then for each term a list, whose documents are told by their differences, then for each document a record with its
name and its length.
"""

from __future__ import annotations

import argparse
import array
import os
import struct
import sys
from typing import IO, Iterator

from ._collection import MOST, BadFile, Collection, named, names, new_names, put_name
from ._files import written

_VERSION = 1
#: the greatest number of a field of 32 bits with a sign
_MOST_SIGNED = 2**31 - 1
_VARINT, _FIXED64, _BYTES, _FIXED32 = 0, 1, 2, 5


class _Reader:
    """The messages of a file, each behind its length as a varint."""

    def __init__(self, path: str, file: IO[bytes]) -> None:
        self._path, self._file = path, file
        self.count = 0

    def bad(self, why: str) -> BadFile:
        return BadFile(self._path, f"message {self.count}", why)

    def message(self) -> bytes | None:
        """The next message, or none at the end."""
        length = shift = 0
        while True:
            byte = self._file.read(1)
            if not byte and not shift:
                return None
            if not byte or shift > 35:
                raise self.bad("its length is cut or too long")
            length |= (byte[0] & 127) << shift
            shift += 7
            if byte[0] < 128:
                break
        data = self._file.read(length)
        if len(data) < length:
            raise self.bad("the file ends before it does")
        self.count += 1
        return data

    def needed(self, what: str) -> bytes:
        data = self.message()
        if data is None:
            raise self.bad(f"{what} is not there")
        return data

    def fields(self, data: bytes) -> Iterator[tuple[int, "int | bytes"]]:
        """The fields of a message: a number with its value."""
        at = 0
        try:
            while at < len(data):
                tag, at = _varint(data, at)
                kind = tag & 7
                if kind == _VARINT:
                    value, at = _varint(data, at)
                    yield tag >> 3, value
                elif kind == _BYTES:
                    length, at = _varint(data, at)
                    if at + length > len(data):
                        raise IndexError
                    yield tag >> 3, data[at : at + length]
                    at += length
                elif kind in (_FIXED64, _FIXED32):
                    length = 8 if kind == _FIXED64 else 4
                    if at + length > len(data):
                        raise IndexError
                    yield tag >> 3, data[at : at + length]
                    at += length
                else:
                    raise self.bad(f"a field of kind {kind}")
        except IndexError:
            raise self.bad("a field is cut") from None


def _varint(data: bytes, at: int) -> tuple[int, int]:
    byte = data[at]
    if byte < 128:
        return byte, at + 1
    value, shift = byte & 127, 7
    while True:
        at += 1
        byte = data[at]
        value |= (byte & 127) << shift
        if byte < 128:
            return value, at + 1
        shift += 7
        if shift > 63:
            raise IndexError


def _put(value: int) -> bytes:
    out = bytearray()
    while value > 127:
        out.append(value & 127 | 128)
        value >>= 7
    out.append(value)
    return bytes(out)


def _field(number: int, value: "int | bytes | str") -> bytes:
    if isinstance(value, int):
        return _put(number << 3) + _put(value) if value else b""
    data = value.encode() if isinstance(value, str) else value
    return _put(number << 3 | _BYTES) + _put(len(data)) + data if data else b""


def _whole(reader: _Reader, value: "int | bytes", what: str, most: int = MOST) -> int:
    if not isinstance(value, int) or value > most:
        raise reader.bad(f"{what} is no number up to {most}")
    return value


def _text(reader: _Reader, value: "int | bytes", what: str) -> str:
    try:
        assert isinstance(value, bytes)
        return value.decode()
    except (AssertionError, UnicodeDecodeError):
        raise reader.bad(f"{what} is no text") from None


def _posting(reader: _Reader, data: "int | bytes") -> tuple[int, int]:
    if not isinstance(data, bytes):
        raise reader.bad("a posting is a number")
    gap = freq = 0
    for number, value in reader.fields(data):
        if number == 1:
            gap = _whole(reader, value, "a document")
        elif number == 2:
            freq = _whole(reader, value, "a frequency")
    return gap, freq


def _list(reader: _Reader, data: bytes, documents: int) -> tuple[str, "array.array[int]", "array.array[int]"]:
    """The term, the documents and the frequencies of a list."""
    term, stated = "", -1
    docs, freqs = array.array("I"), array.array("I")
    doc = -1
    for number, value in reader.fields(data):
        if number == 4:
            gap, freq = _posting(reader, value)
            if freq == 0 or (gap == 0 and docs):
                raise reader.bad(f"posting {len(docs)} has no frequency, or the document of the one before")
            doc = doc + gap if docs else gap
            if doc >= documents:
                raise reader.bad(f"posting {len(docs)} is of document {doc}, and there are {documents}")
            docs.append(doc)
            freqs.append(freq)
        elif number == 1:
            term = _text(reader, value, "its term")
        elif number == 2:
            stated = _whole(reader, value, "its count")
    if stated not in (-1, len(docs)):
        raise reader.bad(f"{len(docs)} postings, and {stated} are stated")
    return term, docs, freqs


def _document(reader: _Reader, data: bytes) -> tuple[int, str, int]:
    doc, name, size = 0, "", 0
    for number, value in reader.fields(data):
        if number == 1:
            doc = _whole(reader, value, "the document")
        elif number == 2:
            name = _text(reader, value, "the name")
        elif number == 3:
            size = _whole(reader, value, "the length")
    return doc, name, size


def to_pisa(path: str, base: str) -> tuple[int, int, int]:
    """Writes the collection of a CIFF file; gives how many documents, terms and postings it has."""
    with open(path, "rb") as file:
        reader = _Reader(path, file)
        header = dict(reader.fields(reader.needed("the header")))
        if header.get(1, 0) != _VERSION:
            raise reader.bad(f"version {header.get(1, 0)!r}, and only {_VERSION} is known")
        lists = _whole(reader, header.get(2, 0), "the number of lists")
        documents = _whole(reader, header.get(3, 0), "the number of documents")
        with named(base, documents) as writer, new_names(base + ".terms") as terms, new_names(base + ".documents") as found:
            for _ in range(lists):
                term, docs, freqs = _list(reader, reader.needed("a list"), documents)
                put_name(terms, term, path, f"message {reader.count - 1}")
                writer.add(docs, freqs)
            sizes = array.array("I", bytes(4 * documents))
            told: list[str | None] = [None] * documents
            for _ in range(documents):
                doc, name, size = _document(reader, reader.needed("a document"))
                if doc >= documents or told[doc] is not None:
                    raise reader.bad(f"document {doc} is told twice, or there are only {documents}")
                sizes[doc], told[doc] = size, name
            if reader.message() is not None:
                raise reader.bad("more than the header states")
            for doc, its_name in enumerate(told):
                put_name(found, its_name or "", path, f"document {doc}")
            writer.end(sizes)
            return documents, writer.terms, writer.postings


def _names_or_numbers(path: str, count: int, what: str) -> Iterator[str]:
    if not os.path.exists(path):
        yield from map(str, range(count))
        return
    told = 0
    for name in names(path):
        told += 1
        yield name
    if told != count:
        raise BadFile(path, "its end", f"{told} names for {count} {what}")


def _delimited(data: bytes) -> bytes:
    return _put(len(data)) + data


def _signed(value: int, path: str, where: str) -> int:
    if value > _MOST_SIGNED:
        raise BadFile(path, where, f"{value} is more than a CIFF file can hold")
    return value


def _list_bytes(term: str, docs: "array.array[int]", freqs: "array.array[int]") -> bytes:
    parts = [_field(1, term), _field(2, len(docs)), _field(3, sum(freqs))]
    last = 0
    for doc, freq in zip(docs, freqs):
        posting = _field(1, doc - last) + _field(2, freq)
        parts.append(b"\x22" + _put(len(posting)) + posting)
        last = doc
    return b"".join(parts)


def from_pisa(base: str, path: str, description: str = "") -> tuple[int, int, int]:
    """Writes a collection as a CIFF file; gives how many documents, terms and postings it has."""
    collection = Collection(base)
    sizes = collection.sizes()
    lists = postings = 0
    for docs, freqs in collection.lists():
        _signed(max(freqs, default=0), base + ".freqs", f"term {lists}")
        lists += 1
        postings += len(docs)
    _signed(max(len(sizes), max(sizes, default=0)), base + ".sizes", "its numbers")
    average = sum(sizes) / len(sizes) if sizes else 0.0
    with written(path) as file:
        header = b"".join(_field(number, value) for number, value in enumerate((_VERSION, lists, len(sizes), lists, len(sizes), sum(sizes)), 1))
        header += _put(7 << 3 | _FIXED64) + struct.pack("<d", average) + _field(8, description)
        file.write(_delimited(header))
        terms = _names_or_numbers(base + ".terms", lists, "terms")
        for term, (docs, freqs) in zip(terms, collection.lists()):
            file.write(_delimited(_list_bytes(term, docs, freqs)))
        next(terms, None)
        for doc, name in enumerate(_names_or_numbers(base + ".documents", len(sizes), "documents")):
            if doc < len(sizes):
                file.write(_delimited(_field(1, doc) + _field(2, name) + _field(3, sizes[doc])))
    return len(sizes), lists, postings


def main(arguments: list[str]) -> int:
    parser = argparse.ArgumentParser(prog="python -m pefidx ciff", description="A CIFF file to a PISA collection, or back.")
    ways = parser.add_subparsers(dest="way", required=True)
    to = ways.add_parser("to-pisa", help="writes BASE.docs, BASE.freqs, BASE.sizes, BASE.terms and BASE.documents")
    to.add_argument("file")
    to.add_argument("base")
    back = ways.add_parser("from-pisa", help="writes the CIFF file of a collection, with the names of BASE.terms and BASE.documents")
    back.add_argument("base")
    back.add_argument("file")
    back.add_argument("--description", default="", help="what the header says of the file")
    asked = parser.parse_args(arguments)
    if asked.way == "to-pisa":
        counts = to_pisa(asked.file, asked.base)
    else:
        counts = from_pisa(asked.base, asked.file, asked.description)
    print("documents {} terms {} postings {}".format(*counts), file=sys.stderr)
    return 0
