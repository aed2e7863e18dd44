"""Query lines as bytes."""

from __future__ import annotations

import sys
from typing import Iterable, Iterator


def cut(lines: str | bytes | Iterable[str | bytes]) -> Iterator[bytes]:
    """Lines without their newlines."""
    if isinstance(lines, (str, bytes)):
        parts = _bytes(lines).split(b"\n")
        yield from parts if parts[-1] else parts[:-1]
        return
    for line in lines:
        yield one(line)


def one(line: str | bytes) -> bytes:
    """A line without its newline."""
    text = _bytes(line)
    text = text[:-1] if text.endswith(b"\n") else text
    if b"\n" in text:
        raise ValueError("a newline stands within a line")
    return text


def _bytes(text: str | bytes) -> bytes:
    if isinstance(text, bytes):
        return text
    if not isinstance(text, str):
        raise TypeError(f"a line is str or bytes, not {type(text).__name__}")
    return text.encode("utf-8", "surrogatepass")


def most_of_top(line: bytes) -> int:
    """How many bytes the reply takes at most by K, where the line is one of `top`."""
    verb, k = (line.split(None, 2) + [b"", b""])[:2]
    if verb != b"top" or not k.isdigit():
        return sys.maxsize
    return 11 + 30 * int(k.lstrip(b"0")[:10] or b"0")
