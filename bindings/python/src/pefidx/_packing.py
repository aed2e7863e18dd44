"""The packed file of a collection of three files."""

from __future__ import annotations

import errno
import os
import shutil
import stat
from typing import Any

from . import _files
from ._building import words_into
from ._errors import BrokenCollection
from ._library import DONE, NO_COLLECTION, CollectionFault, library, refuse
from ._words import Bytes, File

#: the endings of the files of a collection, in the order in which they are opened
ENDINGS = ("docs", "freqs", "sizes")
#: where no byte is read
_NOWHERE = 8


def pack(base: str | os.PathLike[str], path: str | os.PathLike[str]) -> None:
    """Writes the packed file of a collection as the file `path`, as `pefidx pack BASE INDEX` does.
    The collection is that of the files BASE.docs, BASE.freqs and BASE.sizes (docs/COLLECTION.md),
    which are mapped read-only, and must stay as they are meanwhile.

    The file is replaced whole, as by `build`: where the collection is refused it holds what it held
    before.

    BrokenCollection: the files are of no collection; it says which rule breaks first, in which
    file, with its term and place. OverflowError: the index would be longer than 2^40 bytes.
    MemoryError: memory was refused. OSError: a file cannot be opened or mapped, or `path` is one of
    the three or cannot be written.
    """
    names = [f"{os.fsdecode(base)}.{ending}" for ending in ENDINGS]
    files = [_mapped(name) for name in names]
    target = os.fsdecode(path)
    for name in names:
        if os.path.exists(target) and os.path.samefile(name, target):
            raise shutil.SameFileError(f"{target} is a file of the collection")
    docs, freqs, sizes = [(file.address, file.size) if file else (_NOWHERE, 0) for file in files]
    room = 16 + freqs[1] // 2 + sizes[1] // 4
    fault = CollectionFault()

    def made(*words: Any) -> Any:
        return library.pefidx_pack(*docs, *freqs, *sizes, *words, fault)

    with _files.written(target) as new:
        status = words_into(new, room, made)
        if status == NO_COLLECTION:
            name, ending = names[fault.file], ENDINGS[fault.file]
            raise BrokenCollection(name, ending, fault.rule, fault.term, fault.place)
        if status != DONE:
            refuse(status)


def _mapped(name: str) -> Bytes | None:
    """A map of a file, none where it is empty."""
    with open(name, "rb") as file:
        found = os.fstat(file.fileno())
        if not stat.S_ISREG(found.st_mode):
            raise OSError(errno.ENODEV, os.strerror(errno.ENODEV), name)
        return Bytes(File(file.fileno(), found.st_size, name)) if found.st_size else None
