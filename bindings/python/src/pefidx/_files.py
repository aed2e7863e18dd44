"""A file that is written as `pefidx build` writes its index (docs/COMMANDS.md, "How files are replaced")."""

from __future__ import annotations

import contextlib
import errno
import os
import shutil
import stat
import tempfile
from typing import IO, Iterator

_MOST_TEMPORARIES = 1000
_MOST_LINKS = 40


@contextlib.contextmanager
def written(name: str) -> Iterator[IO[bytes]]:
    """A new file, open to be written and read. What it holds at the end takes the place of the file of this name, or goes to the device or the
    pipe of this name; where what is done with it fails, no file changes."""
    found = _found(name)
    if found is not None and not stat.S_ISREG(found.st_mode):
        with tempfile.TemporaryFile() as file:
            yield file
            file.seek(0)
            with open(name, "wb") as device:
                shutil.copyfileobj(file, device)
        return
    target = _behind_links(name)
    mode = 0o666 if found is None else _mode_of(target, found)
    temporary, handle = _temporary(target, mode)
    try:
        with os.fdopen(handle, "w+b") as file:
            if found is not None:
                _keep(temporary, handle, found)
            yield file
            file.flush()
            os.fsync(handle)
        os.replace(temporary, target)
    except BaseException:
        with contextlib.suppress(FileNotFoundError):
            os.unlink(temporary)
        raise
    _sync_folder(target)


def _found(name: str) -> os.stat_result | None:
    try:
        return os.stat(name)
    except FileNotFoundError:
        return None


def _behind_links(name: str) -> str:
    """The name behind all symbolic links that this one leads through, also where there is no file."""
    for _ in range(_MOST_LINKS):
        if not os.path.islink(name):
            return name
        name = os.path.join(os.path.dirname(name), os.readlink(name))
    raise OSError(errno.ELOOP, os.strerror(errno.ELOOP), name)


def _mode_of(target: str, found: os.stat_result) -> int:
    """The permissions of the file that is replaced, which has to be the one that was found, and one that may be written."""
    handle = os.open(target, os.O_WRONLY | os.O_CLOEXEC)
    try:
        now = os.fstat(handle)
    finally:
        os.close(handle)
    if (now.st_dev, now.st_ino) != (found.st_dev, found.st_ino):
        raise FileNotFoundError(errno.ENOENT, "the file was replaced meanwhile", target)
    return found.st_mode & 0o777


def _temporary(target: str, mode: int) -> tuple[str, int]:
    """A new file beside the target, under the first name that is free."""
    folder, own = os.path.split(target)
    for number in range(_MOST_TEMPORARIES):
        name = f".pefidx-{number}"
        if name != own:
            with contextlib.suppress(FileExistsError):
                path = os.path.join(folder, name)
                return path, os.open(path, os.O_RDWR | os.O_CREAT | os.O_EXCL | os.O_CLOEXEC, mode)
    raise FileExistsError(errno.EEXIST, "a thousand files .pefidx-N are there", folder or ".")


def _keep(temporary: str, handle: int, found: os.stat_result) -> None:
    """Gives the new file the permissions of the old one, and its group and its owner where the system lets them be given."""
    with contextlib.suppress(OSError):
        os.chown(temporary, -1, found.st_gid, follow_symlinks=False)
    with contextlib.suppress(OSError):
        os.chown(temporary, found.st_uid, -1, follow_symlinks=False)
    os.fchmod(handle, found.st_mode & 0o777)


def _sync_folder(target: str) -> None:
    """Makes the name durable. It holds a whole file, the old or the new one, whether this succeeds or not."""
    with contextlib.suppress(OSError):
        handle = os.open(os.path.dirname(target) or ".", os.O_RDONLY | os.O_CLOEXEC)
        try:
            os.fsync(handle)
        finally:
            os.close(handle)
