"""What the scripts of this folder know of a collection that `split` cut into ranges.

Range S of NAME is called NAME.S, with equally many digits for each S. NAME.ranges has a line for each range, in order: a JSON object with
its numbers of documents, postings and terms and the sum of its sizes, under the keys that they have in the line of `inspect`. Beside the
three files of a range stand its index NAME.S.pefindex, and NAME.S.line, the line that `inspect` printed of that index.
"""

import errno
import json
import os
import re
import signal
import subprocess
import sys

ENDS = (".docs", ".freqs", ".sizes")
KEYS = ("documents", "postings", "size_total", "terms")
PROGRAM = os.environ.get("PEFIDX", "pefidx")

# So many indexes `pefidx segments` and `pefidx merge` take.
MOST = 64

# How a script ends that failed: another try does not mend it, the words are no command, another try may mend it.
REFUSED, USAGE, AGAIN = 1, 2, 75

# What the system refuses for good: a file that is not there, no right to it, no room, a read-only or wrong folder, too long a name or file.
FOR_GOOD = {getattr(errno, name) for name in "ENOENT EACCES EPERM ENOSPC EDQUOT EROFS ENOTDIR EISDIR ENAMETOOLONG ELOOP EFBIG".split()}


# Signals that end a script, and the program that it runs.
ENDING = (signal.SIGHUP, signal.SIGINT, signal.SIGTERM)


class Failed(Exception):
    """Ends a script with this text. It says whether another try may mend what failed, and how the program ended where it was that."""

    def __init__(self, text, again=False, status=0):
        super().__init__(text)
        self.again, self.status = again, status


class Ended(BaseException):
    """A signal ends the script: the program is ended first, and no part of a file is left."""


class Range:
    """A range: its name, its first document in the whole, and what `split` counted in it."""

    def __init__(self, name, first, cut):
        self.name, self.first, self.cut = name, first, cut
        self.files = [name + end for end in ENDS]
        self.index, self.line, self.side = (name + end for end in (".pefindex", ".line", ".pefblocks"))

    def differs(self, line):
        """Why a line of `inspect` is not of this range, None where it is."""
        wrong = [f"{key} {line.get(key)}, not {self.cut[key]}" for key in KEYS if line.get(key) != self.cut[key]]
        return f"{self.index} is not of this cut: {'; '.join(wrong)}" if wrong else None

    def fault(self):
        """Why the index cannot be used, None where it can: it and its line are there, of this cut, and none of the three files that is there is
        newer. Stamps of a coarse file system may be equal."""
        try:
            index, line = os.stat(self.index), os.stat(self.line)
            with open(self.line, encoding="utf-8") as file:
                told = json.load(file)
            if line.st_mtime_ns < index.st_mtime_ns or 8 * told["words"] != index.st_size:
                return f"{self.line} is not of {self.index}"
            for name in filter(os.path.exists, self.files):
                if os.stat(name).st_mtime_ns > index.st_mtime_ns:
                    return f"{self.index} is older than {name}"
            return self.differs(told)
        except OSError as error:
            return f"{error.filename}: {error.strerror}"
        except (ValueError, KeyError, TypeError):
            return f"{self.line} is no line of inspect"

    def usable(self):
        """This range, where its index can be used."""
        fault = self.fault()
        if fault:
            raise Failed(fault)
        return self


UNDONE = "split has not ended, or was killed; given again, it cuts anew"


def names(name, count):
    """What the ranges are called."""
    digits = len(str(count - 1))
    return [f"{name}.{s:0{digits}}" for s in range(count)]


def read(name):
    """All ranges of a collection."""
    path, ranges, first = name + ".ranges", [], 0
    try:
        with open(path, encoding="utf-8") as file:
            cuts = [json.loads(line) for line in file]
        if cuts and "cutting" in cuts[0]:
            raise Failed(f"{path} is not done: {UNDONE}")
        for called, cut in zip(names(name, len(cuts)), cuts):
            ranges.append(Range(called, first, {key: int(cut[key]) for key in KEYS}))
            first += ranges[-1].cut["documents"]
    except FileNotFoundError:
        raise Failed(f"{path} is not there: {name} was not cut") from None
    except (ValueError, KeyError, TypeError):
        raise Failed(f"{path} is not what split writes") from None
    if not ranges:
        raise Failed(f"{path} is empty: {UNDONE}")
    return ranges


def indexes(name):
    """The indexes of all ranges, where each can be used, and they are not too many to be read as one."""
    parts = read(name)
    if len(parts) > MOST:
        raise Failed(f"{name} has {len(parts)} ranges, and {MOST} at most are read as one; ask and merge take more")
    return [part.usable().index for part in parts]


def one(name, number):
    """A range by its number, with or without its leading zeros."""
    ranges = read(name)
    if not re.fullmatch("0*[0-9]{1,9}", number) or int(number[-9:]) >= len(ranges):
        raise Failed(f"{name} has {len(ranges)} ranges, and none {number}")
    return ranges[int(number[-9:])]


def program(words, mended, feed=None, out=subprocess.PIPE):
    """Runs the program, which reads what `feed` writes, and gives what it prints where that goes to no file. It has to end with 0; of signals,
    and of the statuses that are named, another try may mend the cause."""
    # A signal that comes meanwhile waits until the program can be ended too.
    signal.pthread_sigmask(signal.SIG_BLOCK, ENDING)
    unblock = lambda: signal.pthread_sigmask(signal.SIG_UNBLOCK, ENDING)
    try:
        process = subprocess.Popen([PROGRAM, *words], stdin=subprocess.PIPE, stdout=out, stderr=subprocess.PIPE, preexec_fn=unblock)
    except OSError as error:
        unblock()
        raise Failed(f"no program {PROGRAM}: {error.strerror}", error.errno in (errno.EAGAIN, errno.ENOMEM)) from None
    with process:
        try:
            unblock()
            try:
                with process.stdin as lines:
                    if feed:
                        feed(lines)
            except BrokenPipeError:
                # The program has ended, and says why.
                pass
            printed = process.stdout.read() if process.stdout else b""
            said = process.stderr.read().decode(errors="replace").strip()
        except BaseException:
            process.terminate()
            raise
    status = process.returncode
    if status:
        how = f"ended with {status}" if status > 0 else f"was ended by signal {-status}"
        raise Failed(f"{' '.join(words)}: {how}: {said}", status < 0 or status in mended, status)
    return printed


def part_of(path):
    """What a file is called until it is whole."""
    return f"{path}.part-{os.uname().nodename}-{os.getpid()}"


def room(path, size):
    """Whether a file of so many bytes can be written beside this one: else the error of the system."""
    part = part_of(path)
    try:
        with open(part, "xb") as file:
            os.posix_fallocate(file.fileno(), 0, max(1, size))
    finally:
        if os.path.exists(part):
            os.unlink(part)


def put(path, write):
    """Writes a file, which takes its name once it is whole and on the disk."""
    part = part_of(path)
    try:
        with open(part, "wb") as file:
            write(file)
            file.flush()
            os.fsync(file.fileno())
        os.replace(part, path)
    finally:
        if os.path.exists(part):
            os.unlink(part)


def end(number, _):
    """What a signal that ends a script calls."""
    raise Ended(number)


def main(run, usage, *counts):
    """Runs a script on its words, as many as one of the counts says, and ends it."""
    script, words = os.path.basename(sys.argv[0]), sys.argv[1:]
    if len(words) not in counts or not all(words):
        print(f"usage: {script} {usage}", file=sys.stderr)
        sys.exit(USAGE)
    for number in ENDING:
        if signal.getsignal(number) != signal.SIG_IGN:
            signal.signal(number, end)
    try:
        run(*words)
    except Failed as failed:
        print(f"{script}: {failed}", file=sys.stderr)
        sys.exit(AGAIN if failed.again else REFUSED)
    except OSError as error:
        print(f"{script}: {error}", file=sys.stderr)
        sys.exit(REFUSED if error.errno in FOR_GOOD else AGAIN)
    except Ended as ended:
        signal.signal(ended.args[0], signal.SIG_DFL)
        os.kill(os.getpid(), ended.args[0])
