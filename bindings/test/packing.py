#!/usr/bin/env python3
"""Holds `pefidx.pack` against the program: packing.py PROGRAM INDEX.

The collection of the index is exported and packed by both, and so are drawn ones and what comes of
these by a file that is cut at each byte, a number that is another one, and bytes that follow. Each
file is to be the same, and each refusal to tell the same fault.
"""
import array
import os
import pickle
import random
import shlex
import shutil
import subprocess
import sys
import tempfile

import pefidx

ENDINGS = ("docs", "freqs", "sizes")
OTHERS = (0, 1, 2, 3, 7, 2**31, 2**32 - 1)


def read(path):
    with open(path, "rb") as file:
        return file.read()


def make(base, files):
    for ending, held in zip(ENDINGS, files):
        with open(f"{base}.{ending}", "wb") as file:
            file.write(held)


def sequence(numbers):
    return array.array("I", [len(numbers), *numbers]).tobytes()


def drawn(seed):
    """The bytes of the files of a small collection."""
    draw = random.Random(seed)
    documents = draw.randrange(1, 9)
    docs, freqs = [sequence([documents])], []
    for _ in range(draw.randrange(1, 5)):
        of = sorted(draw.sample(range(documents), draw.randrange(documents + 1)))
        docs.append(sequence(of))
        freqs.append(sequence([draw.choice([1, 2, 5, 2**32 - 1]) for _ in of]))
    sizes = sequence([draw.randrange(2**32) for _ in range(documents)])
    return [b"".join(docs), b"".join(freqs), sizes]


def damaged(files):
    """The same with one file that is another one."""
    for place, held in enumerate(files):
        others = [held[:length] for length in range(len(held))]
        others += [held + bytes(1), held + bytes(4), held + held]
        for at in range(0, len(held), 4):
            for number in OTHERS:
                others.append(held[:at] + number.to_bytes(4, "little") + held[at + 4 :])
        for other in others:
            yield [*files[:place], other, *files[place + 1 :]]


def agree(program, base):
    """Packs a collection by both; whether it is one."""
    with open("theirs", "wb") as file:
        file.write(b"old")
    shutil.copy("theirs", "ours")
    ran = subprocess.run([*program, "pack", base, "theirs"], stderr=subprocess.PIPE)
    try:
        pefidx.pack(base, "ours")
        assert ran.returncode == 0, (base, ran.stderr)
    except pefidx.BrokenCollection as broken:
        told = f"{base}.{broken.file}: {ran.stderr.decode().rstrip()}"
        assert str(broken) == told, (str(broken), told)
        again = pickle.loads(pickle.dumps(broken))
        assert (type(again), vars(again)) == (pefidx.BrokenCollection, vars(broken))
    assert read("ours") == read("theirs")
    assert not [name for name in os.listdir() if name.startswith(".pefidx")]
    return ran.returncode == 0


def refused(base, path, kind):
    before = sorted(os.listdir())
    try:
        pefidx.pack(base, path)
    except kind:
        assert sorted(os.listdir()) == before
        return
    raise AssertionError(f"no {kind.__name__}")


def files_stay(files):
    """What cannot be packed, or written."""
    make("x", files)
    refused("x", "no/such/folder", FileNotFoundError)
    refused("x", ".", OSError)
    refused("x", "x.docs", shutil.SameFileError)
    os.symlink("x.sizes", "link")
    refused("x", "link", shutil.SameFileError)
    for ending in ENDINGS:
        os.rename(f"x.{ending}", "away")
        refused("x", "new", FileNotFoundError)
        os.mkdir(f"x.{ending}")
        refused("x", "new", IsADirectoryError)
        os.rmdir(f"x.{ending}")
        os.rename("away", f"x.{ending}")
    assert [read(f"x.{ending}") for ending in ENDINGS] == files and not os.path.exists("new")
    pefidx.pack(b"x", b"new")
    assert pefidx.Index("new").documents == len(files[2]) // 4 - 1


def main():
    program, index = shlex.split(sys.argv[1]), os.path.abspath(sys.argv[2])
    program[0] = shutil.which(program[0]) or program[0]
    program[0] = os.path.abspath(program[0])
    with tempfile.TemporaryDirectory() as folder:
        os.chdir(folder)
        subprocess.run([*program, "export", index, "whole"], check=True)
        assert agree(program, "whole")
        tries, packed = 0, 0
        for seed in range(3):
            files = drawn(seed)
            for each in [files, *damaged(files)]:
                make("part", each)
                tries, packed = tries + 1, packed + agree(program, "part")
        os.mkdir("rest")
        os.chdir("rest")
        files_stay(drawn(0))
        os.chdir("/")
    assert 0 < packed < tries
    print(
        f"pack gives the file of pefidx pack, of the whole collection and of {packed} small ones, "
        f"and tells its fault of {tries - packed}"
    )


main()
