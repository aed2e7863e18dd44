#!/usr/bin/env python3
"""Tries the modules for formats of the neighbours: ciff, jsonl, order, and run where the library is there.

    neighbours.py [NAME [PROGRAM]]

NAME is a PISA collection, crates/pefidx/data/small where none is given; with the built program `pefidx` `run` is tried by it too. Expected bytes
were worked out by hand.
"""

import io
import contextlib
import os
import pathlib
import random
import struct
import subprocess
import sys
import tempfile

from pefidx import ciff, jsonl, order
from pefidx._collection import BadFile, Collection, named

SMALL = pathlib.Path(__file__).resolve().parents[2] / "crates" / "pefidx" / "data" / "small"
ENDS = (".docs", ".freqs", ".sizes")


def check(held, what):
    if not held:
        sys.exit(f"wrong: {what}")


def numbers(path):
    data = pathlib.Path(path).read_bytes()
    return list(struct.unpack(f"<{len(data) // 4}I", data))


def refused(what, call, *arguments):
    """The refusal of a call that has to be refused; no file of the base `no` is left."""
    try:
        call(*arguments)
    except BadFile as error:
        check(not [name for name in os.listdir() if name.startswith(("no.", ".pefidx"))], f"{what} left a file")
        return str(error)
    sys.exit(f"wrong: {what} was taken")


def same(one, other):
    return all(pathlib.Path(one + end).read_bytes() == pathlib.Path(other + end).read_bytes() for end in ENDS)


# A header of one list, three documents and eleven words in them, the list "t" of documents 0 and 2 with frequencies 1 and 5, and three documents.
HEADER = b"\x08\x01\x10\x01\x18\x03\x20\x01\x28\x03\x30\x0b\x39" + struct.pack("<d", 11 / 3)
LIST = b"\x0a\x01t\x10\x02\x18\x06" + b"\x22\x02\x10\x01" + b"\x22\x04\x08\x02\x10\x05"
DOCUMENTS = [b"\x12\x01a\x18\x04", b"\x08\x01\x12\x01b", b"\x08\x02\x12\x01c\x18\x07"]


def messages(*parts):
    return b"".join(bytes([len(part)]) + part for part in parts)


def try_ciff(name):
    pathlib.Path("f.ciff").write_bytes(messages(HEADER, LIST, *DOCUMENTS))
    check(ciff.to_pisa("f.ciff", "c") == (3, 1, 2), "counts of a CIFF file")
    check(numbers("c.docs") == [1, 3, 2, 0, 2] and numbers("c.freqs") == [2, 1, 5] and numbers("c.sizes") == [3, 4, 0, 7], "a CIFF file as a collection")
    check(pathlib.Path("c.terms").read_text() == "t\n" and pathlib.Path("c.documents").read_text() == "a\nb\nc\n", "names of a CIFF file")
    ciff.from_pisa("c", "g.ciff")
    check(pathlib.Path("g.ciff").read_bytes() == pathlib.Path("f.ciff").read_bytes(), "a collection as a CIFF file")
    whole = pathlib.Path("f.ciff").read_bytes()
    for length in range(len(whole)):
        pathlib.Path("cut.ciff").write_bytes(whole[:length])
        refused(f"a CIFF file cut to {length} bytes", ciff.to_pisa, "cut.ciff", "no")
    for what, parts in {
        "another version": (HEADER.replace(b"\x08\x01", b"\x08\x02", 1), LIST, *DOCUMENTS),
        "a document twice": (HEADER, LIST, DOCUMENTS[0], *DOCUMENTS[:2]),
        "a document too many": (HEADER, LIST, *DOCUMENTS, DOCUMENTS[0]),
        "a posting of document 3": (HEADER, LIST.replace(b"\x08\x02", b"\x08\x03"), *DOCUMENTS),
        "a document twice in a list": (HEADER, LIST.replace(b"\x22\x04\x08\x02", b"\x22\x02"), *DOCUMENTS),
        "another count": (HEADER, LIST.replace(b"\x10\x02\x18", b"\x10\x03\x18"), *DOCUMENTS),
        "no frequency": (HEADER, LIST.replace(b"\x22\x02\x10\x01", b"\x22\x00"), *DOCUMENTS),
        "a term with a newline": (HEADER, LIST.replace(b"t", b"\n"), *DOCUMENTS),
    }.items():
        pathlib.Path("bad.ciff").write_bytes(messages(*parts))
        refused(what, ciff.to_pisa, "bad.ciff", "no")
    counts = ciff.from_pisa(name, "real.ciff", "a description")
    check(ciff.to_pisa("real.ciff", "real") == counts and same("real", name), f"{name} as a CIFF file and back")


def try_jsonl():
    pathlib.Path("v.jsonl").write_text('{"id": "a", "content": "..", "vector": {"x": 1.25, "y": 0.004}}\n\n{"id": 7, "vector": {"\u00e9": 2, "x": 0.006}}\n')
    check(jsonl.to_pisa(["v.jsonl"], "v") == (2, 2, 3), "counts of vectors")
    check(numbers("v.docs") == [1, 2, 2, 0, 1, 1, 1] and numbers("v.freqs") == [2, 125, 1, 1, 200] and numbers("v.sizes") == [2, 125, 201], "vectors as a collection")
    check(pathlib.Path("v.terms").read_text() == "x\n\u00e9\n" and pathlib.Path("v.documents").read_text() == "a\n7\n", "names of vectors")
    for line in ("[]", '{"id": 1}', '{"id": 1, "vector": [1]}', '{"id": 1, "vector": {"x": -1}}', '{"id": 1, "vector": {"x": "y"}}', '{"id": 1, "vector": {"x": 1e300}}', '{"id": 1', '{"id": "a\\nb", "vector": {}}'):
        pathlib.Path("bad.jsonl").write_text(line + "\n")
        refused(line, jsonl.to_pisa, ["bad.jsonl"], "no")


def try_order():
    pathlib.Path("pairs").write_text("0 2\n1 0\n2 1\n")
    pathlib.Path("names").write_text("b\nc\na\n")
    pathlib.Path("documents").write_text("a\nb\nc\n")
    for text, documents in (("pairs", None), ("names", "documents")):
        order.write_map(order.new_numbers(text, documents), "map")
        check(numbers("map") == [3, 2, 0, 1], f"the map of {text}")
    for text in ("0 1\n0 0\n", "0 1\n1 1\n", "0 2\n1 0\n", "0\n1 0\n", "0 x\n1 0\n", "-1\n0\n", "0 1 2\n"):
        pathlib.Path("bad").write_text(text)
        refused(f"the order {text!r}", order.new_numbers, "bad")
    pathlib.Path("bad").write_text("a\nb\nd\n")
    refused("a name that is not there", order.new_numbers, "bad", "documents")


def lines_of_run(*words):
    from pefidx import run

    out = io.StringIO()
    with contextlib.redirect_stdout(out):
        run.main(["i.pefindex", "queries", "-k", "2", "--terms", "terms", *words])
    return out.getvalue().splitlines()


def try_run(name, program):
    """The best two documents of the first term, by the program where one is given, and by the library where it is there."""
    collection = Collection(name)
    docs, freqs = next(collection.lists())
    best = sorted((-2 * freq, doc) for doc, freq in zip(docs, freqs))[:2]
    if program:
        subprocess.run([program, "pack", name, "i.pefindex"], check=True)
    else:
        from pefidx import build

        build(collection.lists(), "i.pefindex", collection.sizes())
    pathlib.Path("terms").write_text("".join(f"t{term}\n" for term, _ in enumerate(collection.lists())))
    pathlib.Path("queries").write_text("q1: t0 t0 none\nq2\tt0*1.6\n" '{"id": "q3", "vector": {"t0": 0.4}}\n')
    wanted = [f"{query} Q0 {doc} {rank} {-score} pefidx" for query in ("q1", "q2") for rank, (score, doc) in enumerate(best, 1)]
    for words in ([] if is_library_there() else None, ["--program", program] if program else None):
        if words is not None:
            check(lines_of_run(*words) == wanted, f"the run of three queries {words}")
            check(lines_of_run("--lines", *words) == ["top 2 0*2", "top 2 0*2", "top 2"], f"the query lines {words}")
            pathlib.Path("heavy").write_text("q: t0*70000000\n")
            said = refused("a weight of more than 16 bits", run_main, ["i.pefindex", "heavy", "--terms", "terms", *words])
            check("query q" in said, said)


def run_main(words):
    from pefidx import run

    with contextlib.redirect_stdout(io.StringIO()):
        run.main(words)


def try_collections():
    """Drawn collections come back from both forms."""
    draw = random.Random(1)
    for _ in range(50):
        documents = draw.randrange(1, 400)
        with named("d", documents) as writer:
            for _ in range(draw.randrange(20)):
                docs = sorted(draw.sample(range(documents), draw.randrange(documents + 1)))
                writer.add(docs, [draw.choice((1, 2, 127, 128, 2**31 - 1)) for _ in docs])
            writer.end([draw.choice((0, 1, 300, 2**31 - 1)) for _ in range(documents)])
        counts = ciff.from_pisa("d", "d.ciff")
        check(ciff.to_pisa("d.ciff", "e") == counts and same("d", "e"), "a drawn collection as a CIFF file and back")


def is_library_there():
    from pefidx._library import library

    try:
        return library.pefidx_check is not None
    except OSError:
        return False


def main():
    name = os.path.abspath(sys.argv[1] if len(sys.argv) > 1 else SMALL)
    program = os.path.abspath(sys.argv[2]) if len(sys.argv) > 2 else None
    with tempfile.TemporaryDirectory() as folder:
        os.chdir(folder)
        try_ciff(name)
        try_jsonl()
        try_order()
        try_collections()
        if program or is_library_there():
            try_run(name, program)
        else:
            print("not tried: run, without the library and the program")
        os.chdir("/")
    print("formats of the neighbours: all held")


if __name__ == "__main__":
    main()
