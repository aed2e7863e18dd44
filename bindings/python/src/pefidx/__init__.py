"""The posting store of `pefidx`: indexes of PISA collections, built, opened and asked.

    import pefidx

    pefidx.build([([0, 2], [2, 1]), ([2], [4])], "NAME.pefindex")  # or of NAME.docs, .freqs and .sizes:
    pefidx.pack("NAME", "NAME.pefindex")
    with pefidx.Index("NAME.pefindex") as index:
        index.documents, index.terms              # 3, 2
        index.next(0, 1)                          # (2, 1): a document and its frequency, or None
        index.count(0)                            # 2 postings
        docs, freqs = index.postings(0)           # numpy arrays where numpy is there, else arrays of the standard library
        index.and_([0, 1]), index.or_([0, 1])     # documents, rising
        index.top(10, {0: 1, 1: 3}, plan="wand")  # [(document, score), ..]
        index.reply("or 0 1")                     # "2 0 2", as `pefidx query` replies
        list(index.search("or 0 1\\nnext 0 1\\n")) # ["2 0 2", "2 1"]
    pefidx.join_top(2, [(3, [(2, 5)]), (8, [(0, 7)])])  # [(3, 7), (2, 5)], of two ranges
    with pefidx.Index(["NAME.pefindex", "MORE.pefindex"]) as index:
        index.reply("or 0 1")                     # of both as one, as `pefidx segments` replies
    pefidx.merge(["NAME.pefindex", "MORE.pefindex"], "ALL.pefindex")

Terms and documents are numbered from 0. Every number may be of any type that is a whole number (`operator.index`); one out of range is an
IndexError. The module calls a shared library by ctypes: the one that the environment names as PEFIDX_LIBRARY, else the one beside it, else the
installed one.
"""

from ._building import FORMATS, PACKED, build
from ._errors import BadPosting, BadSegment, BrokenCollection, BrokenIndex, Error
from ._index import PLANS, Index, Postings
from ._merging import merge
from ._packing import pack
from ._ranges import join_top

__all__ = [
    *("BadPosting", "BadSegment", "BrokenCollection", "BrokenIndex", "Error", "FORMATS", "Index"),
    *("PACKED", "PLANS", "Postings"),
    *("build", "join_top", "merge", "pack"),
]
#: the version of the package, and of the library that c/Makefile installs
__version__ = "0.1.0"
