"""`python -m pefidx ciff|jsonl|order|run ..`: formats of the neighbours, to collections, map files and runs."""

from __future__ import annotations

import sys

from . import ciff, jsonl, order, run
from ._errors import Error

_COMMANDS = {"ciff": ciff.main, "jsonl": jsonl.main, "order": order.main, "run": run.main}


def main() -> int:
    if len(sys.argv) < 2 or sys.argv[1] not in _COMMANDS:
        print(f"usage: python -m pefidx {'|'.join(_COMMANDS)} ..", file=sys.stderr)
        return 2
    try:
        return _COMMANDS[sys.argv[1]](sys.argv[2:])
    except Error as error:
        print(f"python -m pefidx {sys.argv[1]}: {error}", file=sys.stderr)
    except OSError as error:
        print(f"python -m pefidx {sys.argv[1]}: {error.filename}: {error.strerror}", file=sys.stderr)
    return 1


if __name__ == "__main__":
    sys.exit(main())
