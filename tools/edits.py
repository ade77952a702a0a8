#!/usr/bin/env python3
"""Says which must-fail edits no longer fit their crate: an `old:` text has to occur in its file exactly once.
The gate says so too, but only when it comes to the edit."""

import pathlib
import sys

ROOT = pathlib.Path(__file__).resolve().parent.parent


def main():
    stale = []
    edits = sorted(ROOT.glob("crates/*/must-fail/*.edit"))
    for edit in edits:
        file = None
        for line in edit.read_text().splitlines():
            if line.startswith("file: "):
                file = edit.parent.parent / line.removeprefix("file: ")
            elif line.startswith("old: "):
                times = file.read_text().count(line.removeprefix("old: "))
                if times != 1:
                    stale.append(f"{edit.relative_to(ROOT)}: {times} times in {file.relative_to(ROOT)}: {line}")
    print("\n".join(stale) or f"{len(edits)} edits fit")
    sys.exit(bool(stale))


if __name__ == "__main__":
    main()
