#!/usr/bin/env python3
"""Holds docs/OUTCOMES.md and the crates' proofs/Determined.antt to the code: each public function of a
library has one theorem and one row, and there is no other. Prints what is missing, and the count."""

import pathlib
import re
import sys

ROOT = pathlib.Path(__file__).resolve().parent.parent


def public_functions(source, below):
    """The public functions of a file, as paths; a method stands below its type."""
    owner = None
    for line in source.splitlines():
        if match := re.match(r"impl (\w+)", line):
            owner = match[1]
        elif line == "}":
            owner = None
        elif match := re.match(r" *pub fn (\w+)", line):
            yield "::".join([*below, *([owner] if owner else []), match[1]])


def declared(crate):
    """Those of a crate. An impl block may stand in another file than its type: the type's module counts."""
    sources = {path.stem: path.read_text() for path in sorted((crate / "src").glob("*.rt"))}
    home = {name: stem for stem, text in sources.items() for name in re.findall(r"^pub (?:struct|enum) (\w+)", text, re.M)}
    for stem, text in sources.items():
        for path in public_functions(text, []):
            stands_in = home.get(path.split("::")[0], stem) if "::" in path else stem
            yield "::".join([crate.name, *([] if stands_in == "lib" else [stands_in]), path])


def main():
    libraries = [path.parent.parent for path in sorted(ROOT.glob("crates/*/src/lib.rt"))]
    functions = {function for crate in libraries for function in declared(crate)}
    proved = set()
    for crate in libraries:
        file = crate / "proofs" / "Determined.antt"
        if not file.exists():
            continue
        text = file.read_text()
        named = dict(
            (alias or path.split(".")[-1], path)
            for path, alias in re.findall(rf"^use Rattle\.{crate.name}\.specs\.contracts\.([\w.]+)(?: as ([\w-]+))?$", text, re.M)
        )
        for theorem, contract in re.findall(r"^pub (\w+)_determined : .* Determines M [\w-]+\.ended \(λ 𝓤\. ([\w-]+)\.clauses .*$", text, re.M):
            proved.add(f"{crate.name}::{named[contract].replace('.', '::')} {theorem}_determined")
    rows = re.findall(r"^\| `([\w:]+)` \| .* \| `([\w-]+)` \|$", (ROOT / "docs" / "OUTCOMES.md").read_text(), re.M)
    told = {f"{function} {theorem}" for function, theorem in rows}
    missing = [f"no theorem: {function}" for function in functions - {line.split()[0] for line in proved}]
    missing += [f"no row in docs/OUTCOMES.md: {line}" for line in proved - told]
    missing += [f"a row without a theorem: {line}" for line in told - proved]
    print("\n".join(sorted(missing) or [f"{len(functions)} public functions, each with its theorem and its row"]))
    sys.exit(bool(missing))


if __name__ == "__main__":
    main()
