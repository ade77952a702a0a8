#!/usr/bin/env python3
"""Prints the tables of docs/CHECKS.md from a run of the gate.

    bash .ci/run > /tmp/gate.log 2>&1; tools/checks.py /tmp/gate.log

The lines are counted in the tree; a must-fail edit's first line says what it rules out, and the log has the
checker's first words. With --memory each crate is checked once more, from nothing and alone, for the peak memory
of its check (Linux).
"""

import re
import subprocess
import sys
from pathlib import Path

ROOT = Path(__file__).resolve().parent.parent
CRATES = ROOT / "crates"

# How much of what the checker said a line of the log holds.
LOGGED = 160

# The empty versions and plausible slips that 01 names, and the edits that try them.
NAMED = [
    ("empty version: a machine that refuses everything", "refuse/refuses_everything"),
    ("empty version: one answering `empty` always, for futures", "answer/empty_always"),
    ("empty version: one answering `empty` always, for a Dequeue", "thread/dequeue_answers_empty"),
    ("empty version: one whose steps do nothing", "memory/steps_do_nothing"),
    ("empty version: the whole call in its first step, idle after", "thread/whole_call_in_the_first_step"),
    ("a Run reporting an invented count", "machine/run_reports_an_invented_count"),
    ("slip: old tail read before the tail at a1", "running/old_tail_before_tail"),
    ("slip: a late helper at a7 setting the head without comparing", "memory/a7_without_comparing"),
    ("slip: a short batch of dequeues ordered at q3", "order/short_batch_ordered_at_q3"),
    ("slip: size from counts read before the tail caught up", "running/size_from_the_tail_of_a1"),
    ("slip: excess zero when dequeues outnumber enqueues only in the middle", "tally/excess_of_the_whole_only"),
]


def names():
    lines = (ROOT / "crates.txt").read_text().splitlines()
    return [line.split(":")[0] for line in lines if line and not line.startswith("#")]


def lines_in(folder, ending):
    return sum(len(f.read_text().splitlines()) for f in folder.rglob(f"*{ending}"))


def peak_mebibytes(name):
    """The largest process of a check of one crate from nothing, its dependencies proved before."""
    script = "import resource,subprocess;" \
        "subprocess.run(['rt','verdict'],capture_output=True);" \
        "print(resource.getrusage(resource.RUSAGE_CHILDREN).ru_maxrss//1024)"
    run = subprocess.run([sys.executable, "-c", script], cwd=CRATES / name, capture_output=True, text=True)
    return run.stdout.strip()


def first_words(said):
    """What the checker said first of an edit, without the place in the code and the paths of definitions. The log
    has no more than the first LOGGED signs of it."""
    words = re.search(r"(?:error: |it is not proved|$).*", said)[0].removeprefix("error: ") or said
    words = re.sub(r"Rattle\.\w+\.(specs|proofs)\.", "", words).split("; the facts known there")[0]
    return words + " .." if len(said) == LOGGED and not words.endswith(")") else words


def main():
    log = Path(sys.argv[1]).read_text()
    memory = "--memory" in sys.argv
    edits = re.findall(r"^rt: must-fail (\w+)/(\w+)\.edit: refused, as it must be: (.*)$", log, re.M)

    print("| crate |" + (" peak, MiB |" if memory else "") + " edits | src | specs | proofs |")
    print("|---|" + ("---|" if memory else "") + "---|---|---|---|")
    for name in names():
        row = [f"`{name}`"]
        row += [peak_mebibytes(name)] if memory else []
        row += [str(sum(of == name for of, _, _ in edits)), str(lines_in(CRATES / name / "src", ".rt"))]
        row += [str(lines_in(CRATES / name / part, ".antt")) for part in ("specs", "proofs")]
        print("| " + " | ".join(row) + " |")

    words = {f"{name}/{label}": first_words(said).replace("|", "\\|").replace("`", "") for name, label, said in edits}

    print("\n## The empty versions and slips of 01\n")
    print("| 01 | edit | the checker's first words |")
    print("|---|---|---|")
    for says, edit in NAMED:
        print(f"| {says} | `{edit}` | {words[edit]} |")

    print("\n## Must-fail edits\n")
    print("| edit | what it would do | the checker's first words |")
    print("|---|---|---|")
    for name, label, _ in edits:
        text = (CRATES / name / "must-fail" / f"{label}.edit").read_text()
        says = text.splitlines()[0].removeprefix("# ")
        print(f"| `{name}/{label}` | {says} | {words[f'{name}/{label}']} |")


main()
