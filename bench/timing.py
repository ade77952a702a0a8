#!/usr/bin/env python3
"""Time the proved listing program and its twin on the same folder of schedules.

    python3 timing.py --bq PATH --twin PATH [--seed N] [--folder FOLDER]

The folder gets 300 schedules: 100 of 65,536 bytes, 100 contended ones and 100 of the other short kinds. Each
program lists them all, one process for each schedule; the total is taken five times and the median told.
"""

import os
import random
import statistics
import subprocess
import tempfile
import time

from command import command
from kinds import COUNTED, NODES, THREADS, Draft, contend, schedule

ROUNDS = 5


def full_length(seed, index):
    """A schedule of 65,536 bytes: contended calls, and dequeues once nothing else is left."""
    rng = random.Random(f"{seed}/timing/{index}")
    d = Draft(rng, rng.randint(2, THREADS), NODES)
    while len(d.bytes) < COUNTED:
        contend(d, 4, ("uniform", "lockstep", "bursts", "stall"))
    return bytes(d.bytes[:COUNTED])


def fill(folder, seed):
    paths = []
    short = ["calm", "edges", "refusals", "damaged"]
    for index in range(100):
        for name, data in (("full", full_length(seed, index)),
                           ("contended", schedule(seed, "contended", index)),
                           ("short", schedule(seed, short[index % len(short)], index))):
            paths.append(os.path.join(folder, f"{name}-{index}"))
            with open(paths[-1], "wb") as file:
                file.write(data)
    return paths


def list_all(program, paths, sink):
    sink.seek(0)
    sink.truncate()
    began = time.monotonic()
    for path in paths:
        with open(path, "rb") as source:
            subprocess.run([program], stdin=source, stdout=sink, close_fds=False, check=True)
    return time.monotonic() - began


def main():
    parser = command(__doc__)
    parser.add_argument("--folder", help="where the schedules stay; else they are thrown away")
    options = parser.parse_args()
    with tempfile.TemporaryDirectory() as passing:
        folder = options.folder or passing
        os.makedirs(folder, exist_ok=True)
        paths = fill(folder, options.seed)
        times, outputs = {"bq": [], "twin": [], "nothing": []}, {}
        with tempfile.TemporaryFile() as sink:
            for _ in range(ROUNDS):
                # "nothing" starts a program that does nothing: what starting 300 processes costs by itself.
                for name, program in (("bq", options.bq), ("twin", options.twin), ("nothing", "true")):
                    times[name].append(list_all(program, paths, sink))
                    sink.seek(0)
                    outputs[name] = sink.read()
        size = sum(os.path.getsize(path) for path in paths)
    same = "the same" if outputs["bq"] == outputs["twin"] else "NOT the same"
    print(f"{len(paths)} schedules, {size} bytes; {len(outputs['bq'])} bytes of listings, {same} from both")
    median = {name: statistics.median(rounds) for name, rounds in times.items()}
    for name, rounds in times.items():
        print(f"{name}: median {median[name]:.3f} s of", " ".join(f"{t:.3f}" for t in rounds))
    print(f"bq / twin: {median['bq'] / median['twin']:.2f}")
    bq, twin = (median[name] - median["nothing"] for name in ("bq", "twin"))
    print(f"bq / twin less the starting: {bq / twin:.2f}")


if __name__ == "__main__":
    main()
