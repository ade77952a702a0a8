#!/usr/bin/env python3
"""Compare the proved listing program with its twin, byte for byte, on schedules made from a seed.

    python3 compare.py --bq PATH --twin PATH [--seed N] [--count N] [--kinds a,b,c] [--save FOLDER]
    python3 compare.py --bq PATH --twin PATH --cases FOLDER

The first form makes schedules, runs both programs on each and tells the counts and the first difference of
each schedule that has one, which is saved as a .hex file. The second form runs both on the .hex files of a
folder and compares them with the lines written there behind `->`.
"""

import collections
import glob
import os
import subprocess
import sys
import tempfile
import time

from command import command
from kinds import KINDS, SECOND_OPERAND, schedule


class OneByOne:
    """A program that is started anew for each schedule."""

    def __init__(self, path):
        self.path = path
        self.source = tempfile.TemporaryFile()
        self.sink = tempfile.TemporaryFile()

    def listing(self, schedule):
        for file in (self.source, self.sink):
            file.seek(0)
            file.truncate()
        self.source.write(schedule)
        self.source.seek(0)
        try:
            ended = subprocess.run([self.path], stdin=self.source, stdout=self.sink, close_fds=False,
                                   timeout=20)
        except subprocess.TimeoutExpired:
            return b"no end within 20 s\n"
        self.sink.seek(0)
        return self.sink.read() + (b"" if ended.returncode == 0 else b"ended with %d\n" % ended.returncode)


def twin_listings(path, schedules, steps):
    """The twin's listings of many schedules in one process; the counts of its steps are added up."""
    given = b"".join(len(s).to_bytes(4, "little") + s for s in schedules)
    try:
        ended = subprocess.run([path, "--many"], input=given, capture_output=True, check=True, timeout=60)
    except (subprocess.CalledProcessError, subprocess.TimeoutExpired):
        # One of them does not end well; one by one it shows which.
        single = OneByOne(path)
        return [single.listing(s) for s in schedules]
    for line in ended.stderr.decode().splitlines():
        name, way, count = line.split()
        steps[name, way] += int(count)
    listings, at = [], 0
    while at < len(ended.stdout):
        length = int.from_bytes(ended.stdout[at:at + 4], "little")
        listings.append(ended.stdout[at + 4:at + 4 + length])
        at += 4 + length
    return listings


def read_number(data, at):
    """The number at a place and the place after it; None where it does not read well."""
    value = 0
    for group in range(5):
        if at + group >= len(data):
            return None, at
        byte = data[at + group]
        value |= (byte & 127) << 7 * group
        if byte < 128:
            too_long = byte == 0 and group > 0 or value >= 2**32
            return (None, at) if too_long else (value, at + group + 1)
    return None, at


def refused_codes(data, listing):
    """The code of each refused entry, "reading" for a code that did not read well, with its refusal."""
    lines = listing.split(b"\n")
    if not any(b"refused" in line for line in lines):
        return
    if lines[0].startswith(b"refused"):
        yield "set-up", int(lines[0].split()[1])
        return
    _, at = read_number(data, 0)
    _, at = read_number(data, at)
    for line in lines[1:-2]:
        code, at = read_number(data, at)
        words = line.split()
        if words[1] == b"refused":
            yield code if code in SECOND_OPERAND else "reading", int(words[2])
        if code in SECOND_OPERAND:
            for _ in range(1 + SECOND_OPERAND[code]):
                _, at = read_number(data, at)


def first_difference(ours, theirs):
    """The first line in which two listings differ."""
    a, b = ours.split(b"\n"), theirs.split(b"\n")
    at = next((i for i, (x, y) in enumerate(zip(a, b)) if x != y), min(len(a), len(b)))
    show = lambda lines: lines[at].decode(errors="replace") if at < len(lines) else "(no line)"
    return at, show(a), show(b)


def save(folder, name, data, remark):
    path = os.path.join(folder, name + ".hex")
    with open(path, "w") as file:
        file.write(f"# {remark}\n")
        for at in range(0, len(data), 32):
            file.write(data[at:at + 32].hex(" ") + "\n")
    return path


def compare(options):
    kinds = options.kinds.split(",")
    weight = sum(KINDS[kind][1] for kind in kinds)
    proved, twin = OneByOne(options.bq), OneByOne(options.twin)
    steps, pairs, differences = collections.Counter(), collections.Counter(), 0
    total_schedules = total_entries = 0
    began = time.time()
    for kind in kinds:
        count = options.count * KINDS[kind][1] // weight
        entries = size = 0
        for start in range(0, count, 250):
            drafts = [schedule(options.seed, kind, i) for i in range(start, min(count, start + 250))]
            listings = twin_listings(options.twin, drafts, steps)
            # The first of each lot is listed in the twin's plain mode too.
            if twin.listing(drafts[0]) != listings[0]:
                listings[0] = b"the twin's two modes differ\n"
            for offset, (data, theirs) in enumerate(zip(drafts, listings, strict=True)):
                ours = proved.listing(data)
                entries += max(0, theirs.count(b"\n") - 2)
                size += len(data)
                if kind != "long":
                    pairs.update(refused_codes(data, theirs))
                if ours != theirs:
                    differences += 1
                    line, a, b = first_difference(ours, theirs)
                    name = f"difference-{options.seed}-{kind}-{start + offset}"
                    remark = f"line {line}: bq {a!r}, twin {b!r}"
                    path = save(options.save, name, data, remark)
                    print(f"DIFFERENCE {path} {remark}", flush=True)
        print(f"{kind}: {count} schedules, {size} bytes, {entries} entries", flush=True)
        total_schedules += count
        total_entries += entries
    print(f"all: {total_schedules} schedules, {total_entries} entries, {differences} differences, "
          f"seed {options.seed}, {time.time() - began:.0f} s")
    in_order = sorted(pairs.items(), key=lambda pair: (str(pair[0][0]), pair[0][1]))
    print("refusals by code:", ", ".join(f"{code}:{refusal} {n}" for (code, refusal), n in in_order))
    print("steps:", ", ".join(f"{name} {way} {n}" for (name, way), n in steps.items()))
    return differences


def cases(options):
    """The .hex files of a folder against the lines behind `->`, for both programs."""
    differences = 0
    for path in sorted(glob.glob(os.path.join(options.cases, "*.hex"))):
        data, lines = bytearray(), []
        for line in open(path):
            given, _, remark = line.partition("#")
            data += bytes.fromhex(given)
            told = remark.partition("->")[2].strip()
            # A remark in words alone about the sign itself is no line of a listing.
            if told and not told.startswith("stands"):
                lines.append(told)
        expected = "".join(line + "\n" for line in lines).encode()
        for name, listing in (("bq", OneByOne(options.bq).listing(bytes(data))),
                              ("twin", twin_listings(options.twin, [bytes(data)], collections.Counter())[0])):
            if listing != expected:
                differences += 1
                line, a, b = first_difference(listing, expected)
                print(f"DIFFERENCE {path} line {line}: {name} {a!r}, file {b!r}")
        print(f"{path}: {len(lines)} lines")
    print(f"{differences} differences")
    return differences


def main():
    parser = command(__doc__)
    parser.add_argument("--count", type=int, default=2000)
    parser.add_argument("--kinds", default=",".join(KINDS))
    parser.add_argument("--save", default=".", help="the folder for schedules that differ")
    parser.add_argument("--cases", help="a folder of .hex files")
    options = parser.parse_args()
    unknown = set(options.kinds.split(",")) - set(KINDS)
    if unknown:
        parser.error(f"no such kind: {', '.join(sorted(unknown))}; there are {', '.join(KINDS)}")
    sys.exit(1 if (cases if options.cases else compare)(options) else 0)


if __name__ == "__main__":
    main()
