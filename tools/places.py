#!/usr/bin/env python3
"""Finds the places of old forms in the crates' src/, by the eight points of docs/DESIGN-PASS.md. A place is a function, a
method or a type in which a search finds something; the searches go by text and find too much rather than too little, so that
what they still find is either changed or has its reason beside it.

    python3 tools/places.py [--list] [FOLDER]      counts (and lists) the places below FOLDER/crates; default: this repository
"""

import pathlib
import re
import sys

# Functions and types that differ in a type, a size or a constant, by crate.
TWINS = {
    "cells": r"struct (?:EnqueueCount|DequeueCount|Tail|Front)\b|fn (?:past|same)\(",
    "contents": r"pub fn (?:write|depth)\(machine: Machine",
    "listing": r"fn (?:put|lines)\(",
    "listing_cases": r"fn (?:end_of|begins_with|number_at|with_digit|byte_at|hex_digit)\(",
    "machine": r"fn (?:ran_to|telling|telling_after|refusing|apply)\(",
    "machine_cases": r"fn (?:line_end|is_comment|number_at|with_digit|entry_of|put|put_number|put_field)\(",
    "needs": r"fn \w+_needs\(",
    "next": r"fn next_\w+\(",
    "number_cases": r"fn (?:line_end|starts_with|with_digit|byte_at|hex_digit)\(",
    "refuse": r"fn (?:callable|steppable)\(",
    "row": r"pub fn (?:calling|with_enqueue|with_dequeue|cleared)\(",
    "schedule": r"fn (?:pair|triple|put|thread)\(|fn second\(s: &\[u8\], from",
    "tally": r"fn (?:with|counting)_(?:enqueue|dequeue)\(",
}

# By point; each search is for one line, in all crates or by crate.
SEARCHES = {
    "1 own enums like Option or Result": r"enum (?:Writing|Verdict|Reading|SetUpReading|EntryReading|Link|OldTail|Outcome)\b|^\s*Refused\(Refusal\),",
    "1 flags and verdicts beside a value": r"^\s*(?:pub )?\w+: (?:bool|Verdict),$|^\s*pub \w+: Result<\(\), Refusal>,$|\bfn .*enqueue: bool\b|none_left: bool \}",
    "1 numbers for kinds": r"fn (?:operands\(code|entry_of|named)\b|letter: u8|code: u32[,)]",
    "1 numbers and values for none": r"(?:[A-Z]\w*::\w+(?:[({].*[)}])?|_) => (?:0|none|Link::None|OldTail::Unset|Head::Announced\(0\)|None),$"
    r"|node_behind\(next, 0\)|^\s{8}0$|^\s{12}0$|return 0;",
    "2 twins": TWINS,
    "3 loops that count by hand": r"^\s*while\b|^\s*loop\b",
    "4 equality by hand": r"fn same\w*\(|fn leads_to\(",
    "4 kinds asked by a match": r"=> (?:true|false),$",
    "4 arms that answer the same": r"=> Place::Idle,$",
    "4 fresh and none values by hand": r"fn (?:none|fresh|ends_at_the_dummy|unused_announcement)\(|let (?:none|nothing) = ",
    "4 sums, differences, conversions by hand": r"std::num::wrapping_\w+\(|\b(?:wide|less|larger)\(",
    "4 words and digits by hand": r"print_decimal|print_hex|io::decimal|write_all\(1|text\(\w+, \w+, b\"|fn \w+_digit\(",
    "4 copies into a local before use": r"^\s*let (?:mut )?\w+ = \w+(?:\.\w+)+;$",
    "5 a fact in the contracts of many": r"requires \{ \w+ < 8 \}",
    "5 a buffer with its place": r"fn .*&mut \[u8\],? at: usize|fn \w+\(\w+: &mut \[u8\],? at|requires \{ at (?:\+|≤)",
    "5 parameters that travel together": r"threads: u32, nodes: u32|a: u8,.*request: Request|request: Request,.*\bold: Tail|nodes: u32,\n",
    "6 buffers with a length, parallel arrays": r"^\s*(?:pub )?(?:bytes|pending|links|items): \[.*; .*\],$|let mut \w+ = \[0\w*; .*\];",
    "6 walks through arrays of links by hand": r"\blinks\[\(\w+ % \w+::\w+\) as usize\]",
    "7 switches and tables of functions": r"fn (?:access|after|on_cells|after_b1|after_d1|after_q1|after_e4|step_of)\(",
}

PROOFS = {
    "8 files of answers": "Answers.antt",
    "8 files of invariants": "Invariants.antt",
    "8 walks by hand": "Proof.antt",
}

ITEM = re.compile(r"^\s*(?:pub(?:\(crate\))? )?(?:const )?(?:fn|struct|enum) (\w+)|^(impl\b.*?) \{")


def found(root, pattern):
    """Each place with the lines that were found in it."""
    places = {}
    for path in sorted(root.glob("crates/*/src/**/*.rt")):
        item = "file"
        wanted = pattern if isinstance(pattern, str) else pattern.get(path.relative_to(root).parts[1], "(?!)")
        for line in path.read_text().splitlines():
            if match := ITEM.match(line):
                item = match[1] or match[2]
            if re.search(wanted, line) and not line.lstrip().startswith("//"):
                places.setdefault(f"{path.relative_to(root / 'crates')} {item}", []).append(line.strip())
    return places


def main(arguments):
    folders = [argument for argument in arguments if argument != "--list"]
    root = pathlib.Path(folders[0]) if folders else pathlib.Path(__file__).resolve().parent.parent
    print("places  lines")
    for point, pattern in SEARCHES.items():
        places = found(root, pattern)
        print(f"{len(places):6} {sum(map(len, places.values())):6}  {point}")
        if "--list" in arguments:
            for place, lines in places.items():
                print(f"               {place}: {len(lines)}")
    for point, name in PROOFS.items():
        files = list(root.glob(f"crates/*/proofs/**/{name}"))
        print(f"{len(files):6} {sum(len(file.read_text().splitlines()) for file in files):6}  {point}")


main(sys.argv[1:])
