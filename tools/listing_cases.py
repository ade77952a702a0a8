#!/usr/bin/env python3
"""Writes crates/listing_cases/stdin, schedules for the listing program of document 01, and
crates/listing_cases/stdout, the listings that must come.

What is expected comes from tools/model.py, which is worked out from document 01 alone. Beside it most
schedules say here what the entries have to answer, so that the model and these words check each other, and
the commented files of schedules/ say it in every line; model.check() runs after every entry of all but the
long schedules.

A line of stdin is one of
    # text          a comment, which stdout repeats
    WORD WORD ..    a schedule; a word is bytes in hex, two digits each, or NxBYTES, these bytes N times. A
                    line without a word is the schedule of no bytes
    *FROM WORD ..   a long schedule
For a schedule stdout has its listing. For a long one it has of the entries' lines only those from place FROM
on, which 64 divides, and a line more, `* N bytes, sums A B`: the bytes of the whole listing, their sum, and
the sum of the sums after each byte, both modulo 2^32.

    tools/listing_cases.py
"""

import re
import sys
from itertools import accumulate
from pathlib import Path

sys.dont_write_bytecode = True

import model
from model import Machine, Numbers

ROOT = Path(__file__).resolve().parent.parent
CRATE = ROOT / "crates" / "listing_cases"
TOP = 2**32 - 1
LIMIT = 65536
BLOCK = 64

# Short names for the entries' codes.
CODES = {"enq": 1, "deq": 2, "fenq": 3, "fdeq": 4, "eval": 5, "step": 6, "run": 7}


def number(value):
    """A number's bytes, "in groups of seven bits, low group first, top bit set when another follows"."""
    groups = []
    while value >= 128:
        groups.append(value % 128 + 128)
        value //= 128
    return bytes(groups + [value])


def numbers(*values):
    return b"".join(number(value) for value in values)


def entries(text):
    """Entries as `enq 0 5; run 0 3`; an entry may be cut short, and one of no words is none."""
    data = b""
    for name, *operands in (entry.split() for entry in text.split(";") if entry.strip()):
        data += numbers(CODES[name], *(int(operand) for operand in operands))
    return data


def said(line):
    """The word of an entry's line, and its value where the word has one."""
    _, word, value, _, _ = line.split(" ")
    return f"{word} {value}" if word in ("future", "item", "refused") else word


class Corpus:
    def __init__(self):
        self.stdin = []
        self.stdout = []
        self.schedules = 0
        self.lines = 0
        self.words = set()  # answer words, refusals with their number
        self.setups = set()  # refusals at set-up

    def group(self, *comment):
        for text in comment:
            assert text.isascii() and len(text) < 120, text
            self.stdin.append(f"# {text}")
            self.stdout.append(f"# {text}\n")

    def listing(self, pieces, gives, queue, check):
        """The model's listing of some pieces, bytes or (times, bytes). `gives` is what the last entries
        have to answer, or the set-up; `queue` what has to wait at the end."""
        data = b"".join(piece if isinstance(piece, bytes) else piece[0] * piece[1] for piece in pieces)
        text = model.listing(data)
        lines = text.splitlines()
        if len(lines) == 1:
            self.setups.add(lines[0])
            assert gives in (None, lines[0]), (data.hex(), text, gives)
        else:
            answers = [said(line) for line in lines[1:-1]]
            self.words.update(answer if "refused" in answer else answer.split(" ")[0] for answer in answers)
            wanted = gives.split(", ") if gives else []
            assert answers[len(answers) - len(wanted) :] == wanted, (data.hex(), text, gives)
            assert queue is None or lines[-1] == f"queue {queue}".rstrip(), (data.hex(), text, queue)
        if check:
            run_with_checks(data)
        self.schedules += 1
        self.lines += len(lines)
        return lines

    def case(self, *pieces, gives=None, queue=None):
        lines = self.listing(pieces, gives, queue, check=True)
        self.stdin.append(words_of(pieces))
        self.stdout += [f"{line}\n" for line in lines]

    def long(self, *pieces, gives=None, queue=None):
        lines = self.listing(pieces, gives, queue, check=False)
        shown = (len(lines) - 5) // BLOCK * BLOCK
        self.stdin.append(f"*{shown} {words_of(pieces)}")
        self.stdout += [f"{line}\n" for line in lines[:1] + lines[1 + shown :]]
        text = "".join(f"{line}\n" for line in lines).encode()
        sums = list(accumulate(text))
        self.stdout.append(f"* {len(text)} bytes, sums {sums[-1] % 2**32} {sum(sums) % 2**32}\n")


def words_of(pieces):
    """Pieces as words. One piece of bytes is a word; a schedule of no bytes has none."""
    words = [piece.hex() if isinstance(piece, bytes) else f"{piece[0]}x{piece[1].hex()}" for piece in pieces]
    return " ".join(word for word in words if word)


def run_with_checks(data):
    """Runs a schedule on the model with its checks after every entry and step."""
    try:
        threads, place = model.read_number(data, 0)
        nodes, place = model.read_number(data, place)
        machine = Machine(threads, nodes)
        machine.watch = model.check
        while place < len(data):
            entry, place = model.read_entry(data, place)
            machine.enter(*entry)
            model.check(machine)
    except model.Refused:
        pass


# -------------------------------------------------------------------- the files of schedules/

FILES = "example case-6 case-7 case-8 case-9 case-10 story-group story-helped"
SLIPS = {
    "slip-old-tail-first": "old tail first",
    "slip-head-not-compared": "head not compared",
    "slip-ordered-at-q3": "ordered at q3",
    "slip-size-too-early": "size too early",
    "slip-excess-in-the-middle": "excess at the end",
}


def hex_file(name):
    """The bytes of a file, and the listing that its comments tell, a line behind each `->`."""
    data, told = [], []
    for line in (ROOT / "schedules" / f"{name}.hex").read_text().splitlines():
        told += re.findall(r"  -> (.*)$", line)
        data += [int(word, 16) for word in line.partition("#")[0].split()]
    return bytes(data), told


def slip_shows(data, slip):
    """Whether a machine with a slip lists something else, or, where it only puts a call at another place of
    the order, would have to."""
    if slip != "ordered at q3":
        return model.listing(data, slip) != model.listing(data)
    machine = Machine(data[0], data[1], slip)
    place = 2
    while place < len(data):
        entry, place = model.read_entry(data, place)
        machine.enter(*entry)
    waiting, given = model.replay(machine.order)
    return waiting != machine.contents() and any(call.results not in (None, wanted) for call, wanted in given)


def files(c):
    page = (ROOT / "docs" / "SCHEDULES.md").read_text()
    present = sorted(path.stem for path in (ROOT / "schedules").glob("*.hex"))
    assert present == sorted(FILES.split() + list(SLIPS)), present
    for name in FILES.split() + list(SLIPS):
        data, told = hex_file(name)
        assert model.listing(data).splitlines() == told, name
        assert name not in SLIPS or slip_shows(data, SLIPS[name]), name
        assert not name.startswith("story") or "\n".join(told) in page, name
        c.group(f"schedules/{name}.hex")
        c.case(data)


# -------------------------------------------------------------------- set-up


def set_ups(c):
    c.group("set-up alone; the numbers at their edges, and of one and two bytes")
    for threads, nodes in ((1, 2), (8, 2), (1, 512), (8, 512), (2, 127), (2, 128), (3, 300), (5, 511)):
        c.case(numbers(threads, nodes), gives="", queue="")
    c.group("9: threads out of range")
    for threads in (0, 9, 10, 127, 128, 256, 16384, 2**31, TOP):
        c.case(numbers(threads, 4), gives="refused 9")
    c.group("9: nodes out of range")
    for nodes in (0, 1, 513, 514, 640, 1024, 16384, 2**31, TOP):
        c.case(numbers(2, nodes), gives="refused 9")
    c.group("9: both out of range; and entries behind it do not count")
    for threads, nodes in ((0, 0), (9, 1), (0, 513), (TOP, TOP)):
        c.case(numbers(threads, nodes), gives="refused 9")
    c.case(numbers(9, 4) + entries("enq 0 5; run 0 9"), gives="refused 9")
    c.case(numbers(1, 1) + bytes([0]), gives="refused 9")
    c.case(numbers(1, 513) + bytes([0x80]), gives="refused 9")
    c.group("10: the bytes end inside the first number, before the second, inside the second")
    inside = ("", "80", "ff ff", "80 80 80", "ff ff ff ff", "01", "81 01", "01 80", "08 ff ff", "01 80 80 80 80")
    for data in inside:
        c.case(bytes.fromhex(data), gives="refused 10")
    c.group("11: the first number too long; what follows does not count")
    long = ("80 00", "81 00 04", "80 80 00", "ff ff ff 00", "80 80 80 80 00", "ff ff ff ff 10", "80 80 80 80 80")
    for data in long + ("ff ff ff ff ff 0f 04 01 00 05",):
        c.case(bytes.fromhex(data), gives="refused 11")
    c.group("11: the second number too long")
    long = ("01 80 00", "01 82 00", "08 ff ff 00", "01 80 80 80 80 00", "01 ff ff ff ff 10", "01 80 80 80 80 84")
    for data in long:
        c.case(bytes.fromhex(data), gives="refused 11")
    c.group("9 is tested after both numbers have been read: 10 and 11 come first")
    for data, refusal in (
        ("00", 10),
        ("09", 10),
        ("09 80", 10),
        ("09 80 00", 11),
        ("00 ff ff ff ff 1f", 11),
        ("80 00 00", 11),
        ("ff ff ff ff 0f", 10),
        ("ff ff ff ff 0f 80 00", 11),
        ("ff ff ff ff 0f 04", 9),
        ("09 04", 9),
    ):
        c.case(bytes.fromhex(data), gives=f"refused {refusal}")


# -------------------------------------------------------------------- bytes that are no entry

# What may be wrong with a number: its bytes, and the refusal. The first is the end before the number.
DAMAGES = (
    ("", 10),
    ("80", 10),
    ("ff ff ff ff", 10),
    ("81 00", 11),
    ("80 80 80 80 00", 11),
    ("ff ff ff ff 10", 11),
    ("80 80 80 80 81", 11),
)

# A set-up; and one with accepted entries behind it, after which one item waits, one thread has a pending
# call and one is in the middle of a call.
START = numbers(3, 8)
UNDER_WAY = START + entries("enq 0 5; run 0 3; fdeq 1; deq 2; step 2")


def damaged(c):
    turn = 0
    for code, operands in model.OPERANDS.items():
        for place in range(operands):
            name = ("first", "second")[place]
            c.group(f"10 and 11 in the {name} operand of code {code}, as the first entry and after others")
            for data, refusal in DAMAGES:
                # an entry behind a number that is too long is not read
                behind = entries("fenq 0 9") if refusal == 11 and turn % 2 else b""
                entry = numbers(code, 1)[: 1 + place] + bytes.fromhex(data) + behind
                c.case(START + entry, gives=f"refused {refusal}", queue="")
                if code in (1, 2) or turn % 3 == 0:
                    c.case(UNDER_WAY + entry, gives=f"future 0, started, more, refused {refusal}", queue="5")
                turn += 1
    c.group("10 and 11 in the code: it is a number like any other")
    own = (("87", 10), ("87 00", 11), ("80 00", 11), ("88 00", 11), ("81 80 80 80 00", 11))
    for data, refusal in DAMAGES[1:] + own:
        code = bytes.fromhex(data)
        c.case(START + code, gives=f"refused {refusal}", queue="")
        c.case(UNDER_WAY + code, gives=f"more, refused {refusal}", queue="5")
    c.group("a code and its end: each code as the last byte is 10")
    for code in model.OPERANDS:
        c.case(START + bytes([code]), gives="refused 10")


def wrong_codes(c):
    c.group("12: the code is not 1 to 7, alone as the first entry, and with operands after others")
    for code in (0, 8, 9, 10, 64, 127, 128, 129, 135, 300, 16384, TOP):
        c.case(START + number(code), gives="refused 12", queue="")
        c.case(UNDER_WAY + numbers(code, 0, 5), gives="future 0, started, more, refused 12", queue="5")
    c.group("12 comes as soon as the code is read: what is wrong behind it does not count")
    for data in ("08 80", "00 80 00", "08 ff ff ff ff 10", "81 01 80", "ff ff ff ff 0f ff"):
        c.case(START + bytes.fromhex(data), gives="refused 12", queue="")
    c.group("the first offending place decides: 11 in the first operand, then a cut; 10 in it; 11, then 12")
    c.case(START + bytes.fromhex("01 80 00 80"), gives="refused 11")
    c.case(START + bytes.fromhex("01 80"), gives="refused 10")
    c.case(START + bytes.fromhex("01 00 80 00 08"), gives="refused 11")
    c.group("a refusal of the machine lets it go on, one of the reader ends the entries")
    gives = "refused 1, refused 3, started, refused 12"
    c.case(START + entries("enq 3 5; step 0; enq 0 5") + b"\x08", gives=gives)
    c.case(START + b"\x08" + entries("enq 0 5"), gives="refused 12", queue="")


# -------------------------------------------------------------------- answers


def values(c):
    c.group("items 0 and 2^32 - 1, and those at the edges of each length")
    edges = [0, 1, 127, 128, 16383, 16384, 2**21 - 1, 2**21, 2**28 - 1, 2**28, TOP - 1, TOP]
    start = numbers(1, 20)
    filled = start + entries("".join(f"enq 0 {v}; run 0 3;" for v in edges))
    c.case(filled, queue=" ".join(str(v) for v in edges))
    c.case(filled + 13 * entries(f"deq 0; run 0 {TOP}"), gives=f"item {TOP}, started, empty", queue="")
    batch = start + entries("".join(f"fenq 0 {v};" for v in edges)) + 13 * entries("fdeq 0")
    results = entries(f"eval 0 23; run 0 {TOP}; eval 0 0; eval 0 11; eval 0 12; eval 0 22; eval 0 24")
    c.case(batch + results, gives=f"item {TOP}, ok, ok, item 0, item {TOP - 1}, empty", queue="")
    c.group("threads and futures of two to five bytes")
    for value in (128, 16384, 2**28, TOP):
        c.case(START + entries(f"step {value}"), gives="refused 1")
        c.case(START + entries(f"eval 0 {value}"), gives="refused 8")
        c.case(START + entries(f"enq {value} {value}; run {value} {value}"), gives="refused 1, refused 1")
    c.group("zero bytes everywhere that they can be")
    c.case(START + entries("enq 0 0; run 0 0; run 0 3; fenq 0 0"), queue="0")


def answers(c):
    c.group("every answer word: started, future, ok, item, empty, more, refused")
    gives = "started, more, ok, future 0, future 1, started, empty, item 5, refused 8"
    calls = "enq 0 5; step 0; run 0 9; fdeq 1; fdeq 1; eval 1 1; run 1 9; eval 1 0; eval 1 2"
    c.case(START + entries(calls), gives=gives, queue="")
    c.group("Run with n = 0 on a busy thread: more, 0 steps; on an idle one: 3")
    c.case(START + entries("enq 0 5; run 0 0; run 0 0; run 1 0"), gives="started, more, more, refused 3")
    c.group("Run with too few steps, with just enough, with more than needed, with 2^32 - 1")
    for n in (1, 2, 3, 4, 100, TOP):
        c.case(START + entries(f"enq 0 5; run 0 {n}"), gives="started, more" if n < 3 else "started, ok")
    ends = "ok, refused 3"
    for n, gives in ((1, "more, more"), (7, "more, ok"), (8, ends), (9, ends), (TOP, ends)):
        c.case(START + entries(f"fenq 0 5; eval 0 0; run 0 {n}; run 0 {n}"), gives=gives)
    c.group("depth where head passes tail (case 7), twice over: 0, not negative")
    calls = "enq 0 5; run 0 2; deq 1; run 1 9; enq 2 6; run 2 9; deq 1; run 1 9; run 0 9"
    c.case(START + entries(calls), gives="ok, started, item 6, ok", queue="")
    c.group("depth while an announcement is in the head: the old head's count, so 3 after a5, 2 after a7")
    calls = "enq 0 5; run 0 9; fdeq 0; fdeq 0; fenq 0 6; fenq 0 7; eval 0 0;" + 8 * "step 0;"
    c.case(START + entries(calls), gives="more, more, more, item 5", queue="6 7")


# -------------------------------------------------------------------- refusals 1 to 8


def refusals(c):
    c.group("1: each code names a thread that is not there; the listing goes on")
    calls = "enq 3 5; deq 3; fenq 4 5; fdeq 8; eval 3 0; step 255; run 3 0; deq 2"
    c.case(START + entries(calls), gives="refused 1, " * 7 + "started")
    c.group("2: codes 1 to 5 on a thread in a call, 8 not looked at; then the call goes on as it was")
    calls = "deq 0; enq 0 5; deq 0; fenq 0 5; fdeq 0; eval 0 9; run 0 9"
    c.case(START + entries(calls), gives="started, " + "refused 2, " * 5 + "empty", queue="")
    c.group("3: Step and Run on an idle thread, before a call and after its end")
    calls = "step 0; run 0 1; deq 0; run 0 2; step 0; run 0 9; step 1"
    c.case(START + entries(calls), gives="refused 3, refused 3, started, empty, refused 3, refused 3, refused 3")
    c.group("4: no node left; what needs none goes on")
    calls = "enq 0 5; fenq 1 6; enq 2 7; fenq 2 7; fdeq 2; enq 2 7; run 0 3; eval 1 0; run 1 99; enq 0 7"
    gives = "started, future 0, refused 4, refused 4, future 1, refused 4, ok, started, ok, refused 4"
    c.case(numbers(3, 3) + entries(calls), gives=gives, queue="5 6")
    c.group("6: the 33rd pending call, of each kind; Evaluate goes through, and places are free again")
    calls = 31 * "fdeq 0;" + "fenq 0 5; fdeq 0; fenq 0 6; deq 0; enq 0 6; eval 0 31; run 0 99; fdeq 0"
    gives = "future 31, refused 6, refused 6, refused 6, refused 6, started, ok, future 32"
    c.case(START + entries(calls), gives=gives, queue="5")
    c.group("8: a future that was not handed out, and another thread's; the own one after it")
    calls = "eval 0 0; fenq 0 5; eval 1 0; eval 0 1; eval 0 0; run 0 99; eval 1 0"
    gives = "refused 8, future 0, refused 8, refused 8, started, ok, refused 8"
    c.case(START + entries(calls), gives=gives, queue="5")
    c.group("the order 1, 2 or 3, 8, 4, 5, 6, 7: of two faults the first is told")
    calls = "fenq 0 5; eval 0 0; eval 0 7; eval 3 7; run 0 99"
    c.case(START + entries(calls), gives="future 0, started, refused 2, refused 1, ok")
    calls = "fenq 0 5;" + 31 * "fdeq 0;" + "fenq 0 6; fdeq 0; enq 0 6"
    c.case(numbers(1, 2) + entries(calls), gives="refused 4, refused 6, refused 4", queue="")
    c.group("a single call with pending calls takes a future number that no line shows")
    calls = "fenq 0 5; deq 0; run 0 99; fdeq 1; eval 0 1; fdeq 0; enq 0 6; run 0 99; eval 0 3; eval 0 4"
    gives = "future 0, started, item 5, future 2, item 5, future 3, started, ok, empty, ok"
    c.case(START + entries(calls), gives=gives, queue="6")


def exhausted(c):
    c.group("5: 512 futures, 31 deferred dequeues and a Dequeue at a time; then 5 by all that need one")
    batch = entries(31 * "fdeq 0;" + "deq 0; run 0 2")
    behind = entries("fdeq 0; fenq 0 5; eval 0 511; eval 0 512; enq 0 5; run 0 9")
    gives = "empty, refused 5, refused 5, empty, refused 8, started, ok"
    c.long(numbers(1, 4), (16, batch), behind, gives=gives, queue="5")
    c.group("7: 64 announcements, batches of two enqueues; then 7, and only deferring is left")
    batch = entries("fenq 0 5; enq 0 6; run 0 8")
    behind = entries("fenq 0 7; eval 0 128; enq 0 8; deq 0; fdeq 0; deq 1; run 1 3")
    gives = "ok, future 128, refused 7, refused 7, refused 7, future 129, started, item 5"
    c.long(numbers(2, 300), (64, batch), behind, gives=gives, queue="6" + 63 * " 5 6")
    c.group("the queue line with 511 items, each of ten digits; then 4")
    fill = entries(f"enq 7 {TOP}; run 7 3")
    full = " ".join([str(TOP)] * 511)
    c.long(numbers(8, 512), (511, fill), entries("enq 0 1"), gives="started, ok, refused 4", queue=full)
    c.group("511 items that differ, in 16 batches")
    items = [v * v * 7 % 100003 for v in range(1, 512)]
    calls = ""
    for first in range(0, 511, 32):
        *deferred, last = items[first : first + 32]
        calls += "".join(f"fenq 0 {v};" for v in deferred) + f"enq 0 {last}; run 0 99;"
    c.long(numbers(1, 512), entries(calls), gives="started, ok", queue=" ".join(str(v) for v in items))


# -------------------------------------------------------------------- the limit of 65,536 bytes

# 11 bytes, refused 1: the longest entry that there is, so that few lines fill the input.
FILL = entries(f"enq {TOP} {TOP}")


def limits(c):
    start = numbers(1, 4)
    count = (LIMIT - len(start)) // len(FILL)
    fill = (count, FILL)
    room = LIMIT - len(start) - count * len(FILL)
    assert room == 7
    c.group("the last entry ends one byte before the limit; no byte is left")
    c.long(start, fill, entries("enq 0 5; run 0 3"), gives="refused 1, started, ok", queue="5")
    c.group("the last entry ends at the limit")
    whole = entries("enq 0 300; run 0 3")
    assert len(whole) == room
    c.long(start, fill, whole, gives="refused 1, started, ok", queue="300")
    c.group("bytes behind the limit do not count: 12 if they did, 10, 11, and good entries")
    for behind in (b"\x00", b"\x08", b"\x80", b"\x80\x00", entries("deq 0; run 0 3")):
        c.long(start, fill, whole, behind, gives="refused 1, started, ok", queue="300")
    c.long(start, fill, whole, (3000, b"\xff\x00"), gives="refused 1, started, ok", queue="300")
    c.group("an entry cut by the limit is refused 10: before its second operand, its first, inside a number")
    c.long(start, fill, entries("enq 0 5; step 0; run 0 3"), gives="started, more, refused 10")
    c.long(start, fill, entries("enq 0 5; run 0 2; step 0"), gives="started, more, refused 10")
    c.long(start, fill, entries(f"fenq 0 5; fenq 0 {2**28}"), gives="refused 1, future 0, refused 10")
    c.long(start, (count + 1, FILL), gives="refused 1, refused 10", queue="")
    c.group("the input ends there itself: the same")
    c.long(start, fill, entries("enq 0 5; step 0; run 0"), gives="started, more, refused 10")
    c.group("the last byte that counts decides: 12, and 11 in a number whose zero group stands there")
    c.long(start, fill, entries("enq 0 5; run 0 2"), b"\x08\x00", gives="started, more, refused 12")
    c.long(start, fill, entries("enq 0 5; enq 0"), b"\x80\x00\x05", gives="started, refused 11")
    c.group("32,767 entries of two bytes, up to the limit, and one byte more")
    c.long(start, (32767, entries("step 0")), gives="refused 3, refused 3")
    c.long(start, (32767, entries("step 0")), b"\x06", gives="refused 3, refused 3")
    c.group("as many, of which most are accepted: dequeues of nothing, step by step")
    steps = entries("deq 0; step 0; step 0")
    c.long(start, (10922, steps), entries("step 0"), gives="started, more, empty, refused 3", queue="")


# -------------------------------------------------------------------- pseudo-random


def some_schedule(numbers_, deferring):
    """Entries that meet each other in the middle of their calls; with `deferring`, whole rows of deferred
    calls, so that large batches go through."""
    machine = Machine(2 + numbers_.below(3), 6 + numbers_.below(30))
    data = numbers(len(machine.threads), machine.node_number)
    for _ in range(32 + numbers_.below(24)):
        entry = model.some_entry(numbers_, machine, 6)
        if deferring and entry[0] in (CODES["fenq"], CODES["fdeq"]) and machine.threads[0].next == "idle":
            for _ in range(numbers_.below(6)):
                more = [CODES["fenq"], 0, numbers_.below(400)] if numbers_.below(2) else [CODES["fdeq"], 0]
                machine.enter(*more)
                data += numbers(*more)
        machine.enter(*entry)
        data += numbers(*entry)
    return data


def broken(numbers_, data):
    """Some bytes changed, lost or added, or the end cut off."""
    data = bytearray(data)
    for _ in range(1 + numbers_.below(2)):
        # mostly behind the set-up
        place = numbers_.below(len(data)) if numbers_.below(8) == 0 else 2 + numbers_.below(len(data) - 2)
        way = numbers_.below(5)
        if way == 0:
            data[place] = numbers_.below(256)
        elif way == 1:
            data[place] ^= 0x80
        elif way == 2:
            del data[place]
        elif way == 3:
            data.insert(place, numbers_.below(256))
        else:
            del data[place:]
        if len(data) < 4:
            break
    return bytes(data)


def at_random(c):
    c.group("pseudo-random schedules")
    for k in range(50):
        c.case(some_schedule(Numbers(31000 + k), deferring=False))
    c.group("pseudo-random schedules with larger batches")
    for k in range(40):
        c.case(some_schedule(Numbers(32000 + k), deferring=True))
    c.group("pseudo-random schedules with damaged bytes")
    for k in range(45):
        numbers_ = Numbers(33000 + k)
        c.case(broken(numbers_, some_schedule(numbers_, deferring=k % 2 == 0)))
    c.group("pseudo-random bytes")
    for k in range(15):
        numbers_ = Numbers(34000 + k)
        start = numbers(1 + numbers_.below(8), 2 + numbers_.below(500)) if k % 4 else b""
        c.case(start + bytes(numbers_.below(numbers_.one_of((9, 9, 256))) for _ in range(4 + numbers_.below(60))))


# -------------------------------------------------------------------- all of it


def made():
    c = Corpus()
    for part in (files, set_ups, damaged, wrong_codes, values, answers, refusals, at_random, exhausted, limits):
        part(c)
    assert c.setups == {f"refused {n}" for n in (9, 10, 11)}, c.setups
    wanted = {"started", "future", "ok", "item", "empty", "more"}
    assert c.words == wanted | {f"refused {n}" for n in (1, 2, 3, 4, 5, 6, 7, 8, 10, 11, 12)}, c.words
    return c


def main():
    c = made()
    stdin = "".join(line + "\n" for line in c.stdin)
    stdout = "".join(c.stdout)
    CRATE.mkdir(parents=True, exist_ok=True)
    (CRATE / "stdin").write_text(stdin)
    (CRATE / "stdout").write_text(stdout)
    sizes = f"{len(stdin)} bytes of stdin, {len(stdout)} of stdout"
    print(f"{c.schedules} schedules, {c.lines} lines of listing, {sizes}")
    assert len(stdin) <= LIMIT and len(stdout) < 400000


if __name__ == "__main__":
    main()
