#!/usr/bin/env python3
"""Writes crates/machine_cases/stdin, scripts of entries for the machine of document 01, and
crates/machine_cases/stdout, what each entry has to give.

What is expected comes from tools/model.py, which is worked out from document 01 alone. Beside it most
scripts say here, step by step, what the access gives and how the call ends, so that the model and
these lines check each other; model.check() runs after every entry.

A line of stdin is one of
    # text      a comment, which stdout repeats
    0 T N       set-up with T threads and N nodes
    C a b       an entry with 01's code and operands
A line of stdout is, for a set-up, `machine T N` or `refused 9` (the machine before it then stays), and
for an entry
    PLACE WORD VALUE STEPS DEPTH NEXT |ITEMS
PLACE counts the entries from 0 since the last accepted set-up. WORD, VALUE, STEPS and DEPTH are those of
01's listing. NEXT is the step that the entry's thread would take next, `idle`, or `none` where there is
no such thread. ITEMS are the contents, oldest first, a blank before each.

    tools/machine_cases.py
"""

import sys
from pathlib import Path

sys.dont_write_bytecode = True

import model
from model import Machine, Numbers, Refused

CRATE = Path(__file__).resolve().parent.parent / "crates" / "machine_cases"
TOP = 2**32 - 1


class Player:
    """Turns lines of stdin into lines of stdout."""

    def __init__(self, slip=None):
        self.slip = slip
        self.machine = None
        self.place = 0
        self.answer = None

    def line(self, text):
        if text.startswith("#"):
            return text
        code, *operands = [int(word) for word in text.split(" ")]
        if code == 0:
            try:
                self.machine = Machine(*operands, slip=self.slip)
            except Refused as refusal:
                return f"refused {refusal.number}"
            self.place = 0
            return f"machine {operands[0]} {operands[1]}"
        self.answer = self.machine.enter(code, *operands)
        t = operands[0]
        threads = self.machine.threads
        following = threads[t].next if t < len(threads) else "none"
        shown = model.line_of(self.place, self.answer, self.machine.depth())
        self.place += 1
        return f"{shown} {following} |" + "".join(f" {v}" for v in self.machine.contents())


class Corpus:
    """The scripts in order. Each is built while the model runs it."""

    def __init__(self):
        self.stdin = []
        self.stdout = []
        self.player = Player()
        self.begins = []  # where each script begins in stdin
        self.slips = []  # (slip, number of the script that is to show it)
        self.entries = 0
        self.stepped = set()  # (step, outcome) of the entries with code 6
        self.refused = set()  # (code, refusal)

    # ---------------------------------------------------------------- lines

    def put(self, text):
        assert text.isascii() and len(text) < 160, text
        self.stdin.append(text)
        self.stdout.append(self.player.line(text))

    def script(self, *comment, slip=None):
        self.begins.append(len(self.stdin))
        if slip:
            self.slips.append((slip, len(self.begins) - 1))
        for text in comment:
            self.put(f"# {text}")

    def note(self, text):
        self.put(f"# {text}")

    def fresh(self, threads, nodes, wanted=None):
        self.put(f"0 {threads} {nodes}")
        assert self.stdout[-1] == (wanted or f"machine {threads} {nodes}")
        model.check(self.machine)

    @property
    def machine(self):
        return self.player.machine

    def following(self, t):
        return self.machine.threads[t].next

    def enter(self, code, *operands, gives=None):
        assert len(operands) == model.OPERANDS[code] and all(0 <= v <= TOP for v in operands)
        before = self.machine.state()
        taken = len(self.machine.events)
        self.put(" ".join(str(v) for v in (code, *operands)))
        self.entries += 1
        model.check(self.machine)
        answer = self.player.answer
        if code == 6:
            self.stepped.update(self.machine.events[taken:])
        if answer.word == "refused":
            self.refused.add((code, answer.value))
            assert before == self.machine.state()
        if gives is not None:
            assert said(answer) == gives, (operands, said(answer), gives)
        return answer

    # ---------------------------------------------------------------- entries

    def enqueue(self, t, v, gives="started"):
        return self.enter(1, t, v, gives=gives)

    def dequeue(self, t, gives="started"):
        return self.enter(2, t, gives=gives)

    def defer(self, t, letters, first=20):
        """One deferred call a letter, items from `first` on; the future numbers."""
        futures = []
        for letter in letters:
            if letter == "E":
                answer = self.enter(3, t, first)
                first += 1
            else:
                answer = self.enter(4, t)
            assert answer.word == "future"
            futures.append(answer.value)
        return futures

    def evaluate(self, t, f, gives="started"):
        return self.enter(5, t, f, gives=gives)

    def batch(self, t, letters, first=20, named=-1):
        """Deferred calls and Evaluate of one of them, the last if no other is said."""
        futures = self.defer(t, letters, first)
        self.evaluate(t, futures[named])
        return futures

    def steps(self, t, wanted, gives="more"):
        """Single Steps: `a3:taken a4` asks for the step a3 with that outcome, then for a4."""
        wanted = wanted.split()
        for index, word in enumerate(wanted):
            name, _, outcome = word.partition(":")
            assert self.following(t) == name, (self.following(t), word)
            self.enter(6, t, gives=gives if index == len(wanted) - 1 else "more")
            happened = self.machine.events[-1][1].replace(" ", "-")
            assert outcome in ("", happened), (word, happened)

    def to(self, t, name):
        """Single Steps until the next one would be this."""
        while self.following(t) != name:
            assert self.enter(6, t).word == "more"

    def out(self, t, gives=None):
        """Single Steps until the call ends."""
        while (answer := self.enter(6, t)).word == "more":
            pass
        assert gives is None or said(answer) == gives, (said(answer), gives)

    def run(self, t, gives=None, n=99, steps=None):
        answer = self.enter(7, t, n, gives=gives)
        assert steps is None or answer.steps == steps, (answer.steps, steps)
        return answer

    def filled(self, t, items):
        """Enqueues, each run to its end."""
        for v in items:
            self.enqueue(t, v)
            self.run(t, "ok", n=3, steps=3)

    def filled_at_once(self, t, items):
        """One batch of enqueues, or an Enqueue where it is one item."""
        *deferred, last = items
        for v in deferred:
            self.enter(3, t, v)
        self.enqueue(t, last)
        self.run(t, "ok", n=9, steps=8 if deferred else 3)

    def results(self, t, futures, gives=None):
        """Evaluate of done futures."""
        answers = [said(self.evaluate(t, f, gives=None)) for f in futures]
        assert gives is None or answers == gives.split(", "), (answers, gives)

    def holds(self, *items):
        assert self.machine.contents() == list(items), (self.machine.contents(), items)


def said(answer):
    return f"{answer.word} {answer.value}" if answer.word in ("item", "future", "refused") else answer.word


# -------------------------------------------------------------------- 01's own cases

EXAMPLE = bytes.fromhex("01 04 03 00 07 04 00 05 00 01 07 00 64")
EXAMPLE_LISTING = """bq 1 4
0 future 0 0 0
1 future 1 0 0
2 started 0 0 0
3 item 7 9 0
queue
"""


def own_cases(c):
    assert model.listing(EXAMPLE) == EXAMPLE_LISTING
    assert model.listing(b"") == "refused 10\n"
    c.script(
        "01, the worked example: the batch E D on an empty queue takes 9 steps,",
        "b1 b2 a1 a2 a3 a4 a5 a6 a7; z = 0 and s = 1, so a6 walks one node from the old tail",
    )
    c.fresh(1, 4)
    c.defer(0, "E", 7)
    c.defer(0, "D")
    c.evaluate(0, 1)
    c.run(0, "item 7", n=100, steps=9)
    c.script(
        "the worked example by single Steps; contents stay empty, since from a3 on the abstract head is",
        '"the head that a7 will set"; the depth is 1 from a5 to a7, since it takes the old head\'s count',
    )
    c.fresh(1, 4)
    c.batch(0, "ED", 7)
    c.steps(0, "b1:set b2:taken a1:set a2:none a3:taken a4:written a5:taken a6:set a7:taken", "item 7")
    c.results(0, [0, 1], "ok, item 7")

    c.script(
        '01, case 6: "From rest: Enqueue takes 3 steps, Dequeue 3, on an empty queue 2, a batch of one',
        'enqueue 8."',
    )
    c.fresh(1, 4)
    c.enqueue(0, 5)
    c.run(0, "ok", steps=3)
    c.dequeue(0)
    c.run(0, "item 5", steps=3)
    c.dequeue(0)
    c.run(0, "empty", steps=2)
    c.batch(0, "E", 6)
    c.run(0, "ok", steps=8)
    c.holds(6)
    c.script("01, case 6 by single Steps")
    c.fresh(1, 4)
    c.enqueue(0, 5)
    c.steps(0, "e1:set e2:taken e3:taken", "ok")
    c.dequeue(0)
    c.steps(0, "d1:set d2:set d3:taken", "item 5")
    c.dequeue(0)
    c.steps(0, "d1:set d2:none", "empty")
    c.batch(0, "E", 6)
    c.steps(0, "b1:set b2:taken a1:set a2:none a3:taken a4:written a5:taken a7:taken", "ok")

    c.script(
        '01, case 7: "e2 taken, then another thread dequeues that node: item given, head one node past the',
        'tail." The depth is 0, not negative; the next Dequeue finds nothing; then e3 moves the tail',
    )
    c.fresh(2, 4)
    c.enqueue(0, 5)
    c.steps(0, "e1 e2:taken")
    c.holds(5)
    c.dequeue(1)
    c.steps(1, "d1:set d2:set d3:taken", "item 5")
    assert c.machine.memory["head"] == model.Head(1, 1) and c.machine.memory["tail"] == model.Tail(0, 0)
    c.dequeue(1)
    c.steps(1, "d1:set d2:none", "empty")
    c.steps(0, "e3:taken", "ok")
    c.dequeue(1)
    c.run(1, "empty", steps=2)
    c.script("as case 7, and another Enqueue finds the tail behind the head: e5 catches it up")
    c.fresh(3, 4)
    c.enqueue(0, 5)
    c.steps(0, "e1 e2:taken")
    c.dequeue(1)
    c.run(1, "item 5", steps=3)
    c.enqueue(2, 6)
    c.steps(2, "e1:set e2:not-taken e4:set e5:taken e1:set e2:taken e3:taken", "ok")
    c.steps(0, "e3:not-taken", "ok")
    c.holds(6)

    c.script(
        '01, case 8: "Queue a. A batch DD reads to the end; another thread enqueues b; then q3 is taken.',
        'Results a and empty, contents b." Here a is 5 and b is 6',
    )
    c.fresh(2, 4)
    c.filled(1, [5])
    c.batch(0, "DD", named=0)
    c.steps(0, "q1:set q2:set q2:none")
    c.enqueue(1, 6)
    c.run(1, "ok", steps=3)
    c.steps(0, "q3:taken", "item 5")
    c.results(0, [0, 1], "item 5, empty")
    c.holds(6)

    c.script(
        '01, case 9: "Two nodes: the first Enqueue is accepted; a second, by another thread .. is refused 4."'
    )
    c.fresh(2, 2)
    c.enqueue(0, 5)
    c.enqueue(1, 6, "refused 4")
    c.run(0, "ok", steps=3)
    c.enqueue(1, 6, "refused 4")
    c.script('01, case 9: "a second .. once the first has ended, is refused 4"; a dequeued node does not come back')
    c.fresh(1, 2)
    c.enqueue(0, 5)
    c.run(0, "ok", steps=3)
    c.enqueue(0, 6, "refused 4")
    c.enter(3, 0, 6, gives="refused 4")
    c.dequeue(0)
    c.run(0, "item 5", steps=3)
    c.enqueue(0, 6, "refused 4")
    c.script('01, case 9: "The 33rd pending call: refused 6.", by each of the four codes that need a place')
    c.fresh(1, 40)
    c.defer(0, "D" * 32)
    c.enter(4, 0, gives="refused 6")
    c.enter(3, 0, 5, gives="refused 6")
    c.dequeue(0, "refused 6")
    c.enqueue(0, 5, "refused 6")
    c.evaluate(0, 31)
    c.run(0, "empty", steps=2)
    c.enter(4, 0, gives="future 32")
    c.script("32 pending, E and D in turn, in one batch; a 33rd is refused 6, and 4 where a node is missing too")
    c.fresh(1, 17)
    c.defer(0, "ED" * 16)
    c.enter(4, 0, gives="refused 6")
    c.enter(3, 0, 5, gives="refused 4")
    c.evaluate(0, 31)
    c.run(0, "item 35")
    c.results(0, [0, 1, 30], "ok, item 20, ok")
    c.holds()


# -------------------------------------------------------------------- every step, every outcome


def enqueue_steps(c):
    c.script("Enqueue on a queue of one: e1, e2 taken, e3 taken; item and contents change at e2, the depth at e3")
    c.fresh(1, 4)
    c.filled(0, [5])
    c.enqueue(0, 6)
    c.steps(0, "e1:set e2:taken e3:taken", "ok")
    c.script(
        "e2 not taken, e4 finds no announcement, e5 taken; so the e3 of the other thread is not taken,",
        'and its call ends all the same: "e3 CAS tail to the new node, count + 1; ends."',
    )
    c.fresh(2, 4)
    c.enqueue(0, 5)
    c.steps(0, "e1:set e2:taken")
    c.enqueue(1, 6)
    c.steps(1, "e1:set e2:not-taken e4:set e5:taken e1:set e2:taken e3:taken", "ok")
    c.steps(0, "e3:not-taken", "ok")
    c.holds(5, 6)
    c.script("e5 not taken: the other thread's e3 came first")
    c.fresh(2, 4)
    c.enqueue(0, 5)
    c.steps(0, "e1:set e2:taken")
    c.enqueue(1, 6)
    c.steps(1, "e1:set e2:not-taken e4:set")
    c.steps(0, "e3:taken", "ok")
    c.steps(1, "e5:not-taken e1:set e2:taken e3:taken", "ok")
    c.holds(5, 6)
    c.script("e2 not taken on a tail that is two nodes old: e5 must not set the tail back")
    c.fresh(2, 4)
    c.enqueue(0, 5)
    c.steps(0, "e1:set")
    c.filled(1, [6, 7])
    c.steps(0, "e2:not-taken e4:set e5:not-taken e1:set e2:taken e3:taken", "ok")
    c.holds(6, 7, 5)
    c.script("three Enqueues at the same tail: one e2 is taken, then one e5, then the others start again")
    c.fresh(3, 5)
    for t in range(3):
        c.enqueue(t, 5 + t)
    for t in range(3):
        c.steps(t, "e1:set")
    c.steps(1, "e2:taken")
    c.steps(0, "e2:not-taken e4:set")
    c.steps(2, "e2:not-taken e4:set e5:taken e1:set e2:taken")
    c.steps(0, "e5:not-taken e1:set e2:not-taken e4:set e5:taken e1:set e2:taken e3:taken", "ok")
    c.steps(1, "e3:not-taken", "ok")
    c.steps(2, "e3:not-taken", "ok")
    c.holds(6, 7, 5)
    c.script(
        "an announcement that is in the head but not linked does not hinder Enqueue: e2 is taken, e4 is not",
        "reached; the batch then stands after it in the order: a3 finds another node, a8 catches the tail up",
    )
    c.fresh(2, 5)
    c.batch(0, "ED")
    c.steps(0, "b1:set b2:taken a1:set a2:none")
    c.enqueue(1, 5)
    c.steps(1, "e1:set e2:taken")
    c.steps(0, "a3:another a8:taken a1:set a2:none a3:taken")
    c.steps(1, "e3:not-taken", "ok")
    c.steps(0, "a4:written a5:taken a7:taken", "item 5")
    c.holds(20)
    c.script("e4 finds an announcement whose batch is linked: the helper writes the old tail and moves the tail")
    c.fresh(2, 5)
    c.batch(0, "EE")
    c.steps(0, "b1:set b2:taken a1:set a2:none a3:taken")
    c.enqueue(1, 5)
    c.steps(1, "e1:set e2:not-taken e4:announcement a1:set a2:none a3:its-first a4:written a5:taken a7:taken")
    c.steps(1, "e1:set e2:taken e3:taken", "ok")
    c.steps(0, "a4:written a5:not-taken a7:not-taken", "ok")
    c.holds(20, 21, 5)
    c.script("items 0 and 4294967295: all values are allowed")
    c.fresh(1, 5)
    c.filled(0, [0, TOP])
    c.batch(0, "DEED", TOP - 1)
    c.run(0, f"item {TOP}")
    c.results(0, [0, 1, 2, 3], f"item 0, ok, ok, item {TOP}")
    c.holds(TOP - 1, TOP)


def dequeue_steps(c):
    c.script("Dequeue on a queue of two: d1, d2, d3 taken; then on none: d2 finds none")
    c.fresh(1, 4)
    c.filled(0, [5, 6])
    for wanted in ("item 5", "item 6"):
        c.dequeue(0)
        c.steps(0, "d1:set d2:set d3:taken", wanted)
    c.dequeue(0)
    c.steps(0, "d1:set d2:none", "empty")
    c.script("d3 not taken: another Dequeue came first; the next item, and for a third thread nothing")
    c.fresh(3, 4)
    c.filled(0, [5, 6])
    for t in range(3):
        c.dequeue(t)
        c.steps(t, "d1:set d2:set")
    c.steps(1, "d3:taken", "item 5")
    c.steps(0, "d3:not-taken d1:set d2:set d3:taken", "item 6")
    c.steps(2, "d3:not-taken d1:set d2:none", "empty")
    c.script('"empty" is decided at d2: an Enqueue between d1 and d2 is seen, one after d2 is not')
    c.fresh(3, 4)
    c.dequeue(0)
    c.dequeue(1)
    c.steps(0, "d1:set")
    c.steps(1, "d1:set d2:none", "empty")
    c.enqueue(2, 5)
    c.steps(2, "e1:set e2:taken")
    c.steps(0, "d2:set d3:taken", "item 5")
    c.steps(2, "e3:taken", "ok")
    c.script("d3 not taken because an announcement is in the head; d1 meets it and runs it")
    c.fresh(2, 6)
    c.filled(1, [5, 6])
    c.dequeue(1)
    c.steps(1, "d1:set d2:set")
    c.batch(0, "ED")
    c.steps(0, "b1:set b2:taken")
    c.steps(1, "d3:not-taken d1:announcement a1:set a2:none a3:taken a4:written a5:taken a6:set a7:taken")
    c.steps(1, "d1:set d2:set d3:taken", "item 6")
    c.steps(0, "a1:set a2:set a5:not-taken a6:set a7:not-taken", "item 5")
    c.holds(20)
    c.script(
        "d3 taken although an announcement came and went meanwhile: a batch of enqueues has s = 0,",
        '"s = 0: the old head goes back", node and count, so the head is what d1 read',
    )
    c.fresh(2, 6)
    c.filled(1, [5])
    c.dequeue(1)
    c.steps(1, "d1:set d2:set")
    c.batch(0, "EE")
    c.run(0, "ok", steps=8)
    c.steps(1, "d3:taken", "item 5")
    c.holds(20, 21)
    c.script("d3 not taken: an announcement came and went and took the item along")
    c.fresh(2, 6)
    c.filled(1, [5])
    c.dequeue(1)
    c.steps(1, "d1:set d2:set")
    c.batch(0, "DE")
    c.run(0, "ok")
    c.steps(1, "d3:not-taken d1:set d2:set d3:taken", "item 20")
    c.results(0, [0], "item 5")


def batch_steps(c):
    c.script("b1, b2 taken, and b2 not taken because a Dequeue moved the head; b1 reads it again")
    c.fresh(2, 6)
    c.filled(1, [5, 6])
    c.batch(0, "DE")
    c.steps(0, "b1:set")
    c.dequeue(1)
    c.run(1, "item 5", steps=3)
    c.steps(0, "b2:not-taken b1:set b2:taken")
    c.run(0, "ok", steps=6)
    c.results(0, [0], "item 6")
    c.holds(20)
    c.script("b2 not taken because another announcement is in the head; b1 meets it, runs it and goes back to b1")
    c.fresh(2, 6)
    c.batch(0, "EED", 20)
    c.batch(1, "DE", 30, named=0)
    c.steps(0, "b1:set")
    c.steps(1, "b1:set b2:taken")
    c.steps(0, "b2:not-taken b1:announcement a1:set a2:none a3:taken a4:written a5:taken a7:taken")
    c.steps(0, "b1:set b2:taken")
    c.note("the other owner is late: the head holds another announcement, so its a7 is not taken")
    c.steps(1, "a1:set a2:set a5:not-taken a7:not-taken", "empty")
    c.steps(0, "a1:set a2:none a3:taken a4:written a5:taken a7:taken", "item 30")
    c.holds(20, 21)
    c.script("b2 taken although another batch of enqueues came and went since b1: the old head went back")
    c.fresh(2, 6)
    c.batch(0, "ED", 20)
    c.steps(0, "b1:set")
    c.batch(1, "EE", 30)
    c.run(1, "ok", steps=8)
    c.steps(0, "b2:taken a1:set a2:none a3:taken a4:written a5:taken a6:set a7:taken", "item 30")
    c.holds(31, 20)
    c.script("a batch's nodes need not stand in number order beside each other: two threads defer in turn")
    c.fresh(2, 8)
    f = [c.defer(t % 2, "E", 20 + t)[0] for t in range(6)]
    c.evaluate(1, f[1])
    c.run(1, "ok", steps=8)
    c.evaluate(0, f[0])
    c.run(0, "ok", steps=8)
    c.holds(21, 23, 25, 20, 22, 24)
    c.script("b2 not taken twice, once for a Dequeue and once for a batch of dequeues only")
    c.fresh(2, 8)
    c.filled(1, [5, 6, 7])
    c.batch(0, "E")
    c.steps(0, "b1:set")
    c.dequeue(1)
    c.run(1, "item 5")
    c.steps(0, "b2:not-taken b1:set")
    c.batch(1, "D")
    c.run(1, "item 6", steps=3)
    c.steps(0, "b2:not-taken b1:set b2:taken")
    c.run(0, "ok", steps=6)
    c.holds(7, 20)


def dequeues_only_steps(c):
    c.script("batch of dequeues only on a longer queue: q2 once per pending dequeue, none is met, q3 taken")
    c.fresh(1, 6)
    c.filled(0, [5, 6, 7])
    c.batch(0, "DD", named=0)
    c.steps(0, "q1:set q2:set q2:set q3:taken", "item 5")
    c.results(0, [1], "item 6")
    c.holds(7)
    c.script("q2 finds none at the first node: \"No node found: ends.\"")
    c.fresh(1, 2)
    c.batch(0, "DDD")
    c.steps(0, "q1:set q2:none", "empty")
    c.results(0, [0, 1, 2], "empty, empty, empty")
    c.script("q2 finds none at a later node: q3 takes the head past the s nodes found, the rest are empty")
    c.fresh(1, 6)
    c.filled(0, [5, 6])
    c.batch(0, "DDDD")
    c.steps(0, "q1:set q2:set q2:set q2:none q3:taken", "empty")
    c.results(0, [0, 1, 2, 3], "item 5, item 6, empty, empty")
    c.script("exactly as many pending dequeues as items: no read finds none")
    c.fresh(1, 6)
    c.filled(0, [5, 6])
    c.batch(0, "DD")
    c.steps(0, "q1:set q2:set q2:set q3:taken", "item 6")
    c.script("q3 not taken: a Dequeue moved the head; the second round starts at the head as it is then")
    c.fresh(2, 6)
    c.filled(1, [5, 6])
    c.batch(0, "DD", named=0)
    c.steps(0, "q1:set q2:set q2:set")
    c.dequeue(1)
    c.run(1, "item 5")
    c.steps(0, "q3:not-taken q1:set q2:set q2:none q3:taken", "item 6")
    c.results(0, [0, 1], "item 6, empty")
    c.script("q3 not taken and the second round finds nothing: the call ends without q3")
    c.fresh(2, 6)
    c.filled(1, [5])
    c.batch(0, "DD", named=0)
    c.steps(0, "q1:set q2:set")
    c.dequeue(1)
    c.run(1, "item 5")
    c.steps(0, "q2:none q3:not-taken q1:set q2:none", "empty")
    c.results(0, [0, 1], "empty, empty")
    c.script("q3 not taken because an announcement is in the head; q1 meets it and runs it")
    c.fresh(2, 6)
    c.filled(1, [5])
    c.batch(1, "DD", named=0)
    c.steps(1, "q1:set q2:set q2:none")
    c.batch(0, "E")
    c.steps(0, "b1:set b2:taken")
    c.steps(1, "q3:not-taken q1:announcement a1:set a2:none a3:taken a4:written a5:taken a7:taken")
    c.steps(1, "q1:set q2:set q2:set q3:taken", "item 5")
    c.steps(0, "a1:set a2:set a5:not-taken a7:not-taken", "ok")
    c.results(1, [1], "item 20")
    c.script(
        "q3 taken although a batch of enqueues came and went after the last read: the old head went back;",
        'the batch DD "may stand before enqueues that were linked meanwhile"',
    )
    c.fresh(2, 6)
    c.filled(1, [5])
    c.batch(1, "DD", named=0)
    c.steps(1, "q1:set q2:set q2:none")
    c.batch(0, "EE")
    c.run(0, "ok", steps=8)
    c.steps(1, "q3:taken", "item 5")
    c.results(1, [1], "empty")
    c.holds(20, 21)
    c.script("an Enqueue between two q2 reads is seen by the second")
    c.fresh(2, 6)
    c.filled(1, [5])
    c.batch(0, "DD", named=1)
    c.steps(0, "q1:set q2:set")
    c.enqueue(1, 6)
    c.steps(1, "e1:set e2:taken")
    c.steps(0, "q2:set q3:taken", "item 6")
    c.note("the head is one node past the tail; e3 then moves the tail")
    c.steps(1, "e3:taken", "ok")
    c.holds()
    c.script("two batches of dequeues only on the same items: the second q3 is not taken")
    c.fresh(2, 6)
    c.filled(1, [5, 6, 7])
    c.batch(0, "DD")
    c.batch(1, "DD")
    c.steps(0, "q1:set q2:set q2:set")
    c.steps(1, "q1:set q2:set q2:set q3:taken", "item 6")
    c.steps(0, "q3:not-taken q1:set q2:set q2:none q3:taken", "empty")
    c.results(0, [0, 1], "item 7, empty")
    c.results(1, [2, 3], "item 5, item 6")


def running_steps(c):
    c.script("a3 finds its own first node: another thread linked it; the thread goes on at a4 with its own tail read")
    c.fresh(2, 6)
    c.batch(0, "EE")
    c.steps(0, "b1:set b2:taken a1:set a2:none")
    c.dequeue(1)
    c.steps(1, "d1:announcement a1:set a2:none a3:taken")
    c.steps(0, "a3:its-first a4:written a5:taken")
    c.steps(1, "a4:written a5:not-taken a7:taken d1:set d2:set d3:taken", "item 20")
    c.steps(0, "a7:not-taken", "ok")
    c.holds(21)
    c.script("a2 finds the old tail set: a5 next, a3 and a4 are left out; then a5 taken by the late one")
    c.fresh(2, 6)
    c.batch(0, "EE")
    c.steps(0, "b1:set b2:taken a1:set a2:none a3:taken a4:written")
    c.dequeue(1)
    c.steps(1, "d1:announcement a1:set a2:set a5:taken a7:taken d1:set d2:set d3:taken", "item 20")
    c.steps(0, "a5:not-taken a7:not-taken", "ok")
    c.script("a3 finds another node, a8 taken; the Enqueue that was caught up has its e3 not taken")
    c.fresh(2, 6)
    c.enqueue(1, 5)
    c.steps(1, "e1:set e2:taken")
    c.batch(0, "DE")
    c.steps(0, "b1:set b2:taken a1:set a2:none a3:another a8:taken a1:set a2:none a3:taken a4:written")
    c.steps(0, "a5:taken a7:taken", "ok")
    c.steps(1, "e3:not-taken", "ok")
    c.results(0, [0], "item 5")
    c.holds(20)
    c.script("a8 not taken: the e3 of the Enqueue came first")
    c.fresh(2, 6)
    c.enqueue(1, 5)
    c.steps(1, "e1:set e2:taken")
    c.batch(0, "DE")
    c.steps(0, "b1:set b2:taken a1:set a2:none a3:another")
    c.steps(1, "e3:taken", "ok")
    c.steps(0, "a8:not-taken a1:set a2:none a3:taken a4:written a5:taken a7:taken", "ok")
    c.results(0, [0], "item 5")
    c.script("a8 not taken: another that runs the announcement caught the tail up and linked the batch")
    c.fresh(3, 6)
    c.enqueue(1, 5)
    c.steps(1, "e1:set e2:taken")
    c.batch(0, "DE")
    c.steps(0, "b1:set b2:taken a1:set a2:none a3:another")
    c.dequeue(2)
    c.steps(2, "d1:announcement a1:set a2:none a3:another a8:taken a1:set a2:none a3:taken")
    c.steps(0, "a8:not-taken a1:set a2:none a3:its-first a4:written a5:taken a7:taken", "ok")
    c.out(2, "item 20")
    c.steps(1, "e3:not-taken", "ok")
    c.script("Enqueue, by e5, catches the tail up between a1 and a3 of a batch that is in the head")
    c.fresh(3, 8)
    c.enqueue(1, 5)
    c.steps(1, "e1:set e2:taken")
    c.enqueue(2, 6)
    c.steps(2, "e1:set e2:not-taken e4:set")
    c.batch(0, "EDD")
    c.steps(0, "b1:set b2:taken a1:set a2:none")
    c.steps(2, "e5:taken e1:set e2:taken")
    c.steps(0, "a3:another a8:not-taken a1:set a2:none a3:another")
    c.steps(2, "e3:taken", "ok")
    c.steps(0, "a8:not-taken a1:set a2:none a3:taken a4:written a5:taken a7:taken", "item 6")
    c.steps(1, "e3:not-taken", "ok")
    c.results(0, [0, 1, 2], "ok, item 5, item 6")
    c.holds(20)
    for letters, wanted in (("DE", "empty"), ("ED", "item 20")):
        c.script(
            f"batch {letters} put in the head while that is one node past the tail: the tail's count less the old",
            "head's is -1 and the depth 0; a8 catches the tail up before a3 is taken, so z = 0",
        )
        c.fresh(3, 6)
        half_enqueue(c, 1, 5)
        c.dequeue(2)
        c.run(2, "item 5")
        c.batch(0, letters, named=letters.index("D"))
        c.steps(0, "b1:set b2:taken a1:set a2:none a3:another a8:taken a1:set a2:none a3:taken a4:written a5:taken")
        c.run(0, wanted)
        c.run(1, "ok", steps=1)
    c.script("a5 not taken and a7 taken, a5 taken and a7 not taken: owner and helper in turn")
    c.fresh(2, 6)
    c.filled(1, [5])
    c.batch(0, "EED")
    c.to(0, "a5")
    c.dequeue(1)
    c.to(1, "a5")
    c.steps(1, "a5:taken")
    c.steps(0, "a5:not-taken a7:taken", "item 5")
    c.steps(1, "a7:not-taken d1:set d2:set d3:taken", "item 20")
    c.holds(21)


# -------------------------------------------------------------------- helping

KINDS = {
    "Enqueue": "e4",
    "Dequeue": "d1",
    "batch with an enqueue": "b1",
    "batch of dequeues only": "q1",
}


def start_call(c, t, kind, first=50):
    if kind == "Enqueue":
        c.enqueue(t, first)
    elif kind == "Dequeue":
        c.dequeue(t)
    elif kind == "batch with an enqueue":
        c.batch(t, "DED", first)
    else:
        c.batch(t, "DD", first)


def half_enqueue(c, t, v):
    """An Enqueue that has linked its node and not moved the tail, so that the next e2 is not taken."""
    c.enqueue(t, v)
    c.steps(t, "e1 e2:taken")


def helping(c):
    stages = (
        ("a1", "just put in the head"),
        ("a4", "linked, its old tail not written"),
        ("a5", "its old tail written, the tail not moved"),
        ("a6", "the tail moved"),
        ("a7", "walked by its owner"),
    )
    for kind, meets in KINDS.items():
        c.note(f"helping: {kind} meets an announcement at {meets}, runs it to its a7 and goes back to its own call")
        for stage, words in stages:
            c.script(f"announcement {words}")
            c.fresh(4, 14)
            c.filled_at_once(3, [10, 11, 12])
            futures = c.batch(0, "DEED")
            c.to(0, stage)
            if kind == "Enqueue" and stage not in ("a4", "a5"):
                half_enqueue(c, 3, 40)
            start_call(c, 1, kind)
            c.to(1, "a1")
            assert c.machine.events[-1] == (meets, "announcement")
            c.to(1, {"Enqueue": "e1"}.get(kind, meets))
            c.out(1)
            c.run(0)
            c.results(0, [futures[0]], "item 10")
            if c.following(3) != "idle":
                c.run(3, "ok")


def late_helpers(c):
    stops = ("a1", "a2", "a3", "a4", "a5", "a6", "a7", "a8")
    wakes = {
        "its owner has ended": ("Dequeue",),
        "its owner has ended and further calls have moved head and tail on": tuple(KINDS),
        "another helper has finished it, its owner asleep": ("Enqueue",),
        "its owner has ended and another announcement is in the head": ("batch of dequeues only",),
    }
    turn = 0
    for wake, kinds in wakes.items():
        for kind in kinds:
            c.note(f"late: {kind} stops in the run of an announcement just before each of a1 to a8 and wakes when")
            c.note(f"{wake}; no CAS of that run may be taken then")
            for stop in stops:
                turn += 1
                c.script(f"late, before {stop}")
                late_helper(c, kind, stop, wake, turn)


def late_helper(c, kind, stop, wake, turn):
    c.fresh(4, 20)
    # in turn: z > s, the walk is from the old head; s > z, it is from the old tail
    if (turn + (turn - 1) // 8) % 2:
        c.filled_at_once(3, [10, 11, 12])
        letters = "DDEE"
    else:
        c.filled(3, [10])
        letters = "EEDDDE"
    futures = c.batch(0, letters)
    c.steps(0, "b1:set b2:taken")
    if kind == "Enqueue" or stop == "a8":
        half_enqueue(c, 3, 40)
    start_call(c, 1, kind)
    c.to(1, stop)
    if wake.startswith("its owner"):
        c.run(0)
    if "further calls" in wake:
        c.dequeue(2)
        c.run(2)
        c.defer(2, "E", 60)
        c.dequeue(2)
        c.run(2)
        c.enqueue(2, 61)
        c.run(2, "ok", n=9)
    if "another helper" in wake:
        c.dequeue(2)
        c.run(2)
    if "another announcement" in wake:
        c.batch(2, "ED", 60)
        c.steps(2, "b1:set b2:taken")
    stale = len(c.machine.events)
    c.to(1, "e1" if kind == "Enqueue" else KINDS[kind])
    assert not {("a3", "taken"), ("a5", "taken"), ("a7", "taken"), ("a8", "taken")} & set(c.machine.events[stale:])
    c.out(1)
    for t in (0, 2, 3):
        if c.following(t) != "idle":
            c.run(t)
    c.results(0, [futures[letters.index("D")]], "item 10")


def interleaved(c):
    patterns = (
        ("one step each in turn, the owner first", (0, 1, 2)),
        ("one step each in turn, the owner last", (2, 1, 0)),
        ("the owner two steps for one of each helper", (0, 0, 1, 2)),
        ("the first helper two steps ahead of the others each time", (1, 1, 0, 2)),
        ("the second helper three steps for one of the others", (2, 2, 2, 1, 0)),
        ("the owner in the middle, in turn", (1, 0, 2, 2, 0, 1)),
    )
    calls = (("Dequeue", "Enqueue"), ("batch with an enqueue", "Dequeue"), ("batch of dequeues only", "Enqueue"))
    for index, (words, pattern) in enumerate(patterns):
        kinds = calls[index % 3]
        c.script(f"owner and two helpers ({kinds[0]}, {kinds[1]}) on one announcement: {words}")
        c.fresh(4, 16)
        c.filled(3, [10, 11] if index < 3 else [])
        futures = c.batch(0, "EDDE")
        c.steps(0, "b1 b2:taken")
        half_enqueue(c, 3, 40)
        start_call(c, 1, kinds[0], 50)
        start_call(c, 2, kinds[1], 60)
        while any(c.following(t) != "idle" for t in range(3)):
            for t in pattern:
                if c.following(t) != "idle":
                    c.enter(6, t)
        c.run(3, "ok")
        c.results(0, futures)


# -------------------------------------------------------------------- refusals


def refusals(c):
    c.script('set-up out of range is refused 9: "1 to 8 threads; 2 to 512 nodes, the dummy among them"')
    c.fresh(1, 2)
    c.fresh(8, 512)
    for threads, nodes in ((0, 2), (9, 2), (1, 1), (1, 0), (1, 513), (0, 0), (9, 513), (TOP, 2), (1, TOP)):
        c.fresh(threads, nodes, "refused 9")
    c.script("a refused set-up leaves the machine before it as it was, and its places go on")
    c.fresh(1, 3)
    c.enqueue(0, 5)
    c.steps(0, "e1")
    c.fresh(9, 3, "refused 9")
    c.steps(0, "e2:taken")
    c.fresh(1, 513, "refused 9")
    c.steps(0, "e3:taken", "ok")
    c.holds(5)

    c.script('refusal 1, "t is not below the thread count", at every code, before all others')
    c.fresh(1, 2)
    every_code(c, 1, "refused 1")
    every_code(c, TOP, "refused 1")
    c.note("the same with no node left and the only thread in a call")
    c.enqueue(0, 5)
    every_code(c, 1, "refused 1")
    c.run(0, "ok")
    c.script("refusal 1: eight threads are numbered 0 to 7")
    c.fresh(8, 2)
    c.dequeue(7)
    c.run(7, "empty")
    every_code(c, 8, "refused 1")

    c.script(
        'refusal 2, "codes 1 to 5, and t is in a call", for each kind of call; it comes before 8, and before 4,',
        "as no node is left",
    )
    c.fresh(4, 2)
    c.enqueue(0, 5)
    c.dequeue(1)
    c.batch(2, "D")
    busy_codes(c, 0)
    busy_codes(c, 1)
    busy_codes(c, 2)
    c.steps(0, "e1")
    busy_codes(c, 0)
    c.note("other threads are not touched by it")
    c.enqueue(3, 5, "refused 4")
    c.evaluate(3, 0, "refused 8")
    c.note("once the call has ended the same entries go through or meet the next reason")
    c.run(0, "ok")
    c.enqueue(0, 6, "refused 4")
    c.evaluate(0, 0, "refused 8")
    c.enter(4, 0, gives="future 1")
    c.run(1, "item 5")
    c.run(2, "empty")
    c.script("refusal 2 in a batch with an enqueue and while running another's announcement; done futures too")
    c.fresh(2, 8)
    done = c.batch(1, "E", 30)
    c.run(1, "ok")
    own = c.batch(0, "ED")
    busy_codes(c, 0)
    c.evaluate(0, own[0], "refused 2")
    c.steps(0, "b1:set b2:taken")
    c.dequeue(1)
    c.steps(1, "d1:announcement")
    busy_codes(c, 1)
    c.evaluate(1, done[0], "refused 2")
    c.run(1)
    c.run(0)

    c.script('refusal 3, "codes 6, 7, and t is idle", on a fresh thread, with pending operations, after a call')
    c.fresh(2, 4)
    for n in (0, 1, 99, TOP):
        c.enter(7, 0, n, gives="refused 3")
    c.enter(6, 0, gives="refused 3")
    c.defer(0, "ED")
    c.enter(6, 0, gives="refused 3")
    c.enter(7, 0, 0, gives="refused 3")
    c.enter(7, 0, 5, gives="refused 3")
    c.note("a call of another thread does not help; an own one does, until it has ended")
    c.dequeue(1)
    c.enter(6, 0, gives="refused 3")
    c.evaluate(0, 1)
    c.enter(7, 0, 0, gives="more")
    c.run(0, "item 20", steps=9)
    c.enter(6, 0, gives="refused 3")
    c.enter(7, 0, 0, gives="refused 3")
    c.run(1, "empty")

    c.script(
        'refusal 4, "a node is needed and none is left": Enqueue with nothing pending and with something,',
        "FutureEnqueue. Dequeue and FutureDequeue need none. It takes no future: the next number is 1",
    )
    c.fresh(3, 2)
    c.enter(3, 0, 5, gives="future 0")
    c.enter(3, 0, 6, gives="refused 4")
    c.enqueue(0, 6, "refused 4")
    c.enqueue(1, 6, "refused 4")
    c.enter(3, 1, 6, gives="refused 4")
    c.enter(4, 1, gives="future 1")
    c.enqueue(1, 6, "refused 4")
    c.dequeue(2)
    c.run(2, "empty")
    c.evaluate(0, 0)
    c.run(0, "ok", steps=8)
    c.evaluate(1, 1)
    c.run(1, "item 5", steps=3)
    c.script("refusal 4 takes no pending place and sets nothing off: the batch is the one that was pending before")
    c.fresh(1, 3)
    c.defer(0, "DEE")
    c.enqueue(0, 7, "refused 4")
    c.enter(3, 0, 7, gives="refused 4")
    c.enter(6, 0, gives="refused 3")
    c.dequeue(0)
    c.run(0, "item 20")
    c.results(0, [0, 1, 2, 3], "empty, ok, ok, item 20")
    c.holds(21)

    c.script(
        'refusal 8, "f was not handed out, or belongs to another thread": before anything is handed out, the next',
        "number, the largest; another's pending and another's done future; after the reason is gone, none",
    )
    c.fresh(2, 6)
    for f in (0, 1, 511, 512, TOP):
        c.evaluate(0, f, "refused 8")
    c.enter(3, 1, 5, gives="future 0")
    c.evaluate(0, 0, "refused 8")
    c.evaluate(0, 1, "refused 8")
    c.enter(4, 0, gives="future 1")
    c.evaluate(0, 0, "refused 8")
    c.evaluate(1, 1, "refused 8")
    c.evaluate(1, 0)
    c.evaluate(0, 0, "refused 8")
    c.run(1, "ok")
    c.evaluate(0, 0, "refused 8")
    c.evaluate(0, 2, "refused 8")
    c.evaluate(0, 1)
    c.evaluate(0, 0, "refused 2")
    c.run(0, "item 5")
    c.evaluate(1, 1, "refused 8")
    c.evaluate(0, 1, "item 5")
    c.evaluate(1, 0, "ok")


def every_code(c, t, gives):
    for code in range(1, 8):
        c.enter(*[code, t, 0][: 1 + model.OPERANDS[code]], gives=gives)


def busy_codes(c, t):
    c.enqueue(t, 9, "refused 2")
    c.dequeue(t, "refused 2")
    c.enter(3, t, 9, gives="refused 2")
    c.enter(4, t, gives="refused 2")
    c.evaluate(t, TOP, "refused 2")


def single_calls_with_pending(c):
    c.script(
        '"With pending operations, Enqueue and Dequeue first add themselves as a deferred call .., then act as',
        'Evaluate of it." Enqueue after D: one batch D E; it takes future 1, so the next number is 2, and future 1',
        "may be named once done",
    )
    c.fresh(1, 6)
    c.defer(0, "D")
    c.enqueue(0, 5)
    c.steps(0, "b1:set b2:taken a1:set a2:none a3:taken a4:written a5:taken a7:taken", "ok")
    c.results(0, [0, 1], "empty, ok")
    c.enter(4, 0, gives="future 2")
    c.holds(5)
    c.script("Dequeue after D: a batch of dequeues only, with the single call's own result")
    c.fresh(1, 6)
    c.filled(0, [5])
    c.defer(0, "D")
    c.dequeue(0)
    c.steps(0, "q1:set q2:set q2:none q3:taken", "empty")
    c.results(0, [0, 1], "item 5, empty")
    c.evaluate(0, 2, "refused 8")
    c.script("Dequeue after E: a batch with an enqueue")
    c.fresh(1, 6)
    c.defer(0, "E", 5)
    c.dequeue(0)
    c.steps(0, "b1 b2 a1 a2 a3 a4 a5 a6 a7", "item 5")
    c.results(0, [0, 1], "ok, item 5")
    c.script("Enqueue after E E: one batch E E E, the single call's item last")
    c.fresh(1, 6)
    c.defer(0, "EE", 5)
    c.enqueue(0, 9)
    c.run(0, "ok", steps=8)
    c.holds(5, 6, 9)
    c.results(0, [0, 1, 2], "ok, ok, ok")
    c.note("nothing is pending now: Enqueue takes 3 steps, no future and no announcement")
    c.filled(0, [10])
    c.enter(4, 0, gives="future 3")
    c.script("after such a call the tally is cleared too: the excess of the first batch does not count in the second")
    c.fresh(1, 8)
    c.defer(0, "DDD")
    c.enqueue(0, 5)
    c.run(0, "ok")
    c.batch(0, "ED", 6)
    c.run(0, "item 5")
    c.holds(6)
    c.script("the answer that ends a batch's call is the result of the future named, not of the last")
    for named, wanted in ((0, "empty"), (1, "ok"), (2, "item 5")):
        c.fresh(1, 8)
        c.batch(0, "DED", 5, named=named)
        c.run(0, wanted, steps=9)
    c.script(
        '"Evaluate of a done future end[s] at once": it takes no step, sets nothing off and leaves what is pending',
        "as it is",
    )
    c.fresh(1, 8)
    c.batch(0, "ED", 5)
    c.run(0, "item 5")
    c.enter(3, 0, 7, gives="future 2")
    c.evaluate(0, 0, "ok")
    c.evaluate(0, 1, "item 5")
    c.enter(6, 0, gives="refused 3")
    c.holds()
    c.evaluate(0, 2)
    c.run(0, "ok", steps=8)
    c.holds(7)
    c.script("pending operations are one thread's own: single calls of another are not batches")
    c.fresh(2, 8)
    c.defer(0, "EED", 5)
    c.enqueue(1, 9)
    c.run(1, "ok", steps=3)
    c.dequeue(1)
    c.run(1, "item 9", steps=3)
    c.dequeue(0)
    c.run(0, "item 6")
    c.script("refusal 6 takes neither node nor future nor place; after Evaluate the same entries go through")
    c.fresh(2, 5)
    c.defer(0, "E" + "D" * 31)
    c.enqueue(0, 5, "refused 6")
    c.dequeue(0, "refused 6")
    c.enter(3, 0, 5, gives="refused 6")
    c.enter(4, 0, gives="refused 6")
    c.evaluate(0, 1)
    c.run(0, "item 20")
    c.enter(3, 0, 5, gives="future 32")
    c.enqueue(0, 6)
    c.run(0, "ok")
    c.enter(4, 0, gives="future 34")
    c.holds(5, 6)
    c.filled(1, [7])
    c.enqueue(1, 8, "refused 4")
    c.script("the 32nd pending place may be taken by a single call")
    c.fresh(1, 4)
    c.filled(0, [5, 6])
    c.defer(0, "D" * 31)
    c.dequeue(0)
    c.run(0, "empty", steps=5)
    c.results(0, [0, 1, 2, 31], "item 5, item 6, empty, empty")


def exhausted(c):
    c.script(
        "no announcement left: 64 batches E D, by FutureEnqueue and Dequeue, use 64 announcements. 7 is given",
        'where "the call sets off a batch with an enqueue and no announcement is left"',
    )
    c.fresh(5, 70)
    for k in range(62):
        c.enter(3, 0, k, gives=f"future {2 * k}")
        c.dequeue(0)
        c.run(0, f"item {k}", n=9, steps=9)
    c.note("the announcement is handed out by the entry that sets the batch off, not at b2: both are out before b2")
    c.enter(3, 0, 62, gives="future 124")
    c.enter(3, 4, 63, gives="future 125")
    c.enter(3, 1, 5, gives="future 126")
    c.dequeue(0)
    c.dequeue(4)
    c.evaluate(1, 126, "refused 7")
    c.run(4, "item 63", steps=9)
    c.evaluate(1, 126, "refused 7")
    c.run(0, "item 62", steps=9)
    c.note("codes 5, 1 and 2 of a thread with a pending enqueue")
    c.evaluate(1, 126, "refused 7")
    c.enqueue(1, 6, "refused 7")
    c.dequeue(1, "refused 7")
    c.note("8 comes before 7")
    c.evaluate(1, 0, "refused 8")
    c.evaluate(1, 129, "refused 8")
    c.note("nothing was used up: the next future is 129; it can only defer now")
    c.enter(4, 1, gives="future 129")
    c.evaluate(1, 129, "refused 7")
    c.note("Evaluate of a done future never gives 7, whatever is pending")
    c.enter(3, 0, 7, gives="future 130")
    c.evaluate(0, 0, "ok")
    c.evaluate(0, 127, "item 62")
    c.evaluate(4, 128, "item 63")
    c.evaluate(0, 130, "refused 7")
    c.note("single calls with nothing pending and batches of dequeues only go on")
    c.filled(2, [8])
    c.defer(2, "D")
    c.dequeue(2)
    c.run(2, "empty", steps=4)
    c.results(2, [131], "item 8")
    c.note("6 comes before 7, with 32 pending and an enqueue among them")
    c.defer(3, "E" + "D" * 31, 9)
    c.enqueue(3, 6, "refused 6")
    c.dequeue(3, "refused 6")
    c.evaluate(3, 133, "refused 7")
    c.note("70 nodes: one is left, so the refused Enqueues took none; then 4 comes before 6 and before 7")
    c.filled(4, [10])
    c.enqueue(4, 11, "refused 4")
    c.enqueue(1, 11, "refused 4")
    c.enqueue(3, 11, "refused 4")
    c.enter(3, 3, 11, gives="refused 4")
    c.dequeue(3, "refused 6")
    c.dequeue(1, "refused 7")

    c.script(
        "the last node, 511, the last future, 511, and the last announcement, 63: first 64 batches of 4 enqueues,",
        "their items dequeued singly",
    )
    c.fresh(8, 512)
    for k in range(64):
        c.filled_at_once(0, range(4))
        for v in range(4):
            c.dequeue(1)
            c.run(1, f"item {v}", n=9, steps=3)
    c.note("32 single Enqueues and a batch of 32 dequeues; in that call 2 comes before 6, and before 8")
    for v in range(32):
        c.enqueue(v % 2, v)
        c.run(v % 2, "ok", n=9, steps=3)
    c.batch(0, "D" * 32)
    c.enter(4, 0, gives="refused 2")
    c.dequeue(0, "refused 2")
    c.evaluate(0, 288, "refused 2")
    c.run(0, "item 31", steps=34)
    c.note("223 nodes and 224 futures are left: 222 pending enqueues, 32 or 31 a thread, and two pending dequeues")
    for t, count in ((1, 32), (2, 31), (3, 32), (4, 32), (5, 32), (6, 32), (7, 31)):
        for _ in range(count):
            assert c.enter(3, t, 1).word == "future"
    c.enter(4, 0, gives="future 510")
    c.enter(4, 0, gives="future 511")
    c.note('5, "a future is needed and none is left": codes 1 and 2 with something pending, 3 and 4')
    for t in (0, 2):
        c.enqueue(t, 9, "refused 5")
        c.dequeue(t, "refused 5")
        c.enter(3, t, 9, gives="refused 5")
        c.enter(4, t, gives="refused 5")
    c.note("with 32 pending 5 comes before 6, and with a pending enqueue before 7; 8 comes before 7")
    c.enqueue(1, 9, "refused 5")
    c.dequeue(1, "refused 5")
    c.enter(3, 1, 9, gives="refused 5")
    c.enter(4, 1, gives="refused 5")
    c.evaluate(1, 288, "refused 7")
    c.evaluate(1, 287, "refused 8")
    c.evaluate(1, 512, "refused 8")
    c.note("Evaluate of a done future and of a batch of dequeues only, and Dequeue with nothing pending, need nothing")
    c.evaluate(0, 287, "item 31")
    c.evaluate(0, 511)
    c.run(0, "empty", steps=2)
    c.evaluate(0, 510, "empty")
    c.note("the refused entries took no node: node 511 is left, and Enqueue with nothing pending needs a node only")
    c.enqueue(0, 4)
    c.enqueue(0, 4, "refused 2")
    c.evaluate(0, 512, "refused 2")
    c.enqueue(8, 4, "refused 1")
    c.evaluate(8, 512, "refused 1")
    c.run(0, "ok", steps=3)
    c.note("no node is left either: 4 comes before 5, 6 and 7")
    for t in range(3):
        c.enqueue(t, 9, "refused 4")
        c.enter(3, t, 9, gives="refused 4")
        c.enter(4, t, gives="refused 5")
    c.dequeue(1, "refused 5")
    c.evaluate(2, 320, "refused 7")
    c.dequeue(0)
    c.run(0, "item 4", steps=3)
    c.dequeue(0)
    c.run(0, "empty", steps=2)
    assert c.machine.memory["head"] == model.Head(511, 289)


# -------------------------------------------------------------------- walks


def expected_batch(items, letters, first):
    """A batch on a plain list: its results and what is left."""
    items = list(items)
    answers = []
    for letter in letters:
        if letter == "E":
            items.append(first)
            first += 1
            answers.append("ok")
        else:
            answers.append(f"item {items.pop(0)}" if items else "empty")
    return answers, items


def walk_words(size, letters):
    dequeues = letters.count("D")
    s = dequeues - max(model.excess_of(letters) - size, 0)
    if s == 0:
        return 0, "s = 0: old head, no walk"
    if size > s:
        return s, f"z > s > 0: walk {s} from the old head"
    if size == s:
        return 0, f"z = s = {s}: walk 0"
    return s - size, f"s = {s} > z: walk {s - size} from the old tail"


def walks(c):
    c.note("walks at a6, each batch on a queue of so many items, and the results of its dequeues: the steps of a batch")
    c.note("run alone are b1 b2 a1 a2 a3 a4 a5, one a6 per node walked, a7")
    tried = {"E": "02", "EEE": "02", "ED": "012", "DE": "012", "DDE": "01234", "EDD": "0123", "EEDD": "013"}
    tried |= {"EDDEEDDEDDEE": "12", "EDDEEDDDEDDEE": "01234"}
    for letters, sizes in tried.items():
        for size in map(int, sizes):
            walked, words = walk_words(size, letters)
            c.script(f"{letters} on {size}; {words}")
            c.fresh(1, 1 + size + letters.count("E"))
            waiting = list(range(10, 10 + size))
            if size:
                c.filled_at_once(0, waiting)
            futures = c.batch(0, letters)
            answers, left = expected_batch(waiting, letters, 20)
            c.run(0, answers[-1], steps=8 + walked)
            dequeued = [f for f, letter in zip(futures, letters) if letter == "D"]
            if dequeued:
                c.results(0, dequeued, ", ".join(a for a in answers if a != "ok"))
            c.holds(*left)
    # 01, case 2
    letters = "EDDEEDDDEDDEE"
    assert expected_batch([10, 11], letters, 20)[0].count("empty") == 1
    assert expected_batch([10, 11, 12], letters, 20)[0].count("empty") == 0
    for size, letters in ((0, "EEE"), (4, "DDE"), (2, "DDE"), (1, "EEEDDD"), (0, "DEEEDD")):
        walked, words = walk_words(size, letters)
        c.script(f"batch {letters} on a queue of {size} by single Steps; {words}")
        c.fresh(1, 1 + size + letters.count("E"))
        c.filled(0, range(10, 10 + size))
        futures = c.batch(0, letters)
        answers, left = expected_batch(range(10, 10 + size), letters, 20)
        c.steps(0, "b1:set b2:taken a1:set a2:none a3:taken a4:written a5:taken")
        c.steps(0, "a6:set " * walked + "a7:taken", answers[-1])
        c.results(0, futures, ", ".join(answers))
        c.holds(*left)
    c.note("batches of dequeues only: q1, a q2 per pending dequeue or up to none, q3 unless nothing is found")
    for letters in ("D", "DD", "DDD", "DDDDD"):
        for size in range(5):
            count = len(letters)
            c.script(f"{letters} on {size}")
            c.fresh(1, 1 + size if size else 2)
            if size:
                c.filled_at_once(0, range(10, 10 + size))
            futures = c.batch(0, letters)
            answers, left = expected_batch(range(10, 10 + size), letters, 20)
            steps = 2 if size == 0 else 1 + min(count, size + 1) + 1
            c.run(0, answers[-1], steps=steps)
            c.results(0, futures, ", ".join(answers))
            c.holds(*left)
    c.script("a walk of 20 from the old head and one of 20 from the old tail")
    c.fresh(1, 80)
    c.batch(0, "E" * 30, 100)
    c.run(0, "ok", steps=8)
    c.batch(0, "D" * 20 + "E", 200)
    c.run(0, "ok", steps=28)
    c.batch(0, "D" * 32)
    c.run(0, "empty", steps=14)
    c.batch(0, "E" * 12 + "D" * 20, 300)
    c.run(0, "empty", steps=20)
    c.batch(0, "E" * 16 + "D" * 16, 400)
    c.run(0, "item 415", steps=24)
    c.holds()
    c.script(
        "a walk does not go past its batch: another Enqueue's node stands after it, and no pending dequeue takes it,",
        "since the batch stands in the order where a3 was taken",
    )
    c.fresh(2, 8)
    c.batch(0, "EDDD")
    c.steps(0, "b1 b2 a1 a2 a3:taken a4 a5:taken")
    c.enqueue(1, 5)
    c.run(1, "ok", steps=3)
    c.steps(0, "a6:set a7:taken", "empty")
    c.results(0, [0, 1, 2, 3], "ok, item 20, empty, empty")
    c.holds(5)
    c.script("the same with the other Enqueue before a3: then the batch's dequeues find its item first")
    c.fresh(2, 8)
    c.batch(0, "EDDD")
    c.steps(0, "b1 b2 a1 a2")
    c.enqueue(1, 5)
    c.run(1, "ok", steps=3)
    c.run(0, "empty")
    c.results(0, [0, 1, 2, 3], "ok, item 5, item 20, empty")
    c.holds()


# -------------------------------------------------------------------- Run


def runs(c):
    c.script('Run: "Run with n = 0 on a busy thread answers more", 0 steps; n = 1 is a Step; n exactly the steps left')
    c.fresh(1, 6)
    c.enqueue(0, 5)
    c.run(0, "more", n=0, steps=0)
    c.run(0, "more", n=1, steps=1)
    c.run(0, "ok", n=2, steps=2)
    c.enter(7, 0, 0, gives="refused 3")
    c.script("Run: n one less than the steps left answers more; n = 0 in between changes nothing; n = 1 then ends it")
    c.fresh(1, 6)
    c.batch(0, "ED", 7)
    c.run(0, "more", n=8, steps=8)
    c.run(0, "more", n=0, steps=0)
    c.run(0, "item 7", n=1, steps=1)
    c.script("Run: n more than the steps left stops when the call ends and reports the steps it took")
    c.fresh(1, 6)
    c.dequeue(0)
    c.run(0, "empty", n=3, steps=2)
    c.dequeue(0)
    c.run(0, "empty", n=TOP, steps=2)
    c.batch(0, "ED", 7)
    c.run(0, "item 7", n=9, steps=9)
    c.batch(0, "ED", 7)
    c.run(0, "item 7", n=10, steps=9)
    c.script("Run after Steps, Steps after Run")
    c.fresh(1, 6)
    c.batch(0, "EED", 7)
    c.steps(0, "b1 b2 a1")
    c.run(0, "more", n=3, steps=3)
    c.steps(0, "a5 a6")
    c.run(0, "item 7", n=5, steps=1)
    c.dequeue(0)
    c.steps(0, "d1")
    c.run(0, "item 8", n=2, steps=2)
    c.script("Run of a thread that meets an announcement counts the steps of the run too: d1, 7 of the run, d1, d2, d3")
    c.fresh(2, 6)
    c.filled(1, [5])
    c.batch(0, "E")
    c.steps(0, "b1 b2")
    c.dequeue(1)
    c.run(1, "item 5", steps=10)
    c.run(0, "ok", steps=4)
    c.script("Run that stops in the middle of another's announcement, and the owner's Run after it")
    c.fresh(2, 6)
    c.batch(0, "ED")
    c.steps(0, "b1 b2")
    c.dequeue(1)
    for n in (2, 0, 3):
        c.run(1, "more", n=n, steps=n)
    c.run(0, "item 20", n=50)
    c.run(1, "empty", n=50)


# -------------------------------------------------------------------- plausible slips


def slips(c):
    c.script(
        'slip "Old tail read before the tail at a1: a late helper links the group a second time and the chain closes',
        'on itself." The Dequeue stops between its a1 and a2 while the owner runs the batch to its end; with the slip',
        "it then reads the new tail, finds room after the batch's own last node, and the item comes out for ever",
        slip="old tail first",
    )
    c.fresh(2, 6)
    c.batch(0, "E")
    c.steps(0, "b1 b2")
    c.dequeue(1)
    c.steps(1, "d1:announcement a1:set")
    c.run(0, "ok", steps=6)
    c.steps(1, "a2:set a5:not-taken a7:not-taken d1:set d2:set d3:taken", "item 20")
    for _ in range(2):
        c.dequeue(1)
        c.run(1, "empty")
    c.script(
        'slip "A late helper at a7 setting the head without comparing.": it sets the head back to where this batch',
        "had left it, and items that were given to others come a second time",
        slip="head not compared",
    )
    c.fresh(3, 8)
    c.filled(2, [10, 11])
    c.batch(0, "DE")
    c.steps(0, "b1 b2")
    c.dequeue(1)
    c.to(1, "a7")
    c.run(0, "ok")
    c.dequeue(2)
    c.run(2, "item 11")
    c.steps(1, "a7:not-taken")
    c.holds(20)
    c.dequeue(2)
    c.run(2, "item 20")
    c.out(1, "empty")
    c.script(
        'slip "A short batch of dequeues ordered at q3: case 8 then fails." Ordered after the Enqueue of 6 the batch',
        "would have to give 5 and 6 and leave nothing; it gives 5 and empty and leaves 6",
        slip="ordered at q3",
    )
    c.fresh(2, 4)
    c.filled(1, [5])
    c.batch(0, "DD", named=1)
    c.steps(0, "q1:set q2:set q2:none")
    c.filled(1, [6])
    c.steps(0, "q3:taken", "empty")
    c.results(0, [0, 1], "item 5, empty")
    c.holds(6)
    c.script(
        'slip "Size from counts read before the tail caught up.": at b2 the tail is one node behind, its count 0; a8',
        "catches it up, so z = 1 and s = 1. With the slip z = 0 and s = 0, the old head goes back, and 5, which the",
        "batch gave, stays in the queue",
        slip="size too early",
    )
    c.fresh(2, 6)
    c.enqueue(1, 5)
    c.steps(1, "e1 e2:taken")
    c.batch(0, "DE", named=0)
    c.steps(0, "b1:set b2:taken a1:set a2:none a3:another a8:taken a1:set a2:none a3:taken")
    c.holds(20)
    c.steps(0, "a4:written a5:taken a7:taken", "item 5")
    c.run(1, "ok", steps=1)
    c.dequeue(1)
    c.run(1, "item 20")
    c.script(
        'slip "Excess counted at zero when dequeues outnumber enqueues only in the middle.": D E E on an empty queue',
        "has excess 1, so s = 0. With the slip s = 1, the head walks past 20, and 20 is lost",
        slip="excess at the end",
    )
    c.fresh(1, 6)
    c.batch(0, "DEE", named=0)
    c.run(0, "empty", steps=8)
    c.holds(20, 21)
    c.dequeue(0)
    c.run(0, "item 20")
    c.script(
        "the same slip on the 12 letters of 01's case 1, excess 2, on a queue of 1: one failing, five successful",
        slip="excess at the end",
    )
    c.fresh(1, 12)
    c.filled(0, [10])
    futures = c.batch(0, "EDDEEDDEDDEE")
    c.run(0, "ok", steps=12)
    c.results(0, futures, "ok, item 10, item 20, ok, ok, item 21, item 22, ok, item 23, empty, ok, ok")
    c.holds(24, 25)


# -------------------------------------------------------------------- pseudo-random


def at_random(c, scripts=60):
    c.note("pseudo-random scripts, from here to the end; every call that is open at a script's end is run out")
    for number in range(scripts):
        numbers = Numbers(7000 + number)
        threads = 2 + numbers.below(3)
        nodes = 6 + numbers.below(7)
        c.script(f"random {number}")
        c.fresh(threads, nodes)
        for _ in range(20 + numbers.below(10)):
            c.enter(*model.some_entry(numbers, c.machine, 6))
        for t in range(threads):
            if c.following(t) != "idle":
                c.run(t)


# -------------------------------------------------------------------- all of it

STEPPED = {
    "e1": "set",
    "e2": "taken/not taken",
    "e3": "taken/not taken",
    "e4": "set/announcement",
    "e5": "taken/not taken",
    "d1": "set/announcement",
    "d2": "set/none",
    "d3": "taken/not taken",
    "b1": "set/announcement",
    "b2": "taken/not taken",
    "q1": "set/announcement",
    "q2": "set/none",
    "q3": "taken/not taken",
    "a1": "set",
    "a2": "set/none",
    "a3": "taken/its first/another",
    "a4": "written",
    "a5": "taken/not taken",
    "a6": "set",
    "a7": "taken/not taken",
    "a8": "taken/not taken",
}
REFUSED = {1: (1, 2, 3, 4, 5, 6, 7), 2: (1, 2, 3, 4, 5), 3: (6, 7), 4: (1, 3), 5: (1, 2, 3, 4), 6: (1, 2, 3, 4)}
REFUSED |= {7: (1, 2, 5), 8: (5,)}


def with_slip(lines, slip):
    """What a machine with a slip makes of a script, as far as it gets."""
    player = Player(slip)
    shown = []
    for text in lines:
        try:
            line = player.line(text)
            if slip == "ordered at q3" and player.machine:
                model.check(player.machine)
            shown.append(line)
        except (AssertionError, KeyError) as fault:
            shown.append(f"stops: {fault!r}")
            break
    return shown


def slips_show(c):
    """Each slip shows on the script that is there for it, and on how many of the others."""
    ends = c.begins[1:] + [len(c.stdin)]
    for slip in model.SLIPS:
        caught = []
        for number, (begin, end) in enumerate(zip(c.begins, ends)):
            if with_slip(c.stdin[begin:end], slip) != c.stdout[begin:end]:
                caught.append(number)
        for wanted in (number for name, number in c.slips if name == slip):
            assert wanted in caught, slip
            begin, end = c.begins[wanted], ends[wanted]
            shown = with_slip(c.stdin[begin:end], slip)
            pairs = list(zip(c.stdin[begin:end], c.stdout[begin:end], shown))
            differing = [pair for pair in pairs if pair[1] != pair[2]]
            print(f"slip {slip}: {len(differing)} lines of its script differ, first and last")
            for entry, right, wrong in (differing[0], differing[-1]):
                print(f"    {entry:10} {right:30} -> {wrong}")
        print(f"slip {slip}: shows on {len(caught)} of {len(ends)} scripts")


def made():
    c = Corpus()
    parts = (own_cases, enqueue_steps, dequeue_steps, batch_steps, dequeues_only_steps, running_steps)
    parts += (helping, late_helpers, interleaved, refusals, single_calls_with_pending, exhausted)
    parts += (walks, runs, slips, at_random)
    for part in parts:
        part(c)
    for name, outcomes in STEPPED.items():
        for outcome in outcomes.split("/"):
            assert (name, outcome) in c.stepped, (name, outcome)
    assert {(code, number) for number, codes in REFUSED.items() for code in codes} == c.refused
    # a second run over the text alone gives the same
    player = Player()
    assert [player.line(text) for text in c.stdin] == c.stdout
    return c


def main():
    c = made()
    slips_show(c)
    stdin = "".join(line + "\n" for line in c.stdin)
    stdout = "".join(line + "\n" for line in c.stdout)
    CRATE.mkdir(parents=True, exist_ok=True)
    (CRATE / "stdin").write_text(stdin)
    (CRATE / "stdout").write_text(stdout)
    print(f"{len(c.begins)} scripts, {c.entries} entries, {len(stdin)} bytes of stdin, {len(stdout)} of stdout")
    assert len(stdin) < 64000 and len(stdout) < 300000


if __name__ == "__main__":
    main()
