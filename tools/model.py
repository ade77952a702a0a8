#!/usr/bin/env python3
"""The machine of document 01, worked out from document 01 and the listings of document 002 alone.

It is kept to be held against 01: every step is a method with the name that 01 gives it, under the
sentence of 01 that it renders. It shares nothing with the crates whose expected output it gives.

    tools/model.py < SCHEDULE       the listing of a schedule
    tools/model.py --try N SEED     N pseudo-random schedules, check() after every entry and step
    tools/model.py --all            every interleaving of some small sets of calls, with check()
"""

import pickle
import sys
from dataclasses import dataclass, field

# "Sizes: 1 to 8 threads; 2 to 512 nodes, the dummy among them; 512 futures; 64 announcements; at
# most 32 pending operations a thread"
THREADS = range(1, 8 + 1)
NODES = range(2, 512 + 1)
FUTURES = 512
ANNOUNCEMENTS = 64
PLACES = 32
INPUT = 65536

# "Results: ok (enqueue), item v, empty." A result is a word and a value, 0 where it has none.
OK = ("ok", 0)
EMPTY = ("empty", 0)

# The "Plausible slips" of 01, in its order. A machine made with one of them commits it; they serve to
# show that the cases catch them.
SLIPS = ("old tail first", "head not compared", "ordered at q3", "size too early", "excess at the end")


def item(value):
    return ("item", value)


class Refused(Exception):
    """A refusal of 01, by its number."""

    def __init__(self, number):
        super().__init__(number)
        self.number = number


@dataclass(frozen=True)
class Answer:
    word: str
    value: int = 0
    steps: int = 0


# "The enqueue count and the dequeue count are kept apart: the first stands beside the tail, the
# second beside the head."


@dataclass(frozen=True)
class Tail:
    node: int
    count: int


@dataclass(frozen=True)
class Head:
    node: int
    count: int


@dataclass(frozen=True)
class Announced:
    """What the head holds while an announcement is in it."""

    number: int


@dataclass
class Call:
    """A call in the order of effect: its operations, and their results once they have been given."""

    thread: int
    operations: list
    results: list = None
    # the clock when the call was started and when it ended
    started: int = field(default=0, repr=False)
    ended: int = field(default=None, repr=False)


@dataclass
class LastRead:
    """The place of the last q2 read of a batch of dequeues only that has not passed q3."""

    thread: int


@dataclass
class Announcement:
    """Table 1 of 002: what is needed to run the batch. Its old tail is a cell of the memory."""

    first: int
    last: int
    enqueues: int
    dequeues: int
    excess: int
    call: Call
    old_head: Head = None
    early_count: int = None  # for the slip "size too early" only


@dataclass
class Future:
    owner: int
    result: tuple = None  # none until it is done


@dataclass
class Thread:
    number: int
    # the step that it would take next, or idle
    next: str = "idle"
    # "at most 32 pending operations a thread": letter E or D, the future, the item
    pending: list = field(default_factory=list)
    # "The tally of three numbers": pending enqueues, pending dequeues and excess dequeues
    enqueues: int = 0
    dequeues: int = 0
    excess: int = 0
    # first and last node of the pending enqueues (enqsHead, enqsTail of 002)
    first: int = None
    last: int = None
    # what the call in progress remembers, by the names used in the steps
    call: dict = field(default_factory=dict)
    # the clock when it was started
    started: int = field(default=0, repr=False)


class Machine:
    def __init__(self, threads, nodes, slip=None):
        # 9: "thread or node number at set-up out of range"
        if threads not in THREADS or nodes not in NODES:
            raise Refused(9)
        assert slip is None or slip in SLIPS
        self.slip = slip
        self.node_number = nodes
        # "A fresh machine has one dummy node, number 0, at which head and tail point, both counts
        # zero. Every thread is idle and has nothing pending."
        self.memory = {"head": Head(0, 0), "tail": Tail(0, 0), ("next", 0): None}
        self.items = [None]
        self.futures = []
        self.announcements = []
        self.threads = [Thread(t) for t in range(threads)]
        # what only check() and the cases look at
        self.order = []  # the order of effect: Call and LastRead
        self.links = []  # the link steps: node linked onto, first and last node linked
        self.clock = 0  # entries and steps so far
        self.accesses = 0
        self.outcome = None
        self.events = []  # the steps taken, with what the access gave
        self.watch = None  # called after every step

    # ---------------------------------------------------------------- memory, one access each

    def read(self, cell):
        self.accesses += 1
        value = self.memory[cell]
        kind = "announcement" if isinstance(value, Announced) else "set"
        self.outcome = "none" if value is None else kind
        return value

    def write(self, cell, value):
        self.accesses += 1
        self.outcome = "written"
        self.memory[cell] = value

    def cas(self, cell, expected, new):
        """"A compare-and-swap (CAS) that fails hands back the value found." """
        self.accesses += 1
        found = self.memory[cell]
        taken = found == expected
        self.outcome = "taken" if taken else "not taken"
        if taken:
            self.memory[cell] = new
        return taken, found

    # ---------------------------------------------------------------- handing out
    # "Nodes, futures and announcements are handed out in number order, by the entry that makes or
    # starts the call, and each is used once."

    def new_node(self, value):
        self.items.append(value)
        node = len(self.items) - 1
        self.memory["next", node] = None
        return node

    def new_future(self, thread):
        self.futures.append(Future(thread.number))
        return len(self.futures) - 1

    # ---------------------------------------------------------------- entries

    def enter(self, code, *operands):
        """"Each entry takes the machine and hands back the machine and one answer." """
        entries = (self.enqueue, self.dequeue, self.future_enqueue, self.future_dequeue)
        entries += (self.evaluate, self.step, self.run)
        self.clock += 1
        try:
            return entries[code - 1](*operands)
        except Refused as refusal:
            return Answer("refused", refusal.number)

    def thread(self, t, idle):
        # 1: "t is not below the thread count"
        if t >= len(self.threads):
            raise Refused(1)
        thread = self.threads[t]
        # 2: "codes 1 to 5, and t is in a call"
        if idle and thread.next != "idle":
            raise Refused(2)
        # 3: "codes 6, 7, and t is idle"
        if not idle and thread.next == "idle":
            raise Refused(3)
        return thread

    def need(self, thread, node=False, future=False, place=False, announcement=False):
        """"Order within an entry: 1, then 2 or 3, then 8, 4, 5, 6, 7." """
        # 4: "a node is needed and none is left"
        if node and len(self.items) == self.node_number:
            raise Refused(4)
        # 5: "a future is needed and none is left"
        if future and len(self.futures) == FUTURES:
            raise Refused(5)
        # 6: "a pending place is needed and t has 32"
        if place and len(thread.pending) == PLACES:
            raise Refused(6)
        # 7: "the call sets off a batch with an enqueue and no announcement is left"
        if announcement and len(self.announcements) == ANNOUNCEMENTS:
            raise Refused(7)

    def enqueue(self, t, v):
        """1 | Enqueue t v | started (with pending too)"""
        thread = self.thread(t, idle=True)
        if not thread.pending:
            # "Enqueue with nothing pending needs a node only"
            self.need(thread, node=True)
            thread.call = {"node": self.new_node(v)}
            self.start(thread, "e1")
            return Answer("started")
        # "With pending operations, Enqueue and Dequeue first add themselves as a deferred call (a
        # node where needed, a future, a pending place), then act as Evaluate of it."
        self.need(thread, node=True, future=True, place=True, announcement=True)
        self.set_off(thread, self.defer(thread, "E", v))
        return Answer("started")

    def dequeue(self, t):
        """2 | Dequeue t | started"""
        thread = self.thread(t, idle=True)
        if not thread.pending:
            # "Dequeue with nothing pending needs nothing."
            self.start(thread, "d1")
            return Answer("started")
        # as for Enqueue; the batch has an enqueue where one is pending
        self.need(thread, future=True, place=True, announcement=thread.enqueues > 0)
        self.set_off(thread, self.defer(thread, "D"))
        return Answer("started")

    def future_enqueue(self, t, v):
        """3 | FutureEnqueue t v | future number"""
        thread = self.thread(t, idle=True)
        self.need(thread, node=True, future=True, place=True)
        return Answer("future", self.defer(thread, "E", v))

    def future_dequeue(self, t):
        """4 | FutureDequeue t | future number"""
        thread = self.thread(t, idle=True)
        self.need(thread, future=True, place=True)
        return Answer("future", self.defer(thread, "D"))

    def evaluate(self, t, f):
        """5 | Evaluate t f | the result where f is done, else started"""
        thread = self.thread(t, idle=True)
        # 8: "f was not handed out, or belongs to another thread"
        if f >= len(self.futures) or self.futures[f].owner != t:
            raise Refused(8)
        if self.futures[f].result is not None:
            return Answer(*self.futures[f].result)
        self.need(thread, announcement=thread.enqueues > 0)
        self.set_off(thread, f)
        return Answer("started")

    def step(self, t):
        """6 | Step t | more, or the call's result"""
        thread = self.thread(t, idle=False)
        # "Run reports the steps it took, Step one, other entries none."
        return Answer(*(self.take(thread) or ("more", 0)), 1)

    def run(self, t, n):
        """7 | Run t n | as Step, up to n steps, stopping when the call ends"""
        thread = self.thread(t, idle=False)
        # "Run with n = 0 on a busy thread answers more."
        result, steps = None, 0
        while result is None and steps < n:
            result = self.take(thread)
            steps += 1
            assert steps < 100000, "no call of this machine takes so many steps alone"
        return Answer(*(result or ("more", 0)), steps)

    # ---------------------------------------------------------------- deferred calls

    def defer(self, thread, letter, v=None):
        """A deferred call: the place in the pending list, the future, the node, the tally."""
        future = self.new_future(thread)
        thread.pending.append((letter, future, v))
        if letter == "E":
            # 002, 6.2.2: "FutureEnqueue also adds the item to be enqueued to thread's list of items
            # pending to be enqueued."
            node = self.new_node(v)
            if thread.first is None:
                thread.first = node
            else:
                self.memory["next", thread.last] = node
            thread.last = node
            thread.enqueues += 1
        else:
            thread.dequeues += 1
        # "It equals the largest value of dequeues less enqueues over all prefixes, the empty prefix
        # among them."
        thread.excess = max(thread.excess, thread.dequeues - thread.enqueues)
        return future

    def set_off(self, thread, future):
        """Evaluate of a future that is not done: the whole pending list is set off as a batch."""
        self.start(thread, "b1" if thread.enqueues > 0 else "q1")
        batch = self.new_call(thread, [(letter, v) for letter, _, v in thread.pending])
        thread.call = {"future": future, "batch": batch}
        if thread.enqueues == 0:
            return
        excess = thread.excess
        # the slip: zero "when dequeues outnumber enqueues only in the middle"
        if self.slip == "excess at the end" and thread.dequeues <= thread.enqueues:
            excess = 0
        tally = (thread.enqueues, thread.dequeues, excess)
        self.announcements.append(Announcement(thread.first, thread.last, *tally, batch))
        thread.call["own"] = len(self.announcements) - 1
        self.memory["old tail", thread.call["own"]] = None

    def start(self, thread, step):
        thread.next = step
        thread.started = self.clock

    def new_call(self, thread, operations):
        return Call(thread.number, operations, None, thread.started)

    def results_of(self, call, results):
        call.results = results
        call.ended = self.clock

    # ---------------------------------------------------------------- steps
    # "One step is one access." A step gives the result where it ends the call, else nothing.

    def take(self, thread):
        name = thread.next
        self.clock += 1
        self.accesses = 0
        result = getattr(self, name)(thread, thread.call)
        assert self.accesses == 1
        self.events.append((name, self.outcome))
        if result is not None:
            thread.call = {}
            thread.next = "idle"
        if self.watch:
            self.watch(self)
        return result

    # Enqueue

    def e1(self, thread, call):
        # "e1 read tail."
        call["tail"] = self.read("tail")
        thread.next = "e2"

    def e2(self, thread, call):
        # "e2 CAS the new node onto its next link; taken: e3, else e4."
        at = call["tail"].node
        taken, call["found"] = self.cas(("next", at), None, call["node"])
        if taken:
            # "enqueue: when e2 is taken"
            call["placed"] = self.new_call(thread, [("E", self.items[call["node"]])])
            self.order.append(call["placed"])
            self.links.append((at, call["node"], call["node"]))
        thread.next = "e3" if taken else "e4"

    def e3(self, thread, call):
        # "e3 CAS tail to the new node, count + 1; ends."
        self.cas("tail", call["tail"], Tail(call["node"], call["tail"].count + 1))
        self.results_of(call["placed"], [OK])
        return OK

    def e4(self, thread, call):
        # "e4 read head; an announcement: run it, then e1; else e5."
        head = self.read("head")
        if isinstance(head, Announced):
            self.start_running(thread, head.number, "e1")
        else:
            thread.next = "e5"

    def e5(self, thread, call):
        # "e5 CAS tail to the node found, count + 1; e1."
        self.cas("tail", call["tail"], Tail(call["found"], call["tail"].count + 1))
        thread.next = "e1"

    # Dequeue

    def d1(self, thread, call):
        # "d1 read head; an announcement: run it, then d1."
        head = self.read("head")
        if isinstance(head, Announced):
            self.start_running(thread, head.number, "d1")
        else:
            call["head"] = head
            thread.next = "d2"

    def d2(self, thread, call):
        # "d2 read next; none: ends empty."
        call["found"] = self.read(("next", call["head"].node))
        if call["found"] is None:
            # "dequeue: when d3 is taken, or at the d2 that finds none"
            self.order.append(self.new_call(thread, [("D", None)]))
            self.results_of(self.order[-1], [EMPTY])
            return EMPTY
        thread.next = "d3"

    def d3(self, thread, call):
        # "d3 CAS head to it, count + 1; taken: ends with its item, else d1."
        taken, _ = self.cas("head", call["head"], Head(call["found"], call["head"].count + 1))
        if taken:
            result = item(self.items[call["found"]])
            self.order.append(self.new_call(thread, [("D", None)]))
            self.results_of(self.order[-1], [result])
            return result
        thread.next = "d1"

    # Batch with an enqueue

    def b1(self, thread, call):
        # "b1 read head; an announcement: run it, then b1."
        head = self.read("head")
        if isinstance(head, Announced):
            self.start_running(thread, head.number, "b1")
        else:
            call["head"] = head
            thread.next = "b2"

    def b2(self, thread, call):
        # "b2 set the old head and CAS head to the own announcement; not taken: b1. Then run it; ends
        # with the run."
        announcement = self.announcements[call["own"]]
        announcement.old_head = call["head"]
        taken, _ = self.cas("head", call["head"], Announced(call["own"]))
        if taken:
            announcement.early_count = self.memory["tail"].count
            self.start_running(thread, call["own"], None)
        else:
            thread.next = "b1"

    # Batch of dequeues only

    def q1(self, thread, call):
        # "q1 read head; an announcement: run it, then q1."
        head = self.read("head")
        if isinstance(head, Announced):
            self.start_running(thread, head.number, "q1")
        else:
            call["head"] = head
            call["at"] = head.node
            call["s"] = 0
            thread.next = "q2"

    def q2(self, thread, call):
        # "q2 read next, once per pending dequeue, stopping at none. No node found: ends."
        found = self.read(("next", call["at"]))
        self.last_read(thread)
        if found is not None:
            call["at"] = found
            call["s"] += 1
        if found is not None and call["s"] < thread.dequeues:
            thread.next = "q2"
        elif call["s"] > 0:
            thread.next = "q3"
        else:
            return self.end_of_dequeues(thread, call)

    def q3(self, thread, call):
        # "q3 CAS head past the s nodes found, count + s; taken: ends, else q1."
        taken, _ = self.cas("head", call["head"], Head(call["at"], call["head"].count + call["s"]))
        if taken:
            return self.end_of_dequeues(thread, call)
        self.order.remove(LastRead(thread.number))
        thread.next = "q1"

    # Running an announcement

    def start_running(self, thread, number, back):
        # "A thread that runs an announcement remembers which call it must go back to." Nothing to go
        # back to: it is the own one, "ends with the run".
        thread.call["running"] = number
        thread.call["back"] = back
        thread.next = "a1"

    def a1(self, thread, call):
        # "a1 read tail."
        if self.slip == "old tail first":
            call["old tail"] = self.read(("old tail", call["running"]))
        else:
            call["tail"] = self.read("tail")
        thread.next = "a2"

    def a2(self, thread, call):
        # "a2 read its old tail; set: a5."
        if self.slip == "old tail first":
            call["tail"] = self.read("tail")
        else:
            call["old tail"] = self.read(("old tail", call["running"]))
        thread.next = "a3" if call["old tail"] is None else "a5"

    def a3(self, thread, call):
        # "a3 CAS its first node onto the next link of the tail read at a1; taken, or the found node
        # is its first: a4; else a8."
        announcement = self.announcements[call["running"]]
        at = call["tail"].node
        taken, call["found"] = self.cas(("next", at), None, announcement.first)
        if taken:
            # "batch with an enqueue: when a3 is taken, by any thread"
            self.order.append(announcement.call)
            # "one a3 links all nodes of its batch"
            self.links.append((at, announcement.first, announcement.last))
        elif call["found"] == announcement.first:
            self.outcome = "its first"
        else:
            self.outcome = "another"
        thread.next = "a8" if self.outcome == "another" else "a4"

    def a4(self, thread, call):
        # "a4 write its old tail."
        call["old tail"] = call["tail"]
        self.write(("old tail", call["running"]), call["old tail"])
        thread.next = "a5"

    def a5(self, thread, call):
        # "a5 CAS tail from old tail to its last node, count + its enqueues."
        announcement = self.announcements[call["running"]]
        old_tail = call["old tail"]
        new_tail = Tail(announcement.last, old_tail.count + announcement.enqueues)
        self.cas("tail", old_tail, new_tail)
        call["at"], call["left"] = self.walk(announcement, old_tail)
        thread.next = "a6" if call["left"] > 0 else "a7"

    def a6(self, thread, call):
        # "a6 read next, once per node walked."
        call["at"] = self.read(("next", call["at"]))
        call["left"] -= 1
        thread.next = "a6" if call["left"] > 0 else "a7"

    def a7(self, thread, call):
        # "a7 CAS head from this announcement to the new head."
        announcement = self.announcements[call["running"]]
        _, s = self.size_and_successful(announcement, call["old tail"])
        # "The dequeue count rises by s."
        new_head = Head(call["at"], announcement.old_head.count + s)
        if self.slip == "head not compared":
            self.write("head", new_head)
        else:
            self.cas("head", Announced(call["running"]), new_head)
        if call["back"] is None:
            return self.end_of_batch(thread, call)
        thread.next = call["back"]

    def a8(self, thread, call):
        # "a8 CAS tail to the node found, count + 1; a1."
        self.cas("tail", call["tail"], Tail(call["found"], call["tail"].count + 1))
        thread.next = "a1"

    # "At a6 and a7"

    def size_and_successful(self, announcement, old_tail):
        # "size z = old tail's count - old head's count; successful dequeues s = dequeues - (excess - z
        # where excess > z, else 0)."
        z = old_tail.count - announcement.old_head.count
        if self.slip == "size too early":
            z = announcement.early_count - announcement.old_head.count
        failing = announcement.excess - z if announcement.excess > z else 0
        return z, announcement.dequeues - failing

    def walk(self, announcement, old_tail):
        """Where the walk of a6 starts and how many nodes it goes."""
        z, s = self.size_and_successful(announcement, old_tail)
        # "s = 0: the old head goes back, no walk."
        if s == 0:
            return announcement.old_head.node, 0
        # "z > s > 0: walk s from the old head."
        if z > s:
            return announcement.old_head.node, s
        # "Otherwise walk s - z from the old tail."
        return old_tail.node, s - z

    # ---------------------------------------------------------------- the end of a batch's call

    def end_of_batch(self, thread, call):
        """Listing 6, lines 73 to 91, in the a7 that ends the call."""
        results = []
        next_enqueued = thread.first
        current = self.announcements[call["own"]].old_head.node
        no_more = False
        for letter, _, _ in thread.pending:
            if letter == "E":
                next_enqueued = self.memory["next", next_enqueued]
                results.append(OK)
            elif no_more or self.memory["next", current] == next_enqueued:
                results.append(EMPTY)
            else:
                current = self.memory["next", current]
                no_more = current == thread.last
                results.append(item(self.items[current]))
        return self.results_given(thread, call, results)

    def end_of_dequeues(self, thread, call):
        """Listing 8, lines 108 to 118, in the q2 or q3 that ends the call."""
        results = []
        current = call["head"].node
        for _ in range(call["s"]):
            current = self.memory["next", current]
            results.append(item(self.items[current]))
        results += [EMPTY] * (thread.dequeues - call["s"])
        # "once it has passed q3, or found nothing, it is put in at the place of its last q2 read"
        place = self.order.index(LastRead(thread.number))
        if self.slip == "ordered at q3":
            del self.order[place]
            self.order.append(call["batch"])
        else:
            self.order[place] = call["batch"]
        return self.results_given(thread, call, results)

    def results_given(self, thread, call, results):
        # "In the step that ends a batch's call its futures become done, and the pending list and the
        # tally are cleared."
        self.results_of(call["batch"], results)
        for (_, future, _), result in zip(thread.pending, results, strict=True):
            self.futures[future].result = result
        thread.pending = []
        thread.enqueues = thread.dequeues = thread.excess = 0
        thread.first = thread.last = None
        return self.futures[call["future"]].result

    def last_read(self, thread):
        """Moves the place of this batch's last q2 read to the end of the order as it stands."""
        mark = LastRead(thread.number)
        if mark in self.order:
            self.order.remove(mark)
        self.order.append(mark)

    # ---------------------------------------------------------------- contents and depth

    def chain(self, node):
        """The nodes after a node, up to none or to a node met before."""
        nodes = []
        following = self.memory["next", node]
        while following is not None and following not in nodes and following != node:
            nodes.append(following)
            following = self.memory["next", following]
        return nodes

    def abstract_head(self):
        # "The abstract head is the head; with an announcement in it, the old head until the first
        # node is linked, from then on the head that a7 will set."
        head = self.memory["head"]
        if not isinstance(head, Announced):
            return head
        announcement = self.announcements[head.number]
        old_tail = self.memory["old tail", head.number]
        if old_tail is None and self.memory["next", self.memory["tail"].node] == announcement.first:
            # linked, a4 still to come: the tail has not moved, and a4 will write it
            old_tail = self.memory["tail"]
        if old_tail is None:
            return announcement.old_head
        node, left = self.walk(announcement, old_tail)
        for _ in range(left):
            node = self.memory["next", node]
        _, s = self.size_and_successful(announcement, old_tail)
        return Head(node, announcement.old_head.count + s)

    def contents(self):
        # "Contents are the items of the chain after it."
        return [self.items[node] for node in self.chain(self.abstract_head().node)]

    def depth(self):
        # "Depth, for the listing: tail count less head count (the old head's while an announcement is
        # in the head), 0 where that is negative."
        head = self.memory["head"]
        if isinstance(head, Announced):
            head = self.announcements[head.number].old_head
        return max(self.memory["tail"].count - head.count, 0)

    def state(self):
        """All that the machine is, for telling whether an entry changed it."""
        parts = (self.memory, self.items, self.futures, self.announcements, self.threads, self.order)
        return repr(parts)


# -------------------------------------------------------------------- self-checks


def replay(order):
    """The calls in the order of effect on a plain list: what is left and each call's results."""
    waiting, given = [], []
    for call in order:
        if isinstance(call, LastRead):
            continue
        results = []
        for letter, v in call.operations:
            if letter == "E":
                waiting.append(v)
                results.append(OK)
            else:
                results.append(item(waiting.pop(0)) if waiting else EMPTY)
        given.append((call, results))
    return waiting, given


def excess_of(letters):
    """"An excess dequeue finds nothing when the pending list is run on an empty queue." """
    waiting = failing = 0
    for letter in letters:
        if letter == "E":
            waiting += 1
        elif waiting:
            waiting -= 1
        else:
            failing += 1
    return failing


def check(machine):
    """Raises AssertionError where the machine does not keep what 01 and 002 promise of it."""
    memory = machine.memory
    # linked nodes form one chain from node 0, no loop, each once
    chain, node = [], 0
    while node is not None:
        assert node not in chain, "the chain closes on itself"
        chain.append(node)
        node = memory["next", node]
    linked = [0]
    for onto, first, last in machine.links:
        assert onto == linked[-1], "a link step that is not at the end of the chain"
        linked.append(first)
        while linked[-1] != last:
            linked.append(memory["next", linked[-1]])
    assert chain == linked, "the chain is not that of the link steps"
    place = {node: index for index, node in enumerate(chain)}

    # the tail is at the last node or one link step behind; the counts are places in the chain
    tail, head = memory["tail"], memory["head"]
    behind = machine.links[-1][0] if machine.links else 0
    assert tail.node in (chain[-1], behind), "the tail is more than one link step behind"
    assert tail.count == place[tail.node]
    if isinstance(head, Announced):
        announcement = machine.announcements[head.number]
        assert announcement.old_head.count == place[announcement.old_head.node]
    else:
        assert head.count == place[head.node]
        assert head.count <= tail.count + 1, "the head is more than one node past the tail"
    for number, announcement in enumerate(machine.announcements):
        old_tail = memory["old tail", number]
        if old_tail is not None:
            assert memory["next", old_tail.node] == announcement.first
            assert old_tail.count == place[old_tail.node]
    abstract = machine.abstract_head()
    assert abstract.count == place[abstract.node]

    # the order of effect, run on a plain list, gives the contents and every result given so far
    waiting, given = replay(machine.order)
    assert waiting == machine.contents(), "the contents are not those of the order of effect"
    for call, results in given:
        assert call.results in (None, results), "a result is not that of the order of effect"
    assert len({id(call) for call, _ in given}) == len(given), "a call stands in the order twice"
    # a call takes its place between its start and its end: none that ended before another was
    # started stands after that one
    latest = -1
    for call, _ in given:
        latest = max(latest, call.started)
        assert call.ended is None or call.ended > latest, "a call stands outside its own time"

    # the threads
    for thread in machine.threads:
        assert thread.next != "idle" or thread.call == {}
        letters = [letter for letter, _, _ in thread.pending]
        tally = (letters.count("E"), letters.count("D"), excess_of(letters))
        assert tally == (thread.enqueues, thread.dequeues, thread.excess)
        assert len(letters) <= PLACES
        pending = [future for _, future, _ in thread.pending]
        undone = [
            f
            for f, future in enumerate(machine.futures)
            if future.owner == thread.number and future.result is None
        ]
        assert pending == undone, "the pending list is not that of the futures that are not done"
        reads = thread.next in ("q2", "q3") and thread.call["s"] > 0
        assert machine.order.count(LastRead(thread.number)) == (1 if reads else 0)
    assert len(machine.items) <= machine.node_number
    assert len(machine.futures) <= FUTURES and len(machine.announcements) <= ANNOUNCEMENTS


# -------------------------------------------------------------------- schedule bytes and listing


def read_number(data, place):
    """"Numbers go in groups of seven bits, low group first, top bit set when another follows; below
    2^32; at most five bytes." The number and the place after it."""
    value = 0
    for index in range(5):
        # 10: "the bytes end inside a number, the set-up (empty input too) or an entry"
        if place + index >= len(data):
            raise Refused(10)
        byte = data[place + index]
        # "Refusal 11: a last group of zero after another group, or a fifth byte above 15."
        if index == 4 and byte > 15:
            raise Refused(11)
        value += (byte & 0x7F) << (7 * index)
        if byte & 0x80 == 0:
            if byte == 0 and index > 0:
                raise Refused(11)
            return value, place + index + 1
    raise AssertionError("the fifth byte decides")


OPERANDS = {1: 2, 2: 1, 3: 2, 4: 1, 5: 2, 6: 1, 7: 2}


def read_entry(data, place):
    """"An entry is read only when its code and every operand read well." The entry, code first, and
    the place after it."""
    code, place = read_number(data, place)
    # 12: "the code is not 1 to 7"; "12 comes as soon as the code is read"
    if code not in OPERANDS:
        raise Refused(12)
    entry = [code]
    for _ in range(OPERANDS[code]):
        operand, place = read_number(data, place)
        entry.append(operand)
    return entry, place


def line_of(place, answer, depth):
    # "one line per entry with place from 0, answer word .., value (0 where none), steps taken, depth
    # after the entry"
    return f"{place} {answer.word} {answer.value} {answer.steps} {depth}"


def listing(data, slip=None):
    """What the listing program prints for a schedule."""
    # "Of longer input only the first 65,536 bytes count."
    data = data[:INPUT]
    try:
        threads, place = read_number(data, 0)
        nodes, place = read_number(data, place)
        # "At set-up 9 is tested after both numbers have been read."
        machine = Machine(threads, nodes, slip)
    except Refused as refusal:
        # "A refusal at set-up prints only `refused` and the number."
        return f"refused {refusal.number}\n"
    lines = [f"bq {threads} {nodes}"]
    while place < len(data):
        try:
            entry, place = read_entry(data, place)
            answer = machine.enter(*entry)
        except Refused as refusal:
            # "10 to 12 get such a line too and end the entries, then the `queue` line follows"
            answer = Answer("refused", refusal.number)
            place = len(data)
        lines.append(line_of(len(lines) - 1, answer, machine.depth()))
    lines.append(" ".join(["queue"] + [str(v) for v in machine.contents()]))
    return "".join(line + "\n" for line in lines)


# -------------------------------------------------------------------- trying the model itself


class Numbers:
    """Pseudo-random numbers of a fixed seed, the same on every machine and every Python."""

    def __init__(self, seed):
        self.state = seed
        self.below(2)

    def below(self, bound):
        self.state = (self.state * 6364136223846793005 + 1442695040888963407) % 2**64
        return (self.state >> 33) % bound

    def one_of(self, values):
        return values[self.below(len(values))]


def some_entry(numbers, machine, wild):
    """An entry that is likely to meet others in the middle of their calls. `wild` in 100 are entries
    of any kind, so that some are refused."""
    v = 10 + numbers.below(90)
    busy = [t for t, thread in enumerate(machine.threads) if thread.next != "idle"]
    idle = [t for t, thread in enumerate(machine.threads) if thread.next == "idle"]
    if numbers.below(100) < wild:
        code = 1 + numbers.below(7)
        t = numbers.below(len(machine.threads) + 1)
        last = numbers.below(len(machine.futures) + 2) if code == 5 else v
    elif busy and (not idle or numbers.below(100) < 65):
        t = numbers.one_of(busy)
        code = numbers.one_of((6, 6, 7))
        last = numbers.below(5)
    else:
        t = numbers.one_of(idle)
        code = numbers.one_of((1, 1, 2, 2, 3, 3, 3, 4, 4, 5, 5, 5, 5))
        last = v
        own = [f for f, future in enumerate(machine.futures) if future.owner == t]
        if code == 5 and not own:
            code = 3
        elif code == 5:
            last = numbers.one_of(own[-3:])
    return [code, t, last][: 1 + OPERANDS[code]]


def try_schedules(count, seed):
    """Pseudo-random schedules; every call is run to its end at last, and the queue emptied."""
    steps = entries = 0
    outcomes = {}
    for number in range(count):
        numbers = Numbers(seed * 1000003 + number)
        machine = Machine(1 + numbers.below(4), 2 + numbers.below(numbers.one_of((6, 14, 40))))
        machine.watch = check
        wild = numbers.one_of((0, 5, 20))
        for _ in range(20 + numbers.below(80)):
            before = machine.state()
            answer = machine.enter(*some_entry(numbers, machine, wild))
            entries += 1
            check(machine)
            if answer.word == "refused":
                assert before == machine.state(), "a refused entry changed the machine"
        for t, thread in enumerate(machine.threads):
            if thread.next != "idle":
                answer = machine.enter(7, t, 2**32 - 1)
                assert answer.word in ("ok", "item", "empty")
        waiting = machine.contents()
        for v in waiting + [None]:
            if machine.enter(2, 0).word == "started":
                # with pending operations the answer may be another; the order is checked anyway
                plain = not machine.threads[0].pending
                answer = machine.enter(7, 0, 2**32 - 1)
                assert not plain or answer.word == ("empty" if v is None else "item")
                assert not plain or v is None or answer.value == v
                if not plain:
                    break
        check(machine)
        steps += len(machine.events)
        for event in machine.events:
            outcomes[event] = outcomes.get(event, 0) + 1
    print(f"{count} schedules, {entries} entries, {steps} steps, each followed by check()")
    for (name, outcome), times in sorted(outcomes.items()):
        print(f"  {name} {outcome}: {times}")


# Sets of calls for --all: the entries that come first, run one after the other, and the calls that
# are then interleaved in every way.
SMALL = (
    ("Enqueue, Enqueue, Dequeue on nothing", 3, 8, [], [(1, 0, 11), (1, 1, 12), (2, 2)]),
    ("Enqueue, Dequeue, Dequeue on one", 3, 8, [(1, 0, 10), (7, 0, 9)], [(1, 0, 11), (2, 1), (2, 2)]),
    ("batch ED and Enqueue", 2, 8, [(3, 0, 21), (4, 0)], [(5, 0, 0), (1, 1, 12)]),
    ("batch DE and Dequeue on nothing", 2, 8, [(4, 0), (3, 0, 21)], [(5, 0, 0), (2, 1)]),
    (
        "batch DDE and batch DD on one",
        2,
        8,
        [(1, 0, 10), (7, 0, 9), (4, 0), (4, 0), (3, 0, 21), (4, 1), (4, 1)],
        [(5, 0, 0), (5, 1, 3)],
    ),
    (
        "batch ED and batch DE on nothing",
        2,
        8,
        [(3, 0, 21), (4, 0), (4, 1), (3, 1, 31)],
        [(5, 0, 0), (5, 1, 2)],
    ),
    ("batch E, Enqueue and Dequeue", 3, 8, [(3, 0, 21)], [(5, 0, 0), (1, 1, 12), (2, 2)]),
    (
        "batch DE, Dequeue and Dequeue on one",
        3,
        8,
        [(1, 0, 10), (7, 0, 9), (4, 0), (3, 0, 21)],
        [(5, 0, 0), (2, 1), (2, 2)],
    ),
    (
        "batch DD, Enqueue and Dequeue on one",
        3,
        8,
        [(1, 0, 10), (7, 0, 9), (4, 0), (4, 0)],
        [(5, 0, 0), (1, 1, 12), (2, 2)],
    ),
    (
        "batch DE, batch E and Dequeue on one",
        3,
        8,
        [(1, 0, 10), (7, 0, 9), (4, 0), (3, 0, 21), (3, 1, 31)],
        [(5, 0, 0), (5, 1, 2), (2, 2)],
    ),
)


def try_all():
    """Every interleaving of small sets of calls. Two ways that lead to the same machine, the order of
    effect included, are followed once."""
    for name, threads, nodes, first, calls in SMALL:
        machine = Machine(threads, nodes)
        for entry in first + calls:
            assert machine.enter(*entry).word != "refused"
        seen = {machine.state()}
        open_ends = [pickle.dumps(machine)]
        ends = steps = 0
        while open_ends:
            state = open_ends.pop()
            busy = [t for t, row in enumerate(pickle.loads(state).threads) if row.next != "idle"]
            ends += not busy
            for t in busy:
                machine = pickle.loads(state)
                machine.enter(6, t)
                machine.events = []
                check(machine)
                steps += 1
                key = machine.state()
                if key not in seen:
                    seen.add(key)
                    open_ends.append(pickle.dumps(machine))
        print(f"{name}: {len(seen)} states, {steps} steps, {ends} ends, each checked", flush=True)


def main():
    if sys.argv[1:2] == ["--try"]:
        try_schedules(int(sys.argv[2]), int(sys.argv[3]))
    elif sys.argv[1:2] == ["--all"]:
        try_all()
    else:
        sys.stdout.write(listing(sys.stdin.buffer.read()))


if __name__ == "__main__":
    main()
