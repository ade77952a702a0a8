"""Schedules of several kinds, each made from a seed.

A schedule is bytes, after document 01, "Schedule bytes and listing". `schedule(seed, kind, index)` gives the
same bytes whenever it is asked.
"""

import random

THREADS, NODES, FUTURES, ANNOUNCEMENTS, PENDING = 8, 512, 512, 64, 32
COUNTED = 65536
LARGEST = 2**32 - 1
# A thread that runs alone ends any call within this many steps: at most 32 reads of its own, and the
# runs of the announcements it meets, of some forty steps each.
TO_THE_END = 1000
# Operands besides the thread, by code.
SECOND_OPERAND = {1: True, 2: False, 3: True, 4: False, 5: True, 6: False, 7: True}


# Bytes of 01, "Schedule bytes and listing".

def number(n):
    """Groups of seven bits, low group first, top bit set when another follows."""
    groups = bytearray()
    while n > 127:
        groups.append(n & 127 | 128)
        n >>= 7
    groups.append(n)
    return bytes(groups)


def entry(code, *operands):
    return b"".join(number(n) for n in (code, *operands))


class Draft:
    """A schedule under way. It keeps count of what is handed out, so that it knows the futures' numbers
    and when the machine has run out. It has no steps: it only knows that a long Run ends a call."""

    def __init__(self, rng, threads, nodes):
        self.rng = rng
        self.threads = threads
        self.bytes = bytearray(number(threads) + number(nodes))
        self.entry_places = []
        self.nodes_left = nodes - 1
        self.futures_out = 0
        self.announcements_left = ANNOUNCEMENTS
        self.pending = [[] for _ in range(threads)]
        self.done = [[] for _ in range(threads)]
        self.busy = [False] * threads
        # The threads by which nodes, futures and announcements are used up; the others keep what they
        # have pending meanwhile.
        self.workers = list(range(threads))

    def add(self, code, *operands):
        self.entry_places.append(len(self.bytes))
        self.bytes += entry(code, *operands)

    def stop_early(self):
        """Leave out the last entries, so that the queue line falls into the midst of calls."""
        if self.entry_places:
            del self.bytes[self.rng.choice(self.entry_places[len(self.entry_places) // 2:]):]

    def item(self):
        rng = self.rng
        return rng.choice((rng.randrange(128), rng.randrange(128), rng.randrange(1000), rng.randrange(2**32),
                           0, 127, 128, 2**14, 2**28 - 1, LARGEST))

    def defer(self, t, is_enqueue):
        self.add(*((3, t, self.item()) if is_enqueue else (4, t)))
        room = self.futures_out < FUTURES and len(self.pending[t]) < PENDING
        if not self.busy[t] and room and (not is_enqueue or self.nodes_left > 0):
            self._deferred(t, is_enqueue)

    def _deferred(self, t, is_enqueue):
        self.nodes_left -= is_enqueue
        self.pending[t].append((is_enqueue, self.futures_out))
        self.futures_out += 1

    def _set_off(self, t):
        if any(is_enqueue for is_enqueue, _ in self.pending[t]):
            self.announcements_left -= 1
        self.busy[t] = True

    def single(self, t, is_enqueue):
        """Enqueue or Dequeue, with or without pending operations."""
        self.add(*((1, t, self.item()) if is_enqueue else (2, t)))
        if self.busy[t] or is_enqueue and self.nodes_left == 0:
            return
        if not self.pending[t]:
            self.nodes_left -= is_enqueue
            self.busy[t] = True
        elif self.futures_out < FUTURES and len(self.pending[t]) < PENDING:
            with_enqueue = is_enqueue or any(e for e, _ in self.pending[t])
            if self.announcements_left > 0 or not with_enqueue:
                self._deferred(t, is_enqueue)
                self._set_off(t)

    def evaluate(self, t, f=None):
        """Evaluate of a pending future of t where there is one, of any number else."""
        pending = [future for _, future in self.pending[t]]
        if f is None:
            f = self.rng.choice(pending) if pending else self.rng.randrange(FUTURES + 8)
        self.add(5, t, f)
        if not self.busy[t] and f in pending:
            with_enqueue = any(e for e, _ in self.pending[t])
            if self.announcements_left > 0 or not with_enqueue:
                self._set_off(t)

    def ask(self, t):
        """Evaluate of a done future of t where there is one, of any future else."""
        pool = self.done[t] or [self.rng.randrange(self.futures_out + 2)]
        self.evaluate(t, self.rng.choice(pool))

    def step(self, t):
        self.add(6, t)

    def run(self, t, n):
        self.add(7, t, n)

    def end(self, t, n=TO_THE_END):
        """A Run that is long enough: t is idle from here on."""
        self.run(t, n)
        if self.busy[t] and self.pending[t]:
            self.done[t] += [future for _, future in self.pending[t]]
            self.pending[t] = []
        self.busy[t] = False

    def batch(self, t, letters):
        for letter in letters:
            self.defer(t, letter == "E")

    def letters(self, most):
        rng = self.rng
        bias = rng.choice((0.2, 0.5, 0.5, 0.8))
        return "".join("E" if rng.random() < bias else "D" for _ in range(rng.randint(1, most)))

    def begin(self, t):
        """Some call by the idle thread t."""
        rng = self.rng
        shape = rng.random()
        if shape < 0.25:
            self.single(t, True)
        elif shape < 0.45:
            self.single(t, False)
        else:
            most = rng.choice((2, 3, 4, 6, 6, 10, 33))
            if shape < 0.6:
                self.batch(t, "D" * rng.randint(1, most))
            else:
                self.batch(t, self.letters(most))
            if rng.random() < 0.3:
                self.single(t, rng.random() < 0.5)
            if not self.busy[t]:
                self.evaluate(t)


# The kinds of schedules. Each takes a source of chance and the schedule's index, and gives bytes.

def calm(rng, _index):
    """Each call is run to its end before the next begins, by Steps or by one Run."""
    d = Draft(rng, rng.randint(1, THREADS), rng.choice((2, 3, 5, 16, 64, 200, NODES)))
    for _ in range(rng.choice((3, 10, 30, 60))):
        t = rng.randrange(d.threads)
        if rng.random() < 0.2:
            d.defer(t, rng.random() < 0.5)
            continue
        if rng.random() < 0.15:
            d.ask(t)
        d.begin(t)
        if rng.random() < 0.3:
            for _ in range(rng.randint(1, 12)):
                d.step(t)
        d.end(t)
    return bytes(d.bytes)


def renew(d, t):
    """Now and then t's call is brought to its end and the next one begins, so that few steps fall on idle
    threads and the others find the queue changed."""
    if d.rng.random() < 0.15:
        d.end(t)
        d.begin(t)


def interleave(d, ways):
    """Some steps of the busy threads, in a way that makes them meet."""
    rng = d.rng
    busy = [t for t in range(d.threads) if d.busy[t]]
    if not busy:
        return
    way = rng.choice(ways)
    if way == "uniform":
        for _ in range(rng.randint(2, 5 * len(busy))):
            t = rng.choice(busy)
            d.step(t) if rng.random() < 0.7 else d.run(t, rng.randint(0, 5))
            renew(d, t)
    elif way == "lockstep":
        for _ in range(rng.randint(2, 9)):
            rng.shuffle(busy)
            for t in busy:
                d.step(t)
                renew(d, t)
    elif way == "bursts":
        for _ in range(rng.randint(1, 2 * len(busy))):
            t = rng.choice(busy)
            d.run(t, rng.randint(1, 9))
            renew(d, t)
    elif way == "stall":
        # One thread stops somewhere, the others go on to their ends and begin anew.
        victim = rng.choice(busy)
        for _ in range(rng.randint(1, 10)):
            d.step(victim)
        for t in busy:
            if t != victim:
                d.end(t)
                if rng.random() < 0.7:
                    d.begin(t)
                    d.run(t, rng.randint(0, 12))
        d.run(victim, rng.randint(0, 4))


def weave(rng):
    """One short call each of a few threads, on a short queue, step by step in any order: each step falls
    where the calls can meet."""
    d = Draft(rng, rng.randint(2, 4), 32)
    for _ in range(rng.randint(0, 3)):
        d.single(0, True)
        d.end(0)
    for t in range(d.threads):
        letters = d.letters(4)
        if len(letters) == 1:
            d.single(t, letters == "E")
        else:
            d.batch(t, letters)
            d.evaluate(t)
    favour = [rng.choice((1, 1, 3)) for _ in range(d.threads)]
    for t in rng.choices(range(d.threads), favour, k=rng.randint(4, 14 * d.threads)):
        d.step(t)
    return d


def contended(rng, _index):
    """Calls of two to eight threads, broken up into single Steps and short Runs."""
    if rng.random() < 0.4:
        d = weave(rng)
        if rng.random() < 0.5:
            for t in rng.sample(range(d.threads), d.threads):
                d.end(t)
        return bytes(d.bytes)
    d = Draft(rng, rng.randint(2, THREADS), rng.choice((4, 16, 64, 200, NODES, NODES, NODES)))
    contend(d, rng.choice((2, 4, 8, 16)), ("uniform", "lockstep", "bursts", "stall"))
    if rng.random() < 0.6:
        d.stop_early()
    return bytes(d.bytes)


def contend(d, rounds, ways):
    rng = d.rng
    keep_on = rng.choice((0.2, 0.5, 0.9))
    for _ in range(rounds):
        for t in range(d.threads):
            if not d.busy[t] and rng.random() < 0.8:
                d.begin(t)
        for _ in range(rng.randint(1, 3)):
            interleave(d, ways)
            t = rng.randrange(d.threads)
            if rng.random() < 0.2:
                d.end(t)
                d.ask(t)
            if rng.random() < 0.1:
                # A call by a thread that may be in one.
                rng.choice((lambda: d.single(t, rng.random() < 0.5), lambda: d.defer(t, rng.random() < 0.5),
                            lambda: d.evaluate(t)))()
        for t in range(d.threads):
            if d.busy[t] and rng.random() > keep_on:
                d.end(t)
    if rng.random() < 0.5:
        for t in range(d.threads):
            if d.busy[t]:
                d.end(t)


# Enough rounds to use up whatever there is. Where a thread can go no further, since something else has run
# out, the rounds end with less.
DRAIN_ROUNDS = 1000


def drain_nodes(d, leave=0):
    """Use up all nodes but some, by single calls and by groups."""
    for _ in range(DRAIN_ROUNDS):
        if d.nodes_left <= leave:
            return
        t = d.rng.choice(d.workers)
        group = min(d.nodes_left - leave, d.rng.randint(1, PENDING))
        if d.rng.random() < 0.7 and d.announcements_left > 0 and d.futures_out + group <= FUTURES:
            d.batch(t, "E" * min(group, PENDING - len(d.pending[t])))
            d.evaluate(t)
        else:
            if d.pending[t]:
                d.evaluate(t)
                d.end(t)
            d.single(t, True)
        d.end(t)


def drain_futures(d, leave=0):
    """Use up all futures but some; deferred dequeues need no node."""
    for _ in range(DRAIN_ROUNDS):
        if d.futures_out >= FUTURES - leave:
            return
        t = d.rng.choice(d.workers)
        group = min(FUTURES - leave - d.futures_out, PENDING - len(d.pending[t]))
        d.batch(t, "D" * d.rng.randint(min(1, group), group))
        if d.rng.random() < 0.9 or len(d.pending[t]) == PENDING:
            d.evaluate(t)
            d.end(t)


def drain_announcements(d, leave=0):
    """Use up all announcements but some, with batches of one or two operations."""
    for _ in range(DRAIN_ROUNDS):
        if d.announcements_left <= leave or d.nodes_left == 0 or d.futures_out == FUTURES:
            return
        t = d.rng.choice(d.workers)
        d.batch(t, d.rng.choice(("E", "E", "ED", "DE")))
        if d.rng.random() < 0.2:
            d.single(t, False)
        else:
            d.evaluate(t)
        d.end(t)


def every_code(d, times=1):
    """Each code by each thread, in range and just out of it, with numbers near the edges."""
    rng = d.rng
    for _ in range(times):
        threads = list(range(d.threads + 1)) + [LARGEST]
        rng.shuffle(threads)
        for t in threads:
            if t >= d.threads:
                code = rng.randint(1, 7)
                d.add(code, t, *((rng.randrange(600),) if SECOND_OPERAND[code] else ()))
                continue
            for call in rng.sample((lambda: d.single(t, True), lambda: d.single(t, False),
                                    lambda: d.defer(t, True), lambda: d.defer(t, False),
                                    lambda: d.evaluate(t), lambda: d.evaluate(t, d.futures_out),
                                    lambda: d.ask(t), lambda: d.step(t),
                                    lambda: d.run(t, rng.randint(0, 3))), 9):
                call()
            if rng.random() < 0.5:
                d.end(t)


def edge_two_nodes(rng):
    d = Draft(rng, rng.randint(1, THREADS), rng.choice((2, 2, 3)))
    every_code(d, 2)
    return d


def edge_all_nodes(rng):
    d = Draft(rng, rng.randint(1, THREADS), rng.choice((NODES, NODES - 1)))
    drain_nodes(d, rng.choice((0, 0, 1)))
    every_code(d, 2)
    for _ in range(rng.randint(0, 20)):
        t = rng.randrange(d.threads)
        d.end(t)
        d.single(t, False)
        d.end(t)
    return d


def edge_pending(rng):
    d = Draft(rng, rng.randint(1, THREADS), NODES)
    for t in rng.sample(range(d.threads), rng.randint(1, d.threads)):
        d.batch(t, d.rng.choice(("E", "D", "ED", "DE", "DDE", "EED")) * 17)
        d.batch(t, d.letters(3))
        d.single(t, True)
        d.single(t, False)
        d.evaluate(t)
    interleave(d, ("uniform", "lockstep", "bursts", "stall"))
    for t in range(d.threads):
        d.end(t)
    every_code(d)
    return d


def edge_futures(rng):
    d = Draft(rng, rng.randint(1, THREADS), rng.choice((4, NODES)))
    for _ in range(rng.randint(0, 5)):
        t = rng.randrange(d.threads)
        d.begin(t)
        d.end(t)
    drain_futures(d, rng.choice((0, 0, 1, 2)))
    every_code(d, 2)
    return d


def edge_announcements(rng):
    d = Draft(rng, rng.randint(1, THREADS), NODES)
    drain_announcements(d, rng.choice((0, 0, 1)))
    every_code(d, 3)
    return d


def edge_all_run_out(rng):
    """Several kinds run out at once, so that the order of the refusals shows."""
    d = Draft(rng, rng.randint(1, THREADS), rng.choice((70, 130, NODES)))
    for t in rng.sample(range(d.threads), rng.randint(0, d.threads - 1)):
        # Full, nearly full or with a few pending, to the end.
        d.workers.remove(t)
        length = rng.choice((PENDING, PENDING, PENDING - 1, 2))
        d.batch(t, ("D" * length if rng.random() < 0.4 else d.letters(1) + "D" * length)[:length])
    for drain in rng.sample((drain_announcements, drain_nodes, drain_futures), rng.randint(1, 3)):
        drain(d)
    every_code(d, 3)
    return d


def edge_run_zero(rng):
    """Run of no steps at every place of a call, and on idle threads."""
    d = Draft(rng, rng.randint(1, 3), 64)
    for _ in range(rng.randint(2, 8)):
        t = rng.randrange(d.threads)
        d.run(t, 0)
        d.begin(t)
        for _ in range(rng.randint(1, 14)):
            d.run(t, 0)
            d.run(rng.randrange(d.threads), rng.choice((0, 1)))
            d.step(t)
        d.end(t)
    return d


def edge_run_huge(rng):
    d = Draft(rng, rng.randint(1, THREADS), 128)
    for _ in range(rng.randint(1, 4)):
        for t in range(d.threads):
            if not d.busy[t]:
                d.begin(t)
        interleave(d, ("uniform", "lockstep"))
        for t in rng.sample(range(d.threads), d.threads):
            d.end(t, rng.choice((LARGEST, 2**31, 2**31 - 1, 2**28, 65536, 16384)))
    return d


EDGES = (edge_two_nodes, edge_all_nodes, edge_pending, edge_futures, edge_announcements, edge_all_run_out,
         edge_run_zero, edge_run_huge)


def edges(rng, index):
    """Each edge of 01's sizes, in turn."""
    return bytes(EDGES[index % len(EDGES)](rng).bytes)


# Every entry and every refusal of the machine that it can give, after 01's table and order.
MACHINE_REFUSALS = [(code, 1) for code in range(1, 8)] + [(code, 2) for code in range(1, 6)] + [
    (6, 3), (7, 3), (1, 4), (3, 4), (1, 5), (2, 5), (3, 5), (4, 5), (1, 6), (2, 6), (3, 6), (4, 6),
    (1, 7), (2, 7), (5, 7), (5, 8)]
# Where a refusal of reading can stand: the set-up's two numbers, a code, and the operands of each code.
READING_REFUSALS = [
    ("first", 10), ("first", 11), ("second", 10), ("second", 11), ("threads", 9), ("nodes", 9),
    ("code", 10), ("code", 11), ("code", 12)] + [
    ((code, operand), refusal) for code in range(1, 8) for operand in range(1 + SECOND_OPERAND[code])
    for refusal in (10, 11)]


def refusals(rng, index):
    """Each refusal 1 to 12 at each entry that can give it, in turn."""
    index %= len(MACHINE_REFUSALS) + len(READING_REFUSALS)
    if index < len(MACHINE_REFUSALS):
        return machine_refusal(rng, *MACHINE_REFUSALS[index])
    return reading_refusal(rng, *READING_REFUSALS[index - len(MACHINE_REFUSALS)])


def machine_refusal(rng, code, refusal):
    d = Draft(rng, rng.randint(1, THREADS), rng.choice((8, 80, NODES)) if refusal != 7 else NODES)
    for _ in range(rng.randint(0, 4)):
        t = rng.randrange(d.threads)
        d.begin(t)
        d.end(t)
    t = rng.randrange(d.threads)
    second = (d.item() if code != 5 else rng.randrange(d.futures_out + 2),) if SECOND_OPERAND[code] else ()
    if refusal == 1:
        t = rng.choice((d.threads, d.threads + 1, THREADS, 127, 128, LARGEST))
    elif refusal == 2:
        d.begin(t)
        d.run(t, rng.choice((0, 1)))
    elif refusal == 3:
        d.end(t)
    elif refusal == 4:
        if rng.random() < 0.5:
            d.defer(t, rng.random() < 0.5)
        drain_nodes(d)
    elif refusal == 5:
        # The last future is t's and pending, so that t's single calls need one too.
        drain_futures(d, 1)
        d.defer(t, False)
    elif refusal == 6:
        d.batch(t, d.letters(40) + "D" * PENDING)
    elif refusal == 7:
        drain_announcements(d)
        d.batch(t, rng.choice(("E", "DE", "EE", "D" if code == 1 else "E")))
        if code == 5:
            second = (d.pending[t][-1][1],) if d.pending[t] else second
    elif refusal == 8:
        other = rng.randrange(d.threads)
        d.defer(other, False)
        second = (rng.choice((d.futures_out, FUTURES - 1, FUTURES, LARGEST, d.futures_out - 1)),)
        t = (other + 1) % d.threads
    for _ in range(rng.randint(1, 2)):
        d.add(code, t, *second)
    # What follows shows that the machine has stayed as it was.
    for t in range(d.threads):
        d.run(t, TO_THE_END)
        d.add(2, t)
        d.run(t, TO_THE_END)
    return bytes(d.bytes)


def bad_number(rng, refusal):
    """A number that is refused: cut short (10); a last group of zero or a fifth byte above 15 (11)."""
    if refusal == 10:
        return bytes(rng.randint(128, 255) for _ in range(rng.randint(0, 4)))
    if rng.random() < 0.5:
        return bytes(rng.randint(128, 255) for _ in range(rng.randint(1, 4))) + b"\0"
    fifth = rng.choice((16, 17, 127, 128, 143, 144, 255))
    return bytes(rng.randint(128, 255) for _ in range(4)) + bytes([fifth])


def reading_refusal(rng, where, refusal):
    tail = b"" if refusal == 10 else bytes(rng.randrange(256) for _ in range(rng.choice((0, 0, 1, 5, 9))))
    if where == "first":
        return bad_number(rng, refusal) + tail
    if where == "second":
        return number(rng.choice((0, 1, 8, 9, LARGEST))) + bad_number(rng, refusal) + tail
    if where == "threads":
        return number(rng.choice((0, 9, 127, 128, LARGEST))) + number(rng.choice((0, 1, 2, 512, 513))) + tail
    if where == "nodes":
        return number(rng.randint(1, 8)) + number(rng.choice((0, 1, 513, 16384, LARGEST))) + tail
    d = Draft(rng, rng.randint(1, THREADS), 64)
    contend(d, rng.randint(0, 2), ("uniform", "stall"))
    start = bytes(d.bytes)
    if where == "code":
        if refusal == 12:
            return start + number(rng.choice((0, 8, 9, 127, 128, 129, 135, 16384, LARGEST))) + tail
        bad = bad_number(rng, refusal)
        # A code that lacks every byte is the end of the schedule, not a refusal.
        return start + (bad or b"\x87") + tail
    code, operand = where
    good = [rng.choice((0, 1, 127, 128, LARGEST)) for _ in range(operand)]
    return start + entry(code, *good) + bad_number(rng, refusal) + tail


def damaged(rng, index):
    """A schedule of another kind with its bytes damaged; or bytes with no plan at all."""
    if index % 10 == 0:
        bound = rng.choice((4, 8, 10, 130, 256))
        start = b"" if rng.random() < 0.3 else number(rng.randint(1, 8)) + number(rng.randint(2, 512))
        return start + bytes(rng.randrange(bound) for _ in range(rng.choice((0, 1, 2, 3, 5, 10, 100, 1000))))
    base = bytearray(rng.choice((calm, contended, contended, refusals))(rng, rng.randrange(1000)))
    for _ in range(rng.choice((1, 1, 1, 2, 3, 6))):
        at = rng.randrange(len(base) + 1)
        way = rng.randrange(8)
        if way == 0 and at < len(base):
            base[at] ^= 1 << rng.randrange(8)
        elif way == 1 and at < len(base):
            base[at] = rng.choice((0, 1, 7, 8, 15, 16, 127, 128, 255, rng.randrange(256)))
        elif way == 2:
            del base[at:at + rng.randint(1, 3)]
        elif way == 3:
            base[at:at] = bytes(rng.randrange(256) for _ in range(rng.randint(1, 4)))
        elif way == 4 and rng.random() < 0.5:
            del base[at:]
        elif way == 5:
            base += bytes(rng.randrange(256) for _ in range(rng.randint(1, 8)))
        elif way == 6:
            # A number of one to six bytes, its last group perhaps zero, in place of a byte.
            groups = [rng.randint(128, 255) for _ in range(rng.randint(0, 5))]
            base[at:at + 1] = bytes(groups + [rng.choice((0, 1, 7, 15, 16, 127))])
        elif way == 7:
            # An entry where none was meant, its operands from small to largest.
            code = rng.randint(1, 7)
            operands = [rng.choice((0, 1, 7, 8, 511, 512, LARGEST)) for _ in range(1 + SECOND_OPERAND[code])]
            base[at:at] = entry(code, *operands)
    return bytes(base)


def long(rng, index):
    """Lengths near, at and beyond 65,536 bytes, the limit falling anywhere in an entry."""
    d = Draft(rng, rng.randint(1, THREADS), rng.choice((64, NODES)))
    length = (COUNTED, COUNTED - 1, COUNTED + 1, COUNTED + rng.randint(-12, 12), rng.randint(20000, COUNTED),
              rng.randint(COUNTED, 2 * COUNTED))[index % 6]
    if rng.random() < 0.5 and d.threads > 1:
        contend(d, 16, ("uniform", "lockstep", "bursts", "stall"))
    while len(d.bytes) < length:
        t = rng.randrange(d.threads)
        if not d.busy[t]:
            d.begin(t)
        for _ in range(rng.randint(1, 6)):
            d.run(rng.randrange(d.threads), rng.choice((0, 1, 2, 3, 130, 2**21, LARGEST)))
        if rng.random() < 0.7:
            d.end(t)
        if rng.random() < 0.3:
            d.ask(t)
    exact = index % 12 < 6
    return bytes(d.bytes[:length] if exact else d.bytes)


KINDS = {"calm": (calm, 15), "contended": (contended, 40), "edges": (edges, 12), "refusals": (refusals, 15),
         "damaged": (damaged, 16), "long": (long, 2)}


def schedule(seed, kind, index):
    return KINDS[kind][0](random.Random(f"{seed}/{kind}/{index}"), index)
