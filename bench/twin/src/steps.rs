//! The steps of 01, one function each, named as there. "One step is one access." Line numbers are those
//! of the paper's listings 1 to 8.

use crate::machine::{Head, Machine, Outcome, PtrCnt};

/// Where a thread's call stands: the step it takes next, with what its earlier steps have read.
#[derive(Clone, Copy, PartialEq)]
pub enum Place {
    Idle,
    E1,
    E2 {
        tail: PtrCnt,
    },
    E3 {
        tail: PtrCnt,
    },
    E4 {
        tail: PtrCnt,
        found: usize,
    },
    E5 {
        tail: PtrCnt,
        found: usize,
    },
    D1,
    D2 {
        head: PtrCnt,
    },
    D3 {
        head: PtrCnt,
        next: usize,
    },
    B1,
    B2 {
        head: PtrCnt,
    },
    Q1,
    Q2 {
        head: PtrCnt,
        node: usize,
        s: u32,
    },
    Q3 {
        head: PtrCnt,
        node: usize,
        s: u32,
    },
    /// Running announcement `a`; "a thread that runs an announcement remembers which call it must go
    /// back to".
    Run {
        a: usize,
        at: At,
        back: Back,
    },
}

/// Where a run of an announcement stands.
#[derive(Clone, Copy, PartialEq)]
pub enum At {
    A1,
    A2 { tail: PtrCnt },
    A3 { tail: PtrCnt },
    A4 { tail: PtrCnt },
    A5 { old_tail: PtrCnt },
    A6 { node: usize, left: u32 },
    A7 { node: usize },
    A8 { tail: PtrCnt, found: usize },
}

/// What follows the run's a7: the call that met the announcement begins anew, or the owner's call ends.
#[derive(Clone, Copy, PartialEq)]
pub enum Back {
    E1,
    D1,
    B1,
    Q1,
    Ends,
}

/// What a step leads to: the next place, or the end of the call.
enum Next {
    Go(Place),
    End(Outcome),
}
use Next::{End, Go};

/// The steps in the order of 01, for counting.
#[derive(Clone, Copy)]
pub enum Step {
    E1,
    E2,
    E3,
    E4,
    E5,
    D1,
    D2,
    D3,
    B1,
    B2,
    Q1,
    Q2,
    Q3,
    A1,
    A2,
    A3,
    A4,
    A5,
    A6,
    A7,
    A8,
}

/// The steps by name, and the names of the two ways in which each may come out; "" where there is one.
pub const STEP_NAMES: [(&str, &str, &str); 21] = [
    ("e1", "read", ""),
    ("e2", "not-taken", "taken"),
    ("e3", "not-taken", "taken"),
    ("e4", "node", "announcement"),
    ("e5", "not-taken", "taken"),
    ("d1", "node", "announcement"),
    ("d2", "none", "next"),
    ("d3", "not-taken", "taken"),
    ("b1", "node", "announcement"),
    ("b2", "not-taken", "taken"),
    ("q1", "node", "announcement"),
    ("q2", "none", "next"),
    ("q3", "not-taken", "taken"),
    ("a1", "by-a-helper", "by-the-owner"),
    ("a2", "not-set", "set"),
    ("a3", "not-taken", "taken"),
    ("a4", "first-write", "written-before"),
    ("a5", "not-taken", "taken"),
    ("a6", "read", ""),
    ("a7", "not-taken", "taken"),
    ("a8", "not-taken", "taken"),
];

/// How often each step came out in each of its two ways.
#[derive(Clone, Default)]
pub struct Seen(pub [[u64; 2]; STEP_NAMES.len()]);

impl Seen {
    fn note(&mut self, step: Step, second_way: bool) {
        self.0[step as usize][usize::from(second_way)] += 1;
    }
}

impl Machine {
    /// One step of t's call; Some where it ends the call. Only busy threads are stepped (refusal 3).
    pub fn step(&mut self, t: usize) -> Option<Outcome> {
        let next = match self.threads[t].place {
            Place::Idle => unreachable!("an idle thread is refused 3"),
            Place::E1 => self.e1(),
            Place::E2 { tail } => self.e2(t, tail),
            Place::E3 { tail } => self.e3(t, tail),
            Place::E4 { tail, found } => self.e4(tail, found),
            Place::E5 { tail, found } => self.e5(tail, found),
            Place::D1 => self.d1(),
            Place::D2 { head } => self.d2(head),
            Place::D3 { head, next } => self.d3(head, next),
            Place::B1 => self.b1(),
            Place::B2 { head } => self.b2(t, head),
            Place::Q1 => self.q1(),
            Place::Q2 { head, node, s } => self.q2(t, head, node, s),
            Place::Q3 { head, node, s } => self.q3(t, head, node, s),
            Place::Run { a, at, back } => self.run_step(t, a, at, back),
        };
        match next {
            Go(place) => {
                self.threads[t].place = place;
                None
            }
            End(outcome) => {
                self.threads[t].place = Place::Idle;
                Some(outcome)
            }
        }
    }

    // The three kinds of shared place a CAS is made on.

    /// CAS on the tail: node and count are compared.
    fn cas_tail(&mut self, expected: PtrCnt, new: PtrCnt) -> bool {
        let taken = self.tail == expected;
        if taken {
            self.tail = new;
        }
        taken
    }

    /// CAS on the head.
    fn cas_head(&mut self, expected: Head, new: Head) -> bool {
        let taken = self.head == expected;
        if taken {
            self.head = new;
        }
        taken
    }

    /// CAS of an unset next link. "A CAS that fails hands back the value found."
    fn cas_next(&mut self, node: usize, new: usize) -> Result<(), usize> {
        match self.nodes[node].next {
            Some(found) => Err(found),
            None => {
                self.nodes[node].next = Some(new);
                Ok(())
            }
        }
    }

    // Enqueue (listing 1).

    /// "e1 read tail" (line 4).
    fn e1(&mut self) -> Next {
        self.seen.note(Step::E1, false);
        Go(Place::E2 { tail: self.tail })
    }

    /// "e2 CAS the new node onto its next link; taken: e3, else e4" (line 5).
    fn e2(&mut self, t: usize, tail: PtrCnt) -> Next {
        let linked = self.cas_next(tail.node, self.threads[t].own_node);
        self.seen.note(Step::E2, linked.is_ok());
        match linked {
            Ok(()) => Go(Place::E3 { tail }),
            Err(found) => Go(Place::E4 { tail, found }),
        }
    }

    /// "e3 CAS tail to the new node, count + 1; ends" (line 7), taken or not.
    fn e3(&mut self, t: usize, tail: PtrCnt) -> Next {
        let new = PtrCnt { node: self.threads[t].own_node, count: tail.count + 1 };
        let taken = self.cas_tail(tail, new);
        self.seen.note(Step::E3, taken);
        End(Outcome::Ok)
    }

    /// "e4 read head; an announcement: run it, then e1; else e5" (lines 10 to 12).
    fn e4(&mut self, tail: PtrCnt, found: usize) -> Next {
        self.seen.note(Step::E4, matches!(self.head, Head::Announcement(_)));
        match self.head {
            Head::Announcement(a) => Go(Place::Run { a, at: At::A1, back: Back::E1 }),
            Head::At(_) => Go(Place::E5 { tail, found }),
        }
    }

    /// "e5 CAS tail to the node found, count + 1; e1" (line 13, with the count read at line 4).
    fn e5(&mut self, tail: PtrCnt, found: usize) -> Next {
        let taken = self.cas_tail(tail, PtrCnt { node: found, count: tail.count + 1 });
        self.seen.note(Step::E5, taken);
        Go(Place::E1)
    }

    // Dequeue (listings 2 and 3).

    /// "d1 read head; an announcement: run it, then d1" (lines 16, 24 to 27).
    fn d1(&mut self) -> Next {
        self.seen.note(Step::D1, matches!(self.head, Head::Announcement(_)));
        match self.head {
            Head::Announcement(a) => Go(Place::Run { a, at: At::A1, back: Back::D1 }),
            Head::At(head) => Go(Place::D2 { head }),
        }
    }

    /// "d2 read next; none: ends empty" (lines 17 to 19).
    fn d2(&mut self, head: PtrCnt) -> Next {
        let next = self.nodes[head.node].next;
        self.seen.note(Step::D2, next.is_some());
        match next {
            Some(next) => Go(Place::D3 { head, next }),
            None => End(Outcome::Empty),
        }
    }

    /// "d3 CAS head to it, count + 1; taken: ends with its item, else d1" (lines 20 and 21).
    fn d3(&mut self, head: PtrCnt, next: usize) -> Next {
        let new = PtrCnt { node: next, count: head.count + 1 };
        let taken = self.cas_head(Head::At(head), Head::At(new));
        self.seen.note(Step::D3, taken);
        if taken {
            End(Outcome::Item(self.nodes[next].item))
        } else {
            Go(Place::D1)
        }
    }

    // Batch with an enqueue (listing 4).

    /// "b1 read head; an announcement: run it, then b1" (line 31).
    fn b1(&mut self) -> Next {
        self.seen.note(Step::B1, matches!(self.head, Head::Announcement(_)));
        match self.head {
            Head::Announcement(a) => Go(Place::Run { a, at: At::A1, back: Back::B1 }),
            Head::At(head) => Go(Place::B2 { head }),
        }
    }

    /// "b2 set the old head and CAS head to the own announcement; not taken: b1. Then run it; ends with
    /// the run" (lines 32 to 35).
    fn b2(&mut self, t: usize, head: PtrCnt) -> Next {
        let a = self.threads[t].own_announcement;
        self.announcements[a].old_head = head;
        let taken = self.cas_head(Head::At(head), Head::Announcement(a));
        self.seen.note(Step::B2, taken);
        if taken {
            Go(Place::Run { a, at: At::A1, back: Back::Ends })
        } else {
            Go(Place::B1)
        }
    }

    // Batch of dequeues only (listing 7).

    /// "q1 read head; an announcement: run it, then q1" (lines 94 to 96).
    fn q1(&mut self) -> Next {
        self.seen.note(Step::Q1, matches!(self.head, Head::Announcement(_)));
        match self.head {
            Head::Announcement(a) => Go(Place::Run { a, at: At::A1, back: Back::Q1 }),
            Head::At(head) => Go(Place::Q2 { head, node: head.node, s: 0 }),
        }
    }

    /// "q2 read next, once per pending dequeue, stopping at none. No node found: ends" (lines 97 to
    /// 104).
    fn q2(&mut self, t: usize, head: PtrCnt, node: usize, s: u32) -> Next {
        let next = self.nodes[node].next;
        self.seen.note(Step::Q2, next.is_some());
        match next {
            Some(next) if s + 1 < self.threads[t].dequeues => Go(Place::Q2 { head, node: next, s: s + 1 }),
            Some(next) => Go(Place::Q3 { head, node: next, s: s + 1 }),
            None if s > 0 => Go(Place::Q3 { head, node, s }),
            None => End(self.pair_dequeues(t, head.node, 0)),
        }
    }

    /// "q3 CAS head past the s nodes found, count + s; taken: ends, else q1" (line 105).
    fn q3(&mut self, t: usize, head: PtrCnt, node: usize, s: u32) -> Next {
        let new = PtrCnt { node, count: head.count + s };
        let taken = self.cas_head(Head::At(head), Head::At(new));
        self.seen.note(Step::Q3, taken);
        if taken {
            End(self.pair_dequeues(t, head.node, s))
        } else {
            Go(Place::Q1)
        }
    }

    // Running an announcement (listing 5).

    fn run_step(&mut self, t: usize, a: usize, at: At, back: Back) -> Next {
        let at = match at {
            At::A1 => self.a1(back),
            At::A2 { tail } => self.a2(a, tail),
            At::A3 { tail } => self.a3(a, tail),
            At::A4 { tail } => self.a4(a, tail),
            At::A5 { old_tail } => self.a5(a, old_tail),
            At::A6 { node, left } => self.a6(node, left),
            At::A7 { node } => return self.a7(t, a, node, back),
            At::A8 { tail, found } => self.a8(tail, found),
        };
        Go(Place::Run { a, at, back })
    }

    /// "a1 read tail" (line 40).
    fn a1(&mut self, back: Back) -> At {
        self.seen.note(Step::A1, back == Back::Ends);
        At::A2 { tail: self.tail }
    }

    /// "a2 read its old tail; set: a5" (lines 41 to 43).
    fn a2(&mut self, a: usize, tail: PtrCnt) -> At {
        let old_tail = self.announcements[a].old_tail;
        self.seen.note(Step::A2, old_tail.is_some());
        match old_tail {
            Some(old_tail) => At::A5 { old_tail },
            None => At::A3 { tail },
        }
    }

    /// "a3 CAS its first node onto the next link of the tail read at a1; taken, or the found node is
    /// its first: a4; else a8" (lines 44 and 45).
    fn a3(&mut self, a: usize, tail: PtrCnt) -> At {
        let first = self.announcements[a].first;
        let linked = self.cas_next(tail.node, first);
        self.seen.note(Step::A3, linked.is_ok());
        match linked {
            Err(found) if found != first => At::A8 { tail, found },
            _ => At::A4 { tail },
        }
    }

    /// "a4 write its old tail" (line 46).
    fn a4(&mut self, a: usize, tail: PtrCnt) -> At {
        self.seen.note(Step::A4, self.announcements[a].old_tail.is_some());
        self.announcements[a].old_tail = Some(tail);
        At::A5 { old_tail: tail }
    }

    /// "a5 CAS tail from old tail to its last node, count + its enqueues" (lines 50 and 51). Then s and
    /// the walk are known: both old ends are set for good.
    fn a5(&mut self, a: usize, old_tail: PtrCnt) -> At {
        let ann = self.announcements[a];
        let new = PtrCnt { node: ann.last, count: old_tail.count + ann.enqueues };
        let taken = self.cas_tail(old_tail, new);
        self.seen.note(Step::A5, taken);
        match self.walk(a) {
            (node, 0) => At::A7 { node },
            (node, left) => At::A6 { node, left },
        }
    }

    /// "a6 read next, once per node walked" (lines 69 to 72).
    fn a6(&mut self, node: usize, left: u32) -> At {
        self.seen.note(Step::A6, false);
        let node = self.nodes[node].next.expect("a walk stays within the chain");
        if left == 1 {
            At::A7 { node }
        } else {
            At::A6 { node, left: left - 1 }
        }
    }

    /// "a7 CAS head from this announcement to the new head" (lines 61 and 67); "the dequeue count rises
    /// by s". Then back to the call, also when others have finished the announcement.
    fn a7(&mut self, t: usize, a: usize, node: usize, back: Back) -> Next {
        let old_head = self.announcements[a].old_head;
        let new = PtrCnt { node, count: old_head.count + self.announcements[a].successful(self.size(a)) };
        let taken = self.cas_head(Head::Announcement(a), Head::At(new));
        self.seen.note(Step::A7, taken);
        match back {
            Back::E1 => Go(Place::E1),
            Back::D1 => Go(Place::D1),
            Back::B1 => Go(Place::B1),
            Back::Q1 => Go(Place::Q1),
            Back::Ends => End(self.pair_batch(t, old_head.node)),
        }
    }

    /// "a8 CAS tail to the node found, count + 1; a1" (line 49).
    fn a8(&mut self, tail: PtrCnt, found: usize) -> At {
        let taken = self.cas_tail(tail, PtrCnt { node: found, count: tail.count + 1 });
        self.seen.note(Step::A8, taken);
        At::A1
    }

    /// "Size z = old tail's count - old head's count" (line 55).
    fn size(&self, a: usize) -> u32 {
        let ann = &self.announcements[a];
        let old_tail = ann.old_tail.expect("a4 or a2 came before");
        old_tail.count.checked_sub(ann.old_head.count).expect("no more was taken than was linked")
    }

    /// "s = 0: the old head goes back, no walk. z > s > 0: walk s from the old head. Otherwise walk
    /// s - z from the old tail" (lines 60 to 66). Answers where the walk begins and its length.
    fn walk(&self, a: usize) -> (usize, u32) {
        let ann = &self.announcements[a];
        let old_tail = ann.old_tail.expect("a4 or a2 came before");
        let z = self.size(a);
        let s = ann.successful(z);
        if s == 0 {
            (ann.old_head.node, 0)
        } else if z > s {
            (ann.old_head.node, s)
        } else {
            (old_tail.node, s - z)
        }
    }

    // Pairing of results, which "belongs to the step that ends the call".

    /// Listing 6, line by line: the pending operations are gone through in their order, on the chain
    /// that begins at the old head.
    fn pair_batch(&mut self, t: usize, old_head: usize) -> Outcome {
        let thread = self.threads[t];
        let mut next_enqueued = Some(thread.first);
        let mut current_head = old_head;
        let mut no_more = false;
        for op in &thread.pending[..thread.pending_len] {
            let outcome = if op.is_enqueue {
                let node = next_enqueued.expect("each pending enqueue has its node");
                next_enqueued = self.nodes[node].next;
                Outcome::Ok
            } else if no_more || self.nodes[current_head].next == next_enqueued {
                Outcome::Empty
            } else {
                current_head = self.nodes[current_head].next.expect("the queue is not empty here");
                no_more = current_head == thread.last;
                Outcome::Item(self.nodes[current_head].item)
            };
            self.futures[op.future].result = Some(outcome);
        }
        self.end_batch(t)
    }

    /// Listing 8: the first s dequeues get the items after the old head, the others find nothing.
    fn pair_dequeues(&mut self, t: usize, old_head: usize, s: u32) -> Outcome {
        let thread = self.threads[t];
        let mut current_head = old_head;
        for (place, op) in thread.pending[..thread.pending_len].iter().enumerate() {
            let outcome = if place < s as usize {
                current_head = self.nodes[current_head].next.expect("q2 found s nodes");
                Outcome::Item(self.nodes[current_head].item)
            } else {
                Outcome::Empty
            };
            self.futures[op.future].result = Some(outcome);
        }
        self.end_batch(t)
    }

    /// "In the step that ends a batch's call its futures become done, and the pending list and the
    /// tally are cleared." The answer is the result of the future that set the batch off.
    fn end_batch(&mut self, t: usize) -> Outcome {
        let thread = &mut self.threads[t];
        thread.pending_len = 0;
        thread.enqueues = 0;
        thread.dequeues = 0;
        thread.excess = 0;
        self.futures[thread.wanted].result.expect("the future that set it off is in the batch")
    }
}
