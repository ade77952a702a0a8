//! The machine's state and its entries, after 01, "What the machine is", "Entries" and "Refusal numbers".

use crate::schedule::{Entry, Refusal};
use crate::steps::{Place, Seen};

pub const THREADS: usize = 8;
pub const NODES: usize = 512;
pub const FUTURES: usize = 512;
pub const ANNOUNCEMENTS: usize = 64;
pub const PENDING: usize = 32;

const NO_SUCH_THREAD: Refusal = 1;
const IN_A_CALL: Refusal = 2;
const IDLE: Refusal = 3;
const NO_NODE: Refusal = 4;
const NO_FUTURE: Refusal = 5;
const NO_PLACE: Refusal = 6;
const NO_ANNOUNCEMENT: Refusal = 7;
const NOT_YOUR_FUTURE: Refusal = 8;

/// "Results: ok (enqueue), item v, empty."
#[derive(Clone, Copy)]
pub enum Outcome {
    Ok,
    Item(u32),
    Empty,
}

/// The answer column of 01's table of entries.
#[derive(Clone, Copy)]
pub enum Answer {
    Started,
    Future(usize),
    Ended(Outcome),
    More,
}

/// Table 1 of the paper, Node. "A set next link never changes."
#[derive(Clone, Copy)]
pub struct Node {
    pub item: u32,
    pub next: Option<usize>,
}

/// Table 1 of the paper, PtrCnt: a node and, beside it, the count. A CAS compares both.
#[derive(Clone, Copy, PartialEq)]
pub struct PtrCnt {
    pub node: usize,
    pub count: u32,
}

/// Table 1 of the paper, PtrCntOrAnn: what the head holds.
#[derive(Clone, Copy, PartialEq)]
pub enum Head {
    At(PtrCnt),
    Announcement(usize),
}

/// Table 1 of the paper, Future. It is done where it has a result.
#[derive(Clone, Copy)]
pub struct Future {
    pub owner: usize,
    pub result: Option<Outcome>,
}

/// Table 1 of the paper, Ann and its BatchRequest.
#[derive(Clone, Copy)]
pub struct Announcement {
    pub first: usize,
    pub last: usize,
    pub enqueues: u32,
    pub dequeues: u32,
    pub excess: u32,
    pub old_head: PtrCnt,
    pub old_tail: Option<PtrCnt>,
}

/// Table 1 of the paper, FutureOp.
#[derive(Clone, Copy)]
pub struct Pending {
    pub is_enqueue: bool,
    pub future: usize,
}

/// Table 1 of the paper, ThreadData, and where the thread's call stands.
#[derive(Clone, Copy)]
pub struct Thread {
    pub place: Place,
    /// The pending list: the first `pending_len` of these, in the order of the calls.
    pub pending: [Pending; PENDING],
    pub pending_len: usize,
    /// "The tally of three numbers."
    pub enqueues: u32,
    pub dequeues: u32,
    pub excess: u32,
    /// First and last node of the pending enqueues (enqsHead, enqsTail); they mean something only
    /// while `enqueues` is above 0.
    pub first: usize,
    pub last: usize,
    /// The node of an Enqueue with nothing pending.
    pub own_node: usize,
    /// The announcement of a batch with an enqueue.
    pub own_announcement: usize,
    /// The future whose result ends the batch's call.
    pub wanted: usize,
}

pub struct Machine {
    pub thread_count: usize,
    node_count: usize,
    pub nodes: [Node; NODES],
    pub futures: [Future; FUTURES],
    pub announcements: [Announcement; ANNOUNCEMENTS],
    pub threads: [Thread; THREADS],
    pub head: Head,
    pub tail: PtrCnt,
    /// "Handed out in number order ..., and each is used once": how many have been.
    nodes_out: usize,
    futures_out: usize,
    announcements_out: usize,
    /// How often each step was taken, and how it came out; no rule reads it.
    pub seen: Seen,
}

impl Machine {
    /// "A fresh machine has one dummy node, number 0, at which head and tail point, both counts zero.
    /// Every thread is idle and has nothing pending."
    pub fn fresh(thread_count: usize, node_count: usize) -> Self {
        let dummy = PtrCnt { node: 0, count: 0 };
        let thread = Thread {
            place: Place::Idle,
            pending: [Pending { is_enqueue: false, future: 0 }; PENDING],
            pending_len: 0,
            enqueues: 0,
            dequeues: 0,
            excess: 0,
            first: 0,
            last: 0,
            own_node: 0,
            own_announcement: 0,
            wanted: 0,
        };
        let announcement = Announcement {
            first: 0,
            last: 0,
            enqueues: 0,
            dequeues: 0,
            excess: 0,
            old_head: dummy,
            old_tail: None,
        };
        Machine {
            thread_count,
            node_count,
            nodes: [Node { item: 0, next: None }; NODES],
            futures: [Future { owner: 0, result: None }; FUTURES],
            announcements: [announcement; ANNOUNCEMENTS],
            threads: [thread; THREADS],
            head: Head::At(dummy),
            tail: dummy,
            nodes_out: 1,
            futures_out: 0,
            announcements_out: 0,
            seen: Seen::default(),
        }
    }

    /// One entry: its answer and the steps it took. "Run reports the steps it took, Step one, other
    /// entries none."
    pub fn enter(&mut self, entry: Entry) -> Result<(Answer, u32), Refusal> {
        match entry {
            Entry::Enqueue { t, v } => Ok((self.enqueue(t, v)?, 0)),
            Entry::Dequeue { t } => Ok((self.dequeue(t)?, 0)),
            Entry::FutureEnqueue { t, v } => Ok((self.future_enqueue(t, v)?, 0)),
            Entry::FutureDequeue { t } => Ok((self.future_dequeue(t)?, 0)),
            Entry::Evaluate { t, f } => Ok((self.evaluate(t, f)?, 0)),
            Entry::Step { t } => self.run(t, 1),
            Entry::Run { t, n } => self.run(t, n),
        }
    }

    /// "Enqueue with nothing pending needs a node only"; with pending operations it first adds itself
    /// as a deferred call, "then acts as Evaluate of it". All that is needed is tested before
    /// anything is handed out, since a refusal leaves the machine unchanged.
    fn enqueue(&mut self, t: u32, v: u32) -> Result<Answer, Refusal> {
        let t = self.idle_thread(t)?;
        self.need_node()?;
        if self.threads[t].pending_len == 0 {
            self.threads[t].own_node = self.hand_out_node(v);
            self.threads[t].place = Place::E1;
        } else {
            self.need_future()?;
            self.need_place(t)?;
            self.need_announcement()?;
            let f = self.defer_enqueue(t, v);
            self.set_off(t, f);
        }
        Ok(Answer::Started)
    }

    /// "Dequeue with nothing pending needs nothing"; with pending operations as Enqueue. Its batch
    /// needs an announcement only where an enqueue is pending.
    fn dequeue(&mut self, t: u32) -> Result<Answer, Refusal> {
        let t = self.idle_thread(t)?;
        if self.threads[t].pending_len == 0 {
            self.threads[t].place = Place::D1;
        } else {
            self.need_future()?;
            self.need_place(t)?;
            if self.threads[t].enqueues > 0 {
                self.need_announcement()?;
            }
            let f = self.defer_dequeue(t);
            self.set_off(t, f);
        }
        Ok(Answer::Started)
    }

    /// Code 3: a node, a future and a pending place; it "ends at once".
    fn future_enqueue(&mut self, t: u32, v: u32) -> Result<Answer, Refusal> {
        let t = self.idle_thread(t)?;
        self.need_node()?;
        self.need_future()?;
        self.need_place(t)?;
        Ok(Answer::Future(self.defer_enqueue(t, v)))
    }

    /// Code 4: a future and a pending place; it "ends at once".
    fn future_dequeue(&mut self, t: u32) -> Result<Answer, Refusal> {
        let t = self.idle_thread(t)?;
        self.need_future()?;
        self.need_place(t)?;
        Ok(Answer::Future(self.defer_dequeue(t)))
    }

    /// "The result where f is done, else started." A done future sets nothing off, so it never gives
    /// 7. A future of an idle thread that is not done is pending, so there is a batch to set off.
    fn evaluate(&mut self, t: u32, f: u32) -> Result<Answer, Refusal> {
        let t = self.idle_thread(t)?;
        let f = f as usize;
        if f >= self.futures_out || self.futures[f].owner != t {
            return Err(NOT_YOUR_FUTURE);
        }
        if let Some(outcome) = self.futures[f].result {
            return Ok(Answer::Ended(outcome));
        }
        if self.threads[t].enqueues > 0 {
            self.need_announcement()?;
        }
        self.set_off(t, f);
        Ok(Answer::Started)
    }

    /// Codes 6 and 7: "up to n steps, stopping when the call ends". "Run with n = 0 on a busy thread
    /// answers more."
    fn run(&mut self, t: u32, n: u32) -> Result<(Answer, u32), Refusal> {
        let t = self.known_thread(t)?;
        if self.threads[t].place == Place::Idle {
            return Err(IDLE);
        }
        for taken in 1..=n {
            if let Some(outcome) = self.step(t) {
                return Ok((Answer::Ended(outcome), taken));
            }
        }
        Ok((Answer::More, n))
    }

    fn known_thread(&self, t: u32) -> Result<usize, Refusal> {
        let t = t as usize;
        if t < self.thread_count {
            Ok(t)
        } else {
            Err(NO_SUCH_THREAD)
        }
    }

    /// "Order within an entry: 1, then 2 ...".
    fn idle_thread(&self, t: u32) -> Result<usize, Refusal> {
        let t = self.known_thread(t)?;
        if self.threads[t].place == Place::Idle {
            Ok(t)
        } else {
            Err(IN_A_CALL)
        }
    }

    fn need_node(&self) -> Result<(), Refusal> {
        if self.nodes_out < self.node_count {
            Ok(())
        } else {
            Err(NO_NODE)
        }
    }

    fn need_future(&self) -> Result<(), Refusal> {
        if self.futures_out < FUTURES {
            Ok(())
        } else {
            Err(NO_FUTURE)
        }
    }

    fn need_place(&self, t: usize) -> Result<(), Refusal> {
        if self.threads[t].pending_len < PENDING {
            Ok(())
        } else {
            Err(NO_PLACE)
        }
    }

    fn need_announcement(&self) -> Result<(), Refusal> {
        if self.announcements_out < ANNOUNCEMENTS {
            Ok(())
        } else {
            Err(NO_ANNOUNCEMENT)
        }
    }

    fn hand_out_node(&mut self, item: u32) -> usize {
        let node = self.nodes_out;
        self.nodes_out += 1;
        self.nodes[node] = Node { item, next: None };
        node
    }

    /// A future and a pending place for t.
    fn defer(&mut self, t: usize, is_enqueue: bool) -> usize {
        let future = self.futures_out;
        self.futures_out += 1;
        self.futures[future] = Future { owner: t, result: None };
        let thread = &mut self.threads[t];
        thread.pending[thread.pending_len] = Pending { is_enqueue, future };
        thread.pending_len += 1;
        future
    }

    /// The node joins the thread's list of pending items, which the batch will link as a whole
    /// (6.1.1 of the paper, Thread-Local Data). An enqueue never raises the excess.
    fn defer_enqueue(&mut self, t: usize, v: u32) -> usize {
        let node = self.hand_out_node(v);
        if self.threads[t].enqueues == 0 {
            self.threads[t].first = node;
        } else {
            self.nodes[self.threads[t].last].next = Some(node);
        }
        self.threads[t].last = node;
        self.threads[t].enqueues += 1;
        self.defer(t, true)
    }

    /// Excess is "the largest value of dequeues less enqueues over all prefixes, the empty prefix
    /// among them": the prefix that this dequeue ends is the only new one.
    fn defer_dequeue(&mut self, t: usize) -> usize {
        let thread = &mut self.threads[t];
        thread.dequeues += 1;
        thread.excess = thread.excess.max(thread.dequeues.saturating_sub(thread.enqueues));
        self.defer(t, false)
    }

    /// The batch of all that t has pending begins: with an enqueue at b1, and the announcement is
    /// handed out here, "by the entry that ... starts the call"; else at q1.
    fn set_off(&mut self, t: usize, f: usize) {
        let thread = &mut self.threads[t];
        thread.wanted = f;
        if thread.enqueues == 0 {
            thread.place = Place::Q1;
            return;
        }
        let announcement = &mut self.announcements[self.announcements_out];
        announcement.first = thread.first;
        announcement.last = thread.last;
        announcement.enqueues = thread.enqueues;
        announcement.dequeues = thread.dequeues;
        announcement.excess = thread.excess;
        thread.own_announcement = self.announcements_out;
        thread.place = Place::B1;
        self.announcements_out += 1;
    }

    /// "Tail count less head count (the old head's while an announcement is in the head), 0 where that
    /// is negative."
    pub fn depth(&self) -> u32 {
        let head = match self.head {
            Head::At(head) => head,
            Head::Announcement(a) => self.announcements[a].old_head,
        };
        self.tail.count.saturating_sub(head.count)
    }

    /// "The abstract head is the head; with an announcement in it, the old head until the first node
    /// is linked, from then on the head that a7 will set." Whether the first node is linked, and the
    /// size z before it, are read off the chain itself and not off the counts, which may lag behind.
    fn abstract_head(&self) -> usize {
        let a = match self.head {
            Head::At(head) => return head.node,
            Head::Announcement(a) => &self.announcements[a],
        };
        let mut z = 0;
        let mut node = a.old_head.node;
        while let Some(next) = self.nodes[node].next {
            if next == a.first {
                let mut new_head = a.old_head.node;
                for _ in 0..a.successful(z) {
                    new_head = self.nodes[new_head].next.expect("every successful dequeue has a node");
                }
                return new_head;
            }
            z += 1;
            node = next;
        }
        a.old_head.node
    }

    /// "Contents are the items of the chain after it", oldest first.
    pub fn contents(&self) -> Vec<u32> {
        let mut items = Vec::new();
        let mut node = self.abstract_head();
        while let Some(next) = self.nodes[node].next {
            items.push(self.nodes[next].item);
            node = next;
        }
        items
    }
}

impl Announcement {
    /// "Successful dequeues s = dequeues - (excess - z where excess > z, else 0)"; lines 56 to 58.
    pub fn successful(&self, z: u32) -> u32 {
        self.dequeues - self.excess.saturating_sub(z)
    }
}
