//! The page builder.
//!
//! The page so far and the waiting nodes are one linked chain with a cursor,
//! so that moving a node to the page, and giving the rest of a fired page
//! back, cost nothing per node. One Sums, one goal and one champion run along.

use crate::insert::{arrive, Class, ClassBox, Label};
use crate::node::{total, Act, Id, Insertion, Kind, List, Store, Sums, NIL};
use crate::output::{Stop, View};
use crate::r#break::{badness_of, cost_of, cut, prune};
use crate::scaled::{Glue, AWFUL_BAD, FORCED, MAX_DIMEN};

#[derive(Clone, Copy)]
pub struct Ask {
    pub goal: i64,
    pub max_depth: i64,
    pub top_skip: i64,
}

pub struct Try<'a> {
    pub line: u32,
    pub total: i64,
    pub sums: &'a Sums,
    pub goal: i64,
    pub badness: i64,
    pub penalty: i64,
    pub cost: i64,
    pub champion: bool,
}

pub struct Page {
    pub body: List,
    pub penalty: i64,
    pub held: u64,
}

pub enum Event {
    Act(Act),
    Fired(Page),
    Empty,
}

/// The place of least cost so far, with the sums of what stands before it.
#[derive(Clone, Copy)]
struct Champion {
    size: i64,
    at: Id,
    prev: Id,
    last: i32,
    arrivals: u32,
}

#[derive(Clone, Copy)]
struct Arrival {
    node: Id,
    prev: Id,
    ins: u32,
    label: Label,
}

/// All that runs along the page; copied to locals by `next`.
#[derive(Clone, Copy)]
struct Scan {
    sums: Sums,
    goal: i64,
    max_depth: i64,
    penalties: i64,
    least: i64,
    after_box: bool,
    has_box: bool,
    frozen: bool,
}

const NEW_SCAN: Scan = Scan {
    sums: Sums::ZERO,
    goal: MAX_DIMEN,
    max_depth: 0,
    penalties: 0,
    least: AWFUL_BAD,
    after_box: false,
    has_box: false,
    frozen: false,
};

const NO_CHAMPION: Champion =
    Champion { size: 0, at: NIL, prev: NIL, last: -1, arrivals: 0 };

pub struct Builder {
    head: Id,
    tail: Id,
    /// First waiting node.
    cursor: Id,
    /// Last node of the page so far.
    page_tail: Id,
    scan: Scan,
    champion: Champion,
    arrivals: Vec<Arrival>,
    classes: Vec<ClassBox>,
    /// Held insertions of the fired page, until `put_back`.
    held: List,
}

impl Builder {
    /// The classes come in rising number.
    pub fn new(classes: &[Class]) -> Builder {
        Builder {
            head: NIL,
            tail: NIL,
            cursor: NIL,
            page_tail: NIL,
            scan: NEW_SCAN,
            champion: NO_CHAMPION,
            arrivals: Vec::new(),
            classes: classes.iter().map(|&c| ClassBox::new(c)).collect(),
            held: List::EMPTY,
        }
    }

    pub fn classes(&self) -> &[ClassBox] {
        &self.classes
    }

    pub fn take_box(&mut self, index: usize) -> List {
        let c = &mut self.classes[index];
        c.void = true;
        std::mem::replace(&mut c.list, List::EMPTY)
    }

    pub fn any_box(&self) -> bool {
        self.classes.iter().any(|c| !c.void)
    }

    /// What stands on the page at the end of a run.
    pub fn page_so_far(&self) -> List {
        if self.page_tail == NIL {
            List::EMPTY
        } else {
            List { head: self.head, tail: self.page_tail, ..List::EMPTY }
        }
    }

    /// Total, shrink and goal of the page so far.
    pub fn page_sums(&self) -> (i64, i64, i64) {
        let s = &self.scan;
        (s.sums.total(s.max_depth), s.sums.shrink, s.goal)
    }

    /// Puts a list before all that waits.
    pub fn put_first(&mut self, store: &mut Store, list: List) {
        if list.is_empty() {
            return;
        }
        store.nodes[list.tail as usize].next = self.cursor;
        if self.page_tail == NIL {
            self.head = list.head;
        } else {
            store.nodes[self.page_tail as usize].next = list.head;
        }
        if self.cursor == NIL {
            self.tail = list.tail;
        }
        self.cursor = list.head;
    }

    /// What waits after the output routine: the held insertions, the routine's list, then what waited.
    pub fn put_back(&mut self, store: &mut Store, list: List) {
        let mut all = std::mem::replace(&mut self.held, List::EMPTY);
        store.append(&mut all, list);
        self.put_first(store, all);
    }

    /// Takes the first waiting node out of the chain.
    fn unlink_cursor(&mut self, store: &mut Store) {
        let id = self.cursor;
        let next = store.nodes[id as usize].next;
        if self.page_tail == NIL {
            self.head = next;
        } else {
            store.nodes[self.page_tail as usize].next = next;
        }
        if id == self.tail {
            self.tail = self.page_tail;
        }
        self.cursor = next;
        store.free_node(id);
    }

    /// Up to the next event.
    pub fn next<V: View>(&mut self, store: &mut Store, ask: &Ask, view: &mut V) -> Result<Event, Stop> {
        if !self.scan.has_box {
            if let Some(act) = self.start_page(store, ask) {
                return Ok(Event::Act(act));
            }
            if self.cursor == NIL {
                return Ok(Event::Empty);
            }
        }
        self.fill_page(store, view)
    }

    fn freeze(&mut self, ask: &Ask) {
        if !self.scan.frozen {
            self.scan.frozen = true;
            self.scan.goal = ask.goal;
            self.scan.max_depth = ask.max_depth;
        }
    }

    /// Before the first box: up to the first box or rule, or the next act, or the end. Before
    /// the box the top skip glue then waits.
    fn start_page(&mut self, store: &mut Store, ask: &Ask) -> Option<Act> {
        while self.cursor != NIL {
            let id = self.cursor;
            let node = store.nodes[id as usize];
            match node.kind {
                Kind::Skip { .. } | Kind::Kern(_) | Kind::Pen(_) => self.unlink_cursor(store),
                Kind::Mark(_) | Kind::Note(_) | Kind::Whatsit => {
                    self.scan.after_box = true;
                    self.page_tail = id;
                    self.cursor = node.next;
                }
                Kind::Ins(k) => {
                    self.freeze(ask);
                    self.arrive(store, id, k);
                    self.page_tail = id;
                    self.cursor = node.next;
                }
                Kind::Act(k) => {
                    self.unlink_cursor(store);
                    return Some(store.acts[k as usize]);
                }
                ref kind => {
                    self.freeze(ask);
                    let (height, _) = kind.sized().unwrap_or((0, 0));
                    let width = (ask.top_skip - i64::from(height)).max(0) as i32;
                    let mut l = List::EMPTY;
                    store.push(&mut l, node.line, Kind::skip(Glue::fixed(width)));
                    self.put_first(store, l);
                    self.scan.has_box = true;
                    return None;
                }
            }
        }
        None
    }

    fn arrive(&mut self, store: &Store, node: Id, k: u32) {
        let s = &mut self.scan;
        let class = &mut self.classes[store.ins[k as usize].class as usize];
        let label = arrive(store, k, class, &mut s.sums, &mut s.goal, &mut s.penalties);
        s.after_box = true;
        self.arrivals.push(Arrival { node, prev: self.page_tail, ins: k, label });
    }

    /// One node, on a page that has a box or is about to get one. What runs along
    /// is kept in locals; `save` writes it back.
    fn fill_page<V: View>(&mut self, store: &mut Store, view: &mut V) -> Result<Event, Stop> {
        let s = self.scan;
        let Sums { mut size, mut last, mut stretch, mut shrink } = s.sums;
        let mut infinite = s.sums.infinite();
        let Scan { mut goal, max_depth, mut penalties, mut least, mut after_box, .. } = s;
        let mut arrivals = self.arrivals.len() as u32;
        let mut at = self.cursor;
        let mut prev = self.page_tail;
        macro_rules! save {
            () => {
                let sums = Sums { size, last, stretch, shrink };
                self.scan = Scan { sums, goal, penalties, least, after_box, ..s };
                self.page_tail = prev;
                self.cursor = at;
            };
        }
        // Offers the node `at` as a place; true where the page fires.
        macro_rules! offer {
            ($line:expr, $penalty:expr) => {{
                let penalty: i64 = $penalty;
                let total = total(size, last, max_depth);
                let b = badness_of(goal - total, infinite, stretch[0], shrink);
                let c = cost_of(b, penalty, penalties);
                let champion = c <= least;
                if V::TRACE {
                    view.attempt(&Try {
                        line: $line,
                        total,
                        sums: &Sums { size, last, stretch, shrink },
                        goal,
                        badness: b,
                        penalty,
                        cost: c,
                        champion,
                    })?;
                }
                if champion {
                    least = c;
                    self.champion = Champion { size, at, prev, last, arrivals };
                }
                c == AWFUL_BAD || penalty <= FORCED
            }};
        }
        while at != NIL {
            let node = &store.nodes[at as usize];
            match node.kind {
                Kind::Box { height, depth, .. } | Kind::Rule { height, depth, .. } => {
                    size += i64::from(height) + i64::from(depth);
                    last = depth;
                    after_box = true;
                }
                Kind::Skip { order, width, stretch: more, shrink: less } => {
                    if after_box && offer!(node.line, 0) {
                        return Ok(Event::Fired(self.fire(store)));
                    }
                    size += i64::from(width);
                    last = 0;
                    if more != 0 {
                        stretch[order as usize] += i64::from(more);
                        infinite = stretch[1] | stretch[2] | stretch[3] != 0;
                    }
                    shrink += i64::from(less);
                    after_box = false;
                }
                Kind::Pen(p) => {
                    if p < 10_000 && offer!(node.line, i64::from(p)) {
                        return Ok(Event::Fired(self.fire(store)));
                    }
                    after_box = false;
                }
                Kind::Kern(w) => {
                    if kern_is_legal(store, node.next) && offer!(node.line, 0) {
                        return Ok(Event::Fired(self.fire(store)));
                    }
                    size += i64::from(w);
                    last = 0;
                    after_box = false;
                }
                Kind::Mark(_) | Kind::Note(_) | Kind::Whatsit => after_box = true,
                Kind::Ins(k) => {
                    save!();
                    self.arrive(store, at, k);
                    Sums { size, last, stretch, shrink } = self.scan.sums;
                    infinite = self.scan.sums.infinite();
                    Scan { goal, penalties, after_box, .. } = self.scan;
                    arrivals += 1;
                }
                Kind::Act(k) => {
                    save!();
                    self.unlink_cursor(store);
                    return Ok(Event::Act(store.acts[k as usize]));
                }
                ref kind => {
                    let (height, depth) = kind.sized().unwrap_or((0, 0));
                    size += i64::from(height) + i64::from(depth);
                    last = depth;
                    after_box = true;
                }
            }
            prev = at;
            at = node.next;
        }
        save!();
        Ok(Event::Empty)
    }

    /// The page fires. The page's insertions leave it, and what follows the break waits.
    fn fire(&mut self, store: &mut Store) -> Page {
        let best = self.champion;
        let mut body = List {
            head: if best.prev == NIL { NIL } else { self.head },
            tail: best.prev,
            size: best.size,
            last: best.last,
        };
        let mut held = List::EMPTY;
        let mut held_number = 0;
        let mut before: (Id, Id) = (NIL, NIL);
        for k in 0..best.arrivals as usize {
            let a = self.arrivals[k];
            // The last node of the body before this one.
            let prev = if k > 0 && a.prev == before.0 { before.1 } else { a.prev };
            before = (a.node, prev);
            let next = store.nodes[a.node as usize].next;
            if prev == NIL {
                body.head = next;
            } else {
                store.nodes[prev as usize].next = next;
            }
            if a.node == body.tail {
                body.tail = prev;
            }
            let ins = store.ins[a.ins as usize];
            let class = &mut self.classes[ins.class as usize];
            let mut hold = false;
            match a.label {
                Label::Whole => {
                    store.append(&mut class.list, ins.list);
                    class.void = false;
                }
                Label::Split(found) => {
                    let (front, rest) = cut(store, &ins.list, &found);
                    store.append(&mut class.list, front);
                    class.void = false;
                    let rest = prune(store, rest, ins.split_top);
                    if !rest.is_empty() {
                        store.ins[a.ins as usize] = Insertion { list: rest, height: rest.size, ..ins };
                        hold = true;
                    }
                }
                Label::Late => hold = true,
            }
            if hold {
                store.nodes[a.node as usize].next = NIL;
                store.link(&mut held, a.node);
                held_number += 1;
            } else {
                store.free_insertion(a.ins);
                store.free_node(a.node);
            }
        }
        if body.tail == NIL {
            body = List { head: NIL, tail: NIL, ..body };
        }
        self.arrivals.clear();
        for c in self.classes.iter_mut() {
            c.met = false;
        }
        let mut penalty = 10_000;
        if let Kind::Pen(p) = &mut store.nodes[best.at as usize].kind {
            penalty = i64::from(std::mem::replace(p, 10_000));
        }
        self.head = best.at;
        self.cursor = best.at;
        self.page_tail = NIL;
        self.scan = NEW_SCAN;
        self.champion = NO_CHAMPION;
        self.held = held;
        Page { body, penalty, held: held_number }
    }
}

/// A kern is legal where glue follows, acts looked past.
#[inline]
fn kern_is_legal(store: &Store, mut next: Id) -> bool {
    while next != NIL {
        let node = &store.nodes[next as usize];
        match node.kind {
            Kind::Skip { .. } => return true,
            Kind::Act(_) => next = node.next,
            _ => return false,
        }
    }
    false
}
