//! Costs, the scan of a list for a split, and pruning.

use crate::node::{Id, Kind, List, Store, Sums, NIL};
use crate::scaled::{badness, Glue, AWFUL_BAD, DEPLORABLE, FORCED, INF_BAD};

/// The badness where the goal exceeds the total by `gap`.
#[inline(always)]
pub fn badness_of(gap: i64, infinite: bool, stretch: i64, shrink: i64) -> i64 {
    if gap > 0 {
        if infinite {
            0
        } else {
            badness(gap, stretch)
        }
    } else if -gap > shrink {
        AWFUL_BAD
    } else {
        badness(-gap, shrink)
    }
}

/// The cost of badness b.
#[inline(always)]
pub fn cost_of(b: i64, penalty: i64, insert_penalties: i64) -> i64 {
    if b == AWFUL_BAD || insert_penalties >= 10_000 {
        AWFUL_BAD
    } else if penalty <= FORCED {
        penalty
    } else if b < INF_BAD {
        b + penalty + insert_penalties
    } else {
        DEPLORABLE
    }
}

#[derive(Clone, Copy, PartialEq, Eq, Debug)]
pub enum PlaceKind {
    Skip,
    Kern,
    Penalty,
    Last,
}

/// A break of a list: `at` is the break node (NIL for the end), `prev` the
/// node before it (NIL where the front is empty).
#[derive(Clone, Copy, Debug)]
pub struct Found {
    pub at: Id,
    pub prev: Id,
    pub kind: PlaceKind,
    pub penalty: i64,
    pub size: i64,
    /// Shown by the rows on calls alone.
    #[cfg_attr(not(test), allow(dead_code))]
    pub cost: i64,
    #[cfg_attr(not(test), allow(dead_code))]
    pub index: usize,
}

/// A vertical split, in one pass.
pub fn find(store: &Store, l: &List, height: i64, max_depth: i64) -> Found {
    let mut sums = Sums::ZERO;
    let mut best =
        Found { at: NIL, prev: l.tail, kind: PlaceKind::Last, penalty: FORCED, size: 0, cost: AWFUL_BAD, index: 0 };
    let mut least = AWFUL_BAD;
    let mut prev = NIL;
    let mut at = l.head;
    let mut index = 0usize;
    let mut after_box = false;
    loop {
        let place = if at == NIL {
            Some((PlaceKind::Last, FORCED))
        } else {
            let node = &store.nodes[at as usize];
            match node.kind {
                Kind::Skip { .. } if after_box => Some((PlaceKind::Skip, 0)),
                Kind::Kern(_)
                    if at != l.tail && matches!(store.nodes[node.next as usize].kind, Kind::Skip { .. }) =>
                {
                    Some((PlaceKind::Kern, 0))
                }
                Kind::Pen(p) if p < 10_000 => Some((PlaceKind::Penalty, i64::from(p))),
                _ => None,
            }
        };
        if let Some((kind, penalty)) = place {
            let gap = height - sums.total(max_depth);
            let c = cost_of(badness_of(gap, sums.infinite(), sums.stretch[0], sums.shrink), penalty, 0);
            if c <= least {
                least = c;
                best = Found { at, prev, kind, penalty, size: sums.size, cost: c, index };
            }
            if c == AWFUL_BAD || penalty <= FORCED {
                return best;
            }
        }
        let node = &store.nodes[at as usize];
        if let Kind::Skip { order, stretch, shrink, .. } = node.kind {
            sums.add_flex(order, stretch, shrink);
        }
        if let Some((above, depth)) = node.kind.sized() {
            sums.size += i64::from(above) + i64::from(depth);
            sums.last = depth;
        }
        after_box = node.kind.before_legal_glue();
        prev = at;
        at = if at == l.tail { NIL } else { node.next };
        index += 1;
    }
}

/// Cuts a list at a break that `find` gave for it.
pub fn cut(store: &Store, l: &List, found: &Found) -> (List, List) {
    if found.at == NIL {
        return (*l, List::EMPTY);
    }
    let rest = store.measure(found.at, l.tail);
    let front = if found.prev == NIL { List::EMPTY } else { store.measure(l.head, found.prev) };
    (front, rest)
}

/// A pruned list. What is removed goes back to the store.
pub fn prune(store: &mut Store, l: List, top_skip: i64) -> List {
    let mut out = List::EMPTY;
    let mut at = l.head;
    while at != NIL {
        let node = store.nodes[at as usize];
        let next = if at == l.tail { NIL } else { node.next };
        if node.kind.is_box() {
            let (height, _) = node.kind.sized().unwrap_or((0, 0));
            let width = (top_skip - i64::from(height)).max(0) as i32;
            store.push(&mut out, node.line, Kind::skip(Glue::fixed(width)));
            let rest = store.measure(at, l.tail);
            store.append(&mut out, rest);
            return out;
        }
        match node.kind {
            Kind::Skip { .. } | Kind::Kern(_) | Kind::Pen(_) => store.free_node(at),
            _ => store.link(&mut out, at),
        }
        at = next;
    }
    out
}
