//! Nodes, the linked store and the sums of a list.

use crate::scaled::{Glue, Order};

pub type Id = u32;
pub const NIL: Id = u32::MAX;

/// A name is a span of the input: offset and length packed in 32 bits.
#[derive(Clone, Copy, PartialEq, Eq, Debug)]
pub struct Name(u32);

impl Name {
    pub const LONGEST: usize = 63;
    pub fn span(start: usize, len: usize) -> Name {
        Name((start as u32) << 6 | len as u32)
    }
    #[inline]
    pub fn of(self, text: &[u8]) -> &[u8] {
        let start = (self.0 >> 6) as usize;
        &text[start..start + (self.0 & 63) as usize]
    }
}

#[derive(Clone, Copy, PartialEq, Eq, Debug)]
pub enum Where {
    Here,
    Top,
    Bottom,
    Page,
}

#[derive(Clone, Copy, PartialEq, Eq, Debug)]
pub enum Side {
    Left,
    Right,
}

#[derive(Clone, Copy, PartialEq, Eq, Debug)]
pub enum Area {
    All,
    Top,
    Bottom,
}

/// The places of a float, as bits.
#[derive(Clone, Copy, PartialEq, Eq, Debug)]
pub struct Places(pub u8);

impl Places {
    pub const H: u8 = 1;
    pub const T: u8 = 2;
    pub const B: u8 = 4;
    pub const P: u8 = 8;
    pub fn has(self, bit: u8) -> bool {
        self.0 & bit != 0
    }
}

#[derive(Clone, Copy, Debug)]
pub struct Float {
    pub line: u32,
    pub name: Name,
    pub height: i32,
    pub class: u8,
    pub wide: bool,
    pub places: Places,
    pub bang: bool,
}

#[derive(Clone, Copy, Debug)]
pub struct Margin {
    pub line: u32,
    pub name: Name,
    pub left_height: i32,
    pub left_depth: i32,
    pub right_height: i32,
    pub right_depth: i32,
}

/// A marginal note that was placed.
#[derive(Clone, Copy, Debug)]
pub struct NoteBox {
    pub name: Name,
    pub side: Side,
    pub shift: i64,
    pub height: i32,
    pub depth: i32,
}

#[derive(Clone, Copy, Debug)]
pub enum Act {
    Take(Float),
    TakeMargin(Margin),
    Suppress(Area),
    Columns { two: bool },
}

#[derive(Clone, Copy, Debug)]
pub struct Insertion {
    /// Index of the class in the builder, not its number.
    pub class: u8,
    pub list: List,
    pub height: i64,
    pub split_depth: i64,
    pub split_top: i64,
    pub floating: i64,
}

/// A tag of its own and glue without a struct of its own keep a node at 24
/// bytes and the tag at one load.
#[derive(Clone, Copy, Debug)]
#[repr(u8)]
pub enum Kind {
    Box { name: Name, height: i32, depth: i32 },
    Blank { depth: i32 },
    Float { name: Name, height: i32, class: u8, place: Where },
    /// A marginal note's box of no size; index into `Store::notes`.
    Margin(u32),
    Rule { name: Name, height: i32, depth: i32 },
    FootRule,
    Skip { order: Order, width: i32, stretch: i32, shrink: i32 },
    Kern(i32),
    Pen(i32),
    Mark(Name),
    Note(Name),
    Whatsit,
    Ins(u32),
    Act(u32),
}

pub const FOOT_RULE_HEIGHT: i32 = 26_214;

/// What a node adds to a vertical list: what stands above its reference
/// point and its depth, or nothing.
impl Kind {
    pub const fn skip(g: Glue) -> Kind {
        Kind::Skip { order: g.order, width: g.width, stretch: g.stretch, shrink: g.shrink }
    }
    #[inline(always)]
    pub fn sized(&self) -> Option<(i32, i32)> {
        match *self {
            Kind::Box { height, depth, .. } | Kind::Rule { height, depth, .. } => Some((height, depth)),
            Kind::Blank { depth } => Some((0, depth)),
            Kind::Float { height, .. } => Some((height, 0)),
            Kind::Margin(_) => Some((0, 0)),
            Kind::FootRule => Some((FOOT_RULE_HEIGHT, 0)),
            Kind::Skip { width, .. } => Some((width, 0)),
            Kind::Kern(w) => Some((w, 0)),
            _ => None,
        }
    }
    /// Glue after such a node is a legal place.
    #[inline(always)]
    pub fn before_legal_glue(&self) -> bool {
        !matches!(self, Kind::Skip { .. } | Kind::Kern(_) | Kind::Pen(_) | Kind::Act(_))
    }
    #[inline(always)]
    pub fn is_box(&self) -> bool {
        matches!(
            self,
            Kind::Box { .. }
                | Kind::Blank { .. }
                | Kind::Float { .. }
                | Kind::Margin(_)
                | Kind::Rule { .. }
                | Kind::FootRule
        )
    }
}

#[derive(Clone, Copy, Debug)]
pub struct Node {
    pub next: Id,
    pub line: u32,
    pub kind: Kind,
}

/// A list with its running sums: `size` is the sum of heights, depths and
/// widths; `last` is the depth of the last sized node, or -1 where none is
/// sized.
#[derive(Clone, Copy, Debug)]
pub struct List {
    pub head: Id,
    pub tail: Id,
    pub size: i64,
    pub last: i32,
}

impl List {
    pub const EMPTY: List = List { head: NIL, tail: NIL, size: 0, last: -1 };
    pub fn is_empty(&self) -> bool {
        self.head == NIL
    }
    pub fn last_depth(&self) -> i64 {
        i64::from(self.last.max(0))
    }
}

/// All nodes live here, linked by index; freed places are used again.
pub struct Store {
    pub nodes: Vec<Node>,
    free: Id,
    /// Nodes that stand in any list.
    live: u64,
    pub ins: Vec<Insertion>,
    free_ins: Vec<u32>,
    pub notes: Vec<NoteBox>,
    pub acts: Vec<Act>,
}

impl Store {
    pub fn with_capacity(n: usize) -> Store {
        Store {
            nodes: Vec::with_capacity(n),
            free: NIL,
            live: 0,
            ins: Vec::new(),
            free_ins: Vec::new(),
            notes: Vec::new(),
            acts: Vec::new(),
        }
    }

    #[inline]
    pub fn alloc(&mut self, line: u32, kind: Kind) -> Id {
        let node = Node { next: NIL, line, kind };
        self.live += 1;
        if self.free == NIL {
            self.nodes.push(node);
            (self.nodes.len() - 1) as Id
        } else {
            let id = self.free;
            self.free = self.nodes[id as usize].next;
            self.nodes[id as usize] = node;
            id
        }
    }

    #[inline]
    pub fn free_node(&mut self, id: Id) {
        self.live -= 1;
        self.nodes[id as usize].next = self.free;
        self.free = id;
    }

    pub fn live(&self) -> u64 {
        self.live
    }

    /// Gives the `n` nodes of a list back in one step.
    pub fn release(&mut self, l: List, n: u64) {
        self.live -= n;
        if !l.is_empty() {
            self.nodes[l.tail as usize].next = self.free;
            self.free = l.head;
        }
    }

    #[inline]
    pub fn push(&mut self, l: &mut List, line: u32, kind: Kind) {
        let id = self.alloc(line, kind);
        self.link(l, id);
    }

    /// Adds the node `id` at the end of `l`.
    #[inline]
    pub fn link(&mut self, l: &mut List, id: Id) {
        let kind = self.nodes[id as usize].kind;
        if l.head == NIL {
            l.head = id;
        } else {
            self.nodes[l.tail as usize].next = id;
        }
        l.tail = id;
        if let Some((above, depth)) = kind.sized() {
            l.size += i64::from(above) + i64::from(depth);
            l.last = depth;
        }
    }

    pub fn append(&mut self, a: &mut List, b: List) {
        if b.is_empty() {
            return;
        }
        if a.is_empty() {
            *a = b;
            return;
        }
        self.nodes[a.tail as usize].next = b.head;
        a.tail = b.tail;
        a.size += b.size;
        if b.last >= 0 {
            a.last = b.last;
        }
    }

    /// The list from `head` to `tail` with its sums.
    pub fn measure(&self, head: Id, tail: Id) -> List {
        let mut l = List { head, tail, ..List::EMPTY };
        if head == NIL {
            return l;
        }
        for node in self.iter(&List { head, tail, ..List::EMPTY }) {
            if let Some((above, depth)) = node.kind.sized() {
                l.size += i64::from(above) + i64::from(depth);
                l.last = depth;
            }
        }
        l
    }

    pub fn iter(&self, l: &List) -> Iter<'_> {
        Iter { nodes: &self.nodes, at: l.head, tail: l.tail }
    }

    pub fn new_insertion(&mut self, ins: Insertion) -> u32 {
        if let Some(k) = self.free_ins.pop() {
            self.ins[k as usize] = ins;
            k
        } else {
            self.ins.push(ins);
            (self.ins.len() - 1) as u32
        }
    }

    pub fn free_insertion(&mut self, k: u32) {
        self.free_ins.push(k);
    }
}

pub struct Iter<'a> {
    nodes: &'a [Node],
    at: Id,
    tail: Id,
}

impl<'a> Iterator for Iter<'a> {
    type Item = &'a Node;
    #[inline]
    fn next(&mut self) -> Option<&'a Node> {
        if self.at == NIL {
            return None;
        }
        let node = &self.nodes[self.at as usize];
        self.at = if self.at == self.tail { NIL } else { node.next };
        Some(node)
    }
}

/// The sums of a page so far, in the form of the sums of a list: with a depth limit m the
/// depth is min(last, m) and the total is size - depth.
#[derive(Clone, Copy, Debug)]
pub struct Sums {
    pub size: i64,
    /// Depth of the last sized node, or -1 where none is sized.
    pub last: i32,
    pub stretch: [i64; 4],
    pub shrink: i64,
}

impl Sums {
    pub const ZERO: Sums = Sums { size: 0, last: -1, stretch: [0; 4], shrink: 0 };

    #[inline(always)]
    pub fn total(&self, max_depth: i64) -> i64 {
        total(self.size, self.last, max_depth)
    }
    #[inline(always)]
    pub fn add_flex(&mut self, order: Order, stretch: i32, shrink: i32) {
        self.stretch[order as usize] += i64::from(stretch);
        self.shrink += i64::from(shrink);
    }
    #[inline(always)]
    pub fn infinite(&self) -> bool {
        self.stretch[1] | self.stretch[2] | self.stretch[3] != 0
    }
}

#[inline(always)]
pub fn total(size: i64, last: i32, max_depth: i64) -> i64 {
    size - i64::from(last.max(0)).min(max_depth)
}

pub fn order_name(o: Order) -> &'static [u8] {
    match o {
        Order::Normal => b"normal",
        Order::Fil => b"fil",
        Order::Fill => b"fill",
        Order::Filll => b"filll",
    }
}
