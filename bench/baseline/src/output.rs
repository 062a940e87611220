//! The output routine: one firing.

use crate::area::{add_current, add_double, add_next};
use crate::builder::{Ask, Builder, Page, Try};
use crate::column::{float_box, float_column, make_column, Column};
use crate::float::{Entry, Pool, Suppress};
use crate::fpage::{choose, Wish};
use crate::node::{
    Act, Area, Float, Insertion, Kind, List, Margin, Name, NoteBox, Places, Side, Store, Where, NIL,
};
use crate::param::Params;
use crate::r#break::{cut, find};
use crate::scaled::{frac, Glue, MAX_DIMEN, VFIL};

/// Why a run ends before Done.
#[derive(Clone, Copy, Debug)]
pub enum Stop {
    PoolFull { line: u32, live: u64 },
    DeadCycles(u64),
    PageLimit(u64),
    NodeLimit(u64),
    TooFar(u64),
    Write,
}

pub enum Warn {
    Large { name: Name, by: i64 },
    Ht { name: Name },
    Moved { name: Name, shift: i64 },
    Floats { page: u64 },
}

pub enum Sheet<'a> {
    One(&'a Column),
    Wide(&'a Column),
    /// Double floats with their tops, and where the columns stand.
    Two { tops: &'a [(Float, i64)], at: i64, left: &'a Column, right: &'a Column },
}

/// Who sees the events of a run.
pub trait View {
    const TRACE: bool;
    fn attempt(&mut self, t: &Try) -> Result<(), Stop>;
    fn warn(&mut self, w: &Warn) -> Result<(), Stop>;
    fn ship(&mut self, store: &Store, page: u64, sheet: &Sheet) -> Result<(), Stop>;
}

#[derive(Clone, Copy, Default, Debug)]
pub struct Totals {
    pub pages: u64,
    pub boxes: u64,
    pub floats: u64,
    pub warnings: u64,
}

impl Totals {
    pub fn count(&mut self, col: &Column) {
        self.boxes += col.held.boxes;
        self.floats += col.held.floats;
    }
}

const NEW_COLUMN: i64 = -10_000;
const CLEAR: i64 = -10_001;
const FLOAT_VERT: i64 = -10_003;
const HOLD: i64 = -10_004;

pub struct Machine<'a> {
    p: &'a Params,
    pool: Pool,
    goal: i64,
    two: bool,
    first: bool,
    left: Option<Column>,
    page: u64,
    dead: u64,
    mparbottom: i64,
    suppress: Suppress,
    held: List,
    company: Vec<usize>,
    pub totals: Totals,
}

/// One firing: the machine with what it works on, and the routine's list.
struct Firing<'f, 'a, V: View> {
    m: &'f mut Machine<'a>,
    store: &'f mut Store,
    b: &'f mut Builder,
    view: &'f mut V,
    list: List,
}

impl<'a> Machine<'a> {
    pub fn new(p: &'a Params) -> Machine<'a> {
        Machine {
            p,
            pool: Pool::new(),
            goal: p.textheight,
            two: false,
            first: true,
            left: None,
            page: 1,
            dead: 0,
            mparbottom: 0,
            suppress: Suppress::default(),
            held: List::EMPTY,
            company: Vec::new(),
            totals: Totals::default(),
        }
    }

    pub fn ask(&self) -> Ask {
        Ask {
            goal: self.goal,
            max_depth: if self.pool.bottom.is_empty() { self.p.maxdepth } else { 0 },
            top_skip: self.p.topskip,
        }
    }

    /// The nodes that the node limit counts: all that stand in lists but those of a left
    /// column. Only while the page is empty.
    fn nodes(&self, store: &Store) -> u64 {
        store.live() - self.left.as_ref().map_or(0, |c| c.held.nodes)
    }

    /// Takes a float or a marginal note, suppresses areas or changes the columns.
    pub fn act<V: View>(&mut self, store: &mut Store, act: Act, view: &mut V) -> Result<(), Stop> {
        match act {
            Act::Take(mut f) => {
                let live = self.pool.live();
                if live >= self.p.pool as u64 {
                    return Err(Stop::PoolFull { line: f.line, live });
                }
                let by = i64::from(f.height) - self.p.textheight;
                if by > 0 {
                    f.height = self.p.textheight as i32;
                    self.totals.warnings += 1;
                    view.warn(&Warn::Large { name: f.name, by })?;
                }
                f.wide &= self.two;
                if f.wide && self.p.release2014 {
                    self.pool.second.push_back(f);
                } else {
                    self.pool.take(f);
                }
            }
            Act::TakeMargin(m) => {
                let live = self.pool.live();
                if live + 2 > self.p.pool as u64 {
                    return Err(Stop::PoolFull { line: m.line, live });
                }
                self.pool.take_margin(m);
            }
            Act::Suppress(Area::All) => self.suppress.all = true,
            Act::Suppress(Area::Top) => self.suppress.top = true,
            Act::Suppress(Area::Bottom) => self.suppress.bottom = true,
            Act::Columns { two } => {
                // All float lists are empty at a change of columns.
                debug_assert_eq!(self.pool.live(), 0);
                self.two = two;
                self.first = true;
                if let Some(col) = self.left.take() {
                    store.release(col.list, col.held.nodes);
                }
                self.suppress = Suppress::default();
            }
        }
        Ok(())
    }

    /// One firing, for a fired page.
    pub fn fire<V: View>(
        &mut self,
        store: &mut Store,
        b: &mut Builder,
        page: Page,
        view: &mut V,
    ) -> Result<(), Stop> {
        if self.dead == self.p.maxdeadcycles as u64 {
            return Err(Stop::DeadCycles(self.dead));
        }
        self.dead += 1;
        let hold = page.penalty == HOLD;
        let mut f = Firing { m: self, store, b, view, list: List::EMPTY };
        if page.penalty >= NEW_COLUMN {
            f.ordinary(page.body)?;
        } else if page.penalty == CLEAR {
            f.clear(page.body)?;
        } else if hold {
            f.m.held = page.body;
        } else {
            f.float_or_note(page.body, page.penalty == FLOAT_VERT)?;
        }
        if hold {
            f.m.goal = MAX_DIMEN;
        } else {
            f.next_goal()?;
        }
        let list = f.list;
        b.put_back(store, list);
        Ok(())
    }
}

impl<V: View> Firing<'_, '_, V> {
    fn put(&mut self, kind: Kind) {
        self.store.push(&mut self.list, 0, kind);
    }

    fn warn(&mut self, w: Warn) -> Result<(), Stop> {
        self.m.totals.warnings += 1;
        self.view.warn(&w)
    }

    /// The nodes of clearpage.
    fn put_clear(&mut self) {
        self.put(Kind::skip(VFIL));
        self.put(Kind::Pen(-10_000));
        self.put(Kind::Whatsit);
        self.put(Kind::Blank { depth: 0 });
        self.put(Kind::Pen(-10_001));
    }

    fn make_column(&mut self, body: List) -> Column {
        make_column(self.store, self.b, &mut self.m.pool, self.m.p, body)
    }

    /// An ordinary page.
    fn ordinary(&mut self, body: List) -> Result<(), Stop> {
        let col = self.make_column(body);
        self.output(col)?;
        while let Some(col) = self.start_column() {
            self.output(col)?;
        }
        Ok(())
    }

    fn ship(&mut self, sheet: &Sheet) -> Result<(), Stop> {
        let m = &mut *self.m;
        if m.totals.pages == m.p.maxpages as u64 {
            return Err(Stop::PageLimit(m.totals.pages));
        }
        self.view.ship(self.store, m.page, sheet)?;
        let columns: [Option<&Column>; 2] = match *sheet {
            Sheet::One(c) | Sheet::Wide(c) => [Some(c), None],
            Sheet::Two { tops, left, right, .. } => {
                m.totals.floats += tops.len() as u64;
                [Some(left), Some(right)]
            }
        };
        for col in columns.into_iter().flatten() {
            m.totals.count(col);
            self.store.release(col.list, col.held.nodes);
        }
        m.totals.pages += 1;
        m.page += 1;
        m.dead = 0;
        Ok(())
    }

    /// A column is output.
    fn output(&mut self, col: Column) -> Result<(), Stop> {
        if !self.m.two {
            self.ship(&Sheet::One(&col))?;
        } else if self.m.first {
            self.m.left = Some(col);
            self.m.first = false;
        } else {
            let p = self.m.p;
            let left = self.m.left.take().expect("a second column has a first one");
            let mut tops = Vec::with_capacity(self.m.pool.double.len());
            let mut top = 0i64;
            for f in self.m.pool.double.iter() {
                tops.push((*f, top));
                top += i64::from(f.height) + i64::from(p.dblfloatsep.width);
            }
            let at = p.textheight - self.m.pool.column_height(p);
            self.ship(&Sheet::Two { tops: &tops, at, left: &left, right: &col })?;
            self.m.first = true;
            self.m.pool.double.clear();
            while let Some(col) = self.wide_page(false) {
                self.ship(&Sheet::Wide(&col))?;
            }
            self.fill_double();
        }
        self.m.mparbottom = 0;
        self.m.suppress = Suppress::default();
        Ok(())
    }

    /// The decision for each double float that waits.
    fn fill_double(&mut self) {
        let p = self.m.p;
        let pool = &mut self.m.pool;
        let mut blocked = 0u32;
        let mut k = 0;
        loop {
            let from = if p.release2014 { &pool.second } else { &pool.deferred };
            if from.mask() & !blocked == 0 || k == from.len() {
                return;
            }
            let f = from.get(k);
            if add_double(pool, p, &f, blocked) {
                let from = if p.release2014 { &mut pool.second } else { &mut pool.deferred };
                from.remove(k);
                pool.double.push_back(f);
            } else {
                blocked |= 1 << f.class;
                k += 1;
            }
        }
    }

    /// A wide page of floats, if there is a company.
    fn wide_page(&mut self, clearing: bool) -> Option<Column> {
        let p = self.m.p;
        let from = if p.release2014 { &mut self.m.pool.second } else { &mut self.m.pool.deferred };
        let wish = Wish {
            height: p.textheight,
            minimum: frac(p.dblfloatpagefraction, p.textheight),
            sep: i64::from(p.dblfpsep.width),
            clearing,
            wide: true,
        };
        if !choose(from, &wish, &mut self.m.company) {
            return None;
        }
        Some(float_column(self.store, from, &self.m.company, p, p.textheight, true))
    }

    /// A column of floats, if there is a company.
    fn single_column(&mut self, clearing: bool) -> Option<Column> {
        let p = self.m.p;
        let height = self.m.pool.column_height(p);
        let wish = Wish {
            height,
            minimum: frac(p.floatpagefraction, height),
            sep: i64::from(p.fpsep.width),
            clearing,
            wide: false,
        };
        if !choose(&self.m.pool.deferred, &wish, &mut self.m.company) {
            return None;
        }
        Some(float_column(self.store, &mut self.m.pool.deferred, &self.m.company, p, height, false))
    }

    /// A column is started: a column of floats, or floats for the new column.
    fn start_column(&mut self) -> Option<Column> {
        if let Some(col) = self.single_column(false) {
            return Some(col);
        }
        let p = self.m.p;
        let pool = &mut self.m.pool;
        let mut blocked = 0u32;
        let mut k = 0;
        while pool.deferred.mask() & !blocked != 0 && k < pool.deferred.len() {
            let f = pool.deferred.get(k);
            match add_next(pool, p, &self.m.suppress, &f, blocked) {
                Some(place) => {
                    pool.deferred.remove(k);
                    if place == Where::Top {
                        pool.top.push_back(f);
                    } else {
                        pool.bottom.push_back(f);
                    }
                }
                None => {
                    blocked |= 1 << f.class;
                    k += 1;
                }
            }
        }
        None
    }

    /// The float case: where a float or note goes.
    fn float_or_note(&mut self, body: List, vert: bool) -> Result<(), Stop> {
        self.list = std::mem::replace(&mut self.m.held, List::EMPTY);
        let front = self.without_last_box(body);
        self.store.append(&mut self.list, front);
        let depth = self.list.last_depth();
        let height = self.list.size - depth;
        let p = self.m.p;
        let mut notes = 0i64;
        for k in 0..self.b.classes().len() {
            let class = &self.b.classes()[k];
            if class.void {
                continue;
            }
            notes += class.list.size + i64::from(class.class.skip.width);
            let list = self.b.take_box(k);
            let ins = self.store.new_insertion(Insertion {
                class: k as u8,
                list,
                height: list.size,
                split_depth: p.splitmaxdepth,
                split_top: p.splittopskip,
                floating: p.floatingpenalty,
            });
            self.put(Kind::Ins(ins));
        }
        let here = match self.m.pool.next_current() {
            Some(Entry::Note(note)) => {
                self.place_note(&note, height, depth)?;
                false
            }
            Some(Entry::Float(f)) => self.place_float(f, height + depth + notes, vert)?,
            None => false,
        };
        if !here {
            self.put_penalty();
        }
        Ok(())
    }

    /// The page's list without its last box and the glue before that; both
    /// are given back.
    fn without_last_box(&mut self, body: List) -> List {
        let (mut keep, mut glue, mut last) = (NIL, NIL, NIL);
        let mut at = body.head;
        while at != NIL {
            keep = glue;
            glue = last;
            last = at;
            at = if at == body.tail { NIL } else { self.store.nodes[at as usize].next };
        }
        let front =
            if keep == NIL { List::EMPTY } else { self.store.measure(body.head, keep) };
        if glue != NIL {
            self.store.free_node(glue);
        }
        if last != NIL {
            self.store.free_node(last);
        }
        front
    }

    /// The interline penalty at the end of the routine's list.
    fn put_penalty(&mut self) {
        let penalty = Kind::Pen(self.m.p.interlinepenalty as i32);
        if self.list.tail != NIL {
            let last = self.store.nodes[self.list.tail as usize].kind;
            if let Kind::Skip { order, width, stretch, shrink } = last {
                if width != 0 {
                    let g = Glue::new(width, stretch, order, shrink);
                    self.put(Kind::skip(g.negate()));
                    self.put(penalty);
                    self.put(last);
                    return;
                }
            }
        }
        self.put(penalty);
    }

    /// Places the float; true where it went into the text.
    fn place_float(&mut self, mut f: Float, page_height: i64, vert: bool) -> Result<bool, Stop> {
        let p = self.m.p;
        match add_current(&self.m.pool, p, &self.m.suppress, &f, page_height) {
            Some(Where::Here) => {
                self.put_penalty();
                self.put(Kind::skip(p.intextsep));
                float_box(self.store, &mut self.list, &f, Where::Here);
                self.put(Kind::Pen(p.interlinepenalty as i32));
                self.put(Kind::skip(p.intextsep));
                if vert {
                    self.put(Kind::skip(p.parskip.negate()));
                }
                self.m.pool.here.push_back(f);
                return Ok(true);
            }
            Some(Where::Top) => self.m.pool.top.push_back(f),
            Some(Where::Bottom) => self.m.pool.bottom.push_back(f),
            _ => {
                if f.places.0 == Places::H {
                    f.places.0 |= Places::T;
                    self.warn(Warn::Ht { name: f.name })?;
                }
                self.m.pool.deferred.push_back(f);
            }
        }
        Ok(false)
    }

    /// Places a marginal note.
    fn place_note(&mut self, note: &Margin, height: i64, depth: i64) -> Result<(), Stop> {
        let p = self.m.p;
        let left = if self.m.two {
            self.m.first
        } else {
            (p.mparswitch && self.m.page % 2 == 0) != p.reversemargin
        };
        let (side, h, d) = if left {
            (Side::Left, note.left_height, note.left_depth)
        } else {
            (Side::Right, note.right_height, note.right_depth)
        };
        let shift = (self.m.mparbottom - height + i64::from(h)).max(0);
        if shift > 0 {
            self.warn(Warn::Moved { name: note.name, shift })?;
        }
        self.m.mparbottom = height + shift + i64::from(d) + p.marginparpush;
        let q = depth as i32;
        self.put(Kind::Kern(-q));
        self.store.notes.push(NoteBox { name: note.name, side, shift, height: h, depth: d });
        let k = (self.store.notes.len() - 1) as u32;
        self.put(Kind::Margin(k));
        self.put(Kind::Blank { depth: q });
        Ok(())
    }

    /// Clears the floats that wait.
    fn clear(&mut self, mut body: List) -> Result<(), Stop> {
        if self.b.any_box() {
            self.store.push(&mut body, 0, Kind::skip(VFIL));
            let col = self.make_column(body);
            self.output(col)?;
            self.put_clear();
            return Ok(());
        }
        let found = find(self.store, &body, 0, self.m.p.splitmaxdepth);
        let (front, rest) = cut(self.store, &body, &found);
        self.store.append(&mut self.list, front);
        let dropped = self.store.iter(&rest).count() as u64;
        self.store.release(rest, dropped);
        let pool = &mut self.m.pool;
        pool.deferred.join_front(&mut pool.bottom);
        pool.deferred.join_front(&mut pool.top);
        while let Some(col) = self.single_column(true) {
            self.output(col)?;
        }
        if self.m.two {
            if self.m.first {
                let pool = &mut self.m.pool;
                if self.m.p.release2014 {
                    pool.second.join_front(&mut pool.double);
                } else {
                    pool.deferred.join_front(&mut pool.double);
                }
                while let Some(col) = self.wide_page(true) {
                    self.ship(&Sheet::Wide(&col))?;
                }
            } else {
                self.put(Kind::Blank { depth: 0 });
                self.put_clear();
            }
        }
        if !self.m.pool.deferred.is_empty() || !self.m.pool.second.is_empty() {
            self.put_clear();
        }
        Ok(())
    }

    /// The limits after any firing but that at -10004.
    fn next_goal(&mut self) -> Result<(), Stop> {
        let p = self.m.p;
        let room = self.m.pool.column_room(p);
        if room < p.baselineskip + p.baselineskip / 2 && room < p.textheight {
            let page = self.m.page;
            self.warn(Warn::Floats { page })?;
            let times = if self.m.two && !self.m.first { 2 } else { 1 };
            for _ in 0..times {
                self.put(Kind::Blank { depth: 0 });
                self.put(Kind::Pen(-10_000));
            }
        } else {
            self.m.goal = room;
        }
        Ok(())
    }
}

/// The run over the expanded galley that waits in `b`. Gives what is left
/// on the page.
pub fn run<V: View>(
    store: &mut Store,
    b: &mut Builder,
    p: &Params,
    view: &mut V,
) -> (Totals, Result<List, Stop>) {
    let mut m = Machine::new(p);
    let end = turn(store, b, &mut m, view);
    (m.totals, end)
}

fn turn<V: View>(store: &mut Store, b: &mut Builder, m: &mut Machine, view: &mut V) -> Result<List, Stop> {
    use crate::builder::Event;
    let limit = m.p.maxnodes as u64;
    let test = |store: &Store, m: &Machine| {
        let n = m.nodes(store);
        if n > limit {
            Err(Stop::NodeLimit(n))
        } else {
            Ok(())
        }
    };
    test(store, m)?;
    loop {
        match b.next(store, &m.ask(), view)? {
            Event::Act(act) => m.act(store, act, view)?,
            Event::Fired(page) => {
                m.fire(store, b, page, view)?;
                test(store, m)?;
            }
            Event::Empty => {
                // All float lists are empty at a change of columns.
                debug_assert_eq!(m.pool.live(), 0);
                return Ok(b.page_so_far());
            }
        }
    }
}
