//! Packing, positions, and the assembly of columns .

use crate::builder::Builder;
use crate::float::{FloatList, Pool};
use crate::node::{Float, Kind, List, Node, Store, Where};
use crate::param::Params;
use crate::scaled::{Glue, Order, ORDERS};

#[derive(Clone, Copy, PartialEq, Eq, Debug)]
pub enum Sign {
    None,
    Stretch,
    Shrink,
}

#[derive(Clone, Copy, Debug)]
pub struct Set {
    pub height: i64,
    pub natural: i64,
    pub sign: Sign,
    pub order: Order,
    pub num: i64,
    pub den: i64,
    pub over: i64,
}

/// What a column holds: nodes, boxes and rules of items, floats.
#[derive(Clone, Copy, Default, Debug)]
pub struct Held {
    pub nodes: u64,
    pub boxes: u64,
    pub floats: u64,
}

/// The glue set, with what the list holds from the same walk.
pub fn pack(store: &Store, l: &List, height: i64, depth_limit: i64) -> (Set, Held) {
    let mut stretch = [0i64; 4];
    let mut shrink = 0i64;
    let mut held = Held::default();
    for node in store.iter(l) {
        held.nodes += 1;
        match node.kind {
            Kind::Skip { order, stretch: more, shrink: less, .. } => {
                stretch[order as usize] += i64::from(more);
                shrink += i64::from(less);
            }
            Kind::Box { .. } | Kind::Rule { .. } => held.boxes += 1,
            Kind::Float { .. } => held.floats += 1,
            _ => {}
        }
    }
    (set(l, stretch, shrink, height, depth_limit), held)
}

fn set(l: &List, stretch: [i64; 4], shrink: i64, height: i64, depth_limit: i64) -> Set {
    let natural = l.size - l.last_depth().min(depth_limit);
    let mut set = Set { height, natural, sign: Sign::None, order: Order::Normal, num: 0, den: 1, over: 0 };
    let excess = height - natural;
    if excess == 0 {
        return set;
    }
    if excess > 0 {
        let k = (1..4).rev().find(|&k| stretch[k] != 0).unwrap_or(0);
        if stretch[k] != 0 {
            set.sign = Sign::Stretch;
            set.order = ORDERS[k];
            set.num = excess;
            set.den = stretch[k];
        }
    } else {
        if shrink >= -excess {
            set.num = -excess;
            set.den = shrink;
            set.sign = Sign::Shrink;
        } else {
            set.over = -excess - shrink;
            if shrink != 0 {
                set.num = 1;
                set.sign = Sign::Shrink;
            }
        }
    }
    set
}

/// floor(g·num/den), exact.
#[inline]
fn scale(g: i64, num: i64, den: i64) -> i128 {
    if let Some(x) = g.checked_mul(num) {
        return i128::from(floor_div(x, den));
    }
    let (x, d) = (i128::from(g) * i128::from(num), i128::from(den));
    let q = x / d;
    if x % d != 0 && (x < 0) != (d < 0) {
        q - 1
    } else {
        q
    }
}

#[inline]
fn floor_div(x: i64, d: i64) -> i64 {
    let q = x.wrapping_div(d);
    if x.wrapping_rem(d) != 0 && (x < 0) != (d < 0) {
        q - 1
    } else {
        q
    }
}

/// The position after a node of a set column.
#[inline]
pub fn at(set: &Set, natural: i64, g: i64) -> i128 {
    let n = i128::from(natural);
    match set.sign {
        Sign::None => n,
        Sign::Stretch => n + scale(g, set.num, set.den),
        Sign::Shrink => n - scale(g, set.num, set.den),
    }
}

#[derive(Clone, Copy, Debug)]
pub struct Column {
    pub floats: bool,
    pub list: List,
    pub set: Set,
    pub held: Held,
}

impl Column {
    pub fn new(store: &Store, floats: bool, list: List, height: i64, depth_limit: i64) -> Column {
        let (set, held) = pack(store, &list, height, depth_limit);
        Column { floats, list, set, held }
    }
}

/// Hands out the nodes that are report items, with their tops .
pub fn items<E>(
    store: &Store,
    col: &Column,
    mut f: impl FnMut(&Node, i128) -> Result<(), E>,
) -> Result<(), E> {
    let set = &col.set;
    let mut natural = 0i64;
    let mut g = 0i64;
    let mut shift = 0i128;
    let mut fresh = true;
    for node in store.iter(&col.list) {
        match node.kind {
            Kind::Skip { order, width, stretch, shrink } => {
                natural += i64::from(width);
                let part = match set.sign {
                    Sign::None => 0,
                    Sign::Stretch if order == set.order => stretch,
                    Sign::Stretch => 0,
                    Sign::Shrink => shrink,
                };
                if part != 0 {
                    g += i64::from(part);
                    fresh = false;
                }
                continue;
            }
            Kind::Kern(w) => {
                natural += i64::from(w);
                continue;
            }
            Kind::Blank { depth } => {
                natural += i64::from(depth);
                continue;
            }
            Kind::Pen(_) | Kind::Whatsit | Kind::Ins(_) | Kind::Act(_) => continue,
            _ => {}
        }
        if !fresh {
            shift = at(set, 0, g);
            fresh = true;
        }
        f(node, i128::from(natural) + shift)?;
        if let Some((above, depth)) = node.kind.sized() {
            natural += i64::from(above) + i64::from(depth);
        }
    }
    Ok(())
}

fn skip(store: &mut Store, l: &mut List, g: Glue) {
    store.push(l, 0, Kind::skip(g));
}

pub fn float_box(store: &mut Store, l: &mut List, f: &Float, place: Where) {
    store.push(l, 0, Kind::Float { name: f.name, height: f.height, class: f.class, place });
}

/// `skipfootins`, the rule and the notes.
pub fn footnotes(store: &mut Store, l: &mut List, p: &Params, notes: List) {
    skip(store, l, p.skipfootins);
    store.push(l, 0, Kind::Kern(-196_608));
    store.push(l, 0, Kind::FootRule);
    store.push(l, 0, Kind::Kern(170_394));
    store.append(l, notes);
}

/// The footnote class; its number is the greatest, so its box is the last.
pub const FOOT_CLASS: u8 = 254;

/// A text column. Top, bottom and here leave the pool; every class box is void then.
pub fn make_column(store: &mut Store, b: &mut Builder, pool: &mut Pool, p: &Params, body: List) -> Column {
    let height = pool.column_height(p);
    let mut l = List::EMPTY;
    if !pool.top.is_empty() {
        for f in pool.top.iter() {
            float_box(store, &mut l, f, Where::Top);
            skip(store, &mut l, p.floatsep);
        }
        skip(store, &mut l, p.floatsep.negate());
        skip(store, &mut l, p.textfloatsep);
    }
    store.append(&mut l, body);
    for k in 0..b.classes().len() {
        let class = &b.classes()[k];
        if class.void {
            continue;
        }
        let (number, glue) = (class.class.number, class.class.skip);
        let notes = b.take_box(k);
        if number == FOOT_CLASS {
            footnotes(store, &mut l, p, notes);
        } else {
            skip(store, &mut l, glue);
            store.append(&mut l, notes);
        }
    }
    if !pool.bottom.is_empty() {
        skip(store, &mut l, p.textfloatsep);
        for f in pool.bottom.iter() {
            float_box(store, &mut l, f, Where::Bottom);
            skip(store, &mut l, p.floatsep);
        }
        skip(store, &mut l, p.floatsep.negate());
    }
    let depth = l.last_depth().min(p.maxdepth) as i32;
    let last = if p.ragged { Glue::new(-depth, 7, Order::Fil, 0) } else { Glue::fixed(-depth) };
    skip(store, &mut l, last);
    pool.top.clear();
    pool.bottom.clear();
    pool.here.clear();
    Column::new(store, false, l, height, p.maxdepth)
}

/// A column of floats. The company leaves `from`.
pub fn float_column(
    store: &mut Store,
    from: &mut FloatList,
    company: &[usize],
    p: &Params,
    height: i64,
    wide: bool,
) -> Column {
    let (top, sep, bot) =
        if wide { (p.dblfptop, p.dblfpsep, p.dblfpbot) } else { (p.fptop, p.fpsep, p.fpbot) };
    let mut l = List::EMPTY;
    skip(store, &mut l, top);
    skip(store, &mut l, sep.negate());
    for (gone, &k) in company.iter().enumerate() {
        if let Some(f) = from.remove(k - gone) {
            skip(store, &mut l, sep);
            float_box(store, &mut l, &f, Where::Page);
        }
    }
    skip(store, &mut l, bot);
    Column::new(store, true, l, height, p.maxdepth)
}
