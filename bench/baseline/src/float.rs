//! Float lists, their rooms and counts.

use std::collections::VecDeque;

use crate::node::{Float, Margin};
use crate::param::Params;
use crate::scaled::frac;

/// A list of floats with its running heights and classes.
pub struct FloatList {
    list: VecDeque<Float>,
    heights: i64,
    per_class: [u16; 27],
    /// Bit c is set where class c stands in the list.
    mask: u32,
}

impl FloatList {
    pub fn new() -> FloatList {
        FloatList { list: VecDeque::new(), heights: 0, per_class: [0; 27], mask: 0 }
    }
    pub fn len(&self) -> usize {
        self.list.len()
    }
    pub fn is_empty(&self) -> bool {
        self.list.is_empty()
    }
    pub fn heights(&self) -> i64 {
        self.heights
    }
    pub fn mask(&self) -> u32 {
        self.mask
    }
    pub fn has_class(&self, class: u8) -> bool {
        self.mask >> class & 1 != 0
    }
    pub fn get(&self, k: usize) -> Float {
        self.list[k]
    }
    pub fn iter(&self) -> std::collections::vec_deque::Iter<'_, Float> {
        self.list.iter()
    }
    pub fn iter_from(&self, k: usize) -> std::collections::vec_deque::Iter<'_, Float> {
        self.list.range(k..)
    }
    fn enter(&mut self, f: &Float) {
        self.heights += i64::from(f.height);
        self.per_class[f.class as usize] += 1;
        self.mask |= 1 << f.class;
    }
    fn leave(&mut self, f: &Float) {
        self.heights -= i64::from(f.height);
        let n = &mut self.per_class[f.class as usize];
        *n -= 1;
        if *n == 0 {
            self.mask &= !(1 << f.class);
        }
    }
    pub fn push_back(&mut self, f: Float) {
        self.enter(&f);
        self.list.push_back(f);
    }
    pub fn remove(&mut self, k: usize) -> Option<Float> {
        let f = self.list.remove(k)?;
        self.leave(&f);
        Some(f)
    }
    pub fn clear(&mut self) {
        self.list.clear();
        self.heights = 0;
        self.per_class = [0; 27];
        self.mask = 0;
    }
    /// `from` goes before all that is here; `from` is empty then.
    pub fn join_front(&mut self, from: &mut FloatList) {
        for f in from.list.iter().rev() {
            self.enter(f);
            self.list.push_front(*f);
        }
        from.clear();
    }
}

pub enum Entry {
    Float(Float),
    Note(Margin),
}

#[derive(Clone, Copy, Default)]
pub struct Suppress {
    pub all: bool,
    pub top: bool,
    pub bottom: bool,
}

#[derive(Clone, Copy, PartialEq, Eq)]
pub enum Limit {
    Total,
    Top,
    Bottom,
    Double,
}

pub struct Pool {
    pub current: VecDeque<Entry>,
    current_boxes: u64,
    pub here: FloatList,
    pub top: FloatList,
    pub bottom: FloatList,
    pub deferred: FloatList,
    pub double: FloatList,
    /// Release 2014.
    pub second: FloatList,
}

/// Heights of a list with its separators: `first` for the first float,
/// `other` for each other one.
fn part(list: &FloatList, first: i64, other: i64) -> i64 {
    match list.len() {
        0 => 0,
        n => list.heights() + first + (n as i64 - 1) * other,
    }
}

impl Pool {
    pub fn new() -> Pool {
        Pool {
            current: VecDeque::new(),
            current_boxes: 0,
            here: FloatList::new(),
            top: FloatList::new(),
            bottom: FloatList::new(),
            deferred: FloatList::new(),
            double: FloatList::new(),
            second: FloatList::new(),
        }
    }

    pub fn live(&self) -> u64 {
        let lists = [&self.here, &self.top, &self.bottom, &self.deferred, &self.double, &self.second];
        self.current_boxes + lists.iter().map(|l| l.len() as u64).sum::<u64>()
    }

    pub fn take(&mut self, f: Float) {
        self.current_boxes += 1;
        self.current.push_back(Entry::Float(f));
    }

    /// Two boxes, left and right.
    pub fn take_margin(&mut self, m: Margin) {
        self.current_boxes += 2;
        self.current.push_back(Entry::Note(m));
    }

    pub fn next_current(&mut self) -> Option<Entry> {
        let e = self.current.pop_front()?;
        self.current_boxes -= match e {
            Entry::Float(_) => 1,
            Entry::Note(_) => 2,
        };
        Some(e)
    }

    pub fn column_height(&self, p: &Params) -> i64 {
        p.textheight
            - part(&self.double, i64::from(p.dbltextfloatsep.width), i64::from(p.dblfloatsep.width))
    }
    fn top_part(&self, p: &Params) -> i64 {
        part(&self.top, i64::from(p.textfloatsep.width), i64::from(p.floatsep.width))
    }
    fn bottom_part(&self, p: &Params) -> i64 {
        part(&self.bottom, i64::from(p.textfloatsep.width), i64::from(p.floatsep.width))
    }
    pub fn column_room(&self, p: &Params) -> i64 {
        self.column_height(p) - self.top_part(p) - self.bottom_part(p)
    }
    pub fn top_room(&self, p: &Params) -> i64 {
        frac(p.topfraction, self.column_height(p)) - self.top_part(p)
    }
    pub fn bottom_room(&self, p: &Params) -> i64 {
        frac(p.bottomfraction, self.column_height(p)) - self.bottom_part(p)
    }
    pub fn double_room(&self, p: &Params) -> i64 {
        frac(p.dbltopfraction, p.textheight)
            - part(&self.double, i64::from(p.dbltextfloatsep.width), i64::from(p.dblfloatsep.width))
    }

    pub fn count_left(&self, p: &Params, s: &Suppress, limit: Limit, bang: bool) -> i64 {
        let (number, length, off) = match limit {
            Limit::Total => (p.totalnumber, self.here.len() + self.top.len() + self.bottom.len(), s.all),
            Limit::Top => (p.topnumber, self.top.len(), s.top),
            Limit::Bottom => (p.bottomnumber, self.bottom.len(), s.bottom),
            Limit::Double => (p.dbltopnumber, self.double.len(), false),
        };
        let left = if off { 0 } else { (number - length as i64).max(0) };
        if bang {
            left.max(1)
        } else {
            left
        }
    }
}
