//! The account of a page's insertions.

use crate::node::{List, Store, Sums};
use crate::r#break::{find, Found, PlaceKind};
use crate::scaled::{x_over_n, Glue, MAX_DIMEN};

const WIDEST: i64 = 1_152_921_504_606_846_975;

#[derive(Clone, Copy, Debug)]
pub struct Class {
    pub number: u8,
    pub factor: i64,
    pub limit: i64,
    pub skip: Glue,
}

impl Class {
    #[inline]
    pub fn scaled(&self, v: i64) -> i64 {
        if self.factor == 1000 {
            v
        } else {
            x_over_n(v, 1000) * self.factor
        }
    }
}

/// A class with its box and its account for the page so far.
#[derive(Clone, Debug)]
pub struct ClassBox {
    pub class: Class,
    pub list: List,
    pub void: bool,
    pub met: bool,
    pub split: bool,
    pub height: i64,
}

impl ClassBox {
    pub fn new(class: Class) -> ClassBox {
        ClassBox { class, list: List::EMPTY, void: true, met: false, split: false, height: 0 }
    }
}

#[derive(Clone, Copy, Debug)]
pub enum Label {
    Whole,
    Split(Found),
    Late,
}

/// Lets insertion `k` arrive (total plus depth is the size) on the page: moves goal, penalties and the
/// page's stretch and shrink, and gives its label.
pub fn arrive(
    store: &Store,
    k: u32,
    class: &mut ClassBox,
    sums: &mut Sums,
    goal: &mut i64,
    penalties: &mut i64,
) -> Label {
    let ins = &store.ins[k as usize];
    if !class.met {
        class.met = true;
        class.split = false;
        class.height = class.list.size;
        *goal -= class.class.scaled(class.height) + i64::from(class.class.skip.width);
        let skip = &class.class.skip;
        sums.add_flex(skip.order, skip.stretch, skip.shrink);
    }
    if class.split {
        *penalties += ins.floating;
        return Label::Late;
    }
    let scaled = class.class.scaled(ins.height);
    let room = *goal - sums.size + sums.shrink;
    if (scaled <= 0 || scaled <= room) && class.height + ins.height <= class.class.limit {
        *goal -= scaled;
        class.height += ins.height;
        return Label::Whole;
    }
    let factor = class.class.factor;
    let w = if factor <= 0 {
        MAX_DIMEN
    } else {
        let w = *goal - sums.size;
        if factor == 1000 {
            w
        } else {
            x_over_n(w, factor).saturating_mul(1000)
        }
    };
    let w = w.min(class.class.limit - class.height).clamp(-WIDEST, WIDEST);
    let found = find(store, &ins.list, w, ins.split_depth);
    class.height += found.size;
    *goal -= class.class.scaled(found.size);
    match found.kind {
        PlaceKind::Last => *penalties -= 10_000,
        PlaceKind::Penalty => *penalties += found.penalty,
        _ => {}
    }
    class.split = true;
    Label::Split(found)
}
