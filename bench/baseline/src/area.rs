//! Where a float goes.

use crate::float::{Limit, Pool, Suppress};
use crate::node::{Float, Places, Where};
use crate::param::Params;
use crate::scaled::frac;

/// The least height that text takes in the column.
fn text_room(pool: &Pool, p: &Params, f: &Float) -> i64 {
    let own = if f.bang { 0 } else { frac(p.textfraction, pool.column_height(p)) };
    own + pool.here.heights() + 2 * i64::from(p.intextsep.width) * pool.here.len() as i64
}

/// The areas of the current column; the required room rises by each try.
fn top_or_bottom(
    pool: &Pool,
    p: &Params,
    s: &Suppress,
    f: &Float,
    room: i64,
    mut required: i64,
    only_bottom: bool,
) -> Option<Where> {
    let h = i64::from(f.height);
    let sep = |empty: bool| i64::from(if empty { p.textfloatsep.width } else { p.floatsep.width });
    if !only_bottom && f.places.has(Places::T) && pool.count_left(p, s, Limit::Top, f.bang) > 0 {
        required += sep(pool.top.is_empty());
        if room > required
            && (f.bang || pool.top_room(p) > h)
            && !pool.here.has_class(f.class)
            && !pool.bottom.has_class(f.class)
        {
            return Some(Where::Top);
        }
    }
    if f.places.has(Places::B) && pool.count_left(p, s, Limit::Bottom, f.bang) > 0 {
        required += sep(pool.bottom.is_empty());
        if room > required && (f.bang || pool.bottom_room(p) > h) {
            return Some(Where::Bottom);
        }
    }
    None
}

/// The decision for the current column. None defers the float.
pub fn add_current(pool: &Pool, p: &Params, s: &Suppress, f: &Float, page_height: i64) -> Option<Where> {
    if f.places.0 == Places::P || f.wide || pool.deferred.has_class(f.class) {
        return None;
    }
    let room = pool.column_room(p);
    let mut required = page_height.max(text_room(pool, p, f)) + i64::from(f.height);
    if room <= required || pool.count_left(p, s, Limit::Total, f.bang) <= 0 {
        return None;
    }
    let only_bottom = pool.bottom.has_class(f.class);
    if !only_bottom && f.places.has(Places::H) {
        required += i64::from(p.intextsep.width);
        if room > required {
            return Some(Where::Here);
        }
    }
    top_or_bottom(pool, p, s, f, room, required, only_bottom)
}

/// The decision for the next column. `blocked` has a bit for each class that stands before the float in
/// what is left of deferred.
pub fn add_next(pool: &Pool, p: &Params, s: &Suppress, f: &Float, blocked: u32) -> Option<Where> {
    if f.places.0 == Places::P || f.wide || blocked >> f.class & 1 != 0 {
        return None;
    }
    let required = i64::from(f.height) + text_room(pool, p, f);
    let room = pool.column_room(p);
    if room <= required || pool.count_left(p, s, Limit::Total, f.bang) <= 0 {
        return None;
    }
    top_or_bottom(pool, p, s, f, room, required, false)
}

/// The decision for a double float. `blocked` as in `add_next`, over the list that `f` stands in.
pub fn add_double(pool: &Pool, p: &Params, f: &Float, blocked: u32) -> bool {
    if !f.wide
        || !f.places.has(Places::T)
        || blocked >> f.class & 1 != 0
        || pool.count_left(p, &Suppress::default(), Limit::Double, f.bang) <= 0
    {
        return false;
    }
    let over = if f.bang { p.textheight - frac(p.dbltopfraction, p.textheight) } else { 0 };
    pool.double_room(p) + over > i64::from(f.height)
}
