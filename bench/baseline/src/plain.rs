//! Plain TeX's output routine over the same builder.

use crate::builder::{Ask, Builder, Event, Page};
use crate::column::{float_box, footnotes, Column};
use crate::grammar::{Galley, ItemKind, FFILL, FOOT};
use crate::node::{Act, Float, Insertion, Kind, List, Places, Store, Where};
use crate::output::{Sheet, Stop, Totals, View};
use crate::param::Params;
use crate::scaled::{MAX_DIMEN, VFIL};

/// Line of the first item that this mode does not serve.
pub fn unsuited(g: &Galley) -> Option<u32> {
    g.items
        .iter()
        .find(|i| match i.kind {
            ItemKind::Margin { .. }
            | ItemKind::OneColumn
            | ItemKind::TwoColumn
            | ItemKind::Suppress(_) => true,
            ItemKind::Foot(class) => class != FOOT,
            _ => false,
        })
        .map(|i| i.line)
}

const TOP_BOX: usize = 0;
const FOOT_BOX: usize = 1;

/// Takes a float.
fn take(store: &mut Store, b: &mut Builder, p: &Params, f: &Float) {
    let mut l = List::EMPTY;
    if f.places.has(Places::H) {
        let (total, shrink, goal) = b.page_sums();
        let d = i64::from(f.height) + i64::from(p.intextsep.width) + total - shrink;
        if d <= goal {
            store.push(&mut l, 0, Kind::skip(p.intextsep));
            float_box(store, &mut l, f, Where::Here);
            store.push(&mut l, 0, Kind::Pen(-200));
            store.push(&mut l, 0, Kind::skip(p.intextsep));
            b.put_first(store, l);
            return;
        }
    }
    store.push(&mut l, 0, Kind::Pen(100));
    if f.places.0 & (Places::H | Places::T | Places::B) != 0 {
        float_box(store, &mut l, f, Where::Top);
        store.push(&mut l, 0, Kind::Pen(10_000));
        store.push(&mut l, 0, Kind::skip(p.intextsep));
    } else {
        let full = Float { height: p.textheight as i32, ..*f };
        float_box(store, &mut l, &full, Where::Page);
    }
    let ins = store.new_insertion(Insertion {
        class: TOP_BOX as u8,
        list: l,
        height: l.size,
        split_depth: MAX_DIMEN,
        split_top: 0,
        floating: 0,
    });
    let mut one = List::EMPTY;
    store.push(&mut one, 0, Kind::Ins(ins));
    b.put_first(store, one);
}

/// One firing.
fn fire<V: View>(
    store: &mut Store,
    b: &mut Builder,
    p: &Params,
    page: Page,
    totals: &mut Totals,
    view: &mut V,
) -> Result<(), Stop> {
    let mut l = b.take_box(TOP_BOX);
    store.append(&mut l, page.body);
    let foot = !b.classes()[FOOT_BOX].void;
    let notes = b.take_box(FOOT_BOX);
    if foot {
        footnotes(store, &mut l, p, notes);
    }
    if p.ragged {
        let depth = page.body.last_depth().min(p.maxdepth) as i32;
        store.push(&mut l, 0, Kind::Kern(-depth));
        store.push(&mut l, 0, Kind::skip(VFIL));
    }
    let col = Column::new(store, false, l, p.textheight, p.maxdepth);
    if totals.pages == p.maxpages as u64 {
        return Err(Stop::PageLimit(totals.pages));
    }
    view.ship(store, totals.pages + 1, &Sheet::One(&col))?;
    totals.pages += 1;
    totals.count(&col);
    store.release(l, col.held.nodes);
    let mut back = List::EMPTY;
    if page.penalty <= -20_000 && page.held > 0 {
        for kind in [
            Kind::Blank { depth: 0 },
            Kind::Kern(-(p.topskip as i32)),
            Kind::Pen(10_000),
            Kind::skip(FFILL),
            Kind::Pen(-20_000),
        ] {
            store.push(&mut back, 0, kind);
        }
    }
    b.put_back(store, back);
    Ok(())
}

/// The run of a galley under plain TeX's page makeup.
pub fn run<V: View>(
    store: &mut Store,
    b: &mut Builder,
    p: &Params,
    view: &mut V,
) -> (Totals, Result<List, Stop>) {
    let mut totals = Totals::default();
    let end = turn(store, b, p, &mut totals, view);
    (totals, end)
}

fn turn<V: View>(
    store: &mut Store,
    b: &mut Builder,
    p: &Params,
    totals: &mut Totals,
    view: &mut V,
) -> Result<List, Stop> {
    let test = |store: &Store| match store.live() {
        n if n > p.maxnodes as u64 => Err(Stop::NodeLimit(n)),
        _ => Ok(()),
    };
    test(store)?;
    let ask = Ask { goal: p.textheight, max_depth: p.maxdepth, top_skip: p.topskip };
    loop {
        match b.next(store, &ask, view)? {
            Event::Act(Act::Take(f)) => take(store, b, p, &f),
            Event::Act(_) => {}
            Event::Fired(page) => {
                fire(store, b, p, page, totals, view)?;
                test(store)?;
            }
            Event::Empty => {
                let left = b.page_so_far();
                if left.is_empty() {
                    return Ok(left);
                }
                let mut l = List::EMPTY;
                store.push(&mut l, 0, Kind::Blank { depth: 0 });
                store.push(&mut l, 0, Kind::skip(FFILL));
                store.push(&mut l, 0, Kind::Pen(-1_073_741_824));
                b.put_first(store, l);
            }
        }
    }
}
