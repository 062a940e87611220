//! Paragraphs into lines of least demerits.

use crate::node::Name;
use crate::scaled::{badness, FORCED, MAX_DIMEN};
use crate::text::{put_number, Cause, Fault, Fields, Lines, MAX_INPUT};

const MAX_ITEMS: u32 = 25_000;
const MAX_PAR: usize = 5_000;
const LONGEST_NAME: usize = 58;

#[derive(Clone, Copy, Debug)]
pub enum Item {
    Word { width: i32, height: i32, depth: i32 },
    Space { width: i32, stretch: i32, shrink: i32 },
    Pen(i32),
}

pub struct Par {
    pub name: Name,
    pub items: Vec<Item>,
}

pub struct Text {
    hsize: i64,
    tolerance: i64,
    linepenalty: i64,
    clubpenalty: i64,
    widowpenalty: i64,
    baselineskip: i64,
    lineskip: i64,
    parskip: i64,
    pub pars: Vec<Par>,
}

#[derive(Clone, Copy, PartialEq, Eq)]
enum Phase {
    Start,
    Sets,
    Par,
    Between,
    Ended,
}

pub fn read_lines(text: &[u8]) -> Result<Text, Fault> {
    if text.len() > MAX_INPUT {
        return Err(Fault { line: 0, field: 0, cause: Cause::InputSize });
    }
    let pt = 65_536;
    let mut r = Reader {
        text: Text {
            hsize: 345 * pt,
            tolerance: 200,
            linepenalty: 10,
            clubpenalty: 150,
            widowpenalty: 150,
            baselineskip: 12 * pt,
            lineskip: pt,
            parskip: 0,
            pars: Vec::new(),
        },
        phase: Phase::Start,
        count: 0,
    };
    let mut lines = Lines::new(text);
    while let Some(mut f) = lines.next_content()? {
        r.line(&mut f)?;
    }
    match r.phase {
        Phase::Ended => Ok(r.text),
        Phase::Start => Err(lines.end_fault(Cause::NoHeader)),
        Phase::Par => Err(lines.end_fault(Cause::UnclosedPar)),
        _ => Err(lines.end_fault(Cause::NoEnd)),
    }
}

struct Reader {
    text: Text,
    phase: Phase,
    count: u32,
}

impl Reader {
    fn line(&mut self, f: &mut Fields) -> Result<(), Fault> {
        let word = f.need()?.bytes;
        match self.phase {
            Phase::Start => {
                if word != b"lines" {
                    return Err(f.fault(Cause::NoHeader));
                }
                if f.next()?.map(|v| v.bytes) != Some(b"1") {
                    return Err(f.fault(Cause::NoHeader));
                }
                self.phase = Phase::Sets;
                return f.end();
            }
            Phase::Ended => return Err(f.fault(Cause::AfterEnd)),
            _ => {}
        }
        let inside = self.phase == Phase::Par;
        match word {
            b"set" => {
                if inside {
                    return Err(f.fault(Cause::NotInPar));
                }
                if self.phase != Phase::Sets {
                    return Err(f.fault(Cause::SetAfterItem));
                }
                self.set(f)?;
            }
            b"par" => {
                if inside {
                    return Err(f.fault(Cause::NestedPar));
                }
                self.item(f)?;
                let name = f.need()?;
                if !name.is_name(LONGEST_NAME) {
                    return Err(f.fault(Cause::BadName));
                }
                let name = Name::span(name.start, name.bytes.len());
                self.text.pars.push(Par { name, items: Vec::new() });
                self.phase = Phase::Par;
            }
            b"word" | b"space" | b"pen" => {
                if !inside {
                    return Err(f.fault(Cause::NotInPar));
                }
                self.item(f)?;
                let Some(par) = self.text.pars.last_mut() else { return Err(f.fault(Cause::NotInPar)) };
                if par.items.len() == MAX_PAR {
                    return Err(f.fault(Cause::Items));
                }
                par.items.push(match word {
                    b"word" => Item::Word { width: f.size()?, height: f.size()?, depth: f.size()? },
                    b"space" => Item::Space { width: f.size()?, stretch: f.size()?, shrink: f.size()? },
                    _ => match f.integer()? {
                        p @ -10_000..=10_000 => Item::Pen(p as i32),
                        _ => return Err(f.fault(Cause::Penalty)),
                    },
                });
            }
            b"endpar" => {
                if !inside {
                    return Err(f.fault(Cause::StrayEndpar));
                }
                self.phase = Phase::Between;
            }
            b"end" => {
                if inside {
                    return Err(f.fault(Cause::UnclosedPar));
                }
                self.phase = Phase::Ended;
            }
            _ => return Err(f.fault(Cause::UnknownWord)),
        }
        f.end()
    }

    fn item(&mut self, f: &Fields) -> Result<(), Fault> {
        if self.count == MAX_ITEMS {
            return Err(f.fault(Cause::Items));
        }
        self.count += 1;
        Ok(())
    }

    fn set(&mut self, f: &mut Fields) -> Result<(), Fault> {
        let t = &mut self.text;
        let (slot, dim, low, high) = match f.need()?.bytes {
            b"hsize" => (&mut t.hsize, true, 1, MAX_DIMEN),
            b"tolerance" => (&mut t.tolerance, false, 0, 10_000),
            b"linepenalty" => (&mut t.linepenalty, false, 0, 10_000),
            b"clubpenalty" => (&mut t.clubpenalty, false, 0, 5_000),
            b"widowpenalty" => (&mut t.widowpenalty, false, 0, 5_000),
            b"baselineskip" => (&mut t.baselineskip, true, 0, MAX_DIMEN),
            b"lineskip" => (&mut t.lineskip, true, 0, MAX_DIMEN),
            b"parskip" => (&mut t.parskip, true, 0, MAX_DIMEN),
            _ => return Err(f.fault(Cause::UnknownParameter)),
        };
        let v = if dim { f.dimension()? } else { f.integer()? };
        if !(low..=high).contains(&v) {
            return Err(f.fault(Cause::Parameter));
        }
        *slot = v;
        Ok(())
    }
}

/// The breaks of a paragraph: places of items; the last one is the number of
/// items plus 2.
pub struct Solution {
    pub breaks: Vec<usize>,
    /// Shown by the rows on calls alone.
    #[cfg_attr(not(test), allow(dead_code))]
    pub demerits: i64,
}

/// Sums of what stands before a place.
#[derive(Clone, Copy, Default)]
struct Before {
    width: i64,
    stretch: i64,
    shrink: i64,
}

/// A break from which a line may start.
struct Start {
    /// Place of the break; the paragraph's start has none.
    place: usize,
    /// Place of the first item of the line.
    first: usize,
    before: Before,
    total: i64,
    /// Index into `Start`s of the best predecessor.
    from: u32,
}

const NONE: u32 = u32::MAX;

/// The feasible solution of least demerits, the greatest breaks
/// from the last one among equals.
pub fn break_par(text: &Text, n: usize) -> Option<Solution> {
    let items = &text.pars[n].items;
    let count = items.len();
    let last = count + 2;
    // Least shrunken width before any legal break from here on: a start is
    // given up only when no later break can be reached from it.
    let mut reach = vec![i64::MAX; count + 1];
    let mut first_word = vec![usize::MAX; count + 1];
    {
        let mut before = Before::default();
        for (k, item) in items.iter().enumerate() {
            reach[k] = before.width - before.shrink;
            add(&mut before, item);
        }
        reach[count] = before.width - before.shrink;
        for k in (0..count).rev() {
            reach[k] = reach[k].min(reach[k + 1]);
            first_word[k] = if matches!(items[k], Item::Word { .. }) { k } else { first_word[k + 1] };
        }
    }
    let mut starts = vec![Start {
        place: usize::MAX,
        first: 0,
        before: Before::default(),
        total: 0,
        from: NONE,
    }];
    let mut low = 0usize;
    let mut before = Before::default();
    let mut after_word = false;
    let mut sums: Vec<Before> = Vec::with_capacity(count + 1);
    sums.push(before);
    for item in items {
        add(&mut before, item);
        sums.push(before);
    }
    before = Before::default();
    for place in 0..=count {
        let item = items.get(place);
        let legal = match item {
            Some(Item::Space { .. }) if after_word => Some(0),
            Some(Item::Pen(p)) if *p < 10_000 => Some(i64::from(*p)),
            None => Some(FORCED),
            _ => None,
        };
        if let Some(penalty) = legal {
            let ends = item.is_none();
            while low < starts.len() {
                let s = &starts[low];
                let shortest = reach[place] - (s.before.width - s.before.shrink);
                if s.first <= place && shortest > text.hsize {
                    low += 1;
                } else {
                    break;
                }
            }
            let mut best = i64::MAX;
            let mut from = NONE;
            for (k, s) in starts.iter().enumerate().skip(low) {
                // A line without a word is empty, but the first one leaves
                // out nothing.
                let empty = s.first >= place && !(s.place == usize::MAX);
                let (e, stretch, shrink) = if empty {
                    (text.hsize, 0, 0)
                } else {
                    (
                        text.hsize - (before.width - s.before.width),
                        before.stretch - s.before.stretch,
                        before.shrink - s.before.shrink,
                    )
                };
                let b = if e > 0 {
                    if ends && !empty {
                        0
                    } else {
                        badness(e, stretch)
                    }
                } else if -e > shrink {
                    continue;
                } else {
                    badness(-e, shrink)
                };
                if b > text.tolerance {
                    continue;
                }
                let base = text.linepenalty + b;
                let mut d = if base >= 10_000 { 100_000_000 } else { base * base };
                if penalty > 0 {
                    d += penalty * penalty;
                } else if penalty > FORCED {
                    d -= penalty * penalty;
                }
                let total = s.total + d;
                if total <= best {
                    best = total;
                    from = k as u32;
                }
            }
            if from != NONE {
                if ends {
                    let mut breaks = vec![last];
                    let mut k = from;
                    while starts[k as usize].place != usize::MAX {
                        breaks.push(starts[k as usize].place);
                        k = starts[k as usize].from;
                    }
                    breaks.reverse();
                    return Some(Solution { breaks, demerits: best });
                }
                let first = first_word.get(place + 1).copied().unwrap_or(usize::MAX);
                let sum = if first == usize::MAX { before } else { sums[first] };
                let start = Start { place, first, before: sum, total: best, from };
                if penalty <= FORCED {
                    low = starts.len();
                }
                starts.push(start);
            } else if penalty <= FORCED {
                return None;
            }
        }
        if let Some(item) = item {
            add(&mut before, item);
            after_word = matches!(item, Item::Word { .. });
        }
    }
    None
}

#[inline]
fn add(b: &mut Before, item: &Item) {
    match *item {
        Item::Word { width, .. } => b.width += i64::from(width),
        Item::Space { width, stretch, shrink } => {
            b.width += i64::from(width);
            b.stretch += i64::from(stretch);
            b.shrink += i64::from(shrink);
        }
        Item::Pen(_) => {}
    }
}

/// The galley of the lines.
pub fn line_text(text: &Text, bytes: &[u8], solutions: &[Solution]) -> Vec<u8> {
    let mut out = Vec::with_capacity(1 << 16);
    out.extend_from_slice(b"galley 1\n");
    let number = |out: &mut Vec<u8>, v: i64| {
        out.push(b' ');
        put_number(out, v);
    };
    let glue = |out: &mut Vec<u8>, v: i64| {
        out.extend_from_slice(b"glue ");
        put_number(out, v);
        out.extend_from_slice(b" plus 0 minus 0\n");
    };
    let mut depth_before: Option<i64> = None;
    for (par, solution) in text.pars.iter().zip(solutions) {
        let lines = solution.breaks.len();
        let mut from = 0;
        for (k, &to) in solution.breaks.iter().enumerate() {
            let (mut height, mut depth) = (0i64, 0i64);
            for item in &par.items[from.min(par.items.len())..to.min(par.items.len())] {
                if let Item::Word { height: h, depth: d, .. } = *item {
                    height = height.max(i64::from(h));
                    depth = depth.max(i64::from(d));
                }
            }
            from = to + 1;
            if k > 0 {
                let club = if k == 1 { text.clubpenalty } else { 0 };
                let widow = if k + 1 == lines { text.widowpenalty } else { 0 };
                if club + widow != 0 {
                    out.extend_from_slice(b"penalty");
                    number(&mut out, club + widow);
                    out.push(b'\n');
                }
            }
            if let Some(before) = depth_before {
                if k == 0 {
                    glue(&mut out, text.parskip);
                }
                let x = text.baselineskip - before - height;
                glue(&mut out, if x >= 0 { x } else { text.lineskip });
            }
            depth_before = Some(depth);
            out.extend_from_slice(b"box ");
            out.extend_from_slice(par.name.of(bytes));
            out.push(b'.');
            put_number(&mut out, k as i64 + 1);
            number(&mut out, height);
            number(&mut out, depth);
            out.push(b'\n');
        }
    }
    out.extend_from_slice(b"end\n");
    out
}
