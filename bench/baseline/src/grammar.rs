//! The galley: its reader, its canonical text, its nodes, the generator.

use crate::builder::Builder;
use crate::insert::Class;
use crate::node::{Act, Area, Float, Insertion, Kind, List, Margin, Name, Places, Store};
use crate::param::{Params, Slot, NAMES};
use crate::scaled::{Glue, Order, MAX_DIMEN, VFIL};
use crate::text::{fraction, put_number, Cause, Fault, Field, Fields, Lines, MAX_INPUT};

const MAX_ITEMS: u32 = 100_000;
pub const FOOT: u8 = 254;
pub const TOP_INSERTS: u8 = 253;

#[derive(Clone, Copy, Debug)]
pub struct ClassLine {
    pub number: u8,
    pub factor: i64,
    pub limit: i64,
    pub skip: Glue,
}

#[derive(Clone, Copy, Debug)]
pub struct Item {
    pub line: u32,
    pub kind: ItemKind,
}

/// The leaves of a foot stand between `Foot` and `EndFoot`.
#[derive(Clone, Copy, Debug)]
pub enum ItemKind {
    Box { name: Name, height: i32, depth: i32 },
    Rule { name: Name, height: i32, depth: i32 },
    Skip(Glue),
    Kern(i32),
    Penalty(i32),
    Mark(Name),
    Note(Name),
    Foot(u8),
    EndFoot,
    /// Index into `Galley::floats`.
    Float { index: u32, vert: bool },
    /// Index into `Galley::margins`.
    Margin { index: u32, vert: bool },
    NewPage,
    ClearPage,
    PageBreak(u8),
    NoPageBreak(u8),
    OneColumn,
    TwoColumn,
    Suppress(Area),
}

pub struct Galley {
    pub params: Params,
    pub version: u8,
    /// In rising number.
    pub classes: Vec<ClassLine>,
    pub items: Vec<Item>,
    pub floats: Vec<Float>,
    pub margins: Vec<Margin>,
    pub end_line: u32,
}

#[derive(Clone, Copy, PartialEq, Eq)]
enum Phase {
    Start,
    Sets,
    Items,
    Foot,
    Ended,
}

#[derive(Clone, Copy, PartialEq, Eq)]
enum Word {
    Galley,
    Set,
    Class,
    Box,
    Rule,
    Glue,
    Kern,
    Penalty,
    Mark,
    Note,
    Foot,
    Endfoot,
    Float,
    Margin,
    Newpage,
    Clearpage,
    Onecolumn,
    Twocolumn,
    Pagebreak,
    Nopagebreak,
    Suppressfloats,
    End,
}

fn word(b: &[u8]) -> Option<Word> {
    use Word::*;
    Some(match b {
        b"galley" => Galley,
        b"set" => Set,
        b"class" => Class,
        b"box" => Box,
        b"rule" => Rule,
        b"glue" => Glue,
        b"kern" => Kern,
        b"penalty" => Penalty,
        b"mark" => Mark,
        b"note" => Note,
        b"foot" => Foot,
        b"endfoot" => Endfoot,
        b"float" => Float,
        b"margin" => Margin,
        b"newpage" => Newpage,
        b"clearpage" => Clearpage,
        b"onecolumn" => Onecolumn,
        b"twocolumn" => Twocolumn,
        b"pagebreak" => Pagebreak,
        b"nopagebreak" => Nopagebreak,
        b"suppressfloats" => Suppressfloats,
        b"end" => End,
        _ => return None,
    })
}

/// The galley of a text, or its first fault.
pub fn parse(text: &[u8]) -> Result<Galley, Fault> {
    if text.len() > MAX_INPUT {
        return Err(Fault { line: 0, field: 0, cause: Cause::InputSize });
    }
    let mut r = Reader {
        galley: Galley {
            params: Params::default(),
            version: 1,
            classes: Vec::new(),
            items: Vec::new(),
            floats: Vec::new(),
            margins: Vec::new(),
            end_line: 0,
        },
        phase: Phase::Start,
        count: 0,
    };
    let mut lines = Lines::new(text);
    while let Some(mut f) = lines.next_content()? {
        r.line(&mut f)?;
    }
    match r.phase {
        Phase::Ended => Ok(r.galley),
        Phase::Start => Err(lines.end_fault(Cause::NoHeader)),
        Phase::Foot => Err(lines.end_fault(Cause::UnclosedFoot)),
        _ => Err(lines.end_fault(Cause::NoEnd)),
    }
}

struct Reader {
    galley: Galley,
    phase: Phase,
    /// Item lines.
    count: u32,
}

impl Reader {
    fn line(&mut self, f: &mut Fields) -> Result<(), Fault> {
        let first = f.need()?;
        if self.phase == Phase::Start {
            return self.header(first, f);
        }
        if self.phase == Phase::Ended {
            return Err(f.fault(Cause::AfterEnd));
        }
        let w = match word(first.bytes) {
            None | Some(Word::Galley) => return Err(f.fault(Cause::UnknownWord)),
            Some(Word::Class) if self.galley.version == 1 => return Err(f.fault(Cause::UnknownWord)),
            Some(w) => w,
        };
        match w {
            Word::Set | Word::Class => {
                if self.phase != Phase::Sets {
                    return Err(f.fault(Cause::SetAfterItem));
                }
                return if w == Word::Set { self.set(f) } else { self.class(f) };
            }
            Word::End => {
                if self.phase == Phase::Foot {
                    return Err(f.fault(Cause::UnclosedFoot));
                }
                f.end()?;
                self.galley.end_line = f.number;
                self.phase = Phase::Ended;
                return Ok(());
            }
            _ => {}
        }
        if self.phase == Phase::Foot {
            match w {
                Word::Foot => return Err(f.fault(Cause::NestedFoot)),
                Word::Box | Word::Rule | Word::Glue | Word::Kern | Word::Penalty | Word::Endfoot => {}
                _ => return Err(f.fault(Cause::NotInFoot)),
            }
        } else if w == Word::Endfoot {
            return Err(f.fault(Cause::StrayEndfoot));
        }
        if self.count == MAX_ITEMS {
            return Err(f.fault(Cause::Items));
        }
        self.count += 1;
        let kind = self.item(w, f)?;
        self.galley.items.push(Item { line: f.number, kind });
        self.phase = match w {
            Word::Foot => Phase::Foot,
            Word::Endfoot => Phase::Items,
            _ if self.phase == Phase::Sets => Phase::Items,
            _ => self.phase,
        };
        Ok(())
    }

    fn header(&mut self, first: Field, f: &mut Fields) -> Result<(), Fault> {
        if first.bytes != b"galley" {
            return Err(f.fault(Cause::NoHeader));
        }
        self.galley.version = match f.next()?.map(|v| v.bytes) {
            Some(b"1") => 1,
            Some(b"2") => 2,
            _ => return Err(f.fault(Cause::NoHeader)),
        };
        f.end()?;
        self.phase = Phase::Sets;
        Ok(())
    }

    fn set(&mut self, f: &mut Fields) -> Result<(), Fault> {
        let name = f.need()?.bytes;
        let Some(slot) = self.galley.params.slot(name, self.galley.version) else {
            return Err(f.fault(Cause::UnknownParameter));
        };
        let inside = |v: i64, low: i64, high: i64, f: &Fields| {
            if (low..=high).contains(&v) {
                Ok(v)
            } else {
                Err(f.fault(Cause::Parameter))
            }
        };
        match slot {
            Slot::Dim(v, low) => *v = inside(f.dimension()?, low, MAX_DIMEN, f)?,
            Slot::Int(v, low, high) => *v = inside(f.integer()?, low, high, f)?,
            Slot::Fraction(v) => {
                let b = f.need()?.bytes;
                *v = inside(fraction(b).map_err(|c| f.fault(c))?, 0, 65_536, f)?;
            }
            Slot::Word(v, words) => {
                let b = f.need()?.bytes;
                match words.iter().position(|w| *w == b) {
                    Some(k) => *v = k == 1,
                    None => return Err(f.fault(Cause::WrongForm)),
                }
            }
            Slot::Glue(v) => {
                *v = glue(f, Cause::WrongForm)?;
                return Ok(());
            }
        }
        f.end()
    }

    fn class(&mut self, f: &mut Fields) -> Result<(), Fault> {
        let number = match f.integer()? {
            n @ 0..=253 => n as u8,
            _ => return Err(f.fault(Cause::Class)),
        };
        let factor = match f.integer()? {
            n @ 0..=10_000 => n,
            _ => return Err(f.fault(Cause::Parameter)),
        };
        let limit = i64::from(f.size()?);
        let skip = glue(f, Cause::UnknownWord)?;
        let line = ClassLine { number, factor, limit, skip };
        match self.galley.classes.binary_search_by_key(&number, |c| c.number) {
            Ok(k) => self.galley.classes[k] = line,
            Err(k) => self.galley.classes.insert(k, line),
        }
        Ok(())
    }

    fn item(&mut self, w: Word, f: &mut Fields) -> Result<ItemKind, Fault> {
        let kind = match w {
            Word::Box | Word::Rule => {
                let name = name(f)?;
                let height = f.size()?;
                let depth = f.size()?;
                if w == Word::Box {
                    ItemKind::Box { name, height, depth }
                } else {
                    ItemKind::Rule { name, height, depth }
                }
            }
            Word::Glue => return Ok(ItemKind::Skip(glue(f, Cause::UnknownWord)?)),
            Word::Kern => ItemKind::Kern(f.dimension()? as i32),
            Word::Penalty => match f.integer()? {
                p @ -10_000..=10_000 => ItemKind::Penalty(p as i32),
                _ => return Err(f.fault(Cause::Penalty)),
            },
            Word::Mark => ItemKind::Mark(name(f)?),
            Word::Note => ItemKind::Note(name(f)?),
            Word::Foot if self.galley.version == 1 => ItemKind::Foot(FOOT),
            Word::Foot => match f.next()? {
                None => return Ok(ItemKind::Foot(FOOT)),
                Some(b) => ItemKind::Foot(self.foot_class(b, f)?),
            },
            Word::Endfoot => ItemKind::EndFoot,
            Word::Float => {
                let name = name(f)?;
                let class = match f.integer()? {
                    c @ 1..=26 => c as u8,
                    _ => return Err(f.fault(Cause::Class)),
                };
                let wide = !f.choice(b"single", b"double")?;
                let (places, bang) = places(f.need()?.bytes).ok_or_else(|| f.fault(Cause::BadPlace))?;
                let height = f.size()?;
                let vert = !f.choice(b"par", b"vert")?;
                self.galley.floats.push(Float { line: f.number, name, height, class, wide, places, bang });
                ItemKind::Float { index: (self.galley.floats.len() - 1) as u32, vert }
            }
            Word::Margin => {
                let name = name(f)?;
                let left_height = f.size()?;
                let left_depth = f.size()?;
                let right_height = f.size()?;
                let right_depth = f.size()?;
                let vert = !f.choice(b"par", b"vert")?;
                let line = f.number;
                self.galley.margins.push(Margin {
                    line,
                    name,
                    left_height,
                    left_depth,
                    right_height,
                    right_depth,
                });
                ItemKind::Margin { index: (self.galley.margins.len() - 1) as u32, vert }
            }
            Word::Newpage => ItemKind::NewPage,
            Word::Clearpage => ItemKind::ClearPage,
            Word::Onecolumn => ItemKind::OneColumn,
            Word::Twocolumn => ItemKind::TwoColumn,
            Word::Pagebreak | Word::Nopagebreak => match f.integer()? {
                n @ 0..=4 if w == Word::Pagebreak => ItemKind::PageBreak(n as u8),
                n @ 0..=4 => ItemKind::NoPageBreak(n as u8),
                _ => return Err(f.fault(Cause::Penalty)),
            },
            Word::Suppressfloats => match f.next()?.map(|b| b.bytes) {
                None => return Ok(ItemKind::Suppress(Area::All)),
                Some(b"t") => ItemKind::Suppress(Area::Top),
                Some(b"b") => ItemKind::Suppress(Area::Bottom),
                Some(_) => return Err(f.fault(Cause::UnknownWord)),
            },
            Word::Galley | Word::Set | Word::Class | Word::End => return Err(f.fault(Cause::UnknownWord)),
        };
        f.end()?;
        Ok(kind)
    }

    fn foot_class(&self, b: Field, f: &Fields) -> Result<u8, Fault> {
        let n = crate::text::integer(b.bytes).map_err(|c| f.fault(c))?;
        match u8::try_from(n) {
            Ok(FOOT) => Ok(FOOT),
            Ok(n) if self.galley.classes.binary_search_by_key(&n, |c| c.number).is_ok() => Ok(n),
            _ => Err(f.fault(Cause::Class)),
        }
    }
}

fn name(f: &mut Fields) -> Result<Name, Fault> {
    let b = f.need()?;
    if b.is_name(Name::LONGEST) {
        Ok(Name::span(b.start, b.bytes.len()))
    } else {
        Err(f.fault(Cause::BadName))
    }
}

fn places(b: &[u8]) -> Option<(Places, bool)> {
    let mut places = 0;
    let mut bang = false;
    for c in b {
        match c {
            b'h' => places |= Places::H,
            b't' => places |= Places::T,
            b'b' => places |= Places::B,
            b'p' => places |= Places::P,
            b'!' => bang = true,
            _ => return None,
        }
    }
    (places != 0).then_some((Places(places), bang))
}

/// A width, optionally `plus` and a stretch, optionally `minus` and a
/// dimension, up to the line's end.
fn glue(f: &mut Fields, other: Cause) -> Result<Glue, Fault> {
    let width = f.dimension()? as i32;
    let mut g = Glue::fixed(width);
    let Some(mut w) = f.next()? else { return Ok(g) };
    if w.bytes == b"plus" {
        let (stretch, order) = f.stretch()?;
        g.stretch = stretch as i32;
        g.order = order;
        match f.next()? {
            None => return Ok(g),
            Some(b) => w = b,
        }
    }
    if w.bytes != b"minus" {
        return Err(f.fault(other));
    }
    g.shrink = f.dimension()? as i32;
    f.end()?;
    Ok(g)
}

// ---- canonical text ----

struct Writer<'a> {
    out: Vec<u8>,
    text: &'a [u8],
}

impl Writer<'_> {
    fn word(&mut self, s: &[u8]) {
        self.out.extend_from_slice(s);
    }
    fn number(&mut self, v: i64) {
        self.out.push(b' ');
        put_number(&mut self.out, v);
    }
    fn name(&mut self, n: Name) {
        self.out.push(b' ');
        self.out.extend_from_slice(n.of(self.text));
    }
    fn glue(&mut self, g: &Glue) {
        self.number(i64::from(g.width));
        self.word(b" plus");
        self.number(i64::from(g.stretch));
        self.word(match g.order {
            Order::Normal => b"",
            Order::Fil => b"sfil",
            Order::Fill => b"sfill",
            Order::Filll => b"sfilll",
        });
        self.word(b" minus");
        self.number(i64::from(g.shrink));
    }
}

/// The canonical text of a galley.
pub fn print(g: &Galley, text: &[u8]) -> Vec<u8> {
    let mut w = Writer { out: Vec::with_capacity(2048 + g.items.len() * 24), text };
    w.word(if g.version == 2 { b"galley 2\n" } else { b"galley 1\n" });
    let mut params = g.params.clone();
    let mut names: Vec<&str> = NAMES.to_vec();
    if g.version == 2 {
        names.push("release");
    }
    for name in names {
        w.word(b"set ");
        w.word(name.as_bytes());
        match params.slot(name.as_bytes(), g.version) {
            Some(Slot::Dim(v, _) | Slot::Int(v, _, _)) => w.number(*v),
            Some(Slot::Fraction(v)) => {
                w.number(*v);
                w.word(b"/65536");
            }
            Some(Slot::Glue(v)) => w.glue(v),
            Some(Slot::Word(v, words)) => {
                w.word(b" ");
                w.word(words[usize::from(*v)]);
            }
            None => {}
        }
        w.word(b"\n");
    }
    for c in &g.classes {
        w.word(b"class");
        w.number(i64::from(c.number));
        w.number(c.factor);
        w.number(c.limit);
        w.glue(&c.skip);
        w.word(b"\n");
    }
    for item in &g.items {
        match item.kind {
            ItemKind::Box { name, height, depth } | ItemKind::Rule { name, height, depth } => {
                w.word(if matches!(item.kind, ItemKind::Box { .. }) { b"box" } else { b"rule" });
                w.name(name);
                w.number(i64::from(height));
                w.number(i64::from(depth));
            }
            ItemKind::Skip(ref g) => {
                w.word(b"glue");
                w.glue(g);
            }
            ItemKind::Kern(v) => {
                w.word(b"kern");
                w.number(i64::from(v));
            }
            ItemKind::Penalty(v) => {
                w.word(b"penalty");
                w.number(i64::from(v));
            }
            ItemKind::Mark(n) => {
                w.word(b"mark");
                w.name(n);
            }
            ItemKind::Note(n) => {
                w.word(b"note");
                w.name(n);
            }
            ItemKind::Foot(class) => {
                w.word(b"foot");
                if g.version == 2 {
                    w.number(i64::from(class));
                }
            }
            ItemKind::EndFoot => w.word(b"endfoot"),
            ItemKind::Float { index, vert } => {
                let f = &g.floats[index as usize];
                w.word(b"float");
                w.name(f.name);
                w.number(i64::from(f.class));
                w.word(if f.wide { b" double " } else { b" single " });
                if f.bang {
                    w.word(b"!");
                }
                for (bit, c) in [(Places::H, b"h"), (Places::T, b"t"), (Places::B, b"b"), (Places::P, b"p")] {
                    if f.places.has(bit) {
                        w.word(c);
                    }
                }
                w.number(i64::from(f.height));
                w.word(if vert { b" vert" } else { b" par" });
            }
            ItemKind::Margin { index, vert } => {
                let m = &g.margins[index as usize];
                w.word(b"margin");
                w.name(m.name);
                for v in [m.left_height, m.left_depth, m.right_height, m.right_depth] {
                    w.number(i64::from(v));
                }
                w.word(if vert { b" vert" } else { b" par" });
            }
            ItemKind::NewPage => w.word(b"newpage"),
            ItemKind::ClearPage => w.word(b"clearpage"),
            ItemKind::PageBreak(n) => {
                w.word(b"pagebreak");
                w.number(i64::from(n));
            }
            ItemKind::NoPageBreak(n) => {
                w.word(b"nopagebreak");
                w.number(i64::from(n));
            }
            ItemKind::OneColumn => w.word(b"onecolumn"),
            ItemKind::TwoColumn => w.word(b"twocolumn"),
            ItemKind::Suppress(Area::All) => w.word(b"suppressfloats"),
            ItemKind::Suppress(Area::Top) => w.word(b"suppressfloats t"),
            ItemKind::Suppress(Area::Bottom) => w.word(b"suppressfloats b"),
        }
        w.word(b"\n");
    }
    w.word(b"end\n");
    w.out
}

// ---- expansion ----

/// The classes of a galley, in rising number; `plain` has 253 and 254 alone.
pub fn classes(g: &Galley, plain: bool) -> Vec<Class> {
    let p = &g.params;
    let foot = Class { number: FOOT, factor: 1000, limit: p.footlimit, skip: p.skipfootins };
    if plain {
        let top = Class { number: TOP_INSERTS, factor: 1000, limit: MAX_DIMEN, skip: Glue::fixed(0) };
        return vec![top, foot];
    }
    let mut all: Vec<Class> = g
        .classes
        .iter()
        .map(|c| Class { number: c.number, factor: c.factor, limit: c.limit, skip: c.skip })
        .collect();
    all.push(foot);
    all
}

/// Glue that fills, as `\vfill`.
pub const FFILL: Glue = Glue::new(0, 65536, Order::Fill, 0);

/// The nodes of a galley; all wait in the builder. `plain`: those of plain TeX's page makeup.
pub fn expand(g: &Galley, plain: bool) -> (Store, Builder) {
    let classes = classes(g, plain);
    let mut store = Store::with_capacity(g.items.len() + g.items.len() / 4 + 64);
    let mut builder = Builder::new(&classes);
    let p = &g.params;
    let mut list = List::EMPTY;
    let mut leaves = List::EMPTY;
    let mut foot: Option<(u32, u8)> = None;
    let mut two = false;
    for item in &g.items {
        let line = item.line;
        let l = if foot.is_some() { &mut leaves } else { &mut list };
        match item.kind {
            ItemKind::Box { name, height, depth } => store.push(l, line, Kind::Box { name, height, depth }),
            ItemKind::Rule { name, height, depth } => store.push(l, line, Kind::Rule { name, height, depth }),
            ItemKind::Skip(g) => store.push(l, line, Kind::skip(g)),
            ItemKind::Kern(w) => store.push(l, line, Kind::Kern(w)),
            ItemKind::Penalty(v) => store.push(l, line, Kind::Pen(v)),
            ItemKind::Mark(n) => store.push(l, line, Kind::Mark(n)),
            ItemKind::Note(n) => store.push(l, line, Kind::Note(n)),
            ItemKind::Foot(class) => {
                let index = classes.iter().position(|c| c.number == class).unwrap_or(0);
                foot = Some((line, index as u8));
            }
            ItemKind::EndFoot => {
                let (line, class) = foot.take().unwrap_or((line, 0));
                let inner = std::mem::replace(&mut leaves, List::EMPTY);
                let k = store.new_insertion(Insertion {
                    class,
                    list: inner,
                    height: inner.size,
                    split_depth: p.footsplitdepth,
                    split_top: p.footsplittop,
                    floating: p.footfloating,
                });
                store.push(&mut list, line, Kind::Ins(k));
            }
            ItemKind::Float { index, vert } => {
                let f = g.floats[index as usize];
                if plain {
                    store.push(l, line, Kind::Whatsit);
                }
                act(&mut store, l, line, Act::Take(f));
                if !plain && !(p.release2014 && f.wide && two) {
                    hold(&mut store, l, line, vert);
                }
            }
            ItemKind::Margin { index, vert } => {
                act(&mut store, l, line, Act::TakeMargin(g.margins[index as usize]));
                hold(&mut store, l, line, vert);
            }
            ItemKind::NewPage => {
                store.push(l, line, Kind::skip(VFIL));
                store.push(l, line, Kind::Pen(-10_000));
            }
            ItemKind::ClearPage => clear(&mut store, l, line, plain),
            ItemKind::PageBreak(n) => store.push(l, line, Kind::Pen(-BREAKS[n as usize])),
            ItemKind::NoPageBreak(n) => store.push(l, line, Kind::Pen(BREAKS[n as usize])),
            ItemKind::OneColumn | ItemKind::TwoColumn => {
                two = matches!(item.kind, ItemKind::TwoColumn);
                clear(&mut store, l, line, plain);
                act(&mut store, l, line, Act::Columns { two });
            }
            ItemKind::Suppress(area) => act(&mut store, l, line, Act::Suppress(area)),
        }
    }
    clear(&mut store, &mut list, g.end_line, plain);
    builder.put_back(&mut store, list);
    (store, builder)
}

const BREAKS: [i32; 5] = [0, 51, 151, 301, 10_000];

fn act(store: &mut Store, l: &mut List, line: u32, a: Act) {
    store.acts.push(a);
    let k = (store.acts.len() - 1) as u32;
    store.push(l, line, Kind::Act(k));
}

fn hold(store: &mut Store, l: &mut List, line: u32, vert: bool) {
    store.push(l, line, Kind::Pen(-10_004));
    store.push(l, line, Kind::Blank { depth: 0 });
    store.push(l, line, Kind::Pen(if vert { -10_003 } else { -10_002 }));
}

fn clear(store: &mut Store, l: &mut List, line: u32, plain: bool) {
    if plain {
        store.push(l, line, Kind::skip(FFILL));
        store.push(l, line, Kind::Pen(-20_000));
        return;
    }
    store.push(l, line, Kind::skip(VFIL));
    store.push(l, line, Kind::Pen(-10_000));
    store.push(l, line, Kind::Whatsit);
    store.push(l, line, Kind::Blank { depth: 0 });
    store.push(l, line, Kind::Pen(-10_001));
}

// ---- generator ----

/// A generated galley, with the text that its names stand in.
pub fn generate(n: u32) -> (Galley, Vec<u8>) {
    let params = Params { ragged: false, pool: 4096, maxdeadcycles: 1_000_000, ..Params::default() };
    let mut text: Vec<u8> = Vec::with_capacity(n as usize * 6);
    let mut items = Vec::with_capacity(n as usize + n as usize / 4);
    let mut floats = Vec::new();
    let mut name = |letter: u8, k: u32| {
        let start = text.len();
        text.push(letter);
        put_number(&mut text, i64::from(k));
        Name::span(start, text.len() - start)
    };
    let (height, depth) = (7 * 65_536, 2 * 65_536);
    let mut s = u64::from(n);
    for k in 1..=n {
        s = (s * 1_103_515_245 + 12_345) % 2_147_483_648;
        let r = s / 65_536 % 32;
        let mut push = |kind: ItemKind| items.push(Item { line: k, kind });
        if k % 2 == 1 {
            push(ItemKind::Box { name: name(b'b', k), height, depth });
            continue;
        }
        match r {
            0..=27 => push(ItemKind::Skip(Glue::new(3 * 65_536, 65_536, Order::Normal, 0))),
            28 | 29 => {
                push(ItemKind::Foot(FOOT));
                push(ItemKind::Box { name: name(b'f', k), height, depth });
                push(ItemKind::EndFoot);
            }
            _ => {
                let vert = r == 31;
                let (class, places, points) = if vert {
                    (2, Places::H | Places::T | Places::P, 20 + s % 30)
                } else {
                    (1, Places::T | Places::B | Places::P, 50 + s % 50)
                };
                floats.push(Float {
                    line: k,
                    name: name(b'x', k),
                    height: points as i32 * 65_536,
                    class,
                    wide: false,
                    places: Places(places),
                    bang: false,
                });
                push(ItemKind::Float { index: (floats.len() - 1) as u32, vert });
            }
        }
    }
    let galley =
        Galley { params, version: 1, classes: Vec::new(), items, floats, margins: Vec::new(), end_line: n + 1 };
    (galley, text)
}
