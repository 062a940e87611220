//! Report lines.

use std::io::Write;

use crate::builder::Try;
use crate::column::{items, Column, Sign};
use crate::node::{order_name, Kind, List, Name, Node, Side, Store, Where, FOOT_RULE_HEIGHT};
use crate::output::{Sheet, Stop, Totals, View, Warn};
use crate::text::{put_number, put_wide};

/// Buffered output.
pub struct Out<W: Write> {
    pub buf: Vec<u8>,
    w: W,
}

const FULL: usize = 1 << 16;

impl<W: Write> Out<W> {
    pub fn new(w: W) -> Out<W> {
        Out { buf: Vec::with_capacity(FULL + 1024), w }
    }
    #[inline]
    pub fn room(&mut self) -> Result<&mut Vec<u8>, Stop> {
        if self.buf.len() >= FULL {
            self.flush()?;
        }
        Ok(&mut self.buf)
    }
    pub fn flush(&mut self) -> Result<(), Stop> {
        let done = self.w.write_all(&self.buf).and_then(|()| self.w.flush());
        self.buf.clear();
        done.map_err(|_| Stop::Write)
    }
}

/// A line: its word, then fields that each begin with a space.
pub struct Line<'a> {
    pub out: &'a mut Vec<u8>,
    pub text: &'a [u8],
}

impl Line<'_> {
    #[inline]
    pub fn word(&mut self, s: &[u8]) -> &mut Self {
        self.out.extend_from_slice(s);
        self
    }
    #[inline]
    pub fn name(&mut self, n: Name) -> &mut Self {
        self.out.extend_from_slice(n.of(self.text));
        self
    }
    #[inline]
    pub fn int(&mut self, v: i64) -> &mut Self {
        self.out.push(b' ');
        put_number(self.out, v);
        self
    }
    #[inline]
    pub fn wide(&mut self, v: i128) -> &mut Self {
        self.out.push(b' ');
        put_wide(self.out, v);
        self
    }
    #[inline]
    pub fn end(&mut self) {
        self.out.push(b'\n');
    }
}

pub fn where_name(place: Where) -> &'static [u8] {
    match place {
        Where::Here => b"here",
        Where::Top => b"top",
        Where::Bottom => b"bottom",
        Where::Page => b"page",
    }
}

pub fn side_name(side: Side) -> &'static [u8] {
    match side {
        Side::Left => b"left",
        Side::Right => b"right",
    }
}

pub struct Report<'t, W: Write, const TRACE: bool> {
    pub out: Out<W>,
    text: &'t [u8],
}

impl<'t, W: Write, const TRACE: bool> Report<'t, W, TRACE> {
    pub fn new(w: W, text: &'t [u8]) -> Self {
        Report { out: Out::new(w), text }
    }

    pub fn header(&mut self) {
        self.out.buf.extend_from_slice(b"report 1\n");
    }

    fn line(&mut self) -> Result<Line<'_>, Stop> {
        Ok(Line { out: self.out.room()?, text: self.text })
    }

    fn column(&mut self, store: &Store, k: i64, col: &Column) -> Result<(), Stop> {
        let set = &col.set;
        let mut l = self.line()?;
        l.word(b"column").int(k).word(if col.floats { b" floats height" } else { b" text height" });
        l.int(set.height).word(b" natural").int(set.natural).word(b" set");
        match set.sign {
            Sign::None => l.word(b" none"),
            Sign::Stretch => l.word(b" stretch ").word(order_name(set.order)).int(set.num).word(b"/"),
            Sign::Shrink => l.word(b" shrink").int(set.num).word(b"/"),
        };
        if set.sign != Sign::None {
            put_number(l.out, set.den);
        }
        if set.over != 0 {
            l.word(b" overfull").int(set.over);
        }
        l.end();
        items(store, col, |node, top| {
            let mut l = Line { out: self.out.room()?, text: self.text };
            item(store, node, top, &mut l);
            Ok(())
        })
    }

    /// What is left, and the last line.
    pub fn end(&mut self, store: &Store, left: &List, t: &Totals) -> Result<(), Stop> {
        for node in store.iter(left) {
            match node.kind {
                Kind::Note(n) => self.line()?.word(b"left note ").name(n).end(),
                Kind::Mark(n) => self.line()?.word(b"left mark ").name(n).end(),
                _ => {}
            }
        }
        totals(&mut self.line()?, b"end", t);
        self.out.flush()
    }
}

pub fn totals(l: &mut Line, first: &[u8], t: &Totals) {
    l.word(first);
    for (word, n) in
        [(" pages", t.pages), (" boxes", t.boxes), (" floats", t.floats), (" warnings", t.warnings)]
    {
        l.word(word.as_bytes()).int(n as i64);
    }
    l.end();
}

#[inline]
fn item(store: &Store, node: &Node, top: i128, l: &mut Line) {
    match node.kind {
        Kind::Box { name, height, depth } => {
            l.word(b"box ").name(name).wide(top).int(i64::from(height)).int(i64::from(depth)).end();
        }
        Kind::Rule { name, height, depth } => {
            l.word(b"rule ").name(name).wide(top).int(i64::from(height)).int(i64::from(depth)).end();
        }
        Kind::FootRule => l.word(b"footrule").wide(top).int(i64::from(FOOT_RULE_HEIGHT)).int(0).end(),
        Kind::Mark(name) => l.word(b"mark ").name(name).wide(top).end(),
        Kind::Note(name) => l.word(b"note ").name(name).wide(top).end(),
        Kind::Float { name, height, class, place } => {
            l.word(b"float ").name(name).int(i64::from(class)).word(b" ").word(where_name(place));
            l.wide(top).int(i64::from(height)).end();
        }
        Kind::Margin(k) => {
            let m = &store.notes[k as usize];
            l.word(b"margin ").name(m.name).word(b" ").word(side_name(m.side)).int(m.shift);
            l.wide(top).int(i64::from(m.height)).int(i64::from(m.depth)).end();
        }
        _ => {}
    }
}

impl<W: Write, const TRACE: bool> View for Report<'_, W, TRACE> {
    const TRACE: bool = TRACE;

    fn attempt(&mut self, t: &Try) -> Result<(), Stop> {
        crate::trace::attempt(&mut self.line()?, t);
        Ok(())
    }

    fn warn(&mut self, w: &Warn) -> Result<(), Stop> {
        let mut l = self.line()?;
        match *w {
            Warn::Large { name, by } => l.word(b"warn large ").name(name).int(by).end(),
            Warn::Ht { name } => l.word(b"warn ht ").name(name).end(),
            Warn::Moved { name, shift } => l.word(b"warn moved ").name(name).int(shift).end(),
            Warn::Floats { page } => l.word(b"warn floats").int(page as i64).end(),
        }
        Ok(())
    }

    fn ship(&mut self, store: &Store, page: u64, sheet: &Sheet) -> Result<(), Stop> {
        let mut l = self.line()?;
        l.word(b"page").int(page as i64);
        match *sheet {
            Sheet::One(col) => {
                l.word(b" one").end();
                self.column(store, 1, col)
            }
            Sheet::Wide(col) => {
                l.word(b" wide").end();
                self.column(store, 1, col)
            }
            Sheet::Two { tops, at, left, right } => {
                l.word(b" two at").int(at).end();
                for (f, top) in tops {
                    let mut l = self.line()?;
                    l.word(b"float ").name(f.name).int(i64::from(f.class)).word(b" wide");
                    l.int(*top).int(i64::from(f.height)).end();
                }
                self.column(store, 1, left)?;
                self.column(store, 2, right)
            }
        }
    }
}

/// View::Silent.
pub struct Silent;

impl View for Silent {
    const TRACE: bool = false;
    fn attempt(&mut self, _: &Try) -> Result<(), Stop> {
        Ok(())
    }
    fn warn(&mut self, _: &Warn) -> Result<(), Stop> {
        Ok(())
    }
    fn ship(&mut self, _: &Store, _: u64, _: &Sheet) -> Result<(), Stop> {
        Ok(())
    }
}
