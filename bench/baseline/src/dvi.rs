//! DVI pages and a lister.

use std::io::Write;

use crate::builder::Try;
use crate::column::{items, Column};
use crate::node::{Kind, Store, FOOT_RULE_HEIGHT};
use crate::output::{Sheet, Stop, View, Warn};
use crate::report::{side_name, where_name, Line, Out};
use crate::text::put_number;

const NUM: i32 = 25_400_000;
const DEN: i32 = 473_628_672;
const MAG: i32 = 1000;
const WIDTH: i32 = 65_536;
const SECOND_COLUMN: i32 = 19_660_800;
const PAGE_WIDTH: i32 = 19_726_336;
const FARTHEST: u64 = 2_147_483_000;
const COMMENT: &[u8; 12] = b"galley_pages";

/// The writer of a file; `place` is where the next byte will stand.
pub struct Dvi<'t, W: Write> {
    pub out: Out<W>,
    text: &'t [u8],
    place: u64,
    last: i64,
    pages: u64,
    any: bool,
    page: Vec<u8>,
    label: Vec<u8>,
}

fn four(out: &mut Vec<u8>, v: i32) {
    out.extend_from_slice(&v.to_be_bytes());
}

struct TooFar;

impl<'t, W: Write> Dvi<'t, W> {
    pub fn new(w: W, text: &'t [u8]) -> Self {
        Dvi {
            out: Out::new(w),
            text,
            place: 0,
            last: -1,
            pages: 0,
            any: false,
            page: Vec::new(),
            label: Vec::new(),
        }
    }

    pub fn preamble(&mut self) {
        let b = &mut self.out.buf;
        b.extend_from_slice(&[247, 2]);
        four(b, NUM);
        four(b, DEN);
        four(b, MAG);
        b.push(COMMENT.len() as u8);
        b.extend_from_slice(COMMENT);
        self.place = b.len() as u64;
    }

    pub fn postamble(&mut self, textheight: i64) -> Result<(), Stop> {
        let b = &mut self.out.buf;
        let from = b.len();
        b.push(248);
        four(b, self.last as i32);
        four(b, NUM);
        four(b, DEN);
        four(b, MAG);
        four(b, textheight as i32);
        four(b, PAGE_WIDTH);
        b.extend_from_slice(&u16::from(self.any).to_be_bytes());
        b.extend_from_slice(&((self.pages % 65_536) as u16).to_be_bytes());
        b.push(249);
        four(b, self.place as i32);
        b.push(2);
        b.extend_from_slice(&[223; 4]);
        while (self.place + (b.len() - from) as u64) % 4 != 0 {
            b.push(223);
        }
        self.out.flush()
    }

    /// One placement: h, v, the label in `self.label`, and a rule of height a.
    fn place(&mut self, h: i32, v: i128, a: Option<i32>) -> Result<(), TooFar> {
        let v = i32::try_from(v).map_err(|_| TooFar)?;
        let b = &mut self.page;
        b.push(141);
        b.push(160);
        four(b, v);
        b.push(146);
        four(b, h);
        b.push(239);
        b.push(self.label.len() as u8);
        b.extend_from_slice(&self.label);
        if let Some(a) = a {
            b.push(137);
            four(b, a);
            four(b, WIDTH);
        }
        b.push(142);
        Ok(())
    }

    fn column(&mut self, store: &Store, h: i32, at: i64, col: &Column) -> Result<(), TooFar> {
        items(store, col, |node, top| {
            let t = i128::from(at) + top;
            self.label.clear();
            let mut l = Line { out: &mut self.label, text: self.text };
            let (v, a) = match node.kind {
                Kind::Box { name, height, depth } => {
                    l.word(b"box ").name(name);
                    (t + i128::from(height) + i128::from(depth), Some(height + depth))
                }
                Kind::Rule { name, height, depth } => {
                    l.word(b"rule ").name(name);
                    (t + i128::from(height) + i128::from(depth), Some(height + depth))
                }
                Kind::FootRule => {
                    l.word(b"footrule");
                    (t + i128::from(FOOT_RULE_HEIGHT), Some(FOOT_RULE_HEIGHT))
                }
                Kind::Float { name, height, class, place } => {
                    l.word(b"float ").name(name).int(i64::from(class)).word(b" ").word(where_name(place));
                    (t + i128::from(height), Some(height))
                }
                Kind::Margin(k) => {
                    let m = &store.notes[k as usize];
                    l.word(b"margin ").name(m.name).word(b" ").word(side_name(m.side));
                    (t + i128::from(m.shift) + i128::from(m.depth), Some(m.height + m.depth))
                }
                Kind::Mark(name) => {
                    l.word(b"mark ").name(name);
                    (t, None)
                }
                Kind::Note(name) => {
                    l.word(b"note ").name(name);
                    (t, None)
                }
                _ => return Ok(()),
            };
            self.place(h, v, a)
        })
    }

    fn sheet(&mut self, store: &Store, page: u64, sheet: &Sheet) -> Result<(), TooFar> {
        self.page.clear();
        self.page.push(139);
        four(&mut self.page, page as i32);
        self.page.extend_from_slice(&[0; 36]);
        four(&mut self.page, self.last as i32);
        match *sheet {
            Sheet::One(col) | Sheet::Wide(col) => self.column(store, 0, 0, col)?,
            Sheet::Two { tops, at, left, right } => {
                for (f, top) in tops {
                    self.label.clear();
                    let mut l = Line { out: &mut self.label, text: self.text };
                    l.word(b"float ").name(f.name).int(i64::from(f.class)).word(b" wide");
                    self.place(0, i128::from(*top) + i128::from(f.height), Some(f.height))?;
                }
                self.column(store, 0, at, left)?;
                self.column(store, SECOND_COLUMN, at, right)?;
            }
        }
        self.page.push(140);
        if self.place + self.page.len() as u64 > FARTHEST {
            return Err(TooFar);
        }
        Ok(())
    }
}

/// Bytes of a page without placements.
const BARE_PAGE: usize = 46;

impl<W: Write> View for Dvi<'_, W> {
    const TRACE: bool = false;
    fn attempt(&mut self, _: &Try) -> Result<(), Stop> {
        Ok(())
    }
    fn warn(&mut self, _: &Warn) -> Result<(), Stop> {
        Ok(())
    }
    fn ship(&mut self, store: &Store, page: u64, sheet: &Sheet) -> Result<(), Stop> {
        self.sheet(store, page, sheet).map_err(|TooFar| Stop::TooFar(page))?;
        let Dvi { out, page: bytes, .. } = self;
        out.room()?.extend_from_slice(bytes);
        self.last = self.place as i64;
        self.place += self.page.len() as u64;
        self.pages += 1;
        self.any |= self.page.len() > BARE_PAGE;
        Ok(())
    }
}

#[derive(Clone, Copy, PartialEq, Eq, Debug)]
pub enum DviCause {
    BadPre,
    Font,
    BadOp,
    Truncated,
    Unbalanced,
    BadPost,
}

pub struct DviFault {
    pub byte: usize,
    pub cause: DviCause,
}

#[derive(Clone, Copy, Default)]
struct Registers {
    h: i64,
    v: i64,
    w: i64,
    x: i64,
    y: i64,
    z: i64,
}

fn is_font(op: u8) -> bool {
    matches!(op, 0..=131 | 133..=136 | 171..=238 | 243..=246)
}

/// Bytes of a command with those of a special's length, without its text.
fn length(op: u8) -> usize {
    1 + match op {
        132 | 137 => 8,
        139 => 44,
        143..=146 => usize::from(op - 142),
        148..=151 => usize::from(op - 147),
        153..=156 => usize::from(op - 152),
        157..=160 => usize::from(op - 156),
        162..=165 => usize::from(op - 161),
        167..=170 => usize::from(op - 166),
        239..=242 => usize::from(op - 238),
        248 => 28,
        249 => 5,
        _ => 0,
    }
}

fn signed(b: &[u8]) -> i64 {
    let first = b.first().map_or(0, |&c| i64::from(c as i8));
    b.iter().skip(1).fold(first, |n, &c| n << 8 | i64::from(c))
}

fn unsigned(b: &[u8]) -> usize {
    b.iter().fold(0, |n, &c| n << 8 | usize::from(c))
}

/// The lines that the lister says of a file.
pub fn list(b: &[u8]) -> Result<Vec<u8>, DviFault> {
    let fault = |byte: usize, cause: DviCause| Err(DviFault { byte, cause });
    match (b.first(), b.get(1)) {
        (None, _) => return fault(0, DviCause::Truncated),
        (Some(&c), _) if c != 247 => return fault(0, DviCause::BadPre),
        (_, Some(&c)) if c != 2 => return fault(0, DviCause::BadPre),
        _ => {}
    }
    let mut at = match b.get(14) {
        Some(&k) if 15 + usize::from(k) <= b.len() => 15 + usize::from(k),
        _ => return fault(0, DviCause::Truncated),
    };
    let mut out = b"dvi 1\n".to_vec();
    let mut pages = 0i64;
    let mut r = Registers::default();
    let mut stack: Vec<Registers> = Vec::new();
    let mut in_page = false;
    // The place of a 248 that was just read.
    let mut post: Option<usize> = None;
    loop {
        let Some(&op) = b.get(at) else { return fault(at, DviCause::Truncated) };
        if is_font(op) {
            return fault(at, DviCause::Font);
        }
        let bad = match op {
            247 | 250..=255 => true,
            249 => post.is_none(),
            _ if in_page => matches!(op, 139 | 248),
            _ => !matches!(op, 138 | 139 | 248),
        };
        if bad {
            return fault(at, DviCause::BadOp);
        }
        let mut end = at + length(op);
        if end > b.len() {
            return fault(at, DviCause::Truncated);
        }
        let head = end;
        if (239..=242).contains(&op) {
            end += unsigned(&b[at + 1..end]);
            if end > b.len() {
                return fault(at, DviCause::Truncated);
            }
        }
        if (op == 142 && stack.is_empty()) || (op == 140 && !stack.is_empty()) {
            return fault(at, DviCause::Unbalanced);
        }
        if let Some(place) = post {
            let rest = &b[end..];
            let good = op == 249
                && signed(&b[at + 1..at + 5]) == place as i64
                && b[at + 5] == 2
                && rest.len() >= 4
                && rest.iter().all(|&c| c == 223)
                && b.len() % 4 == 0;
            if !good {
                return fault(at, DviCause::BadPost);
            }
            out.extend_from_slice(b"end pages ");
            put_number(&mut out, pages);
            out.push(b'\n');
            return Ok(out);
        }
        let arg = &b[at + 1..end];
        let mut l = Line { out: &mut out, text: b };
        match op {
            132 | 137 => {
                let (a, w) = (signed(&arg[..4]), signed(&arg[4..]));
                l.word(b"rule").int(r.h).int(r.v).int(a).int(w).end();
                if op == 132 {
                    r.h += w;
                }
            }
            139 => {
                l.word(b"page").int(signed(&arg[..4])).end();
                pages += 1;
                in_page = true;
                r = Registers::default();
                stack.clear();
            }
            140 => in_page = false,
            141 => stack.push(r),
            142 => r = stack.pop().unwrap_or_default(),
            143..=146 => r.h += signed(arg),
            147 => r.h += r.w,
            148..=151 => {
                r.w = signed(arg);
                r.h += r.w;
            }
            152 => r.h += r.x,
            153..=156 => {
                r.x = signed(arg);
                r.h += r.x;
            }
            157..=160 => r.v += signed(arg),
            161 => r.v += r.y,
            162..=165 => {
                r.y = signed(arg);
                r.v += r.y;
            }
            166 => r.v += r.z,
            167..=170 => {
                r.z = signed(arg);
                r.v += r.z;
            }
            239..=242 => {
                l.word(b"special").int(r.h).int(r.v).word(b" ");
                for &c in &b[head..end] {
                    if (32..=126).contains(&c) && c != b'\\' {
                        l.out.push(c);
                    } else {
                        const HEX: &[u8; 16] = b"0123456789abcdef";
                        l.out.push(b'\\');
                        l.out.push(HEX[usize::from(c >> 4)]);
                        l.out.push(HEX[usize::from(c & 15)]);
                    }
                }
                l.end();
            }
            248 => post = Some(at),
            _ => {}
        }
        at = end;
    }
}
