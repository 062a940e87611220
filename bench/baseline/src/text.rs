//! Lines, fields and numbers, shared by both grammars.

use crate::scaled::{round_decimals, Order, MAX_DIMEN};

#[derive(Clone, Copy, PartialEq, Eq, Debug)]
pub enum Cause {
    InputSize,
    LineLength,
    NotAscii,
    NoHeader,
    AfterEnd,
    UnknownWord,
    SetAfterItem,
    NestedFoot,
    NotInFoot,
    StrayEndfoot,
    UnclosedFoot,
    NestedPar,
    NotInPar,
    StrayEndpar,
    UnclosedPar,
    Items,
    MissingField,
    ExtraField,
    UnknownParameter,
    WrongForm,
    BadNumber,
    BadUnit,
    BadName,
    BadPlace,
    Dimension,
    Penalty,
    Class,
    Parameter,
    NoEnd,
}

impl Cause {
    pub fn is_range(self) -> bool {
        use Cause::*;
        matches!(self, InputSize | LineLength | Items | Dimension | Penalty | Class | Parameter)
    }
}

#[derive(Clone, Copy, PartialEq, Eq, Debug)]
pub struct Fault {
    pub line: u32,
    pub field: u32,
    pub cause: Cause,
}

pub const MAX_INPUT: usize = 8_388_608;
const MAX_LINE: usize = 255;

#[inline(always)]
fn blank(b: u8) -> bool {
    b == b' ' || b == b'\t'
}

/// What a byte may be, as bits: a field byte (not blank), a printing one, a
/// byte of a name.
const FIELD: u8 = 1;
const ASCII: u8 = 2;
const NAME: u8 = 4;

const BYTES: [u8; 256] = {
    let mut t = [0u8; 256];
    let mut k = 0;
    while k < 256 {
        let b = k as u8;
        if b != b' ' && b != b'\t' {
            t[k] |= FIELD;
        }
        if b >= 33 && b <= 126 {
            t[k] |= ASCII;
        }
        if b.is_ascii_alphanumeric() || b == b'.' || b == b'_' || b == b'-' {
            t[k] |= NAME;
        }
        k += 1;
    }
    t
};

/// The lines of the input, with their places in it.
pub struct Lines<'a> {
    text: &'a [u8],
    at: usize,
    pub number: u32,
}

impl<'a> Lines<'a> {
    pub fn new(text: &'a [u8]) -> Lines<'a> {
        Lines { text, at: 0, number: 0 }
    }

    /// The next content line; None at the end of input, when `number` is the
    /// number of lines.
    #[inline]
    pub fn next_content(&mut self) -> Result<Option<Fields<'a>>, Fault> {
        while self.at < self.text.len() {
            let start = self.at;
            let rest = &self.text[start..];
            let length = find_lf(rest);
            self.at = start + length + 1;
            self.number += 1;
            let mut line = &rest[..length];
            if let [front @ .., b'\r'] = line {
                line = front;
            }
            if line.len() > MAX_LINE {
                return Err(Fault { line: self.number, field: 0, cause: Cause::LineLength });
            }
            match line.iter().position(|&b| !blank(b)) {
                None => continue,
                Some(k) if line[k] == b'#' => continue,
                Some(k) => {
                    return Ok(Some(Fields { line, start, at: k, field: 0, number: self.number }));
                }
            }
        }
        Ok(None)
    }

    pub fn end_fault(&self, cause: Cause) -> Fault {
        Fault { line: self.number + 1, field: 0, cause }
    }
}

/// The place of the first line feed, or the length; eight bytes at a time.
#[inline]
fn find_lf(s: &[u8]) -> usize {
    const LOW: u64 = 0x0101_0101_0101_0101;
    const HIGH: u64 = 0x8080_8080_8080_8080;
    let mut chunks = s.chunks_exact(8);
    let mut k = 0;
    for c in &mut chunks {
        let mut word = [0u8; 8];
        word.copy_from_slice(c);
        let x = u64::from_le_bytes(word) ^ (LOW * b'\n' as u64);
        let hit = x.wrapping_sub(LOW) & !x & HIGH;
        if hit != 0 {
            return k + (hit.trailing_zeros() / 8) as usize;
        }
        k += 8;
    }
    k + chunks.remainder().iter().position(|&b| b == b'\n').unwrap_or(chunks.remainder().len())
}

/// The fields of one content line, read from the left. Each is tested for
/// NotAscii as it is read.
pub struct Fields<'a> {
    line: &'a [u8],
    start: usize,
    at: usize,
    pub field: u32,
    pub number: u32,
}

#[derive(Clone, Copy)]
pub struct Field<'a> {
    pub bytes: &'a [u8],
    /// Place in the input.
    pub start: usize,
    /// All bytes are those of names.
    name_bytes: bool,
}

impl Field<'_> {
    /// A name has at most `longest` bytes and begins with a letter or digit.
    #[inline]
    pub fn is_name(&self, longest: usize) -> bool {
        self.name_bytes && self.bytes.len() <= longest && self.bytes[0].is_ascii_alphanumeric()
    }
}

impl<'a> Fields<'a> {
    pub fn fault(&self, cause: Cause) -> Fault {
        Fault { line: self.number, field: self.field, cause }
    }

    #[inline]
    pub fn next(&mut self) -> Result<Option<Field<'a>>, Fault> {
        self.field += 1;
        let mut at = self.at;
        while at < self.line.len() && blank(self.line[at]) {
            at += 1;
        }
        let from = at;
        let mut all = ASCII | NAME;
        for &b in &self.line[from..] {
            let c = BYTES[usize::from(b)];
            if c & FIELD == 0 {
                break;
            }
            all &= c;
            at += 1;
        }
        self.at = at;
        if all & ASCII == 0 {
            return Err(self.fault(Cause::NotAscii));
        }
        if from == at {
            return Ok(None);
        }
        Ok(Some(Field { bytes: &self.line[from..at], start: self.start + from, name_bytes: all & NAME != 0 }))
    }

    #[inline]
    pub fn need(&mut self) -> Result<Field<'a>, Fault> {
        match self.next()? {
            Some(f) => Ok(f),
            None => Err(self.fault(Cause::MissingField)),
        }
    }

    #[inline]
    pub fn end(&mut self) -> Result<(), Fault> {
        match self.next()? {
            None => Ok(()),
            Some(_) => Err(self.fault(Cause::ExtraField)),
        }
    }

    /// One of two words.
    pub fn choice(&mut self, first: &[u8], second: &[u8]) -> Result<bool, Fault> {
        let f = self.need()?;
        if f.bytes == first {
            Ok(true)
        } else if f.bytes == second {
            Ok(false)
        } else {
            Err(self.fault(Cause::UnknownWord))
        }
    }

    pub fn integer(&mut self) -> Result<i64, Fault> {
        let f = self.need()?;
        integer(f.bytes).map_err(|c| self.fault(c))
    }

    pub fn dimension(&mut self) -> Result<i64, Fault> {
        let f = self.need()?;
        dimension(f.bytes).map_err(|c| self.fault(c))
    }

    /// A dimension from 0 to max_dimen.
    #[inline]
    pub fn size(&mut self) -> Result<i32, Fault> {
        match self.dimension()? {
            v if v >= 0 => Ok(v as i32),
            _ => Err(self.fault(Cause::Dimension)),
        }
    }

    pub fn stretch(&mut self) -> Result<(i64, Order), Fault> {
        let f = self.need()?;
        stretch(f.bytes).map_err(|c| self.fault(c))
    }
}

/// Greater than every amount in range, for what is too long.
const HUGE: i64 = 4_611_686_018_427_387_904;

struct Number<'a> {
    negative: bool,
    signed: bool,
    /// At most HUGE.
    whole: i64,
    point: bool,
    decimals: &'a [u8],
    unit: &'a [u8],
}

#[inline]
fn number(b: &[u8]) -> Result<Number<'_>, Cause> {
    let mut k = 0;
    let signed = matches!(b.first(), Some(b'+' | b'-'));
    let negative = b.first() == Some(&b'-');
    if signed {
        k = 1;
    }
    let mut whole = 0i64;
    let first = k;
    while k < b.len() && b[k].is_ascii_digit() {
        whole = whole.saturating_mul(10).saturating_add(i64::from(b[k] - b'0'));
        k += 1;
    }
    let mut digits = k - first;
    let point = k < b.len() && b[k] == b'.';
    let mut decimals: &[u8] = &[];
    if point {
        k += 1;
        let first = k;
        while k < b.len() && b[k].is_ascii_digit() {
            k += 1;
        }
        decimals = &b[first..k];
        digits += decimals.len();
    }
    if digits == 0 {
        return Err(Cause::BadNumber);
    }
    Ok(Number { negative, signed, whole: whole.min(HUGE), point, decimals, unit: &b[k..] })
}

impl Number<'_> {
    fn sign(&self, v: i64) -> i64 {
        if self.negative {
            -v
        } else {
            v
        }
    }
    /// whole·65536 plus the fraction.
    fn points(&self) -> i64 {
        let v = self.whole.saturating_mul(65_536).saturating_add(round_decimals(self.decimals));
        self.sign(v.min(HUGE))
    }
}

pub fn integer(b: &[u8]) -> Result<i64, Cause> {
    let n = number(b)?;
    if n.point || !n.unit.is_empty() {
        return Err(Cause::BadNumber);
    }
    Ok(n.sign(n.whole))
}

fn in_dimen(v: i64) -> Result<i64, Cause> {
    if v.abs() > MAX_DIMEN {
        Err(Cause::Dimension)
    } else {
        Ok(v)
    }
}

fn dimension_of(n: &Number) -> Result<i64, Cause> {
    match n.unit {
        b"" | b"sp" if !n.point => in_dimen(n.sign(n.whole)),
        b"pt" => in_dimen(n.points()),
        _ => Err(Cause::BadUnit),
    }
}

pub fn dimension(b: &[u8]) -> Result<i64, Cause> {
    dimension_of(&number(b)?)
}

pub fn stretch(b: &[u8]) -> Result<(i64, Order), Cause> {
    let n = number(b)?;
    let (order, raw) = match n.unit {
        b"fil" => (Order::Fil, false),
        b"fill" => (Order::Fill, false),
        b"filll" => (Order::Filll, false),
        b"sfil" => (Order::Fil, true),
        b"sfill" => (Order::Fill, true),
        b"sfilll" => (Order::Filll, true),
        _ => return Ok((dimension_of(&n)?, Order::Normal)),
    };
    if raw && n.point {
        return Err(Cause::BadUnit);
    }
    Ok((in_dimen(if raw { n.sign(n.whole) } else { n.points() })?, order))
}

pub fn fraction(b: &[u8]) -> Result<i64, Cause> {
    let n = number(b)?;
    match n.unit {
        b"" => Ok(n.points()),
        b"/65536" if !n.point && !n.signed => Ok(n.whole),
        _ => Err(Cause::BadUnit),
    }
}

const PAIRS: [u8; 200] = {
    let mut t = [0u8; 200];
    let mut k = 0;
    while k < 100 {
        t[2 * k] = b'0' + (k / 10) as u8;
        t[2 * k + 1] = b'0' + (k % 10) as u8;
        k += 1;
    }
    t
};

/// Appends the decimal text.
#[inline]
pub fn put_number(out: &mut Vec<u8>, v: i64) {
    let mut buf = [0u8; 20];
    let mut at = 20;
    let mut n = v.unsigned_abs();
    while n >= 100 {
        let k = (n % 100) as usize * 2;
        n /= 100;
        at -= 2;
        buf[at..at + 2].copy_from_slice(&PAIRS[k..k + 2]);
    }
    if n >= 10 {
        let k = n as usize * 2;
        at -= 2;
        buf[at..at + 2].copy_from_slice(&PAIRS[k..k + 2]);
    } else {
        at -= 1;
        buf[at] = b'0' + n as u8;
    }
    if v < 0 {
        at -= 1;
        buf[at] = b'-';
    }
    out.extend_from_slice(&buf[at..]);
}

pub fn put_wide(out: &mut Vec<u8>, v: i128) {
    match i64::try_from(v) {
        Ok(v) => put_number(out, v),
        Err(_) => out.extend_from_slice(v.to_string().as_bytes()),
    }
}
