//! Trace lines.

use crate::builder::Try;
use crate::report::Line;
use crate::scaled::AWFUL_BAD;

fn bad(l: &mut Line, v: i64) {
    if v == AWFUL_BAD {
        l.word(b" *");
    } else {
        l.int(v);
    }
}

pub fn attempt(l: &mut Line, t: &Try) {
    let s = t.sums;
    l.word(b"try").int(i64::from(t.line)).word(b" t").int(t.total).word(b" s");
    for v in s.stretch {
        l.int(v);
    }
    l.word(b" z").int(s.shrink).word(b" g").int(t.goal).word(b" b");
    bad(l, t.badness);
    l.word(b" p").int(t.penalty).word(b" c");
    bad(l, t.cost);
    if t.champion {
        l.word(b" #");
    }
    l.end();
}
