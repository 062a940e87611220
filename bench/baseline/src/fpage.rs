//! Float columns: the chosen company.

use crate::float::FloatList;
use crate::node::{Float, Places};

pub struct Wish {
    pub height: i64,
    pub minimum: i64,
    pub sep: i64,
    pub clearing: bool,
    pub wide: bool,
}

/// Fills `company` with the places of the company, rising; false where there
/// is none.
pub fn choose(list: &FloatList, wish: &Wish, company: &mut Vec<usize>) -> bool {
    let suits = |f: &Float| {
        (wish.clearing || f.places.has(Places::P)) && f.wide == wish.wide && i64::from(f.height) <= wish.height
    };
    // Classes of the floats before the head.
    let mut seen = 0u32;
    for (j, head) in list.iter().enumerate() {
        if list.mask() & !seen == 0 {
            break;
        }
        let bit = 1u32 << head.class;
        if seen & bit != 0 {
            continue;
        }
        if suits(head) {
            company.clear();
            company.push(j);
            let mut sum = i64::from(head.height);
            let mut blocked = seen;
            for (k, f) in list.iter_from(j + 1).enumerate() {
                let bit = 1u32 << f.class;
                let more = sum + wish.sep + i64::from(f.height);
                if blocked & bit == 0 && suits(f) && more <= wish.height {
                    company.push(j + 1 + k);
                    sum = more;
                } else {
                    blocked |= bit;
                    if list.mask() & !blocked == 0 {
                        break;
                    }
                }
            }
            if wish.clearing || sum > wish.minimum {
                return true;
            }
        }
        seen |= bit;
    }
    company.clear();
    false
}
