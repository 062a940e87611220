//! Parameters.

use crate::scaled::{Glue, Order, MAX_DIMEN};

const PT: i64 = 65_536;
const fn pt(n: i32) -> i32 {
    n * 65_536
}

#[derive(Clone, Debug)]
pub struct Params {
    pub textheight: i64,
    pub topskip: i64,
    pub maxdepth: i64,
    pub baselineskip: i64,
    pub ragged: bool,
    pub topnumber: i64,
    pub bottomnumber: i64,
    pub totalnumber: i64,
    pub dbltopnumber: i64,
    pub topfraction: i64,
    pub bottomfraction: i64,
    pub textfraction: i64,
    pub floatpagefraction: i64,
    pub dbltopfraction: i64,
    pub dblfloatpagefraction: i64,
    pub floatsep: Glue,
    pub textfloatsep: Glue,
    pub intextsep: Glue,
    pub dblfloatsep: Glue,
    pub dbltextfloatsep: Glue,
    pub fptop: Glue,
    pub fpsep: Glue,
    pub fpbot: Glue,
    pub dblfptop: Glue,
    pub dblfpsep: Glue,
    pub dblfpbot: Glue,
    pub skipfootins: Glue,
    pub footlimit: i64,
    pub footsplittop: i64,
    pub footsplitdepth: i64,
    pub footfloating: i64,
    pub splittopskip: i64,
    pub splitmaxdepth: i64,
    pub floatingpenalty: i64,
    pub interlinepenalty: i64,
    pub parskip: Glue,
    pub marginparpush: i64,
    pub mparswitch: bool,
    pub reversemargin: bool,
    pub pool: i64,
    pub maxdeadcycles: i64,
    pub maxpages: i64,
    pub maxnodes: i64,
    pub release2014: bool,
}

const FLEX12: Glue = Glue::new(pt(12), pt(2), Order::Normal, pt(2));
const FLEX20: Glue = Glue::new(pt(20), pt(2), Order::Normal, pt(4));
const FPEDGE: Glue = Glue::new(0, pt(1), Order::Fil, 0);
const FPSEP: Glue = Glue::new(pt(8), pt(2), Order::Fil, 0);

impl Default for Params {
    fn default() -> Params {
        Params {
            textheight: 550 * PT,
            topskip: 10 * PT,
            maxdepth: 5 * PT,
            baselineskip: 12 * PT,
            ragged: true,
            topnumber: 2,
            bottomnumber: 1,
            totalnumber: 3,
            dbltopnumber: 2,
            topfraction: 45_875,
            bottomfraction: 19_661,
            textfraction: 13_107,
            floatpagefraction: 32_768,
            dbltopfraction: 45_875,
            dblfloatpagefraction: 32_768,
            floatsep: FLEX12,
            textfloatsep: FLEX20,
            intextsep: FLEX12,
            dblfloatsep: FLEX12,
            dbltextfloatsep: FLEX20,
            fptop: FPEDGE,
            fpsep: FPSEP,
            fpbot: FPEDGE,
            dblfptop: FPEDGE,
            dblfpsep: FPSEP,
            dblfpbot: FPEDGE,
            skipfootins: Glue::new(pt(9), pt(4), Order::Normal, pt(2)),
            footlimit: 37_890_293,
            footsplittop: 435_814,
            footsplitdepth: 186_778,
            footfloating: 20_000,
            splittopskip: 10 * PT,
            splitmaxdepth: MAX_DIMEN,
            floatingpenalty: 0,
            interlinepenalty: 0,
            parskip: Glue::new(0, pt(1), Order::Normal, 0),
            marginparpush: 5 * PT,
            mparswitch: false,
            reversemargin: false,
            pool: 18,
            maxdeadcycles: 100,
            maxpages: 1_000_000,
            maxnodes: 4_194_304,
            release2014: false,
        }
    }
}

/// Where a parameter's value stands, and how its fields are read.
pub enum Slot<'a> {
    Dim(&'a mut i64, i64),
    Int(&'a mut i64, i64, i64),
    Fraction(&'a mut i64),
    Glue(&'a mut Glue),
    /// False for the first word, true for the second.
    Word(&'a mut bool, [&'static [u8]; 2]),
}

/// In the order in which they are printed.
pub const NAMES: [&str; 43] = [
    "textheight", "topskip", "maxdepth", "baselineskip", "bottom", "topnumber", "bottomnumber",
    "totalnumber", "dbltopnumber", "topfraction", "bottomfraction", "textfraction",
    "floatpagefraction", "dbltopfraction", "dblfloatpagefraction", "floatsep", "textfloatsep",
    "intextsep", "dblfloatsep", "dbltextfloatsep", "fptop", "fpsep", "fpbot", "dblfptop",
    "dblfpsep", "dblfpbot", "skipfootins", "footlimit", "footsplittop", "footsplitdepth",
    "footfloating", "splittopskip", "splitmaxdepth", "floatingpenalty", "interlinepenalty",
    "parskip", "marginparpush", "mparswitch", "reversemargin", "pool", "maxdeadcycles", "maxpages",
    "maxnodes",
];

const OFF_ON: [&[u8]; 2] = [b"off", b"on"];

impl Params {
    pub fn slot(&mut self, name: &[u8], version: u8) -> Option<Slot<'_>> {
        use Slot::*;
        Some(match name {
            b"textheight" => Dim(&mut self.textheight, 1),
            b"topskip" => Dim(&mut self.topskip, 1),
            b"maxdepth" => Dim(&mut self.maxdepth, 0),
            b"baselineskip" => Dim(&mut self.baselineskip, 0),
            b"bottom" => Word(&mut self.ragged, [b"flush", b"ragged"]),
            b"topnumber" => Int(&mut self.topnumber, 0, 1000),
            b"bottomnumber" => Int(&mut self.bottomnumber, 0, 1000),
            b"totalnumber" => Int(&mut self.totalnumber, 0, 1000),
            b"dbltopnumber" => Int(&mut self.dbltopnumber, 0, 1000),
            b"topfraction" => Fraction(&mut self.topfraction),
            b"bottomfraction" => Fraction(&mut self.bottomfraction),
            b"textfraction" => Fraction(&mut self.textfraction),
            b"floatpagefraction" => Fraction(&mut self.floatpagefraction),
            b"dbltopfraction" => Fraction(&mut self.dbltopfraction),
            b"dblfloatpagefraction" => Fraction(&mut self.dblfloatpagefraction),
            b"floatsep" => Glue(&mut self.floatsep),
            b"textfloatsep" => Glue(&mut self.textfloatsep),
            b"intextsep" => Glue(&mut self.intextsep),
            b"dblfloatsep" => Glue(&mut self.dblfloatsep),
            b"dbltextfloatsep" => Glue(&mut self.dbltextfloatsep),
            b"fptop" => Glue(&mut self.fptop),
            b"fpsep" => Glue(&mut self.fpsep),
            b"fpbot" => Glue(&mut self.fpbot),
            b"dblfptop" => Glue(&mut self.dblfptop),
            b"dblfpsep" => Glue(&mut self.dblfpsep),
            b"dblfpbot" => Glue(&mut self.dblfpbot),
            b"skipfootins" => Glue(&mut self.skipfootins),
            b"footlimit" => Dim(&mut self.footlimit, 0),
            b"footsplittop" => Dim(&mut self.footsplittop, 0),
            b"footsplitdepth" => Dim(&mut self.footsplitdepth, 0),
            b"footfloating" => Int(&mut self.footfloating, -100_000, 100_000),
            b"splittopskip" => Dim(&mut self.splittopskip, 0),
            b"splitmaxdepth" => Dim(&mut self.splitmaxdepth, 0),
            b"floatingpenalty" => Int(&mut self.floatingpenalty, -100_000, 100_000),
            b"interlinepenalty" => Int(&mut self.interlinepenalty, -9_999, 10_000),
            b"parskip" => Glue(&mut self.parskip),
            b"marginparpush" => Dim(&mut self.marginparpush, 0),
            b"mparswitch" => Word(&mut self.mparswitch, OFF_ON),
            b"reversemargin" => Word(&mut self.reversemargin, OFF_ON),
            b"pool" => Int(&mut self.pool, 2, 4096),
            b"maxdeadcycles" => Int(&mut self.maxdeadcycles, 1, 1_000_000),
            b"maxpages" => Int(&mut self.maxpages, 1, 1_000_000),
            b"maxnodes" => Int(&mut self.maxnodes, 100, 4_194_304),
            b"release" if version == 2 => Word(&mut self.release2014, [b"2015", b"2014"]),
            _ => return None,
        })
    }
}
