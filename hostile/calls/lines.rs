//! Lines that runs read, and where they write.
ghost use Rattle.std.specs.Prelude.{None};

use crate::books::DAY;
use crate::trying::must;
use line_engine::{DeviceFailed, Sink};
use std::alloc::Global;
use std::str;

/// How many of the lines are calls of a book. What stands behind them changes no office.
pub(crate) const BOOK_LINES: u64 = DAY.len() as u64;

/// How many lines a run reads.
pub(crate) const RUN_LINES: u64 = BOOK_LINES + 4;

const PLAN: &str = r#"{"type":"plan","at":"2026-03-01T01:00:00Z"}"#;

const SHEET: &str = r#"{"type":"sheet"}"#;

const BROKEN: &str = r#"{"type":"withdraw","ord"#;

/// Lines of `check` and `solve`: an optimal plan, one that isn't, and no table.
pub(crate) const TABLES: [&str; 4] = [
    r#"{"wagons":["338447961008","218124712173"],"orders":["O1","O2"],"cells":[[10,20],[15,null]],"penalties":[1000,1000],"pairs":[["218124712173","O1"],["338447961008","O2"]],"u":[5,0],"v":[15,25]}"#,
    r#"{"wagons":["338447961008"],"orders":["O1","O2"],"cells":[[10,20]],"penalties":[50,500],"pairs":[["338447961008","O1"]],"u":[490],"v":[500,500]}"#,
    BROKEN,
    r#"{"wagons":[],"orders":["O1"],"cells":[],"penalties":[900],"pairs":[],"u":[],"v":[900]}"#,
];

/// A sink over memory that was got before.
#[derive(Drop)]
pub(crate) struct Page {
    bytes: Vec<u8>,
    has_failed: bool,
}

impl Page {
    pub(crate) fn new(alloc: Global) -> Option<Page> {
        Some(Page {
            bytes: Vec::with_capacity(alloc, 65_536).ok()?,
            has_failed: false,
        })
    }

    pub(crate) fn is_empty(&self) -> bool {
        self.bytes.is_empty()
    }

    pub(crate) fn text(&self) -> &str {
        str::from_utf8(&self.bytes).unwrap()
    }
}

impl Sink for Page {
    ghost contents = { λ _. None };

    ghost has_failed = { λ page. page.has_failed };

    fn write(&mut self, piece: &[u8]) -> Result<usize, DeviceFailed> {
        must(self.bytes.extend_from_slice(piece).is_ok());
        Ok(piece.len())
    }

    fn failed(&self) -> bool {
        self.has_failed
    }
}

/// The calls of a book, and a plan line behind them.
pub(crate) fn lines_to_plan_text(alloc: Global) -> Option<String> {
    let mut lines = Vec::with_capacity(alloc, DAY.len() + 1).ok()?;
    for (_name, line, _wanted) in DAY {
        lines.push(line).ok()?;
    }
    lines.push(PLAN).ok()?;
    joined(alloc, &lines, None)
}

/// The lines of `run`, the one of this number left blank.
pub(crate) fn run_lines_text(alloc: Global, blank: Option<u64>) -> Option<String> {
    let mut lines = Vec::with_capacity(alloc, DAY.len() + 4).ok()?;
    for (_name, line, _wanted) in DAY {
        lines.push(line).ok()?;
    }
    for line in [PLAN, SHEET, BROKEN, SHEET] {
        lines.push(line).ok()?;
    }
    joined(alloc, &lines, blank)
}

pub(crate) fn joined(alloc: Global, lines: &[&str], blank: Option<u64>) -> Option<String> {
    let mut text = String::with_capacity(alloc, 16_384).ok()?;
    for (k, line) in lines.iter().enumerate() {
        if blank != Some(k as u64 + 1) {
            text.push_str(line).ok()?;
        }
        text.push_str("\n").ok()?;
    }
    Some(text)
}
