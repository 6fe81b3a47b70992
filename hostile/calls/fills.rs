//! The orders that a journal fills, and the plan of its last line: where a line is refused memory the journal is partial, and one that
//! is made again is the whole one.

use crate::lines::{Page, lines_to_plan_text, run_lines_text};
use crate::samples::Sample;
use crate::trying::{must, prepared, say_refused_in};
use commit_book::{Book, Limits};
use journal_notes::NotedJournal;
use last_texts::{FilledJournal, fill_journal};
use line_engine::{RunCount, RunFault};
use line_network::read_lines;
use line_plans::{PlanLines, plan_lines};
use std::alloc::{AllocError, Global};
use test_samples::{LONGER, MemorySource, NETWORK};

pub(crate) fn all(rt: &HostRuntime, alloc: Global, requests: u32) -> Option<()> {
    let (text, to_plan) = (run_lines_text(alloc, None)?, lines_to_plan_text(alloc)?);
    let mut page = Page::new(alloc)?;
    let sample = Sample::new(alloc)?;
    // Journals and lines of plans, two of each: one for what is partial.
    let (mut journals, mut plans) = (Vec::new(alloc), Vec::new(alloc));
    for _ in 0..2 {
        journals.push(begun(alloc, &sample)?).ok()?;
        plans.push(lines_of(alloc, sample.book(alloc, 2)?)?).ok()?;
    }
    prepared(rt, alloc, requests)?;
    let journal = filled(rt, alloc, &mut journals, &text, &mut page);
    must(println!(rt; "{}", journal.late_fills.len()).is_ok());
    let mut lines = planned(rt, alloc, &mut plans, &to_plan, &mut page);
    must(println!(rt; "{}", lines.last_line()).is_ok());
    let plan = tried!(rt, "PlanLines::last_plan", lines.last_plan(alloc)).unwrap();
    must(println!(rt; "plan of {}", plan.snap().version()).is_ok());
    Some(())
}

/// A journal that begins with the sample's book.
fn begun(alloc: Global, sample: &Sample) -> Option<FilledJournal> {
    let mut networks = Vec::new(alloc);
    for text in [NETWORK, LONGER] {
        networks
            .push(read_lines(alloc, text.as_bytes()).ok()?)
            .ok()?;
    }
    let journal = NotedJournal::new(alloc, sample.book(alloc, 2)?, networks);
    Some(FilledJournal::new(alloc, journal))
}

/// Lines that are brought to a book that keeps two problems.
fn lines_of(alloc: Global, book: Book) -> Option<PlanLines> {
    Some(PlanLines::new(alloc, book, Limits::new(100, 2)?))
}

/// The whole journal.
fn filled(
    rt: &HostRuntime,
    alloc: Global,
    journals: &mut Vec<FilledJournal>,
    text: &str,
    page: &mut Page,
) -> FilledJournal {
    let mut journal = journals.pop().unwrap();
    if let Err(fault) = fill(alloc, text, page, &mut journal) {
        must(fault.number() == 1 && journal.late_fills.is_empty());
        say_refused_in(rt, "fill_journal", "the memory for its lines");
        must(fill(alloc, text, page, &mut journal).is_ok());
    }
    must(page.is_empty());
    if !journal.is_partial {
        return journal;
    }
    say_refused_in(rt, "fill_journal", "a line");
    let mut whole = journals.pop().unwrap();
    must(fill(alloc, text, page, &mut whole).is_ok() && !whole.is_partial);
    must(journal.late_fills.len() <= whole.late_fills.len());
    whole
}

fn fill(
    alloc: Global,
    text: &str,
    page: &mut Page,
    journal: &mut FilledJournal,
) -> Result<RunCount, RunFault> {
    let mut reader = MemorySource::new(text.as_bytes(), usize::MAX);
    fill_journal(alloc, &mut reader, page, journal)
}

/// All lines.
fn planned(
    rt: &HostRuntime,
    alloc: Global,
    plans: &mut Vec<PlanLines>,
    text: &str,
    page: &mut Page,
) -> PlanLines {
    let mut lines = plans.pop().unwrap();
    if let Err(fault) = bring(alloc, text, page, &mut lines) {
        must(fault.number() == 1 && lines.last_line() == 0);
        say_refused_in(rt, "plan_lines", "the memory for its lines");
        must(bring(alloc, text, page, &mut lines).is_ok());
    }
    must(page.is_empty());
    if !lines.is_partial() {
        return lines;
    }
    say_refused_in(rt, "plan_lines", "a line");
    let mut whole = plans.pop().unwrap();
    must(bring(alloc, text, page, &mut whole).is_ok() && !whole.is_partial());
    whole
}

fn bring(
    alloc: Global,
    text: &str,
    page: &mut Page,
    lines: &mut PlanLines,
) -> Result<RunCount, RunFault> {
    let mut reader = MemorySource::new(text.as_bytes(), usize::MAX);
    plan_lines(alloc, &mut reader, page, lines)
}
