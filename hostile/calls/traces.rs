//! The trace of a journal: where a line is refused memory the trace is partial, and one that is made again is the whole one. Then its
//! text.

use crate::lines::{Page, run_lines_text};
use crate::samples::{PLACES, Sample};
use crate::trying::{must, prepared, say, say_refused, say_refused_in};
use crate::words::book_with_orders;
use commit_book::Book;
use line_engine::{RunCount, RunFault};
use place_names::Places;
use rail_codes::{OrderId, WagonNumber};
use std::alloc::Global;
use std::str;
use test_samples::MemorySource;
use text_tables::{Clock, Form};
use traces::{Asked, Trace, trace_journal, trace_text};

pub(crate) fn all(rt: &HostRuntime, alloc: Global, requests: u32) -> Option<()> {
    let text = run_lines_text(alloc, None)?;
    let mut page = Page::new(alloc)?;
    let sample = Sample::new(alloc)?;
    let named = Places::read_names(alloc, PLACES.as_bytes()).ok()?;
    let clock = Clock { zone: None };
    // For each question a book, one for a trace that can't begin, and one for a trace that is partial. The office knows the order
    // already, so that its row is copied.
    let (mut books, mut others) = (Vec::new(alloc), Vec::new(alloc));
    for _ in 0..3 {
        books.push(sample.book(alloc, 2)?).ok()?;
        others.push(book_with_orders(alloc, &sample)?).ok()?;
    }
    let wagon = Asked::Wagon(WagonNumber::read("218124712173").ok()?);
    let order = Asked::Order(OrderId::read("O1").ok()?);
    prepared(rt, alloc, requests)?;
    for (asked, books, form) in [
        (wagon, &mut books, Form::Table),
        (order, &mut others, Form::Json),
    ] {
        let trace = followed(rt, alloc, books, asked, &text, &mut page);
        let bytes = tried!(rt, "trace_text", trace_text(alloc, &named, &clock, form, &trace));
        say(rt, str::from_utf8(&bytes).unwrap());
    }
    Some(())
}

/// The whole trace of a journal.
fn followed(
    rt: &HostRuntime,
    alloc: Global,
    books: &mut Vec<Book>,
    asked: Asked,
    text: &str,
    page: &mut Page,
) -> Trace {
    let mut trace = begun(rt, alloc, books, asked);
    if let Err(fault) = traced(alloc, text, page, &mut trace) {
        must(fault.number() == 1 && trace.steps().is_empty());
        say_refused_in(rt, "trace_journal", "the memory for its lines");
        must(traced(alloc, text, page, &mut trace).is_ok());
    }
    must(page.is_empty());
    if !trace.is_partial() {
        return trace;
    }
    say_refused_in(rt, "trace_journal", "a line");
    let mut whole = begun(rt, alloc, books, asked);
    must(traced(alloc, text, page, &mut whole).is_ok() && !whole.is_partial());
    must(trace.steps().len() <= whole.steps().len());
    whole
}

/// A trace before its first line.
fn begun(rt: &HostRuntime, alloc: Global, books: &mut Vec<Book>, asked: Asked) -> Trace {
    match Trace::new(alloc, books.pop().unwrap(), asked) {
        Ok(trace) => trace,
        Err(_) => {
            say_refused(rt, "Trace::new");
            Trace::new(alloc, books.pop().unwrap(), asked).unwrap()
        }
    }
}

fn traced(
    alloc: Global,
    text: &str,
    page: &mut Page,
    trace: &mut Trace,
) -> Result<RunCount, RunFault> {
    let mut reader = MemorySource::new(text.as_bytes(), usize::MAX);
    trace_journal(alloc, &mut reader, page, trace)
}
