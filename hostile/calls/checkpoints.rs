//! An office that is copied, changed, written down, read again, and gone on from. Each call makes a value and changes none;
//! it is made once more where it is refused memory, and what it then gives is printed.

use crate::books::{OTHER_ORDER, call_of, day_calls};
use crate::samples::Sample;
use crate::showing::shown_book;
use crate::trying::{must, prepared, say, say_refused, say_shown};
use crate::words::ADDED;
use checkpoint::{checkpoint_text, read_checkpoint};
use commit_book::{Book, Limits};
use fleet_rows::Roster;
use operating_db::OfficeState;
use rail_codes::WagonNumber;
use std::alloc::{AllocError, Global};
use std::sync::Arc;
use test_samples::MemorySource;

/// How many calls of the day are made first: then a wagon is promised.
const FIRST_CALLS: usize = 3;

/// What the calls start from.
#[derive(Drop)]
struct Start {
    book: Book,
    added: Roster,
    sample: Sample,
}

impl Start {
    fn new(alloc: Global) -> Option<Start> {
        let sample = Sample::new(alloc)?;
        let mut book = sample.book(alloc, 2)?;
        let calls = day_calls(alloc)?;
        must(book.run(alloc, &calls[..FIRST_CALLS]).is_ok());
        let waiting = [call_of(alloc, OTHER_ORDER)?];
        must(book.run(alloc, &waiting).is_ok());
        Some(Start {
            book,
            added: Roster::read_rows(alloc, ADDED.as_bytes()).ok()?,
            sample,
        })
    }
}

pub(crate) fn all(rt: &HostRuntime, alloc: Global, requests: u32) -> Option<()> {
    let start = Start::new(alloc)?;
    prepared(rt, alloc, requests)?;
    let state = start.book.state();
    let copy = tried!(rt, "OfficeState::copy", state.copy(alloc));
    say_shown(rt, alloc, &copy)?;
    let leaving = [WagonNumber::read("338447961008").ok()?];
    let changed = tried_fault!(
        rt,
        "OfficeState::with_fleet",
        copy.with_fleet(alloc, start.added.rows(), &leaving)
    );
    say_shown(rt, alloc, &changed)?;
    saved(rt, alloc, &start, &changed)
}

/// An office as a checkpoint, the office that it says, and a book that goes on from there.
fn saved(rt: &HostRuntime, alloc: Global, start: &Start, state: &OfficeState) -> Option<()> {
    let text = tried!(rt, "checkpoint_text", checkpoint_text(alloc, state));
    say(rt, &text);
    let read = tried_fault!(rt, "read_checkpoint", read_text(alloc, &text));
    let again = tried!(rt, "checkpoint_text", checkpoint_text(alloc, &read));
    must(again.as_str() == text.as_str());
    let book = gone_on(rt, alloc, start, &read)?;
    let shows = shown_book(alloc, &book, &[])?;
    say(rt, &shows);
    Some(())
}

fn read_text(alloc: Global, text: &str) -> Result<OfficeState, checkpoint::ReadFault> {
    read_checkpoint(alloc, &mut MemorySource::new(text.as_bytes(), 100), 2)
}

/// A book that begins with an office. What it is made from is its own, so it is made from a copy.
fn gone_on(rt: &HostRuntime, alloc: Global, start: &Start, state: &OfficeState) -> Option<Book> {
    let limits = Limits::new(100, 2)?;
    let first = tried!(rt, "OfficeState::copy", state.copy(alloc));
    let shared = Arc::try_clone(&start.sample.networks).ok()?;
    match Book::from_office(alloc, first, shared, limits) {
        Ok(book) => Some(book),
        Err(AllocError) => {
            say_refused(rt, "Book::from_office");
            let first = state.copy(alloc).ok()?;
            let shared = Arc::try_clone(&start.sample.networks).ok()?;
            Some(Book::from_office(alloc, first, shared, limits).unwrap())
        }
    }
}
