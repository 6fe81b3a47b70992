//! The review of a journal: where a line is refused memory its note is `N memory`, and what follows has the notes that it has
//! where that line is blank, or where it was brought to the book.

use crate::lines::{Page, run_lines_text};
use crate::samples::{PLACES, Sample};
use crate::showing::shown;
use crate::trying::{must, prepared, say, say_refused_in};
use commit_book::Limits;
use line_engine::{RunCount, RunFault};
use line_network::read_lines;
use office::{Review, end_note, review_journal};
use place_names::Places;
use std::alloc::{AllocError, Global};
use test_samples::{LONGER, MemorySource, NETWORK};

/// The count of a journal whose last line, the 26th, has no line feed.
const UNENDED: RunCount = RunCount {
    lines: 26,
    refused: 0,
    unended: true,
};

pub(crate) fn all(rt: &HostRuntime, alloc: Global, requests: u32) -> Option<()> {
    let text = run_lines_text(alloc, None)?;
    let mut page = Page::new(alloc)?;
    let sample = Sample::new(alloc)?;
    let mut review = begun(alloc, &sample)?;
    prepared(rt, alloc, requests)?;
    let note = tried!(rt, "end_note", end_note(alloc, UNENDED));
    say(rt, &note);
    let count = match reviewed(alloc, &text, &mut page, &mut review) {
        Ok(count) => count,
        Err(fault) => {
            must(fault.number() == 1 && page.is_empty());
            say_refused_in(rt, "review_journal", "the memory for its lines");
            reviewed(alloc, &text, &mut page, &mut review).unwrap()
        }
    };
    judge(rt, alloc, &sample, &page, count, review)
}

/// The review of a journal that begins with the sample's book.
fn begun(alloc: Global, sample: &Sample) -> Option<Review> {
    let mut networks = Vec::new(alloc);
    for text in [NETWORK, LONGER] {
        networks
            .push(read_lines(alloc, text.as_bytes()).ok()?)
            .ok()?;
    }
    let named = Places::read_names(alloc, PLACES.as_bytes()).ok()?;
    let (book, limits) = (sample.book(alloc, 2)?, Limits::new(100, 2)?);
    Some(Review::new(book, networks, limits, named))
}

fn reviewed(
    alloc: Global,
    text: &str,
    page: &mut Page,
    review: &mut Review,
) -> Result<RunCount, RunFault> {
    let mut reader = MemorySource::new(text.as_bytes(), usize::MAX);
    review_journal(alloc, &mut reader, page, review)
}

fn judge(
    rt: &HostRuntime,
    alloc: Global,
    sample: &Sample,
    page: &Page,
    count: RunCount,
    review: Review,
) -> Option<()> {
    let line = page.text().lines().find(|line| line.ends_with(" memory"));
    let Some(line) = line else {
        must(println!(rt; "{} {}", count.lines, count.refused).is_ok());
        say(rt, page.text());
        return Some(());
    };
    say_refused_in(rt, "review_journal", "a line");
    let number = line.split(' ').next()?;
    let office = shown(alloc, review.into_book().state()).unwrap();
    for blank in [number.parse::<u64>().ok(), None] {
        let second = begun(alloc, sample).unwrap();
        if fits(alloc, page, number, &office, blank, second) {
            return Some(());
        }
    }
    unreachable!()
}

/// Whether all notes but those of the refused line, and the office, are those of the journal with this line blank.
fn fits(
    alloc: Global,
    page: &Page,
    number: &str,
    office: &str,
    blank: Option<u64>,
    second: Review,
) -> bool {
    let mut other = Page::new(alloc).unwrap();
    let mut second = second;
    let text = run_lines_text(alloc, blank).unwrap();
    must(reviewed(alloc, &text, &mut other, &mut second).is_ok());
    let is_other = |line: &&str| line.split(' ').next() != Some(number);
    let is_same_office = shown(alloc, second.into_book().state()).unwrap().as_str() == office;
    let notes: Vec<&str> = page.text().lines().filter(is_other).collect(alloc).unwrap();
    let wanted: Vec<&str> = other
        .text()
        .lines()
        .filter(is_other)
        .collect(alloc)
        .unwrap();
    is_same_office && notes.as_slice() == wanted.as_slice()
}
