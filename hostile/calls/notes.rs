//! The notes of a journal as lines of JSON: where a line is refused memory its note is `memory`, and what follows has the notes that
//! it has where that line is blank, or where it was brought to the book.

use crate::lines::{Page, run_lines_text};
use crate::samples::Sample;
use crate::showing::shown;
use crate::trying::{must, prepared, say, say_refused_in};
use journal_notes::{NotedJournal, note_journal};
use line_engine::{RunCount, RunFault};
use line_network::read_lines;
use std::alloc::{AllocError, Global};
use test_samples::{LONGER, MemorySource, NETWORK};

pub(crate) fn all(rt: &HostRuntime, alloc: Global, requests: u32) -> Option<()> {
    let text = run_lines_text(alloc, None)?;
    let mut page = Page::new(alloc)?;
    let sample = Sample::new(alloc)?;
    let mut journal = begun(alloc, &sample)?;
    prepared(rt, alloc, requests)?;
    let count = match noted(alloc, &text, &mut page, &mut journal) {
        Ok(count) => count,
        Err(fault) => {
            must(fault.number() == 1 && page.is_empty());
            say_refused_in(rt, "note_journal", "the memory for its lines");
            noted(alloc, &text, &mut page, &mut journal).unwrap()
        }
    };
    judge(rt, alloc, &sample, &page, count, journal)
}

/// The notes of a journal that begins with the sample's book.
fn begun(alloc: Global, sample: &Sample) -> Option<NotedJournal> {
    let mut networks = Vec::new(alloc);
    for text in [NETWORK, LONGER] {
        networks
            .push(read_lines(alloc, text.as_bytes()).ok()?)
            .ok()?;
    }
    Some(NotedJournal::new(alloc, sample.book(alloc, 2)?, networks))
}

fn noted(
    alloc: Global,
    text: &str,
    page: &mut Page,
    journal: &mut NotedJournal,
) -> Result<RunCount, RunFault> {
    let mut reader = MemorySource::new(text.as_bytes(), usize::MAX);
    note_journal(alloc, &mut reader, page, journal)
}

/// The number of a note's line.
fn number_of(note: &str) -> Option<&str> {
    note.strip_prefix("{\"line\":")?.split(',').next()
}

fn judge(
    rt: &HostRuntime,
    alloc: Global,
    sample: &Sample,
    page: &Page,
    count: RunCount,
    journal: NotedJournal,
) -> Option<()> {
    let note = page
        .text()
        .lines()
        .find(|line| line.ends_with(",\"note\":\"memory\"}"));
    let Some(note) = note else {
        must(println!(rt; "{} {}", count.lines, count.refused).is_ok());
        say(rt, page.text());
        return Some(());
    };
    say_refused_in(rt, "note_journal", "a line");
    let number = number_of(note)?;
    let office = shown(alloc, journal.into_book().state()).unwrap();
    for blank in [number.parse::<u64>().ok(), None] {
        let second = begun(alloc, sample).unwrap();
        if fits(alloc, page, number, &office, blank, second) {
            return Some(());
        }
    }
    unreachable!()
}

/// Whether all notes but those of the refused line, and the office, are those of the journal with this line blank.
fn fits(
    alloc: Global,
    page: &Page,
    number: &str,
    office: &str,
    blank: Option<u64>,
    second: NotedJournal,
) -> bool {
    let mut other = Page::new(alloc).unwrap();
    let mut second = second;
    let text = run_lines_text(alloc, blank).unwrap();
    must(noted(alloc, &text, &mut other, &mut second).is_ok());
    let is_other = |line: &&str| number_of(line) != Some(number);
    let is_same_office = shown(alloc, second.into_book().state()).unwrap().as_str() == office;
    let notes: Vec<&str> = page.text().lines().filter(is_other).collect(alloc).unwrap();
    let wanted: Vec<&str> = other
        .text()
        .lines()
        .filter(is_other)
        .collect(alloc)
        .unwrap();
    is_same_office && notes.as_slice() == wanted.as_slice()
}
