//! Runs over lines: a line that is refused memory is answered `N refused 1`, and what follows is answered as if that line
//! were blank.

use crate::books::day_calls;
use crate::lines::{BOOK_LINES, Page, TABLES, joined, run_lines_text};
use crate::samples::Sample;
use crate::showing::shown_book;
use crate::trying::{must, prepared, say, say_refused_in};
use commit_book::{Book, Call};
use line_engine::{LineLimit, RunCount, RunFault};
use office::run;
use std::alloc::Global;
use table_lines::{check_run, solve_run};
use test_samples::MemorySource;

/// A word of the program that reads lines.
#[derive(Clone, Copy, PartialEq, Eq)]
enum Word {
    Run,
    Check,
    Solve,
}

/// What a run starts with.
#[derive(Drop)]
struct Start {
    word: Word,
    text: String,
    page: Page,
    book: Book,
    calls: Vec<Call>,
}

pub(crate) fn all(rt: &HostRuntime, alloc: Global, requests: u32) -> Option<()> {
    let sample = Sample::new(alloc)?;
    let tables = Start::new(alloc, &sample, Word::Check)?;
    let problems = Start::new(alloc, &sample, Word::Solve)?;
    let day = Start::new(alloc, &sample, Word::Run)?;
    prepared(rt, alloc, requests)?;
    judged(rt, alloc, &sample, tables)?;
    judged(rt, alloc, &sample, problems)?;
    judged(rt, alloc, &sample, day)
}

impl Start {
    fn new(alloc: Global, sample: &Sample, word: Word) -> Option<Start> {
        Some(Start {
            word,
            text: text_of(alloc, word, None)?,
            page: Page::new(alloc)?,
            book: sample.book(alloc, 2)?,
            calls: day_calls(alloc)?,
        })
    }
}

fn name_of(word: Word) -> &'static str {
    match word {
        Word::Run => "run",
        Word::Check => "check_run",
        Word::Solve => "solve_run",
    }
}

/// The lines of a word, the one of this number left blank.
fn text_of(alloc: Global, word: Word, blank: Option<u64>) -> Option<String> {
    match word {
        Word::Run => run_lines_text(alloc, blank),
        Word::Check | Word::Solve => joined(alloc, &TABLES, blank),
    }
}

fn ran(
    alloc: Global,
    word: Word,
    text: &str,
    page: &mut Page,
    book: &mut Book,
) -> Result<RunCount, RunFault> {
    let mut reader = MemorySource::new(text.as_bytes(), usize::MAX);
    let limit = LineLimit::standard();
    match word {
        Word::Run => run(alloc, &mut reader, page, book),
        Word::Check => check_run(alloc, limit, &mut reader, page),
        Word::Solve => solve_run(alloc, limit, &mut reader, page),
    }
}

/// A run of a word. Where the memory for its lines is refused it says so, has written nothing and changed nothing.
fn judged(rt: &HostRuntime, alloc: Global, sample: &Sample, start: Start) -> Option<()> {
    let Start {
        word,
        text,
        mut page,
        mut book,
        calls,
    } = start;
    let before = shown_book(alloc, &book, &calls)?;
    let count = match ran(alloc, word, &text, &mut page, &mut book) {
        Ok(count) => count,
        Err(fault) => {
            must(fault.number() == 1 && page.is_empty());
            say_refused_in(rt, name_of(word), "the memory for its lines");
            must(shown_book(alloc, &book, &calls).unwrap().as_str() == before.as_str());
            ran(alloc, word, &text, &mut page, &mut book).unwrap()
        }
    };
    match page.text().lines().find_map(refused_by) {
        Some(number) => {
            say_refused_in(rt, name_of(word), "a line");
            let second = sample.book(alloc, 2).unwrap();
            let (page, book, calls) = (&page, &book, &calls[..]);
            let first = Outcome {
                word,
                page,
                book,
                calls,
            };
            judge_rest(alloc, first, count, number, second);
        }
        None => say(rt, page.text()),
    }
    Some(())
}

/// The number of the line that a reply refuses memory, if it does, as `run` and `check` say it, or as `solve` does.
fn refused_by(reply: &str) -> Option<u64> {
    let number = match reply.strip_prefix("{\"line\":") {
        Some(rest) => rest.strip_suffix(",\"refused\":\"1\"}")?,
        None => reply.strip_suffix(" refused 1")?,
    };
    number.parse::<u64>().ok()
}

/// What came of a run.
#[derive(Clone, Copy)]
struct Outcome<'a> {
    word: Word,
    page: &'a Page,
    book: &'a Book,
    calls: &'a [Call],
}

/// That all other replies, and the book, are those of the lines where that one is blank, brought to a second book.
fn judge_rest(alloc: Global, first: Outcome<'_>, count: RunCount, number: u64, second: Book) {
    let mut second = second;
    let mut other = Page::new(alloc).unwrap();
    let text = text_of(alloc, first.word, Some(number)).unwrap();
    let wanted = ran(alloc, first.word, &text, &mut other, &mut second).unwrap();
    must(count.lines == wanted.lines && count.refused == wanted.refused.saturating_add(1));
    let mut rest = other.text().lines();
    for line in first.page.text().lines() {
        if refused_by(line).is_none() {
            must(rest.next() == Some(line));
        }
    }
    must(rest.next().is_none() && first.book.len() == second.len());
    // A plan that is refused may have begun its problem, which is kept then.
    if first.word != Word::Run || number <= BOOK_LINES {
        let shows = shown_book(alloc, first.book, first.calls).unwrap();
        must(shown_book(alloc, &second, first.calls).unwrap().as_str() == shows.as_str());
    }
}
