//! A feed of one file: where a line is refused memory, the report is that of the file with that line blank, and one line
//! more is counted as refused.

use crate::lines::{RUN_LINES, run_lines_text};
use crate::samples::Sample;
use crate::trying::{must, prepared, say_refused};
use sessions::{FeedFault, FeedReport, feed, report_text};
use std::alloc::{AllocError, Global};
use std::sync::Wait;
use std::thread::Threads;
use test_samples::MemorySource;

/// How many lines are accepted: those of the day, and the plan.
const ACCEPTED: u64 = 18;

pub(crate) fn all<T: Threads + Wait + Sync>(
    rt: &HostRuntime,
    threads: &T,
    alloc: Global,
    requests: u32,
) -> Option<()> {
    let text = run_lines_text(alloc, None)?;
    let readers = vec![in alloc; MemorySource::new(text.as_bytes(), usize::MAX)].ok()?;
    let sample = Sample::new(alloc)?;
    let book = sample.book(alloc, 2)?;
    prepared(rt, alloc, requests)?;
    let report = match feed(threads, alloc, readers, book) {
        Ok(report) => report,
        Err(fault) => {
            must(fault.number() == 1);
            say_refused(rt, "feed");
            match fed(threads, alloc, &sample, &text).unwrap() {
                Ok(report) => report,
                Err(_) => unreachable!(),
            }
        }
    };
    judge(rt, threads, alloc, &sample, &report)
}

/// What comes of one file.
fn fed<'a, T: Threads + Wait + Sync>(
    rt: &T,
    alloc: Global,
    sample: &Sample,
    text: &'a str,
) -> Option<Result<FeedReport<MemorySource<'a>>, FeedFault>> {
    let readers = vec![in alloc; MemorySource::new(text.as_bytes(), usize::MAX)].ok()?;
    let book = sample.book(alloc, 2)?;
    Some(feed(rt, alloc, readers, book))
}

fn judge<T: Threads + Wait + Sync>(
    rt: &HostRuntime,
    threads: &T,
    alloc: Global,
    sample: &Sample,
    report: &FeedReport<MemorySource<'_>>,
) -> Option<()> {
    let file = &report.files[0];
    must(report.files.len() == 1 && file.accepted == report.book.len());
    let text = tried!(rt, "report_text", report_text(alloc, report));
    if file.failed.is_some() {
        must(file.failed == Some(1) && report.book.len() == 0);
        say_refused(rt, "feed (the memory for its lines)");
        return Some(());
    }
    // The broken line is refused, and no other.
    if file.refused == 1 && file.accepted == ACCEPTED {
        must(println!(rt; "{text}").is_ok());
        return Some(());
    }
    say_refused(rt, "feed (a line)");
    must(fits_some_line(threads, alloc, sample, &text));
    Some(())
}

/// Whether the report is that of the file with one line blank, but for one refused line more.
fn fits_some_line<T: Threads + Wait + Sync>(
    rt: &T,
    alloc: Global,
    sample: &Sample,
    text: &str,
) -> bool {
    for number in 1..=RUN_LINES {
        let lines = run_lines_text(alloc, Some(number)).unwrap();
        let Ok(mut report) = fed(rt, alloc, sample, &lines).unwrap() else {
            return false;
        };
        report.files[0].refused = report.files[0].refused.saturating_add(1);
        if report_text(alloc, &report).unwrap().as_str() == text {
            return true;
        }
    }
    false
}
