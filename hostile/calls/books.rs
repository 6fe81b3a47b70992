//! The calls of a book: where memory is refused it shows what it showed before, and the same call made again answers as
//! it should.

use crate::samples::{Sample, command};
use crate::showing::{push_book, room, shown_book, shown_tables};
use crate::trying::{must, prepared, say, say_refused};
use commit_book::{Answer, Book, Call, Refusal, Reply};
use line_fields::Command;
use move_messages::Event;
use rail_codes::Moment;
use std::alloc::{AllocError, Global};

pub(crate) const ORDER: &str =
    r#"{"type":"order","order":"O1","place":"DE00003","classes":["Eanos"],"load":50000,"latest":"2026-03-01T04:00:00Z","penalty":1000}"#;

pub(crate) const OTHER_ORDER: &str =
    r#"{"type":"order","order":"O2","place":"DE00003","classes":["Eanos"],"load":50000,"latest":"2026-03-01T09:00:00Z","penalty":1000,"wagons":2}"#;

pub(crate) const BEGIN: &str = r#"{"type":"begin","at":"2026-03-01T01:00:00Z"}"#;

pub(crate) const COMMIT: &str =
    r#"{"type":"commit","version":1,"at":"2026-03-01T01:00:00Z","pairs":[["218124712173","O1"]],"u":[0,0],"v":[50]}"#;

const FIRST_NETWORK: &str = r#"{"type":"network","revision":1}"#;

const SECOND_NETWORK: &str = r#"{"type":"network","revision":2}"#;

/// A day with its answers. The sixth call delivers a wagon at another place than its order's: the wagon is free, and the
/// order waits. The last commit has no pair, since no wagon comes in time by the second network. The revisions behind it
/// go on until the history needs more room, so that one of them asks for memory.
pub(crate) const DAY: [(&str, &str, Answer); 22] = [
    ("place", ORDER, Answer::Done(Reply::Accepted(1))),
    ("begin", BEGIN, Answer::Begun(1)),
    ("commit", COMMIT, Answer::Done(Reply::Accepted(2))),
    (
        "message",
        r#"{"type":"departure","company":"0080","number":5,"wagon":"218124712173","place":"DE00002","moment":"2026-03-01T02:00:00Z"}"#,
        Answer::Done(Reply::Accepted(3)),
    ),
    (
        "message",
        r#"{"type":"arrival","company":"0080","number":6,"wagon":"218124712173","place":"DE00001","moment":"2026-03-01T03:00:00Z"}"#,
        Answer::Done(Reply::Accepted(4)),
    ),
    (
        "message (a delivery that frees a wagon and lets an order wait)",
        r#"{"type":"delivery","company":"0080","number":7,"wagon":"218124712173","place":"DE00001","moment":"2026-03-01T03:30:00Z"}"#,
        Answer::Done(Reply::Accepted(5)),
    ),
    (
        "message (repeated)",
        r#"{"type":"delivery","company":"0080","number":7,"wagon":"218124712173","place":"DE00001","moment":"2026-03-01T03:30:00Z"}"#,
        Answer::Done(Reply::Repeated(5)),
    ),
    ("begin", BEGIN, Answer::Begun(5)),
    ("place", OTHER_ORDER, Answer::Done(Reply::Accepted(6))),
    (
        "begin (the oldest problem is dropped)",
        BEGIN,
        Answer::Begun(6),
    ),
    (
        "message",
        r#"{"type":"exception","company":"0080","number":8,"wagon":"338447961008","place":"DE00001","moment":"2026-03-01T00:30:00Z","hold":true}"#,
        Answer::Done(Reply::Accepted(7)),
    ),
    (
        "message",
        r#"{"type":"exception","company":"0080","number":9,"wagon":"338447961008","place":"DE00001","moment":"2026-03-01T00:40:00Z","hold":false}"#,
        Answer::Done(Reply::Accepted(8)),
    ),
    (
        "withdraw",
        r#"{"type":"withdraw","order":"O2"}"#,
        Answer::Done(Reply::Accepted(9)),
    ),
    ("revise", SECOND_NETWORK, Answer::Done(Reply::Accepted(10))),
    ("begin", BEGIN, Answer::Begun(10)),
    (
        "commit",
        r#"{"type":"commit","version":10,"at":"2026-03-01T01:00:00Z","pairs":[],"u":[0,0],"v":[1000]}"#,
        Answer::Done(Reply::Accepted(11)),
    ),
    ("revise", FIRST_NETWORK, Answer::Done(Reply::Accepted(12))),
    ("revise", SECOND_NETWORK, Answer::Done(Reply::Accepted(13))),
    ("revise", FIRST_NETWORK, Answer::Done(Reply::Accepted(14))),
    ("revise", SECOND_NETWORK, Answer::Done(Reply::Accepted(15))),
    ("revise", FIRST_NETWORK, Answer::Done(Reply::Accepted(16))),
    ("revise", SECOND_NETWORK, Answer::Done(Reply::Accepted(17))),
];

pub(crate) const NO_MEMORY: Answer = Answer::Refused(Refusal::OutOfMemory);

pub(crate) fn all(rt: &HostRuntime, alloc: Global, requests: u32) -> Option<()> {
    let calls = day_calls(alloc)?;
    let sample = Sample::new(alloc)?;
    let first = sample.book(alloc, 2)?;
    let second = dropping(alloc, &sample)?;
    let third = sample.book(alloc, 2)?;
    prepared(rt, alloc, requests)?;
    day(rt, alloc, &sample, &calls, first)?;
    dropped(rt, alloc, &calls, second)?;
    at_once(rt, alloc, &sample, &calls, third)
}

/// The calls of the day.
pub(crate) fn day_calls(alloc: Global) -> Option<Vec<Call>> {
    let mut calls = Vec::with_capacity(alloc, DAY.len()).ok()?;
    for (_name, line, _wanted) in DAY {
        calls.push(call_of(alloc, line)?).ok()?;
    }
    Some(calls)
}

/// A line as a call of a book.
pub(crate) fn call_of(alloc: Global, line: &str) -> Option<Call> {
    match command(alloc, line)? {
        Command::Event(event) => Some(Call::Event(event)),
        Command::Begin(at) => Some(Call::Begin(at)),
        _ => None,
    }
}

/// What the method of a call answers.
pub(crate) fn answer(alloc: Global, book: &mut Book, call: &Call) -> Answer {
    let done = match call {
        Call::Event(Event::Message(message)) => book.message(alloc, message),
        Call::Event(Event::Place(text)) => book.place(alloc, text),
        Call::Event(Event::Withdraw(id)) => book.withdraw(alloc, *id),
        Call::Event(Event::Commit(commit)) => book.commit(alloc, commit),
        Call::Event(Event::Revise(network)) => book.revise(alloc, *network),
        Call::Begin(at) => return begun(alloc, book, *at),
    };
    answer_of(done)
}

fn begun(alloc: Global, book: &mut Book, at: Moment) -> Answer {
    match book.begin(alloc, at) {
        Ok(snap) => Answer::Begun(snap.version()),
        Err(AllocError) => NO_MEMORY,
    }
}

pub(crate) fn answer_of(done: Result<Reply, Refusal>) -> Answer {
    match done {
        Ok(reply) => Answer::Done(reply),
        Err(refusal) => Answer::Refused(refusal),
    }
}

/// Each call of the day by itself. The book keeps two problems.
fn day(rt: &HostRuntime, alloc: Global, sample: &Sample, calls: &[Call], book: Book) -> Option<()> {
    let mut book = book;
    let mut before = room(alloc)?;
    for (k, (name, _line, wanted)) in DAY.iter().enumerate() {
        before.clear();
        push_book(&mut before, alloc, &book, calls);
        let mut answered = answer(alloc, &mut book, &calls[k]);
        if answered == NO_MEMORY {
            say_refused(rt, name);
            must(shown_book(alloc, &book, calls).unwrap().as_str() == before.as_str());
            let mut other = book_after(alloc, sample, &calls[..k]).unwrap();
            must_be_alike(alloc, &mut book, &mut other, calls);
            answered = answer(alloc, &mut book, &calls[k]);
        }
        must(answered == *wanted);
    }
    let end = shown_book(alloc, &book, calls)?;
    say(rt, &end);
    Some(())
}

/// A book that keeps two problems, after these calls.
pub(crate) fn book_after(alloc: Global, sample: &Sample, calls: &[Call]) -> Option<Book> {
    let mut book = sample.book(alloc, 2)?;
    for call in calls {
        if answer(alloc, &mut book, call) == NO_MEMORY {
            return None;
        }
    }
    Some(book)
}

/// That two books show the same, the tables of the problems that they keep too.
pub(crate) fn must_be_alike(alloc: Global, one: &mut Book, other: &mut Book, calls: &[Call]) {
    let shows = shown_book(alloc, one, calls).unwrap();
    must(shown_book(alloc, other, calls).unwrap().as_str() == shows.as_str());
    let tables = shown_tables(alloc, one).unwrap();
    must(shown_tables(alloc, other).unwrap().as_str() == tables.as_str());
}

/// A book that keeps one problem. Where a second begin is refused, the first problem is still kept, and its commit is
/// accepted; where it isn't, the commit is refused (81).
fn dropped(rt: &HostRuntime, alloc: Global, calls: &[Call], book: Book) -> Option<()> {
    let mut book = book;
    let (begin, commit) = (&calls[1], &calls[2]);
    let begun = answer(alloc, &mut book, begin);
    if begun == NO_MEMORY {
        say_refused(rt, "begin (the problem that it would drop is committed)");
        let committed = answer(alloc, &mut book, commit);
        must(committed == Answer::Done(Reply::Accepted(3)));
    } else {
        must(begun == Answer::Begun(2));
        let refused = answer(alloc, &mut book, commit);
        must(refused == Answer::Refused(Refusal::NotKept));
    }
    Some(())
}

/// A book that keeps one problem, that of its first order, and has a second order since.
fn dropping(alloc: Global, sample: &Sample) -> Option<Book> {
    let mut book = sample.book(alloc, 1)?;
    for line in [ORDER, BEGIN, OTHER_ORDER] {
        let call = call_of(alloc, line)?;
        if answer(alloc, &mut book, &call) == NO_MEMORY {
            return None;
        }
    }
    Some(book)
}

/// The whole day by `Book::run`. Where the answers' memory is refused nothing has changed; where a call's is, the day goes
/// on as it does without that call.
fn at_once(
    rt: &HostRuntime,
    alloc: Global,
    sample: &Sample,
    calls: &[Call],
    book: Book,
) -> Option<()> {
    let mut first = book;
    let before = shown_book(alloc, &first, calls)?;
    let answers = match first.run(alloc, calls) {
        Ok(answers) => answers,
        Err(AllocError) => {
            say_refused(rt, "run (its answers)");
            must(shown_book(alloc, &first, calls).unwrap().as_str() == before.as_str());
            first.run(alloc, calls).unwrap()
        }
    };
    if answers.contains(&NO_MEMORY) {
        say_refused(rt, "run (one of its calls)");
        let mut second = sample.book(alloc, 2).unwrap();
        judge_answers(alloc, calls, &answers, &mut second);
        must_be_alike(alloc, &mut first, &mut second, calls);
        return Some(());
    }
    for (k, one) in answers.iter().enumerate() {
        must(*one == DAY[k].2);
    }
    Some(())
}

/// That these are the answers of another book to the calls that were not refused.
fn judge_answers(alloc: Global, calls: &[Call], answers: &[Answer], second: &mut Book) {
    for (k, one) in answers.iter().enumerate() {
        if *one != NO_MEMORY {
            must(answer(alloc, second, &calls[k]) == *one);
        }
    }
}
