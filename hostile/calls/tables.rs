//! The calls of a book that begin a problem with its table, look up the table of a kept one, and take a table with a commit.

use crate::books::{
    BEGIN, COMMIT, NO_MEMORY, ORDER, OTHER_ORDER, answer, answer_of, book_after, call_of,
    must_be_alike,
};
use crate::samples::Sample;
use crate::showing::{problem_moment, shown_book};
use crate::trying::{must, prepared, say_refused, say_shown};
use commit_book::{Answer, Book, Call, MadeProblem, Reply, Snap};
use std::alloc::{AllocError, Global};
use std::sync::Arc;

pub(crate) fn all(rt: &HostRuntime, alloc: Global, requests: u32) -> Option<()> {
    let begun = [call_of(alloc, ORDER)?, call_of(alloc, BEGIN)?];
    let commit = call_of(alloc, COMMIT)?;
    let sample = Sample::new(alloc)?;
    let first = book_after(alloc, &sample, &begun[..1])?;
    let second = book_after(alloc, &sample, &begun)?;
    let third = book_after(alloc, &sample, &begun)?;
    let mut snapped = book_after(alloc, &sample, &begun[..1])?;
    let snap = snapped.begin(alloc, problem_moment()).ok()?;
    prepared(rt, alloc, requests)?;
    begins(rt, alloc, &begun, first)?;
    looks(rt, alloc, &begun, second)?;
    let other = book_after(alloc, &sample, &begun)?;
    hands(rt, alloc, &commit, (third, other), &snap)
}

/// Two begins with their tables, the second of which changes the first one's for another order.
fn begins(rt: &HostRuntime, alloc: Global, calls: &[Call], book: Book) -> Option<()> {
    let mut book = book;
    begun(rt, alloc, calls, &mut book, "begin_with_table")?;
    let order = call_of(alloc, OTHER_ORDER)?;
    if answer(alloc, &mut book, &order) == NO_MEMORY {
        return None;
    }
    begun(
        rt,
        alloc,
        calls,
        &mut book,
        "begin_with_table (a table is changed)",
    )
}

/// A begin with its table. Where it is refused the problem isn't kept.
fn begun(
    rt: &HostRuntime,
    alloc: Global,
    calls: &[Call],
    book: &mut Book,
    name: &str,
) -> Option<()> {
    let at = problem_moment();
    let before = shown_book(alloc, book, calls)?;
    let begun = match book.begin_with_table(alloc, at) {
        Ok(begun) => begun,
        Err(AllocError) => {
            say_refused(rt, name);
            must(shown_book(alloc, book, calls).unwrap().as_str() == before.as_str());
            book.begin_with_table(alloc, at).unwrap()
        }
    };
    must(begun.snap().version() == book.len());
    say_shown(rt, alloc, begun.snap().problem())?;
    say_shown(rt, alloc, begun.cells())
}

/// The table of a kept problem, which the book has not made before.
fn looks(rt: &HostRuntime, alloc: Global, calls: &[Call], book: Book) -> Option<()> {
    let mut book = book;
    let at = problem_moment();
    let before = shown_book(alloc, &book, calls)?;
    let made = match book.kept_table(alloc, 1, at) {
        Ok(made) => made,
        Err(AllocError) => {
            say_refused(rt, "kept_table");
            must(shown_book(alloc, &book, calls).unwrap().as_str() == before.as_str());
            book.kept_table(alloc, 1, at).unwrap()
        }
    };
    say_shown(rt, alloc, made?.cells())
}

/// A commit that comes with the table of its problem, which is made outside the book. Refused, it leaves the first book as the
/// second one is.
fn hands(
    rt: &HostRuntime,
    alloc: Global,
    commit: &Call,
    books: (Book, Book),
    snap: &Snap,
) -> Option<()> {
    let (mut book, mut other) = books;
    let networks = Arc::try_clone(book.networks()).ok()?;
    let (problem, distances) = (snap.problem(), networks.get(1)?);
    let made = tried!(
        rt,
        "MadeProblem::of",
        MadeProblem::of(alloc, problem, 1, distances)
    );
    let made = Arc::new(alloc, made).ok()?;
    let mut answered = submitted(alloc, &mut book, commit, &made)?;
    if answered == NO_MEMORY {
        say_refused(rt, "submit_with");
        must_be_alike(alloc, &mut book, &mut other, &[]);
        answered = submitted(alloc, &mut book, commit, &made).unwrap();
    }
    must(answered == Answer::Done(Reply::Accepted(2)));
    say_shown(rt, alloc, book.state())
}

/// What a commit with a table is answered; none where its copy is refused memory.
fn submitted(
    alloc: Global,
    book: &mut Book,
    commit: &Call,
    made: &Arc<MadeProblem>,
) -> Option<Answer> {
    let Call::Event(event) = commit else {
        return None;
    };
    let shared = Arc::try_clone(made).ok()?;
    Some(answer_of(book.submit_with(alloc, event.copy(alloc).ok()?, Some(shared))))
}
