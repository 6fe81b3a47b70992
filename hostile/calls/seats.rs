//! The calls of seats: where memory is refused, count and receipts stay, and the same call made again is the entry that it
//! would have been. On a second shared book the seats are closed right after the refused call, and the book behind the lock
//! is the one that the calls before make.

use crate::books::{DAY, NO_MEMORY, answer_of, book_after, day_calls, must_be_alike};
use crate::samples::Sample;
use crate::showing::{call_with, room, shown_book};
use crate::trying::{must, prepared, say, say_refused};
use commit_book::{Answer, Book, Call};
use move_messages::Event;
use sessions::{BookLedger, OpenFault, Receipt, Seat, SharedBook, close, open};
use std::alloc::{AllocError, Global};
use std::fmt::Write;
use std::marker::Brand;
use std::sync::Wait;
use std::sync::ledger::{Blank, Ledger};

/// What is done where a call of a seat was refused memory.
#[derive(Clone, Copy, PartialEq, Eq)]
enum Then {
    MadeAgain,
    Closed,
}

/// A shared book and its two seats, at which the day's calls are made in turn.
#[derive(Drop)]
struct Desk<L: BookLedger> {
    shared: SharedBook<L>,
    seats: Vec<Seat<L>>,
}

pub(crate) fn all<T: Wait>(
    rt: &HostRuntime,
    threads: &T,
    alloc: Global,
    requests: u32,
) -> Option<()> {
    let sample = Sample::new(alloc)?;
    let first = sample.book(alloc, 2)?;
    let second = sample.book(alloc, 2)?;
    let calls = day_calls(alloc)?;
    prepared(rt, alloc, requests)?;
    let mut desk = opened::<Brand>(rt, alloc, &calls, first)?;
    let done = day(rt, threads, alloc, &calls, &mut desk, Then::MadeAgain)?;
    must(done == calls.len());
    let end = shown_book(alloc, &book_of(desk), &calls)?;
    say(rt, &end);
    let mut desk = opened::<Brand>(rt, alloc, &calls, second)?;
    let done = day(rt, threads, alloc, &calls, &mut desk, Then::Closed)?;
    let mut book = book_of(desk);
    if done < calls.len() {
        let mut other = book_after(alloc, &sample, &calls[..done]).unwrap();
        must_be_alike(alloc, &mut book, &mut other, &calls);
    }
    Some(())
}

/// Closing after the whole day. All is prepared before, so that what is asked for is asked for by `close`.
pub(crate) fn closing<T: Wait>(
    rt: &HostRuntime,
    threads: &T,
    alloc: Global,
    requests: u32,
) -> Option<()> {
    let book = Sample::new(alloc)?.book(alloc, 2)?;
    let calls = day_calls(alloc)?;
    let mut desk = opened::<Brand>(rt, alloc, &calls, book)?;
    must(day(rt, threads, alloc, &calls, &mut desk, Then::MadeAgain)? == calls.len());
    prepared(rt, alloc, requests)?;
    must(book_of(desk).len() == 17);
    Some(())
}

/// The book of a desk that is closed.
fn book_of<L: BookLedger>(desk: Desk<L>) -> Book {
    let Desk { shared, seats } = desk;
    match close(shared, seats) {
        Ok(book) => book,
        Err(_) => unreachable!(),
    }
}

/// A book is opened for two seats. Where that is refused, blank and book are handed back.
fn opened<L: BookLedger>(
    rt: &HostRuntime,
    alloc: Global,
    calls: &[Call],
    book: Book,
) -> Option<Desk<L>> {
    let before = shown_book(alloc, &book, calls)?;
    match open::<L>(alloc, Blank::new(2), book, 2) {
        Ok((shared, seats)) => Some(Desk { shared, seats }),
        Err(OpenFault { blank, book }) => {
            say_refused(rt, "open");
            must(shown_book(alloc, &book, calls).unwrap().as_str() == before.as_str());
            match open::<L>(alloc, blank, book, 2) {
                Ok((shared, seats)) => Some(Desk { shared, seats }),
                Err(_) => unreachable!(),
            }
        }
    }
}

/// The calls of the day, made by the two seats in turn, and how many were made: all, or those before the one that was
/// refused memory, where the desk is closed then.
fn day<L: BookLedger, T: Wait>(
    rt: &HostRuntime,
    threads: &T,
    alloc: Global,
    calls: &[Call],
    desk: &mut Desk<L>,
    then: Then,
) -> Option<usize> {
    let mut before = room(alloc)?;
    for (k, (name, _line, wanted)) in DAY.iter().enumerate() {
        let seat = &mut desk.seats[k % 2];
        before.clear();
        push_receipts(&mut before, seat, calls);
        let mut answered = answer(threads, alloc, &desk.shared, seat, &calls[k]);
        if answered == NO_MEMORY {
            say_seat_refused(rt, name, then);
            let mut after = room(alloc).unwrap();
            push_receipts(&mut after, seat, calls);
            must(after.as_str() == before.as_str());
            if then == Then::Closed {
                return Some(k);
            }
            answered = answer(threads, alloc, &desk.shared, seat, &calls[k]);
        }
        must(answered == *wanted && seat.receipts().len() as u64 == seat.count());
    }
    Some(calls.len())
}

/// Says which call was refused: a seat sends what a book calls a message.
fn say_seat_refused(rt: &HostRuntime, name: &str, then: Then) {
    let (call, case) = match name.strip_prefix("message") {
        Some(case) => ("send", case),
        None => (name, ""),
    };
    match then {
        Then::MadeAgain => must(println!(rt; "refused: {call}{case}").is_ok()),
        Then::Closed => must(println!(rt; "refused: {call}{case}, and closed then").is_ok()),
    }
}

/// Writes a seat's number and count, and of each receipt the entry and which of these calls' events it names.
fn push_receipts<L: Ledger>(text: &mut String, seat: &Seat<L>, calls: &[Call]) {
    must(writeln!(text, "{} {}", seat.number(), seat.count()).is_ok());
    for receipt in seat.receipts() {
        let call = call_with(calls, |event| is_of(receipt, event));
        must(writeln!(text, "{} {call:?}", receipt.entry).is_ok());
    }
}

/// Whether a receipt is one of this event.
fn is_of(receipt: &Receipt, event: &Event) -> bool {
    receipt.event.is_event(event)
}

/// What the method of a call answers a seat.
fn answer<L: BookLedger, T: Wait>(
    rt: &T,
    alloc: Global,
    shared: &SharedBook<L>,
    seat: &mut Seat<L>,
    call: &Call,
) -> Answer {
    let done = match call {
        Call::Event(Event::Message(message)) => shared.send(rt, alloc, seat, message),
        Call::Event(Event::Place(text)) => shared.place(rt, alloc, seat, text),
        Call::Event(Event::Withdraw(id)) => shared.withdraw(rt, alloc, seat, *id),
        Call::Event(Event::Commit(commit)) => shared.commit(rt, alloc, seat, commit),
        Call::Event(Event::Revise(network)) => shared.revise(rt, alloc, seat, *network),
        Call::Begin(at) => {
            return match shared.begin(rt, alloc, seat, *at) {
                Ok(snap) => Answer::Begun(snap.version()),
                Err(AllocError) => NO_MEMORY,
            };
        }
    };
    answer_of(done)
}
