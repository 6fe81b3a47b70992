//! What values show by their public calls. It is written into room that was got before, so that it asks for no memory.

use commit_book::{Book, Call, EventView, Refusal};
use cost_table::{Cells, Plan, Problem};
use fleet_rows::Roster;
use line_fields::{Command, code_str};
use line_network::Network;
use move_messages::{CommitText, Event, Message, MessageKind, OrderText, Pairs, PriceList, is_same_message, is_same_order};
use operating_db::OfficeState;
use place_names::Places;
use plan_table::PlanList;
use price_checker::Prices;
use rail_codes::{ClassCode, Moment, OrderId, Place, WagonNumber};
use std::alloc::{AllocError, Global};
use std::fmt::Write;
use table_lines::TableLine;
use wagons_and_orders::{FreeWagon, OrderRow, OrderState, WagonRow, Wanted};

/// Room for what a value shows, got at once.
const ROOM: usize = 32_768;

pub(crate) fn room(alloc: Global) -> Option<String> {
    String::with_capacity(alloc, ROOM).ok()
}

/// A value that is written down by what its public calls show.
pub(crate) trait Show {
    fn show(&self, text: &mut String) -> Result<(), AllocError>;
}

/// What a value shows.
pub(crate) fn shown<S: Show>(alloc: Global, value: &S) -> Option<String> {
    let mut text = room(alloc)?;
    value.show(&mut text).unwrap();
    Some(text)
}

impl Show for WagonRow {
    fn show(&self, text: &mut String) -> Result<(), AllocError> {
        let (number, class) = (code_str(&self.number), code_str(&self.class));
        let (word, place) = (self.status.word(), self.status.place());
        let ready = self.status.ready().map(|moment| moment.seconds());
        let (place, last) = (code_str(&place), self.last.seconds());
        write!(
            text,
            "{number} {class} {} {word} {place} {ready:?} ",
            self.load_limit
        )?;
        write!(text, "{} {last}", self.held)?;
        match &self.promise {
            Some(order) => writeln!(text, " {}", code_str(order)),
            None => writeln!(text, " -"),
        }
    }
}

impl Show for FreeWagon {
    fn show(&self, text: &mut String) -> Result<(), AllocError> {
        let (number, class) = (code_str(&self.number), code_str(&self.class));
        let (place, ready) = (code_str(&self.place), self.ready.seconds());
        writeln!(text, "{number} {class} {} {place} {ready}", self.load_limit)
    }
}

impl Show for OrderText {
    fn show(&self, text: &mut String) -> Result<(), AllocError> {
        let (id, place) = (self.id(), self.place());
        let (load, latest, penalty) = (self.load(), self.latest().seconds(), self.penalty());
        write!(text, "{} {}", code_str(&id), code_str(&place))?;
        for class in self.classes().as_slice() {
            write!(text, " {}", code_str(class))?;
        }
        write!(text, " {load} {latest} {penalty} {}", self.wagons())
    }
}

impl Show for OrderRow {
    fn show(&self, text: &mut String) -> Result<(), AllocError> {
        self.text().show(text)?;
        write!(text, " {} lacks {}", state_word(self.state()), self.lack())?;
        write!(text, " {} {}", self.is_open(), self.is_waiting())?;
        for number in self.promised() {
            write!(text, " {}", code_str(number))?;
        }
        for number in self.filled() {
            write!(text, " {}*", code_str(number))?;
        }
        writeln!(text, "")
    }
}

fn state_word(state: OrderState) -> &'static str {
    match state {
        OrderState::Waiting => "waiting",
        OrderState::Promised => "promised",
        OrderState::Filled => "filled",
        OrderState::Withdrawn => "withdrawn",
    }
}

impl Show for Wanted {
    fn show(&self, text: &mut String) -> Result<(), AllocError> {
        self.order().show(text)?;
        writeln!(text, " lacks {}", self.lack())
    }
}

impl Show for Roster {
    fn show(&self, text: &mut String) -> Result<(), AllocError> {
        for row in self.rows() {
            row.show(text)?;
        }
        Ok(())
    }
}

impl Show for OfficeState {
    fn show(&self, text: &mut String) -> Result<(), AllocError> {
        writeln!(text, "network {} of {}", self.network(), self.networks())?;
        for row in self.wagon_rows() {
            row.show(text)?;
            let is_found = self.wagon(row.number).is_some_and(|found| *found == *row);
            writeln!(text, "{is_found}")?;
        }
        for row in self.order_rows() {
            row.show(text)?;
            let id = row.text().id();
            writeln!(text, "{} {}", self.order(id).is_some(), self.lack(id))?;
        }
        let class = ClassCode::read("Eanos").unwrap();
        for name in ["DE00001", "DE00002", "DE00003"] {
            let count = self.free_count(class, Place::read(name).unwrap());
            writeln!(text, "{name} {count}")?;
        }
        Ok(())
    }
}

impl Show for Message {
    fn show(&self, text: &mut String) -> Result<(), AllocError> {
        let (company, word) = (code_str(&self.id.company), kind_word(self.kind));
        let (wagon, place) = (code_str(&self.wagon), code_str(&self.place));
        let moment = self.moment.seconds();
        writeln!(
            text,
            "{word} {company} {} {wagon} {place} {moment}",
            self.id.number
        )
    }
}

fn kind_word(kind: MessageKind) -> &'static str {
    match kind {
        MessageKind::Release => "release",
        MessageKind::Departure => "departure",
        MessageKind::YardArrival => "yard arrival",
        MessageKind::YardDeparture => "yard departure",
        MessageKind::Exception(true) => "hold",
        MessageKind::Exception(false) => "end of a hold",
        MessageKind::Arrival => "arrival",
        MessageKind::Delivery => "delivery",
    }
}

impl Show for CommitText {
    fn show(&self, text: &mut String) -> Result<(), AllocError> {
        write!(text, "commit {} {}", self.version, self.at.seconds())?;
        push_pairs(text, self.pairs.as_slice())?;
        writeln!(text, " {:?} {:?}", self.u.as_slice(), self.v.as_slice())
    }
}

fn push_pairs(text: &mut String, pairs: &[(WagonNumber, OrderId)]) -> Result<(), AllocError> {
    for (wagon, order) in pairs {
        write!(text, " {}-{}", code_str(wagon), code_str(order))?;
    }
    Ok(())
}

impl Show for Event {
    fn show(&self, text: &mut String) -> Result<(), AllocError> {
        match self {
            Event::Message(message) => message.show(text),
            Event::Place(order) => {
                order.show(text)?;
                writeln!(text, " is placed")
            }
            Event::Withdraw(id) => writeln!(text, "{} is withdrawn", code_str(id)),
            Event::Commit(commit) => commit.show(text),
            Event::Revise(network) => writeln!(text, "network {network}"),
        }
    }
}

impl Show for Command {
    fn show(&self, text: &mut String) -> Result<(), AllocError> {
        match self {
            Command::Event(event) => event.show(text),
            Command::Begin(at) => writeln!(text, "begin {}", at.seconds()),
            Command::Plan(at) => writeln!(text, "plan {}", at.seconds()),
            Command::Sheet => writeln!(text, "sheet"),
        }
    }
}

impl Show for Network {
    fn show(&self, text: &mut String) -> Result<(), AllocError> {
        for k in 0..self.places() {
            let place = self.place_at(k).unwrap();
            writeln!(text, "{} {:?}", code_str(&place), self.index_of(place))?;
        }
        for line in self.lines() {
            writeln!(
                text,
                "{} {} {} {}",
                line.from, line.to, line.km, line.minutes
            )?;
        }
        Ok(())
    }
}

impl Show for Problem {
    fn show(&self, text: &mut String) -> Result<(), AllocError> {
        writeln!(text, "problem of {}", self.at().seconds())?;
        for wagon in self.wagons() {
            wagon.show(text)?;
        }
        for wanted in self.orders() {
            wanted.show(text)?;
            for wagon in self.wagons() {
                let pair = self.pair_of(wagon.number, wanted.order().id());
                writeln!(text, "{pair:?}")?;
            }
        }
        Ok(())
    }
}

impl Show for Cells {
    fn show(&self, text: &mut String) -> Result<(), AllocError> {
        for j in 0..self.orders() {
            writeln!(text, "penalty {} lack {}", self.penalty(j), self.lack(j))?;
        }
        for i in 0..self.wagons() {
            for j in 0..self.orders() {
                write!(text, "{:?} ", self.cell(i, j))?;
            }
            writeln!(text, "")?;
        }
        Ok(())
    }
}

impl Show for (Plan, Prices) {
    fn show(&self, text: &mut String) -> Result<(), AllocError> {
        writeln!(text, "{:?} {:?} {:?}", self.0.pairs(), self.1.u, self.1.v)
    }
}

impl Show for TableLine {
    fn show(&self, text: &mut String) -> Result<(), AllocError> {
        for wagon in self.wagons.iter() {
            write!(text, "{} ", code_str(wagon))?;
        }
        for order in self.orders.iter() {
            write!(text, "{} ", code_str(order))?;
        }
        write!(
            text,
            "{:?} {:?} {:?}",
            self.cells, self.penalties, self.lacks
        )?;
        push_pairs(text, &self.pairs)?;
        writeln!(text, " {:?} {:?}", self.u, self.v)
    }
}

impl Show for Places {
    fn show(&self, text: &mut String) -> Result<(), AllocError> {
        for named in self.as_slice() {
            let is_found = self.find(named.place).is_some();
            let name = self.name_of(named.place);
            write!(text, "{} {is_found} {name}", code_str(&named.place))?;
            if let Some(at) = &named.coordinates {
                write!(text, " {} {}", at.x.as_str(), at.y.millionths())?;
            }
            writeln!(text, "")?;
        }
        Ok(())
    }
}

impl Show for PlanList {
    fn show(&self, text: &mut String) -> Result<(), AllocError> {
        writeln!(text, "{} {} {}", self.version, self.at.seconds(), self.sum)?;
        for one in self.journeys.iter() {
            let (wagon, order) = (code_str(&one.wagon), code_str(&one.order));
            let (from, to, arrival) = (code_str(&one.from), code_str(&one.to), one.arrival);
            write!(text, "{wagon} {order} {from} {to} {} ", one.km)?;
            writeln!(text, "{} {}", one.minutes, arrival.seconds())?;
        }
        for one in self.shortfalls.iter() {
            let (order, place) = (code_str(&one.order), code_str(&one.place));
            writeln!(
                text,
                "{order} {place} {} {} {}",
                one.gets, one.missing, one.penalty
            )?;
        }
        Ok(())
    }
}

/// The moment of all problems.
pub(crate) fn problem_moment() -> Moment {
    Moment::read("2026-03-01T01:00:00Z").unwrap()
}

/// Whether the entry of this number is there, and is this event.
fn is_entry(book: &Book, number: u64, event: &Event) -> bool {
    match (book.entry(number), event) {
        (Some(EventView::Message(it)), Event::Message(other)) => is_same_message(it, other),
        (Some(EventView::Place(it)), Event::Place(other)) => is_same_order(it, other),
        (Some(EventView::Withdraw(it)), Event::Withdraw(other)) => it == other,
        (Some(EventView::Commit(it)), Event::Commit(other)) => it == other,
        (Some(EventView::Revise(it)), Event::Revise(other)) => it == other,
        _ => false,
    }
}

/// Whether a book keeps the problem of a version: a commit of one that it doesn't keep is refused without memory.
fn is_kept(alloc: Global, book: &Book, version: u64) -> bool {
    let nothing = Event::Commit(CommitText {
        version,
        at: problem_moment(),
        pairs: Pairs::from_vec(Vec::new(alloc)),
        u: PriceList::from_vec(Vec::new(alloc)),
        v: PriceList::from_vec(Vec::new(alloc)),
    });
    book.answer_without_memory(&nothing) != Err(Refusal::NotKept)
}

/// Which of these calls asks for an event that stands where `is_there` says.
pub(crate) fn call_with<F: Fn(&Event) -> bool>(calls: &[Call], is_there: F) -> Option<usize> {
    calls.iter().position(|call| match call {
        Call::Event(event) => is_there(event),
        Call::Begin(_) => false,
    })
}

/// Writes what a book shows by the calls that take no memory: its office, which of these calls' events each entry is, and
/// which problems it keeps.
pub(crate) fn push_book(text: &mut String, alloc: Global, book: &Book, calls: &[Call]) {
    book.state().show(text).unwrap();
    for number in 0..=book.len() + 1 {
        let is_there = book.entry(number).is_some();
        let call = call_with(calls, |event| is_entry(book, number, event));
        let keeps = is_kept(alloc, book, number);
        must_write(writeln!(text, "{number} {is_there} {call:?} {keeps}"));
    }
}

fn must_write(written: Result<(), AllocError>) {
    written.unwrap();
}

pub(crate) fn shown_book(alloc: Global, book: &Book, calls: &[Call]) -> Option<String> {
    let mut text = room(alloc)?;
    push_book(&mut text, alloc, book, calls);
    Some(text)
}

/// What the tables of a book's kept problems show, which the book makes where it hasn't yet.
pub(crate) fn shown_tables(alloc: Global, book: &mut Book) -> Option<String> {
    let mut text = room(alloc)?;
    for version in 0..=book.len() {
        if let Some(made) = book.kept_table(alloc, version, problem_moment()).ok()? {
            must_write(writeln!(text, "{version}"));
            made.cells().show(&mut text).unwrap();
        }
    }
    Some(text)
}
