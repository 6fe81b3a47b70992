//! What the words `save`, `table`, `why`, `plan`, `map`, `moves`, `fleet` and `orders` print of a book's last version. Where a call is refused memory the
//! book's office and its entries are as before, though it may keep the problem; the call made again is what is printed.

use crate::books::{BEGIN, COMMIT, ORDER, OTHER_ORDER, answer, call_of};
use crate::samples::{PLACES, Sample};
use crate::showing::{problem_moment, shown};
use crate::trying::{must, prepared, say, say_refused};
use command_line::{
    Asked, MovesOptions, OfficeOptions, PlanOptions, ProblemOptions, Start, StateOptions, When,
    WhyOptions,
};
use commit_book::{Book, Limits};
use fleet_rows::Roster;
use journal_notes::NotedJournal;
use last_texts::{
    FilledJournal, ZoneFile, last_fleet, last_map, last_moves, last_orders, last_plan_text, last_reasons, last_saved,
    last_table, read_zone,
};
use line_network::{Network, read_lines};
use office_map::Choice;
use place_names::Places;
use rail_codes::{Company, OrderId, WagonNumber};
use std::alloc::Global;
use std::str;
use test_samples::{LONGER, NETWORK};

/// A wagon that is new, and one that is there already and carries less from now on.
pub(crate) const ADDED: &str =
    "wagon,class,load,status,place,moment\n338447961016,Eanos,60000,empty,DE00002,2026-03-01T00:00:00Z\n338447961008,Eanos,40000,empty,DE00001,2026-03-01T00:00:00Z\n";

/// What a call gives that may keep its problem in a book. Where it is refused memory this says so, tests that the book's office
/// and entries are as before, and makes the call once more.
macro_rules! tried_last {
    ($rt:expr, $alloc:expr, $name:expr, $book:expr, $call:expr) => {{
        let before = shown($alloc, $book.state())?;
        let entries = $book.len();
        match $call {
            Ok(text) => text,
            Err(stop) => {
                must(stop.number() == 1);
                say_refused($rt, $name);
                must($book.len() == entries);
                must(shown($alloc, $book.state()).unwrap().as_str() == before.as_str());
                match $call {
                    Ok(text) => text,
                    Err(_) => unreachable!(),
                }
            }
        }
    }};
}

/// What the words have of their files: a book for each, so that each makes its problem, networks, and places.
#[derive(Drop)]
struct Files<'a> {
    books: Vec<Book>,
    /// One with a promise.
    promised: Book,
    networks: Vec<Network>,
    named: Places,
    added: Option<Roster>,
    zone: ZoneFile<'a>,
    /// The same with a promise, and the first order filled an hour late.
    filled: FilledJournal,
}

impl Files<'_> {
    fn new(rt: &HostRuntime, alloc: Global) -> Option<Files<'static>> {
        let sample = Sample::new(alloc)?;
        let mut books = Vec::new(alloc);
        for _ in 0..6 {
            books.push(book_with_orders(alloc, &sample)?).ok()?;
        }
        let mut all = Vec::new(alloc);
        for text in [NETWORK, LONGER] {
            all.push(read_lines(alloc, text.as_bytes()).ok()?).ok()?;
        }
        let mut networks = Vec::new(alloc);
        for text in [NETWORK, LONGER] {
            networks
                .push(read_lines(alloc, text.as_bytes()).ok()?)
                .ok()?;
        }
        let journal = NotedJournal::new(alloc, book_with_promise(alloc, &sample)?, networks);
        let mut filled = FilledJournal::new(alloc, journal);
        filled
            .late_fills
            .insert(OrderId::read("O1").ok()?, 60)
            .ok()?;
        Some(Files {
            books,
            promised: book_with_promise(alloc, &sample)?,
            networks: all,
            named: Places::read_names(alloc, PLACES.as_bytes()).ok()?,
            added: Some(Roster::read_rows(alloc, ADDED.as_bytes()).ok()?),
            zone: read_zone(rt, None).ok()?,
            filled,
        })
    }
}

/// A book with two orders, which keeps no problem yet.
pub(crate) fn book_with_orders(alloc: Global, sample: &Sample) -> Option<Book> {
    let mut book = sample.book(alloc, 2)?;
    for line in [ORDER, OTHER_ORDER] {
        let call = call_of(alloc, line)?;
        answer(alloc, &mut book, &call);
    }
    Some(book)
}

/// The same with a promised wagon: the first order's plan was accepted.
fn book_with_promise(alloc: Global, sample: &Sample) -> Option<Book> {
    let mut book = sample.book(alloc, 2)?;
    for line in [ORDER, BEGIN, COMMIT, OTHER_ORDER] {
        let call = call_of(alloc, line)?;
        answer(alloc, &mut book, &call);
    }
    Some(book)
}

pub(crate) fn all(rt: &HostRuntime, alloc: Global, requests: u32) -> Option<()> {
    let mut files = Files::new(rt, alloc)?;
    prepared(rt, alloc, requests)?;
    saved(rt, alloc, &files)?;
    mapped(rt, alloc, &files)?;
    stated(rt, alloc, &mut files.books[0])?;
    reasons(rt, alloc, &mut files)?;
    planned(rt, alloc, &mut files)?;
    listed(rt, alloc, &files)?;
    moved(rt, alloc, &files)
}

/// `save`: with a roster, without a wagon, and as it is.
fn saved(rt: &HostRuntime, alloc: Global, files: &Files<'_>) -> Option<()> {
    let book = &files.books[0];
    let leaving = [WagonNumber::read("218124712173").ok()?];
    for (added, leaving) in [(&files.added, &leaving[..]), (&None, &leaving[..0])] {
        let text = tried_last!(
            rt,
            alloc,
            "last_saved (save)",
            book,
            last_saved(alloc, book, added, leaving)
        );
        say(rt, &text);
    }
    Some(())
}

fn mapped(rt: &HostRuntime, alloc: Global, files: &Files<'_>) -> Option<()> {
    let (book, choice) = (&files.books[0], Choice::all());
    let text = tried_last!(
        rt,
        alloc,
        "last_map (map)",
        book,
        last_map(alloc, book, &files.networks, &files.named, &choice)
    );
    say(rt, &text);
    Some(())
}

/// `table`.
fn stated(rt: &HostRuntime, alloc: Global, book: &mut Book) -> Option<()> {
    let at = problem_moment();
    let text = tried_last!(
        rt,
        alloc,
        "last_table (table)",
        book,
        last_table(alloc, book, at)
    );
    say(rt, &text);
    Some(())
}

/// `why`: of the plan, of an order and of a wagon.
fn reasons(rt: &HostRuntime, alloc: Global, files: &mut Files<'_>) -> Option<()> {
    let asked = [
        Asked::Plan,
        Asked::Order(OrderId::read("O2").ok()?),
        Asked::Wagon(WagonNumber::read("338447961008").ok()?),
    ];
    for (k, one) in asked.iter().enumerate() {
        let options = WhyOptions {
            office: office_options(alloc)?,
            when: When::At(problem_moment()),
            places: None,
            asked: *one,
            near: None,
            json: k == 1,
            quick: k == 2,
        };
        let book = &mut files.books[k + 1];
        let names = Some(&files.named);
        let text = tried_last!(
            rt,
            alloc,
            "last_reasons (why)",
            book,
            last_reasons(alloc, book, problem_moment(), &options, names)
        );
        say(rt, &text);
    }
    Some(())
}

/// `plan`: as a table and as CSV.
fn planned(rt: &HostRuntime, alloc: Global, files: &mut Files<'_>) -> Option<()> {
    for (k, csv) in [false, true].iter().enumerate() {
        let options = PlanOptions {
            problem: problem_options(alloc)?,
            places: None,
            zone: None,
            csv: *csv,
        };
        let book = &mut files.books[k + 4];
        let (named, zone) = (&files.named, &files.zone);
        let text = tried_last!(
            rt,
            alloc,
            "last_plan_text (plan)",
            book,
            last_plan_text(alloc, book, &options, named, zone)
        );
        say(rt, str::from_utf8(&text).unwrap());
    }
    Some(())
}

/// `fleet` as a table, and `orders` as JSON lines.
fn listed(rt: &HostRuntime, alloc: Global, files: &Files<'_>) -> Option<()> {
    let (book, named, zone) = (&files.promised, &files.named, &files.zone);
    let options = state_options(alloc, false)?;
    let text = tried_last!(
        rt,
        alloc,
        "last_fleet (fleet)",
        book,
        last_fleet(alloc, book, &options, named, zone)
    );
    say(rt, str::from_utf8(&text).unwrap());
    let options = state_options(alloc, true)?;
    let text = tried_last!(
        rt,
        alloc,
        "last_orders (orders)",
        book,
        last_orders(alloc, book, &options, named, zone)
    );
    say(rt, str::from_utf8(&text).unwrap());
    Some(())
}

/// The options of `fleet` and `orders`. Their files are read before.
fn state_options(alloc: Global, json: bool) -> Option<StateOptions<'static>> {
    Some(StateOptions {
        office: office_options(alloc)?,
        places: None,
        zone: None,
        csv: false,
        json,
    })
}

/// The forms of a list: a table, CSV, JSON lines.
const FORMS: [(bool, bool); 3] = [(false, false), (true, false), (false, true)];

/// `moves`, in each form: a promised wagon, two orders, and the wagons that were not heard from for an hour.
fn moved(rt: &HostRuntime, alloc: Global, files: &Files<'_>) -> Option<()> {
    let (filled, named, zone) = (&files.filled, &files.named, &files.zone);
    let book = filled.journal.book();
    for (csv, json) in FORMS {
        let options = MovesOptions {
            problem: problem_options(alloc)?,
            places: None,
            zone: None,
            csv,
            json,
            late: false,
            wagon: None,
            order: None,
            company: if json { Some(Company::read("0080").ok()?) } else { None },
            silent: Some(1),
        };
        let text = tried_last!(
            rt,
            alloc,
            "last_moves (moves)",
            book,
            last_moves(alloc, filled, &options, named, zone)
        );
        say(rt, str::from_utf8(&text).unwrap());
    }
    Some(())
}

/// The options of a word that opens an office. Its files are read before.
fn office_options(alloc: Global) -> Option<OfficeOptions<'static>> {
    Some(OfficeOptions {
        start: Start::Roster(""),
        networks: Vec::new(alloc),
        limits: Limits::new(100, 2)?,
        workers: 1,
    })
}

/// The options of a word that asks for a problem. It reads the moment alone: its files are read before.
fn problem_options(alloc: Global) -> Option<ProblemOptions<'static>> {
    Some(ProblemOptions {
        office: office_options(alloc)?,
        at: problem_moment(),
    })
}
