//! Calls that make a value and change none: lines, files, tables and problems. Each is made once more where it is refused
//! memory, and what it then gives is printed.

use crate::books::DAY;
use crate::lines::TABLES;
use crate::samples::{PLACES, Sample, command};
use crate::showing::{Show, problem_moment, room, shown};
use crate::trying::{must, prepared, say, say_refused, say_shown};
use assignment::{certified_plan, plan};
use commit_book::{Book, Limits};
use cost_table::Cells;
use fleet_rows::Roster;
use line_fields::{Command, read_line};
use line_network::{Network, OpenGate, Tables, read_lines, tables, tables_by_workers};
use move_messages::{Event, is_same_event};
use operating_db::OfficeState;
use place_names::Places;
use price_checker::{Prices, check_named};
use rail_codes::{ClassCode, Company, Moment, OrderId, Place, WagonNumber};
use std::alloc::{AllocError, Global};
use std::sync::{Arc, Wait};
use std::thread::Threads;
use table_lines::{read_table, read_table_line, solve_line, stated_table, table_cost};
use test_samples::{NETWORK, ROSTER};

const TABLE: &[u8] =
    br#"{"wagons":["338447961008","218124712173"],"orders":["O1","O2"],"cells":[[10,20],[15,null]],"penalties":[1000,1000]}"#;

/// What some calls start from.
#[derive(Drop)]
struct Start {
    rows: Vec<Vec<Option<u64>>>,
    sample: Sample,
    events: Vec<Event>,
}

impl Start {
    fn new(alloc: Global) -> Option<Start> {
        let first = vec![in alloc; Some(10u64), Some(20)].ok()?;
        let second = vec![in alloc; Some(15u64), None].ok()?;
        Some(Start {
            rows: vec![in alloc; first, second].ok()?,
            sample: Sample::new(alloc)?,
            events: events(alloc)?,
        })
    }
}

pub(crate) fn all<T: Threads + Wait>(
    rt: &HostRuntime,
    threads: &T,
    alloc: Global,
    requests: u32,
) -> Option<()> {
    let start = Start::new(alloc)?;
    prepared(rt, alloc, requests)?;
    codes(rt, alloc)?;
    lines(rt, alloc)?;
    table_lines(rt, alloc)?;
    distances(rt, threads, alloc)?;
    names(rt, alloc)?;
    costs(rt, alloc, &start.rows)?;
    rosters(rt, alloc, &start)?;
    offices(rt, alloc, &start)
}

/// The texts of codes.
fn codes(rt: &HostRuntime, alloc: Global) -> Option<()> {
    let wagon = WagonNumber::read("33 84 4796 100-8").ok()?;
    say(rt, &tried!(rt, "WagonNumber::text", wagon.text(alloc)));
    let place = Place::read("DE00001").ok()?;
    say(rt, &tried!(rt, "Place::text", place.text(alloc)));
    let class = ClassCode::read("Eanos").ok()?;
    say(rt, &tried!(rt, "ClassCode::text", class.text(alloc)));
    let company = Company::read("0080").ok()?;
    say(rt, &tried!(rt, "Company::text", company.text(alloc)));
    let id = OrderId::read("O1").ok()?;
    say(rt, &tried!(rt, "OrderId::text", id.text(alloc)));
    let at = Moment::read("2026-03-01T01:00:00.9Z").ok()?;
    say(rt, &tried!(rt, "Moment::text", at.text(alloc)));
    Some(())
}

/// Lines of each kind, and copies of events.
fn lines(rt: &HostRuntime, alloc: Global) -> Option<()> {
    for (_name, line, _wanted) in DAY {
        let read = tried_fault!(rt, "read_line", read_line(alloc, line.as_bytes()));
        say_shown(rt, alloc, &read)?;
        if let Command::Event(event) = read {
            let copy = tried!(rt, "Event::copy", event.copy(alloc));
            must(is_same_event(&copy, &event));
            commits(rt, alloc, &event)?;
        }
    }
    for line in [
        r#"{"type":"sheet"}"#,
        r#"{"type":"plan","at":"2026-03-01T01:00:00Z"}"#,
    ] {
        let read = tried_fault!(rt, "read_line", read_line(alloc, line.as_bytes()));
        say_shown(rt, alloc, &read)?;
    }
    Some(())
}

/// The copy of an event that is a commit.
fn commits(rt: &HostRuntime, alloc: Global, event: &Event) -> Option<()> {
    if let Event::Commit(commit) = event {
        let copy = tried!(rt, "CommitText::copy", commit.copy(alloc));
        must(copy == *commit);
    }
    Some(())
}

/// A table line as `solve` and `check` take it: read, judged, its plan checked by names, and solved.
fn table_lines(rt: &HostRuntime, alloc: Global) -> Option<()> {
    let line = TABLES[0].as_bytes();
    let table = tried_fault!(rt, "read_table", read_table(alloc, TABLE));
    say_shown(rt, alloc, &table)?;
    let table = tried_fault!(rt, "read_table_line", read_table_line(alloc, line));
    say_shown(rt, alloc, &table)?;
    let (names, cells) = tried_fault!(rt, "stated_table", stated_table(alloc, &table));
    say_shown(rt, alloc, &cells)?;
    let prices = Prices {
        u: Vec::from_slice(alloc, &table.u).ok()?,
        v: Vec::from_slice(alloc, &table.v).ok()?,
    };
    let certified = tried_fault!(
        rt,
        "check_named",
        check_named(alloc, &names, &cells, &table.pairs, &prices)
    );
    let cost = tried_fault!(rt, "table_cost", table_cost(alloc, line));
    must(cost == certified.cost());
    let solved = tried_fault!(rt, "solve_line", solve_line(alloc, TABLE));
    say(rt, &solved);
    Some(())
}

/// The names of places.
fn names(rt: &HostRuntime, alloc: Global) -> Option<()> {
    let read = tried_fault!(
        rt,
        "Places::read_names",
        Places::read_names(alloc, PLACES.as_bytes())
    );
    say_shown(rt, alloc, &read)
}

/// A network, its copy, and its distances by one thread and by two.
fn distances<T: Threads + Wait>(rt: &HostRuntime, threads: &T, alloc: Global) -> Option<()> {
    let read = tried_fault!(rt, "read_lines", read_lines(alloc, NETWORK.as_bytes()));
    let copy = tried!(rt, "Network::copy", read.copy(alloc));
    say_shown(rt, alloc, &read)?;
    say_shown(rt, alloc, &copy)?;
    let one = tried!(rt, "tables", tables(alloc, &copy));
    let two = tried_fault!(
        rt,
        "tables_by_workers (two workers)",
        tables_by_workers(threads, alloc, &read, 2, &OpenGate)
    );
    say_distances(rt, &read, &one, &two);
    Some(())
}

fn say_distances(rt: &HostRuntime, network: &Network, one: &Tables, two: &Tables) {
    for from in 0..network.places() {
        for to in 0..network.places() {
            let distance = one.between_numbers(from, to);
            must(two.between_numbers(from, to) == distance);
            must(println!(rt; "{from} {to} {distance:?}").is_ok());
        }
    }
}

/// A table of costs from rows, and its plan.
fn costs(rt: &HostRuntime, alloc: Global, rows: &[Vec<Option<u64>>]) -> Option<()> {
    let table = tried_fault!(
        rt,
        "Cells::from_rows",
        Cells::from_rows(alloc, rows, &[1000, 1000], &[1, 1])
    );
    say_shown(rt, alloc, &table)?;
    let planned = tried!(rt, "plan", plan(alloc, &table));
    say_shown(rt, alloc, &planned)?;
    let (plan, prices, certified) = tried!(rt, "certified_plan", certified_plan(alloc, &table));
    must(certified.cost() == 35);
    say_shown(rt, alloc, &(plan, prices))
}

/// A roster, its copy, and a book of it.
fn rosters(rt: &HostRuntime, alloc: Global, start: &Start) -> Option<()> {
    let read = tried_fault!(
        rt,
        "Roster::read_rows",
        Roster::read_rows(alloc, ROSTER.as_bytes())
    );
    let copy = tried!(rt, "Roster::copy", read.copy(alloc));
    say_shown(rt, alloc, &read)?;
    say_shown(rt, alloc, &copy)?;
    let shared = Arc::try_clone(&start.sample.networks).ok()?;
    let other = Arc::try_clone(&start.sample.networks).ok()?;
    let limits = Limits::new(100, 2)?;
    let made = match Book::new(alloc, copy, shared, limits) {
        Ok(made) => made,
        Err(AllocError) => {
            say_refused(rt, "Book::new");
            let again = read.copy(alloc).unwrap();
            Book::new(alloc, again, other, limits).unwrap()
        }
    };
    say_shown(rt, alloc, made.state())
}

/// An office takes the day's events in, each of which changes nothing where memory is refused; then its problem.
fn offices(rt: &HostRuntime, alloc: Global, start: &Start) -> Option<()> {
    let roster = &start.sample.roster;
    let mut state = tried!(rt, "OfficeState::new", OfficeState::new(alloc, roster, 2));
    let mut before = room(alloc)?;
    for event in &start.events {
        before.clear();
        state.show(&mut before).unwrap();
        if let Err(fault) = state.apply(alloc, event) {
            let after = shown(alloc, &state)?;
            must(after.as_str() == before.as_str());
            // One message comes twice, which an office doesn't know.
            if fault.number() == 1 {
                say_refused(rt, "OfficeState::apply");
                must(state.apply(alloc, event).is_ok());
            }
        }
    }
    let at = problem_moment();
    let problem = tried!(rt, "OfficeState::problem", state.problem(alloc, at));
    // It takes no memory.
    let copy = problem.copy().ok()?;
    say_shown(rt, alloc, &problem)?;
    say_shown(rt, alloc, &copy)?;
    say_shown(rt, alloc, &state)
}

/// The events of the day.
fn events(alloc: Global) -> Option<Vec<Event>> {
    let mut events = Vec::new(alloc);
    for (_name, line, _wanted) in DAY {
        if let Command::Event(event) = command(alloc, line)? {
            events.push(event).ok()?;
        }
    }
    Some(events)
}
