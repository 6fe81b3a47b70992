//! A plan and its texts: those of the planner, for dispatchers and for people, and what the words `plan`, `why`, `table`,
//! `map` and `save` print of a book. Each call is made once more where it is refused memory, and what it gives is printed.

use crate::books::{BEGIN, ORDER, OTHER_ORDER, answer, call_of};
use crate::samples::{PLACES, Sample};
use crate::showing::problem_moment;
use crate::trying::{must, prepared, say, say_shown};
use assignment::plan;
use commit_book::{Book, Snap};
use cost_table::{Cells, Plan};
use dispatch_sheet::{certificate_line, certified_plan_text, plan_text, sheet_text};
use line_network::{Network, read_lines};
use office_map::{Choice, map_text};
use place_names::Places;
use plan_reasons::{
    CertifiedPlan, LineForm, Numbers, Style, order_counts, order_text, wagon_text, why_text,
};
use plan_table::{csv_text, list_of_plan, table_text};
use text_tables::Clock;
use price_checker::Prices;
use problem_table::cells;
use sessions::work;
use std::alloc::{AllocError, Global};
use std::str;
use table_lines::problem_line;
use test_samples::NETWORK;

/// What the calls start from: a book with two orders, its problem, and its networks and places.
#[derive(Drop)]
struct Start {
    book: Book,
    snap: Snap,
    sample: Sample,
    network: Network,
    named: Places,
}

impl Start {
    fn new(alloc: Global) -> Option<Start> {
        let sample = Sample::new(alloc)?;
        let mut book = sample.book(alloc, 2)?;
        for line in [ORDER, OTHER_ORDER, BEGIN] {
            let call = call_of(alloc, line)?;
            answer(alloc, &mut book, &call);
        }
        let snap = book.begin(alloc, problem_moment()).ok()?;
        Some(Start {
            book,
            snap,
            sample,
            network: read_lines(alloc, NETWORK.as_bytes()).ok()?,
            named: Places::read_names(alloc, PLACES.as_bytes()).ok()?,
        })
    }
}

pub(crate) fn all(rt: &HostRuntime, alloc: Global, requests: u32) -> Option<()> {
    let start = Start::new(alloc)?;
    prepared(rt, alloc, requests)?;
    let (snap, networks) = (&start.snap, &*start.sample.networks);
    let worked = tried_fault!(rt, "work", work(alloc, snap, networks));
    say_shown(rt, alloc, &worked)?;
    let table = tried!(rt, "cells", cells(alloc, snap.problem(), networks.get(1)?));
    say_shown(rt, alloc, &table)?;
    let (plan, prices) = tried!(rt, "plan", plan(alloc, &table));
    certificates(rt, alloc, snap, &plan, &prices)?;
    sheets(rt, alloc, &start, &table, &plan, &prices)?;
    let (problem, tables) = (snap.problem(), networks.get(1)?);
    let planned = CertifiedPlan::new(problem, tables, &table, &plan, &prices);
    reasons(rt, alloc, &planned, &start.named)?;
    lists(rt, alloc, &planned, &start.named)
}

/// A plan's certificate, as a value and as a line.
fn certificates(
    rt: &HostRuntime,
    alloc: Global,
    snap: &Snap,
    plan: &Plan,
    prices: &Prices,
) -> Option<()> {
    let commit = tried!(
        rt,
        "Snap::commit_text",
        snap.commit_text(alloc, plan, prices)
    );
    say_shown(rt, alloc, &commit)?;
    let line = tried!(
        rt,
        "certificate_line",
        certificate_line(alloc, snap, plan, prices)
    );
    say(rt, &line);
    Some(())
}

/// The texts of a plan, a problem, and an office.
fn sheets(
    rt: &HostRuntime,
    alloc: Global,
    start: &Start,
    table: &Cells,
    plan: &Plan,
    prices: &Prices,
) -> Option<()> {
    let (snap, book) = (&start.snap, &start.book);
    let planned = tried!(rt, "plan_text", plan_text(alloc, snap, table, plan));
    say(rt, &planned);
    let certified = tried!(
        rt,
        "certified_plan_text",
        certified_plan_text(alloc, snap, table, plan, prices)
    );
    say(rt, &certified);
    let line = tried!(
        rt,
        "problem_line",
        problem_line(alloc, snap.problem(), table)
    );
    say(rt, &line);
    let (version, state) = (book.len(), book.state());
    let sheet = tried!(rt, "sheet_text", sheet_text(alloc, version, state));
    say(rt, &sheet);
    let map = tried!(
        rt,
        "map_text",
        map_text(alloc, state, &start.network, &start.named, &Choice::all())
    );
    say(rt, &map);
    Some(())
}

/// Why a plan is as it is: of all, of each order, and of each wagon, as words and as JSON.
fn reasons(
    rt: &HostRuntime,
    alloc: Global,
    planned: &CertifiedPlan<'_>,
    named: &Places,
) -> Option<()> {
    let counts = tried!(rt, "order_counts", order_counts(alloc, planned));
    must(counts.len() == planned.problem().orders().len());
    for (style, numbers, near) in [
        (Style::Text, Numbers::Exact, None),
        (Style::Json, Numbers::Bounds, Some(1)),
    ] {
        let text = tried!(rt, "why_text", why_text(alloc, style, numbers, 2, planned));
        say(rt, &text);
        let names = Some(named);
        let form = LineForm { style, names };
        for j in 0..planned.problem().orders().len() {
            let text = tried!(
                rt,
                "order_text",
                order_text(alloc, &form, numbers, near, planned, j)
            );
            say(rt, &text);
        }
        for i in 0..planned.problem().wagons().len() {
            let text = tried!(
                rt,
                "wagon_text",
                wagon_text(alloc, &form, numbers, near, planned, i)
            );
            say(rt, &text);
        }
    }
    Some(())
}

/// A plan for people, as a list, a table and CSV.
fn lists(
    rt: &HostRuntime,
    alloc: Global,
    planned: &CertifiedPlan<'_>,
    named: &Places,
) -> Option<()> {
    let clock = Clock { zone: None };
    let list = tried!(rt, "list_of_plan", list_of_plan(alloc, 2, planned));
    say_shown(rt, alloc, &list)?;
    let text = tried!(rt, "table_text", table_text(alloc, named, &clock, &list));
    say(rt, &text);
    let bytes = tried!(rt, "csv_text", csv_text(alloc, named, &clock, &list));
    say(rt, str::from_utf8(&bytes).unwrap());
    Some(())
}
