//! What the calls start from.

use commit_book::{Book, Limits};
use fleet_rows::Roster;
use line_fields::{Command, read_line};
use line_network::{Networks, read_lines, tables};
use std::alloc::Global;
use std::sync::Arc;
use test_samples::{LONGER, NETWORK, ROSTER};

/// Places with their names and where they lie.
pub(crate) const PLACES: &str = "place,name,x,y\nDE00001,Bock & Sohn,-4,52.5\nDE00002,,0.25,48\n";

fn networks(alloc: Global) -> Option<Networks> {
    let mut all = Vec::new(alloc);
    for text in [NETWORK, LONGER] {
        let network = read_lines(alloc, text.as_bytes()).ok()?;
        all.push(tables(alloc, &network).ok()?).ok()?;
    }
    Networks::new(all).ok()
}

/// What books start from. It is read once, since reading takes longer than all else.
#[derive(Drop)]
pub(crate) struct Sample {
    pub(crate) roster: Roster,
    pub(crate) networks: Arc<Networks>,
}

impl Sample {
    pub(crate) fn new(alloc: Global) -> Option<Sample> {
        Some(Sample {
            roster: Roster::read_rows(alloc, ROSTER.as_bytes()).ok()?,
            networks: Arc::new(alloc, networks(alloc)?).ok()?,
        })
    }

    /// A book without an entry, which keeps so many problems.
    pub(crate) fn book(&self, alloc: Global, kept: u32) -> Option<Book> {
        let limits = Limits::new(100, kept)?;
        let roster = self.roster.copy(alloc).ok()?;
        let networks = Arc::try_clone(&self.networks).ok()?;
        Book::new(alloc, roster, networks, limits).ok()
    }
}

pub(crate) fn command(alloc: Global, line: &str) -> Option<Command> {
    read_line(alloc, line.as_bytes()).ok()
}
