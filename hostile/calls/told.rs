//! What people are told of a file that is refused: readings that say where they stopped, and the texts. Each call is made once
//! more where it is refused memory, and what it then gives is printed.

use crate::trying::{must, prepared, say, say_refused};
use csv_records::FaultAt;
use fault_texts::{checkpoint_text, file_text, line_text, network_text, roster_text, unread_text};
use faults::{CheckpointFault, manual_text};
use fleet_rows::{RosterRefusal, read_roster};
use line_engine::{MAX_LINE_BYTES, RunFault};
use line_fields::LineFault;
use line_network::{NetworkFault, read_network};
use std::alloc::{AllocError, Global};

/// A network whose second line has no length.
const NO_LENGTH: &str =
    "from,to,km,minutes,way\nDE00001,DE00002,100,120,both\nDE00002,DE00003,long,80,both\n";

/// A roster that names a wagon twice.
const TWICE: &str =
    "wagon,class,load,status,place,moment\n338447961008,Eanos,60000,empty,DE00002,2026-03-01T00:00:00Z\n338447961008,Eanos,40000,empty,DE00001,2026-03-01T00:00:00Z\n";

pub(crate) fn all(rt: &HostRuntime, alloc: Global, requests: u32) -> Option<()> {
    prepared(rt, alloc, requests)?;
    let stop = network_stop(rt, alloc);
    let text = tried!(rt, "network_text", network_text(alloc, "lines.csv", &stop));
    say(rt, &text);
    let stop = roster_stop(rt, alloc);
    let text = tried!(rt, "roster_text", roster_text(alloc, "roster.csv", &stop));
    say(rt, &text);
    lines(rt, alloc)?;
    let text = tried!(rt, "manual_text", manual_text(alloc));
    say(rt, &text);
    Some(())
}

/// Why the network is refused.
fn network_stop(rt: &HostRuntime, alloc: Global) -> FaultAt<NetworkFault> {
    let stop = read_network(alloc, NO_LENGTH.as_bytes()).err().unwrap();
    if stop.fault.number() != 1 {
        return stop;
    }
    say_refused(rt, "read_network");
    let stop = read_network(alloc, NO_LENGTH.as_bytes()).err().unwrap();
    must(stop.fault.number() != 1);
    stop
}

/// Why the roster is refused.
fn roster_stop(rt: &HostRuntime, alloc: Global) -> FaultAt<RosterRefusal> {
    let stop = read_roster(alloc, TWICE.as_bytes()).err().unwrap();
    if stop.fault.fault.number() != 1 {
        return stop;
    }
    say_refused(rt, "read_roster");
    let stop = read_roster(alloc, TWICE.as_bytes()).err().unwrap();
    must(stop.fault.fault.number() != 1);
    stop
}

/// What is told of lines, of a checkpoint, and of a file that isn't there.
fn lines(rt: &HostRuntime, alloc: Global) -> Option<()> {
    let path = "day.jsonl";
    let long = RunFault::LineTooLong(7);
    let text = tried!(
        rt,
        "line_text",
        line_text(alloc, path, MAX_LINE_BYTES, &long)
    );
    say(rt, &text);
    let text = tried!(
        rt,
        "unread_text",
        unread_text(alloc, path, 7, &LineFault::NotJson)
    );
    say(rt, &text);
    let full = CheckpointFault::OrderFull(7);
    let text = tried!(
        rt,
        "checkpoint_text (of a fault)",
        checkpoint_text(alloc, path, &full)
    );
    say(rt, &text);
    let text = tried!(rt, "file_text", file_text(alloc, path, "it isn't there"));
    say(rt, &text);
    Some(())
}
