//! What is said of a refused request.

use crate::showing::{Show, shown};
use std::alloc::Global;

/// More requests than come before the refused one.
pub(crate) const MANY: u32 = 5_000;

/// Makes so many requests, and answers how many come before the one that is refused.
pub(crate) fn refused_behind(alloc: Global, requests: u32) -> Option<u32> {
    for k in 0..requests {
        let Ok(one) = Vec::from_slice(alloc, &[k]) else {
            return Some(k);
        };
        must(one[0] == k);
    }
    None
}

/// Makes so many requests, all before the calls are made; says how many there are where one is refused.
pub(crate) fn prepared(rt: &HostRuntime, alloc: Global, requests: u32) -> Option<()> {
    match refused_behind(alloc, requests) {
        None => Some(()),
        Some(made) => {
            must(println!(rt; "made: {made}").is_ok());
            None
        }
    }
}

/// A fault, which the kit reports, where something doesn't hold.
pub(crate) fn must(holds: bool) {
    if !holds {
        unreachable!()
    }
}

/// Says which call was refused memory, or that something between calls was.
pub(crate) fn say_refused(rt: &HostRuntime, name: &str) {
    must(println!(rt; "refused: {name}").is_ok());
}

/// The same of a part of a call.
pub(crate) fn say_refused_in(rt: &HostRuntime, name: &str, part: &str) {
    must(println!(rt; "refused: {name} ({part})").is_ok());
}

pub(crate) fn say(rt: &HostRuntime, text: &str) {
    must(println!(rt; "{text}").is_ok());
}

/// Says what a value shows.
pub(crate) fn say_shown<S: Show>(rt: &HostRuntime, alloc: Global, value: &S) -> Option<()> {
    let text = shown(alloc, value)?;
    say(rt, &text);
    Some(())
}
