//! Calls that take memory, each tried with one request refused. `hostile_calls REQUESTS PART` prepares the calls of a part,
//! makes so many requests of its own, and then the calls: the kit refuses always the same request, which so comes earlier
//! among the calls the more requests come before them. ../calls.py says how what is printed is judged. `hostile_calls copy
//! FILE` writes the program itself into a file, so that it isn't built for each case.
#![tactic(auto)]

/// What a call answers. Where it is out of memory this says so, and makes the call once more, which must succeed.
macro_rules! tried {
    ($rt:expr, $name:expr, $call:expr) => {
        match $call {
            Ok(value) => value,
            Err(AllocError) => {
                crate::trying::say_refused($rt, $name);
                match $call {
                    Ok(value) => value,
                    Err(AllocError) => unreachable!(),
                }
            }
        }
    };
}

/// The same for a call whose fault has a number.
macro_rules! tried_fault {
    ($rt:expr, $name:expr, $call:expr) => {
        match $call {
            Ok(value) => value,
            Err(fault) => {
                crate::trying::must(fault.number() == 1);
                crate::trying::say_refused($rt, $name);
                match $call {
                    Ok(value) => value,
                    Err(_) => unreachable!(),
                }
            }
        }
    };
}

mod books;
mod checkpoints;
mod feeds;
mod fills;
mod lines;
mod notes;
mod plans;
mod readings;
mod reviews;
mod runs;
mod samples;
mod seats;
mod showing;
mod tables;
mod told;
mod traces;
mod trying;
mod words;

use std::alloc::Global;
use std::sync::Wait;
use std::thread::Threads;
use std::{env, fs};

fn main(rt: HostRuntime) {
    if all_done(&rt, &rt, rt.alloc()).is_none() {
        trying::say_refused(&rt, "preparation");
    }
}

/// Makes the calls. Without requests before them it makes requests behind them until one is refused, and says how many.
fn all_done<T: Threads + Wait + Sync>(rt: &HostRuntime, threads: &T, alloc: Global) -> Option<()> {
    let words: Vec<String> = env::args(rt).ok()?.collect(alloc).ok()?;
    let part = words.get(2)?.as_str();
    if words.get(1)?.as_str() == "copy" {
        let program = fs::read(rt, words.first()?.as_str()).ok()?;
        return fs::write(rt, part, &program).ok();
    }
    let requests = words.get(1)?.parse::<u32>().ok()?;
    part_done(rt, threads, alloc, part, requests)?;
    if requests == 0 {
        let left = trying::refused_behind(alloc, trying::MANY)?;
        trying::must(println!(rt; "left: {left}").is_ok());
    }
    Some(())
}

fn part_done<T: Threads + Wait + Sync>(
    rt: &HostRuntime,
    threads: &T,
    alloc: Global,
    part: &str,
    requests: u32,
) -> Option<()> {
    match part {
        "readings" => readings::all(rt, threads, alloc, requests),
        "books" => books::all(rt, alloc, requests),
        "tables" => tables::all(rt, alloc, requests),
        "told" => told::all(rt, alloc, requests),
        "plans" => plans::all(rt, alloc, requests),
        "words" => words::all(rt, alloc, requests),
        "checkpoints" => checkpoints::all(rt, alloc, requests),
        "seats" => seats::all(rt, threads, alloc, requests),
        "closing" => seats::closing(rt, threads, alloc, requests),
        "runs" => runs::all(rt, alloc, requests),
        "reviews" => reviews::all(rt, alloc, requests),
        "traces" => traces::all(rt, alloc, requests),
        "notes" => notes::all(rt, alloc, requests),
        "fills" => fills::all(rt, alloc, requests),
        "feeds" => feeds::all(rt, threads, alloc, requests),
        _ => unreachable!(),
    }
}
