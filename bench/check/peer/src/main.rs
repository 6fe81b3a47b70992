//! Reads the lines of standard input and parses each with serde_json, and does no more.
use std::io::{self, BufRead};

fn main() -> io::Result<()> {
    let mut reader = io::stdin().lock();
    let mut line = Vec::new();
    let mut objects = 0u64;
    while reader.read_until(b'\n', &mut line)? != 0 {
        if let Ok(value) = serde_json::from_slice::<serde_json::Value>(&line) {
            objects += u64::from(value.is_object());
        }
        line.clear();
    }
    println!("{objects}");
    Ok(())
}
