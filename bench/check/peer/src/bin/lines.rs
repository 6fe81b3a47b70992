//! Writes so many table lines from a seed, each with a certificate: most of a few hundred bytes, each thousandth
//! near the line limit. Order j's cheapest wagon is wagon j, and orders past the wagons are refused.
use std::env;
use std::io::{self, BufWriter, Write};

struct Random(u64);

impl Random {
    fn below(&mut self, n: u64) -> u64 {
        self.0 ^= self.0 << 13;
        self.0 ^= self.0 >> 7;
        self.0 ^= self.0 << 17;
        self.0 % n
    }
}

fn wagon(k: u64) -> String {
    let digits = format!("{:011}", 33_847_961_000 + k);
    let sum: u32 = digits
        .bytes()
        .enumerate()
        .map(|(at, c)| u32::from(c - b'0') * if at % 2 == 0 { 2 } else { 1 })
        .map(|product| product / 10 + product % 10)
        .sum();
    format!("{digits}{}", (10 - sum % 10) % 10)
}

fn list(items: impl Iterator<Item = String>) -> String {
    format!("[{}]", items.collect::<Vec<_>>().join(","))
}

fn line(random: &mut Random, wagons: u64, orders: u64) -> String {
    let least: Vec<u64> = (0..orders).map(|_| random.below(1000)).collect();
    let cell = |random: &mut Random, i: u64, j: u64| {
        if i == j {
            least[j as usize].to_string()
        } else if j >= wagons || random.below(10) == 0 {
            "null".to_string()
        } else {
            (least[j as usize] + random.below(1000)).to_string()
        }
    };
    let rows: Vec<String> = (0..wagons)
        .map(|i| list((0..orders).map(|j| cell(random, i, j)).collect::<Vec<_>>().into_iter()))
        .collect();
    let price = |j: u64| if j < wagons { least[j as usize] } else { 5000 };
    format!(
        "{{\"wagons\":{},\"orders\":{},\"cells\":{},\"penalties\":{},\"pairs\":{},\"u\":{},\"v\":{}}}",
        list((0..wagons).map(|i| format!("\"{}\"", wagon(i)))),
        list((0..orders).map(|j| format!("\"O{j}\""))),
        list(rows.into_iter()),
        list((0..orders).map(|_| "5000".to_string())),
        list((0..wagons.min(orders)).map(|j| format!("[\"{}\",\"O{j}\"]", wagon(j)))),
        list((0..wagons).map(|_| "0".to_string())),
        list((0..orders).map(|j| price(j).to_string())),
    )
}

fn main() -> io::Result<()> {
    let mut random = Random(20_260_301);
    let mut out = BufWriter::new(io::stdout().lock());
    let lines = env::args().nth(1).and_then(|word| word.parse().ok()).expect("how many lines");
    for k in 0..lines {
        let (wagons, orders) = if k % 1000 == 0 {
            (100, 110)
        } else {
            (1 + random.below(5), 1 + random.below(5))
        };
        writeln!(out, "{}", line(&mut random, wagons, orders))?;
    }
    out.flush()
}
